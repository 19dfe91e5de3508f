#!/usr/bin/env python3
"""models.py [--check]: the premium model's functions for C and its programs, made from the entry model's.

The board and its calls are one text for both models: their sizes are const parameters. What C and the shell know by a name is there once
for each: a function for C has one name and no const parameters, and a program has one main. These crates hold no working, and they are one
text too: this program copies every file of the entry model's with the premium model's name put in, and so makes lend_premium, the two
premium programs, their lines of crates.txt and the premium part of include/lend.h. Nobody edits what it makes: change the entry text and
run it again.

--check writes nothing and fails where a file differs from what would be made, is missing, or was not made by it.
"""
import contextlib
import os
import re
import subprocess
import sys
import tempfile

# the premium model's sizes in include/lend.h; in the code they stand once, in crates/board/src/shape.rt
SIZES = {'SPACES': 16, 'PAGES': 64, 'PLACES': 16}
CRATES = {
    'lend_entry': 'lend_premium',
    'board_script': 'board_script_premium',
    'board_script_from': 'board_script_from_premium',
}
# wrong programs are tried on the entry text, which is both models' text, with their controls; rt makes out/
LEFT_OUT = ['must-fail', 'controls', 'out']
MARK = '# The premium model: made by tools/models.py from the lines of the entry model.\n'
# where the entry part of include/lend.h begins, then the premium part, then the end of both
HEADER = ('/* ---- the entry model -', '/* ---- the premium model: made from the entry part by tools/models.py -', '#ifdef __cplusplus\n}')


def renamed(text):
    """The text with the premium model's name where it has the entry model's, as a word or as a part of a name; a field `.entry` stays."""
    text = re.sub(r'(?<![a-z.])entry(?![a-z])', 'premium', text)
    text = re.sub(r'(?<![A-Z])ENTRY(?![A-Z])', 'PREMIUM', text)
    return re.sub(r'\bboard_script(_from)?\b', r'board_script\1_premium', text)


def renamed_path(path):
    """The path of the premium file: the crate's folder, and the folder of an exported function's proof."""
    top, crate, rest = path.split('/', 2)
    return f'{top}/{CRATES[crate]}/{renamed(rest)}'


def renamed_line(line):
    """A line of crates.txt: a crate's name, and those of the crates below it."""
    return re.sub(r'\w+', lambda m: CRATES.get(m[0], m[0]), line)


def said(path, text):
    """The text with a first line that says where it comes from."""
    mark = {'.rt': '//', '.antt': '--'}.get(os.path.splitext(path)[1])
    return f'{mark} Made by tools/models.py from {path}: change that file.\n{text}' if mark else text


def files(crate):
    for folder, below, names in os.walk(f'crates/{crate}'):
        below[:] = sorted(set(below) - set(LEFT_OUT))
        yield from (f'{folder}/{name}' for name in sorted(names))


def crate_files():
    """Every file of the premium crates, by its path."""
    return {renamed_path(path): said(path, renamed(open(path).read())) for crate in CRATES for path in files(crate)}


def listed():
    """crates.txt with the premium crates' lines between their heading and the next one."""
    before, after = open('crates.txt').read().split(MARK)
    lines = [line for line in before.splitlines() if re.match(r'\w*', line)[0] in CRATES]
    rest = after[after.index('#'):] if '#' in after else ''
    return before + MARK + ''.join(renamed_line(line) + '\n' for line in lines) + rest


def header():
    """include/lend.h with its premium part made from its entry part."""
    text = open('include/lend.h').read()
    entry, premium, end = (text.find(mark) for mark in HEADER)
    own_end = end if premium < 0 else premium
    part = renamed(text[entry:own_end].split('\n', 1)[1])
    for name, size in SIZES.items():
        part = re.sub(rf'(?m)^(#define LEND_PREMIUM_{name}) \d+$', rf'\1 {size}', part)
    return text[:own_end] + f'{HEADER[1]:-<125} */\n' + part + text[end:]


def formatted(made):
    """The same files as `rt fmt` lays them out, which works in the folder of a listed crate."""
    with tempfile.TemporaryDirectory() as top:
        for path, text in made.items():
            os.makedirs(os.path.dirname(f'{top}/{path}') or top, exist_ok=True)
            open(f'{top}/{path}', 'w').write(text)
        for crate in sorted({path.split('/')[1] for path in made if '/' in path}):
            ran = subprocess.run(['rt', 'fmt'], cwd=f'{top}/crates/{crate}', stdout=subprocess.PIPE, stderr=subprocess.STDOUT, text=True)
            if ran.returncode:
                sys.exit(f'rt fmt in crates/{crate}: {ran.stdout}')
        return {path: open(f'{top}/{path}').read() for path in made}


def all_made():
    return formatted({**crate_files(), 'crates.txt': listed()}) | {'include/lend.h': header()}


def strangers(made):
    """Files of the premium crates that were not made."""
    return [path for crate in CRATES.values() for path in files(crate) if path not in made]


def write(made):
    for path in strangers(made):
        os.remove(path)
        with contextlib.suppress(OSError):
            os.removedirs(os.path.dirname(path))
    for path, text in made.items():
        os.makedirs(os.path.dirname(path) or '.', exist_ok=True)
        open(path, 'w').write(text)
    print(f'{len(made)} files made')


def check(made):
    wrong = [f'{path}: not made by tools/models.py' for path in strangers(made)]
    for path, text in made.items():
        if not os.path.exists(path):
            wrong.append(f'{path}: missing')
        elif open(path).read() != text:
            wrong.append(f'{path}: differs from what tools/models.py makes')
    print('\n'.join(wrong) if wrong else f'{len(made)} files are the entry model\'s text in the premium model\'s name')
    return 1 if wrong else 0


if __name__ == '__main__':
    os.chdir(os.path.dirname(os.path.dirname(os.path.abspath(__file__))))
    if sys.argv[1:] == ['--check']:
        sys.exit(check(all_made()))
    elif not sys.argv[1:]:
        write(all_made())
    else:
        sys.exit(__doc__)
