#!/usr/bin/env python3
"""controls.py [CRATE | CRATE/EDIT ..]: tries each must-fail edit and its control, or those named. No part of the gate.

For crates/NAME/must-fail/X.edit there is crates/NAME/controls/X.control, an edit of the same place and the same shape whose meaning is
the code's own (must-fail/ has edits alone, since rt takes any other file there for a bad edit); or X.edit has a line '# no control:
REASON'. In a scratch copy of the repository the crate has to be proved with the control and refused with the edit; of the refusal the
first error is printed, which must be about the fact that the edit makes false. A copy begins with what `rt check` kept of the same
crates, so that a try takes seconds; two copies work at a time. The gate's own verdict on the edits is that of `rt must-fail`. The last line is 'N controls proved, M edits refused, K without a control, F failed'; the exit status
is 1 where something failed.
"""
import concurrent.futures
import glob
import os
import re
import shutil
import subprocess
import sys
import tempfile

# how much of an error is printed
CUT = 300


def beside(edit):
    """Where the control of an edit is."""
    return edit.replace('/must-fail/', '/controls/').removesuffix('.edit') + '.control'


def scratch(top):
    """A copy of the crates: rt takes what is proved of them from where it was proved."""
    shutil.copytree('crates', f'{top}/crates', symlinks=True, ignore=shutil.ignore_patterns('out'))
    for name in ['crates.txt', 'HANDLES']:
        if os.path.exists(name):
            shutil.copy(name, top)


def edited(crate, path):
    """The files of the crate with the edit in them, by their paths; each old text has to stand there once."""
    texts, name, old = {}, None, None
    for line in open(path).read().split('\n'):
        if line.startswith('file: '):
            name = f'crates/{crate}/{line[6:]}'
            texts.setdefault(name, open(name).read())
        elif line.startswith('old: '):
            old = line[5:]
        elif line.startswith('new:'):
            if texts[name].count(old) != 1:
                raise SystemExit(f'{path}: not once in {name}: {old}')
            texts[name] = texts[name].replace(old, line[4:].removeprefix(' '))
    return texts


def tried(top, crate, texts):
    """Whether the copy of the crate is proved with these texts, and the first error where it is refused; then it is as it was."""
    for name, text in texts.items():
        open(f'{top}/{name}', 'w').write(text)
    run = subprocess.run(['rt', 'check'], cwd=f'{top}/crates/{crate}', stdout=subprocess.PIPE, stderr=subprocess.STDOUT, text=True)
    for name in texts:
        shutil.copy(name, f'{top}/{name}')
    lines = run.stdout.split('\n')
    if run.returncode == 0:
        return 'proved', ''
    # of a function that rattle proves by itself the word is a note
    first = next((line for line in lines if re.search(r'\berror(\[[\w-]+\])?: ', line) or 'it is not proved' in line), lines[0]).replace(f'{top}/', '')
    return ('refused' if 'logic=not-proved' in lines else 'BROKEN'), f': {first[:CUT]}'


def of_crate(tops, crate, name):
    """How many controls of the crate (or the one of the edit named) are proved, edits refused, edits without a control, and failures."""
    top, counts = tops.pop(), [0, 0, 0, 0]
    for path in sorted(glob.glob(f'crates/{crate}/must-fail/{name or "*"}.edit')):
        label, control = f'{crate}/{os.path.basename(path)[:-len(".edit")]}', beside(path)
        if os.path.exists(control):
            came, error = tried(top, crate, edited(crate, control))
            counts[0 if came == 'proved' else 3] += 1
            print(f'{label}: control {came}{error}', flush=True)
        else:
            reasons = [line for line in open(path) if line.startswith('# no control: ')]
            counts[2 if reasons else 3] += 1
            print(f'{label}: {"".join(reasons).strip() or "no control, and no reason"}', flush=True)
        came, error = tried(top, crate, edited(crate, path))
        counts[1 if came == 'refused' else 3] += 1
        print(f'{label}: edit {came}{error}', flush=True)
    tops.append(top)
    return counts


def main(wanted):
    os.chdir(os.path.dirname(os.path.dirname(os.path.abspath(__file__))))
    crates = wanted or sorted({path.split('/')[1] for path in glob.glob('crates/*/must-fail/*.edit')})
    with tempfile.TemporaryDirectory() as one, tempfile.TemporaryDirectory() as two:
        tops = [one, two]
        for top in tops:
            scratch(top)
        with concurrent.futures.ThreadPoolExecutor(len(tops)) as pool:
            all_counts = list(pool.map(lambda what: of_crate(tops, *what.partition('/')[::2]), crates))
    proved, refused, without, failed = map(sum, zip(*all_counts))
    print(f'{proved} controls proved, {refused} edits refused, {without} without a control, {failed} failed')
    return 1 if failed else 0


if __name__ == '__main__':
    sys.exit(main(sys.argv[1:]))
