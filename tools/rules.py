#!/usr/bin/env python3
"""rules.py: the house rules that a machine can hold the text against. Prints each breach; exits 1 where there is one.

- a public function has no `requires`, and any function is under 40 lines with its contract;
- a definition file, a proof file and a source file begin with a comment that says what they are for;
- no size of a model stands as a bare number, outside specs/Sizes.antt and what NO_SIZES lists;
- a must-fail edit has its control in controls/ (tools/controls.py), or says why there is none; and docs/PROOF.md names it.
"""
import fnmatch
import glob
import re
import sys

import controls
import heads

# the sizes of both models: spaces, pages and frames, places, slots, bytes of a frame and of memory
SIZES = re.compile(r'(?<![\w.-])(8|16|32|64|256|1024|32768|65536)(?:[ui](?:8|16|32|64|128|size))?(?![\w.])')
# where the sizes of the models stand, and where such a number is none: the files, the words that it stands in, and what it is
MODELS = r'\b8,? 32,? 256,? 8\b|\b16,? 64,? 1024,? 16\b'
NO_SIZES = [
    ('crates/board/src/entry.rt crates/board/src/premium.rt', r'(SPACES|PAGES|PLACES): usize = \d+;|8 \* PAGES', 'the sizes of both models, said once in the code; the bytes of a count'),
    ('crates/board/src/shape.rt', r'PAGE_BYTES: usize = 1024', 'the bytes of a page'),
    ('crates/both_demands/specs/Together.antt', rf'= Board ({MODELS})$', 'and once where a theorem speaks of a board of each'),
    ('crates/board/specs/Model.antt', r'≤ (16|255|256|8192)$', 'what the types of the code can count'),
    ('crates/code_demands/proofs/Models.antt', rf'(Shape|IsModel) ({MODELS})', 'and where they are shown to be the rules\' sizes'),
    ('crates/listing/proofs/Live.antt', r'all_set 16|n 16 h', 'the most spaces of a model'),
    ('crates/text/proofs/write/Writer/malformed/Answers.antt', r'\) 16 \+\+', 'a number of the document\'s table'),
    ('crates/calls/proofs/RangeRuns.antt', r'≤ 256 →', 'the most pages'),
    ('*', r'"[^"]*"', 'what a text says is no number'),
    ('crates/lend/specs/Ranges.antt', r'\(8 when', 'a number of the document\'s table'),
    ('crates/lend/src/refusal.rt', r'Refusal::\w+ => \d+,', 'the same'),
    ('crates/lend/specs/Refusals.antt', r'^number_of \w+ = \d+$|eqb n \d+\)', 'the same'),
    ('crates/calls/proofs/RangeChecks.antt', r'\b8\b', 'the same'),
    ('crates/script/specs/Script.antt', r'refuse st 16|input_limit = 65536', 'a number of the table; the length of a script (01)'),
    ('crates/script/src/lib.rt', r'INPUT_LIMIT: usize = 65536|FOR_THE_END: usize = 32', 'the same length; the bytes of two lines'),
    ('crates/script/*/Bound.antt crates/listing*/proofs/*.antt', r'(\+|≤) (16|32)\b', 'the bytes of a listing\'s first and last line'),
    ('crates/text*/proofs/*.antt', r'\b32 ∷|≡ 32|spare 8|16 ≤ length', 'the byte of a blank; digits; the shortest line'),
    ('crates/lend_basics/proofs/Rights.antt', r'\b8\b', 'three rights, on both models: their sums are below 8'),
    ('crates/lend_laws/* crates/lend_lending/* crates/lend_summary/* crates/lend_demands/*', r'< 8\b', 'the same'),
    ('crates/*image/*', r'\b8 \*|[</%] 8\b|\b(count_bytes|first_chunks|cut_as|part) 8\b|\+ 8\]|\[u8; 8\]|\b256\b', 'the eight bytes of a count; the numbers of a byte'),
    ('crates/lend_models/specs/Witness.antt', r'tabulate 16 look|look 16', 'looks at the first pages, which both models have'),
    ('crates/examples_on_k/specs/*', r'\b\d+\b', 'the examples of 01, with the numbers that stand there'),
]

breaches = []


def breach(path, line, text):
    breaches.append(f'{path}:{line}: {text}')


def functions(text):
    """Each function of a source file: its line, its first line, and its whole text."""
    lines = text.split('\n')
    for at, line in enumerate(lines):
        if re.match(r'\s*(pub(\([a-z]+\))? )?(const )?(unsafe )?(extern "C" )?fn ', line):
            indent = len(line) - len(line.lstrip())
            end = next((i for i in range(at + 1, len(lines)) if lines[i].startswith(' ' * indent + '}')), at)
            yield at + 1, line.strip(), '\n'.join(lines[at:end + 1])


def public_requires(path, text):
    """A public function takes every input: it has no `requires`, with a name or without."""
    for head in heads.heads(text):
        if head.public and 'requires' in [word for word, _ in head.clauses]:
            breach(path, head.line, 'a public function with a requires')


def bare_sizes(path, text):
    """No size of a model stands as a number."""
    allowed = [words for files, words, _ in NO_SIZES if any(fnmatch.fnmatch(path, pattern) for pattern in files.split())]
    for at, line in enumerate(text.split('\n'), 1):
        code = re.sub(r'(?<=\d)_(?=\d)', '', re.split(r'//|--', line)[0])
        if SIZES.search(code) and SIZES.search(re.sub('|'.join(allowed), ' ', code)):
            breach(path, at, 'a size as a bare number')


for path in sorted(glob.glob('crates/*/src/**/*.rt', recursive=True)):
    text = open(path).read()
    if not text.startswith('//'):
        breach(path, 1, 'no comment at the top')
    public_requires(path, text)
    for at, first, whole in functions(text):
        if whole.count('\n') + 1 >= 40:
            breach(path, at, f'a function of {whole.count(chr(10)) + 1} lines')

for path in sorted(glob.glob('crates/*/specs/*.antt') + glob.glob('crates/*/proofs/**/*.antt', recursive=True)):
    text = open(path).read()
    if not path.endswith('/Lib.antt') and not text.startswith('--'):
        breach(path, 1, 'no comment at the top')

for path in sorted(path for part in ('src/**/*.rt', 'specs/**/*.antt', 'proofs/**/*.antt') for path in glob.glob(f'crates/*/{part}', recursive=True)):
    if not path.endswith('specs/Sizes.antt'):
        bare_sizes(path, open(path).read())

named = set(re.findall(r'\w+', open('docs/PROOF.md').read()))
for path in sorted(glob.glob('crates/*/must-fail/*.edit')):
    if not glob.glob(controls.beside(path)) and not re.search(r'(?m)^# no control: ', open(path).read()):
        breach(path, 1, 'an edit with neither a control nor a reason why there is none')
    if re.search(r'(\w+)\.edit$', path)[1] not in named:
        breach(path, 1, 'an edit that docs/PROOF.md does not name')

print('\n'.join(breaches) if breaches else 'the house rules hold')
sys.exit(1 if breaches else 0)
