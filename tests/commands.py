#!/usr/bin/env python3
"""commands.py MODEL PROGRAM [WORDS..]: runs the examples of docs/COMMANDS.md and the worked session of README.md, and compares.

An example is a block ```session, given to the program on standard input, and the block ```answer after it. It is for both models, or
for the one that is named after the word: ```session premium. A block ```listing before it is the file that the program is started
from. The last line says how many there were: 'N passed, M failed'.
"""
import re
import subprocess
import sys
import tempfile

model, program = sys.argv[1], sys.argv[2:]
passed = failed = 0
for path in ('docs/COMMANDS.md', 'README.md'):
    text = open(path).read()
    examples = re.findall(r'(?:```listing\n([^`]*)```\n)?```session *(entry|premium|)\n([^`]*)```\n```answer\n([^`]*)```', text)
    mine = [(listing, session, answer) for listing, only, session, answer in examples if only in ('', model)]
    if not mine or len(examples) != text.count('```session') or sum(e[0] != '' for e in examples) != text.count('```listing'):
        print(f'{path}: no example, or one without an answer')
        failed += 1
    for listing, session, answer in mine:
        with tempfile.NamedTemporaryFile() as file:
            file.write(listing.encode())
            file.flush()
            got = subprocess.run(program + ['--from', file.name] * (listing != ''), input=session.encode(), capture_output=True)
        if got.stdout == answer.encode() and got.returncode == 0 and not got.stderr:
            passed += 1
        else:
            failed += 1
            print(f'{path}: this session\n{listing}{session}is answered with\n{got.stdout.decode()}and not with\n{answer}')
print(f'{passed} passed, {failed} failed')
sys.exit(1 if failed else 0)
