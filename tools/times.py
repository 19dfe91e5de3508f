#!/usr/bin/env python3
"""times.py: the table of crates in docs/PROOF.md anew: the lines of each crate as they are, and its seconds from a run of `rt all verdict`
that proves every crate from nothing, one after another. It takes as long as that.

What a crate is for stands in the table and is kept; a crate with no row there is an error. The made crates are added up in the last row.
"""
import glob
import os
import re
import subprocess
import sys
import time

import models

PAGE = 'docs/PROOF.md'
ROW = r'(?m)^\| (\w+) \| ([^|]*) \| \d+ \| \d+ \| \d+ \| [\d-]+ \|\n'


def lines(pattern):
    return sum(open(path).read().count('\n') for path in glob.glob(pattern, recursive=True) if os.path.isfile(path))


def figures(crate, seconds):
    """Lines of definitions, code and proofs, and seconds."""
    return [lines(f'crates/{crate}/specs/**/*.antt'), lines(f'crates/{crate}/src/**/*.rt'), lines(f'crates/{crate}/proofs/**/*.antt'), seconds[crate]]


def added(rows):
    return [sum(column) for column in zip(*rows)]


def table(purposes, seconds):
    crates = re.findall(r'(?m)^(\w+)(?: staticlib)?:', open('crates.txt').read())
    written = [crate for crate in crates if crate not in models.CRATES.values()]
    row = '| {} | {} | {} | {} | {} | {} |\n'.format
    rows = [row(crate, purposes[crate], *figures(crate, seconds)) for crate in written]
    total = '| {} | {} | {:,} | {:,} | {:,} | {} |\n'.format
    rows.append(total('written, all', '', *added(figures(crate, seconds) for crate in written)))
    rows.append(total('the premium model\'s crates', 'made from the entry model\'s', *added(figures(crate, seconds) for crate in models.CRATES.values())))
    return ''.join(rows)


def taken():
    """The seconds of each crate, which rt names once it is done with it."""
    seconds, last = {}, time.monotonic()
    with subprocess.Popen(['rt', 'all', 'verdict', '--jobs', '1'], stdout=subprocess.PIPE, stderr=subprocess.STDOUT, text=True) as run:
        for line in run.stdout:
            if (m := re.fullmatch(r'== (\w+)\n', line)) and m[1] != 'summary':
                now = time.monotonic()
                seconds[m[1]], last = round(now - last), now
                print(f'{m[1]}: {seconds[m[1]]} s', flush=True)
    if run.returncode:
        sys.exit('rt all verdict failed')
    return seconds


if __name__ == '__main__':
    os.chdir(os.path.dirname(os.path.dirname(os.path.abspath(__file__))))
    seconds = taken()
    text = open(PAGE).read()
    rows = list(re.finditer(ROW, text))
    end = text.index('\n\n', rows[-1].end() - 1) + 1
    made = table({row[1]: row[2] for row in rows}, seconds)
    open(PAGE, 'w').write(text[:rows[0].start()] + made + text[end:])
