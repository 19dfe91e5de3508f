#!/usr/bin/env python3
"""before.py OLD NEW [--seconds S] [--turns N]: runs two builds of the bench in turns and prints their rows side by side.

Each build has its own library and its own plain Rust. The best time of each column over all turns counts. A row of the first table is
named by its label; one that only the newer build has is left out.
"""
import argparse
import re
import subprocess

MODEL = re.compile(r'### The (\w+) model')
ROW = re.compile(r'\| ([^|]+) \| (\d+) \| (\d+) \| (\d+) \| [\d.]+ \| [\d.]+ \|')


def rows(program, seconds):
    """The times of one run: library, plain Rust on the image, plain Rust on its struct, by model and label."""
    printed = subprocess.run([program, '--seconds', str(seconds)], stdout=subprocess.PIPE, text=True, check=True).stdout
    times, model, timed = {}, None, False
    for line in printed.splitlines():
        if line.startswith('#'):
            model = MODEL.match(line)
        elif line.startswith('Nanoseconds per call'):
            timed = True
        elif line.startswith('Stack bytes'):
            timed = False
        elif timed and model and (row := ROW.match(line)):
            times[model[1], row[1]] = [int(word) for word in row.groups()[1:]]
    return times


def best(program_rows):
    """The least of each column over the runs of one build."""
    return {key: [min(run[key][i] for run in program_rows) for i in range(3)] for key in program_rows[0]}


def table(model, old, new):
    """How the library stands to plain Rust before and after, and the quotient of the two."""
    print(f'\n{model}: nanoseconds per call, and the library by plain Rust on the image and on its struct\n')
    print('| call | library before | after | image before | after | struct before | after '
          '| library / image before | after | after / before | library / struct before | after | after / before |')
    print('|---' + '|---:' * 12 + '|')
    for (of, label), after in new.items():
        if of == model and (of, label) in old:
            before = old[of, label]
            pairs = [f'{a} | {b}' for a, b in zip(before, after)]
            for i in (1, 2):
                a, b = before[0] / before[i], after[0] / after[i]
                pairs.append(f'{a:.2f} | {b:.2f} | {b / a:.2f}')
            print(f'| {label} | ' + ' | '.join(pairs) + ' |')


parser = argparse.ArgumentParser()
parser.add_argument('old')
parser.add_argument('new')
parser.add_argument('--seconds', type=float, default=0.3)
parser.add_argument('--turns', type=int, default=3)
options = parser.parse_args()
runs = [[rows(program, options.seconds) for program in (options.old, options.new)] for _ in range(options.turns)]
old, new = (best([run[i] for run in runs]) for i in range(2))
for name in dict.fromkeys(model for model, _ in new):
    table(name, old, new)
