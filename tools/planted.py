#!/usr/bin/env python3
"""Writes docs/PLANTED.md: what each must-fail edit changes, and at which goal the check stops.

usage: .ci/run > LOG 2>&1; python3 tools/planted.py LOG      at the top
"""
import glob
import os
import re
import sys

SAID = re.compile(r"^rt: must-fail (\S+)/(\S+)\.edit: refused, as it must be: (.*)$", re.M)
HEAD = """# Planted bugs

Each file under `crates/NAME/must-fail/` plants a bug in the code (in `theory`, in a definition), which the check has to refuse in each run of the
gate. For each: what it changes, and the function and the goal, or the lemma, at which the check stops. Made by `tools/planted.py` from what the
gate says.
"""


def changes(path):
    """What an edit changes: (file, [(old, new)])."""
    file, pairs, old = '', [], ''
    for line in open(path, encoding='utf-8').read().split('\n'):
        word, _, text = line.partition(': ')
        if word == 'file':
            file = text
        elif word == 'old':
            old = text
        elif word == 'new':
            pairs.append((old.strip(), text.strip()))
    return file, pairs


def stop(said, crate):
    """Where the check stops: the function's folder or the place in the code, and the goal."""
    goal = re.search(r"\(`([^`]+)`\)|error: `([^`]+)`", said)
    name = next((g for g in goal.groups() if g), '') if goal else ''
    if proof := re.match(r"\./proofs/(.+?)/(?:Answers|Invariants)\.antt", said):
        return f'`{proof[1]}`: `{name}`'
    if lemma := re.match(r"\./proofs/(\w+)\.antt", said):
        return f'{lemma[1]}.antt: `{name}`'
    if place := re.match(r"note: (src/\S+?):(\d+):", said):
        return f'`{function(crate, place[1], int(place[2]))}`: `{name}`'
    return said[:80]


def function(crate, file, line):
    """The function that a line of the code is in; an attribute belongs to the function below it."""
    lines = open(os.path.join('crates', crate, file), encoding='utf-8').read().split('\n')
    while lines[line - 1].strip().startswith('#['):
        line += 1
    before = lines[:line]
    names = [m[1] for m in (re.match(r'\s*(?:pub )?(?:const )?fn (\w+)', it) for it in before) if m]
    return names[-1] if names else file


def cell(text):
    return '`' + text.replace('|', '\\|') + '`'


def main(log):
    said = {(crate, name): text for crate, name, text in SAID.findall(open(log, encoding='utf-8').read())}
    crates = [line.split(':')[0] for line in open('crates.txt', encoding='utf-8') if ':' in line]
    print(HEAD)
    for crate in crates:
        paths = sorted(glob.glob(f'crates/{crate}/must-fail/*.edit'))
        if paths:
            print(f'## {crate}\n\n| bug | changes | to | stops at |\n|---|---|---|---|')
        for path in paths:
            name = os.path.basename(path)[: -len('.edit')]
            file, pairs = changes(path)
            where = stop(said[crate, name], crate) if (crate, name) in said else 'not in the log'
            olds, news = '; '.join(cell(a) for a, _ in pairs), '; '.join(cell(b) for _, b in pairs)
            print(f'| {name} ({os.path.basename(file)}) | {olds} | {news} | {where} |')
        if paths:
            print()


if __name__ == '__main__':
    main(sys.argv[1])
