#!/usr/bin/env python3
"""Counts, by point of docs/DESIGN-PASS.md, the places in crates/*/src/ where older forms stand.

    tools/places.py [COMMIT] [--list POINT]

Without a commit it reads the files as they lie here. A count is of places to look at, not of faults.
"""
import collections
import pathlib
import re
import subprocess
import sys


def sources(commit):
    """The text of each .rt file of src/, by its path."""
    if commit is None:
        return {str(p): p.read_text() for p in sorted(pathlib.Path('crates').glob('*/src/**/*.rt'))}
    names = subprocess.run(['git', 'ls-tree', '-r', '--name-only', commit, 'crates'], check=True, capture_output=True, text=True)
    paths = [p for p in names.stdout.splitlines() if re.match(r'crates/\w+/src/.*\.rt$', p)]
    return {p: subprocess.run(['git', 'show', f'{commit}:{p}'], check=True, capture_output=True, text=True).stdout for p in paths}


def lines(files, pattern):
    """Each line of code (comments left out) that the pattern finds, as (place, line)."""
    found = []
    for path, text in files.items():
        for number, line in enumerate(text.splitlines(), 1):
            if not line.lstrip().startswith('//') and re.search(pattern, line):
                found.append((f'{path}:{number}', line.strip()))
    return found


def twins(files):
    """Functions of one name in two files or more, each but the first."""
    names = collections.defaultdict(list)
    for place, line in lines(files, r'\bfn \w+'):
        names[re.search(r'\bfn (\w+)', line).group(1)].append(place)
    return [(place, f'fn {name}') for name, places in sorted(names.items()) for place in places[1:]
            if name != 'new']


def plain_enums(files):
    """Public enums that do not derive Debug, PartialEq and Eq."""
    found = []
    for path, text in files.items():
        above = ''
        for number, line in enumerate(text.splitlines(), 1):
            if re.match(r'pub enum \w+', line) and not {'Debug', 'PartialEq', 'Eq'} <= set(re.findall(r'\w+', above)):
                found.append((f'{path}:{number}', line))
            above = line if line.startswith('#[derive') else ''
    return found


def repeated_clauses(files):
    """Facts that three requires or ensures or more state, once their own names are taken off."""
    facts = collections.defaultdict(list)
    for place, line in lines(files, r'^\s*(requires|ensures)\b'):
        facts[re.sub(r'^(requires|ensures)\*?\s*\w*\s*', '', line)].append(place)
    return [(place, fact) for fact, places in sorted(facts.items()) if len(places) > 2 for place in places]


POINTS = {
    '1 numbers for kinds, draws, phases': lambda f: lines(
        f, r'\bkind: (u8|\d)|\bkind (==|>) \d|match x\.kind|\bsend\w*\(.*, \d, |Ok\(x\.kind\)|^\d => self\.on_|Result<u8, Refusal>.*\bdeliver'
           r'|(deliver|receive)<.*Result<u8|(Delivered|deliveries: \[|answer: )\(?Result<u8|(Lottery|Phase)::\w+ => \(?\d'),
    '1 success as a bool': lambda f: lines(f, r'fn .*&mut .*-> bool'),
    '1 Ok, Err and Some taken apart by match': lambda f: lines(f, r'^\s*(Ok|Err|Some)\(.*\) =>'),
    '1 public enums without Debug, PartialEq, Eq': plain_enums,
    '2 functions of one name': twins,
    '3 loops over a range or with while': lambda f: lines(f, r'\bfor \w+ in [^{]*\.\.|\bwhile\b'),
    '4 equality, conversion and printing by hand': lambda f: lines(f, r'impl PartialEq|fn (number|word|push_number)\b'),
    '4 casts': lambda f: lines(f, r'\bas (u8|u16|u32|u64|usize|char)\b'),
    '5 facts in three clauses or more': repeated_clauses,
    '6 arrays of a fixed size': lambda f: lines(f, r'\[[^\[\]]*; (\d+|[A-Z]+)\]'),
    '6 a length beside': lambda f: lines(f, r'^\s*(pub |pub\(crate\) )?len: usize|\], usize\)'),
    '7 matches that choose a step': lambda f: lines(f, r'=> \w*(self|rig)\.\w+\(|=> Answer::'),
    '7 tables of functions': lambda f: lines(f, r'\bfn\(|dyn '),
}


def main():
    arguments = sys.argv[1:]
    listed = None
    if '--list' in arguments:
        at = arguments.index('--list')
        listed = arguments[at + 1]
        del arguments[at:at + 2]
    files = sources(arguments[0] if arguments else None)
    for point, find in POINTS.items():
        found = find(files)
        if listed is None:
            print(f'{len(found):4}  {point}')
        elif point.startswith(listed):
            print(f'{point}: {len(found)}')
            for place, text in found:
                print(f'  {place}: {text}')


main()
