#!/usr/bin/env python3
"""Counts, in the sources of a checkout, the places that docs/DESIGN-PASS.md speaks of, point by point.

Usage: tools/places.py [--list POINT] [FOLDER]

FOLDER is the top of a checkout (this one, if it is left out). --list prints the places of one point (1a, 1b, ..). It goes by text: what a count means
stands beside it.
"""
import glob
import os
import re
import sys

args = sys.argv[1:]
only = None
if args[:1] == ['--list']:
    only = args[1]
    args = args[2:]
top = args[0] if args else os.path.join(os.path.dirname(os.path.abspath(__file__)), '..')

POINTS = [
    ('1a', 'enums of the shape of Result or Option, of their own'),
    ('1b', 'structs with a number, `ok` or `found` beside their values (not those of the C interface)'),
    ('1c', 'functions that give a number, `u32` or `usize`, of which 0 is said to mean something else'),
    ('1d', 'tests of a number against 0 that leave the function'),
    ('2', 'functions that differ from another in a size: their names begin with tiny, small, large, few, fewest, or end so'),
    ('3a', '`while` loops'),
    ('3b', '`for` over the indices of a slice'),
    ('4a', 'functions that do what one call of the library does'),
    ('4b', 'tests in a row, each with a `return false` of its own, and last the value'),
    ('4c', '`x = x + ..`, `field: field`'),
    ('5a', 'functions with more than 7 parameters'),
    ('5b', 'clauses that spell the five numbers of a file that was found'),
    ('6', 'functions that only give an array of zeros'),
    ('7', 'enums that only say which step to run'),
    ('8a', 'lines of answers and invariants'),
    ('8b', "names of Rattle's own (true-raw, false-raw) in proofs"),
    ('8c', 'imports of the older modules in proofs'),
]
found = {point: [] for point, _ in POINTS}


def read(path):
    with open(path, encoding='utf-8') as file:
        return file.read()


def functions(text):
    """Each function: the comment before it, its name, its parameters, what it gives, its clauses and its body."""
    for match in re.finditer(r'((?:^//[^\n]*\n|^#\[[^\n]*\n)*)^(?:pub )?(?:extern "C" )?fn (\w+)(?:<[^\n]*?>)?\((.*?)\)(?: -> ([^\n{]+?))?(?: \{)?\n', text, re.M | re.S):
        rest = text[match.end():]
        end = re.search(r'^\}', rest, re.M)
        whole = rest[:end.end()] if end else ''
        cut = whole.find('\n{')
        yield match.group(1), match.group(2), match.group(3), (match.group(4) or '').strip(), whole[:max(cut, 0)], whole[max(cut, 0):]


LIBRARY = {'equal', 'copy', 'clear', 'least', 'larger', 'wide', 'if_differ', 'all_zero', 'used_bit', 'set_bit', 'mark_bit', 'over_bit', 'code_bit', 'ends_at', 'is_within', 'put_four'}
for path in sorted(glob.glob(top + '/crates/*/src/*.rt')):
    text = read(path)
    place = os.path.relpath(path, top)[len('crates/'):].replace('/src', '')
    for match in re.finditer(r'((?:^#\[[^\n]*\n)*)^(?:pub )?enum (\w+) \{(.*?)^\}', text, re.M | re.S):
        if re.search(r'Refused|Malformed,\s*NoRoom', match.group(3)) and not re.search(r'enum NotRun', match.group(0)):
            found['1a'].append(place + ' ' + match.group(2))
        if match.group(2) == 'Question':
            found['7'].append(place + ' ' + match.group(2))
    for match in re.finditer(r'((?:^#\[[^\n]*\n)*)^(?:pub )?struct (\w+)[^\n]*\{(.*?)^\}', text, re.M | re.S):
        if 'repr(C)' not in match.group(1) and re.search(r'\b(number: u32|ok: bool|found: bool)', match.group(3)) and len(re.findall(r': ', match.group(3))) > 1:
            found['1b'].append(place + ' ' + match.group(2))
    for comment, name, parameters, gives, clauses, body in functions(text):
        here = place + ' ' + name
        if gives in ('u32', 'usize') and re.search(r'\bor 0\b|\b0 if\b|[;,:] 0[:;,]|\b0: |the refusal|number of the', comment) and not name.startswith('bulgefs_'):
            found['1c'].append(here)
        found['1d'] += [here] * len(re.findall(r'[!=]= 0 \{\s*return', body))
        if re.match(r'(tiny|small|large|few|fewest|no)_(body|marks|answer)$|.*_(small|large)$', name):
            found['2'].append(here)
        found['3a'] += [here] * len(re.findall(r'\bwhile ', body))
        found['3b'] += [here] * len(re.findall(r'\bfor \w+ in 0\.\.[\w.]+\.len\(\)', body))
        if name in LIBRARY:
            found['4a'].append(here)
        if len(re.findall(r'return false;', body)) > 1 and gives == 'bool' and 'while' not in body and 'for ' not in body:
            found['4b'].append(here)
        found['4c'] += [here] * (len(re.findall(r'\b(\w+) = \1 [+-] ', body)) + len(re.findall(r'^\s+(\w+): \1,$', body, re.M)))
        if len([p for p in re.sub(r'\s+', ' ', parameters).split(', ') if p.strip()]) > 7 and not name.startswith('bulgefs_'):
            found['5a'].append(here)
        found['5b'] += [here] * len(re.findall(r'(?:result|found)\.slot (?:result|found)\.block (?:result|found)\.first (?:result|found)\.size (?:result|found)\.blocks', clauses))
        if re.match(r'\[\w+; ', gives) and re.match(r'\s*\{\s*\[0\w*; \w+\]\s*\}', body.strip() and body):
            found['6'].append(here)
for path in sorted(glob.glob(top + '/crates/*/proofs/**/*.antt', recursive=True)):
    text = read(path)
    place = os.path.relpath(path, top)[len('crates/'):]
    if os.path.basename(path) in ('Answers.antt', 'Invariants.antt', 'Proof.antt'):
        found['8a'] += [place] * text.count('\n')
    found['8b'] += [place] * len(re.findall(r'\.(?:true|false)-raw\b', text))
    found['8c'] += [place] * len(re.findall(r'^use (?:mathlib\.Core|lib\.|Prim\.|native\.Mathlib|borrow\.Author)', text, re.M))

for point, meaning in POINTS:
    if only is None:
        print(f'{point:3} {len(found[point]):6}  {meaning}')
    elif only == point:
        print('\n'.join(found[point]))
