#!/usr/bin/env python3
"""What docs/DESIGN-PASS.md counts in src/ (and, for the last row, in proofs/): tools/design_counts.py [LIST]
prints a line for each list, or, with a list's name, its places."""
import glob
import os
import re
import sys
from collections import defaultdict

ROOT = os.path.join(os.path.dirname(os.path.abspath(__file__)), '..')
lists = defaultdict(list)


def read(path):
    with open(path, encoding='utf-8') as file:
        return file.read()


def conjuncts(clause):
    """The facts that are joined by × in a clause, without brackets round them."""
    clause = clause.strip()
    while clause.startswith('(') and closing(clause) == len(clause) - 1:
        clause = clause[1:-1].strip()
    parts, depth, part = [], 0, ''
    for c in clause:
        depth += (c == '(') - (c == ')')
        if c == '×' and depth == 0:
            parts.append(part)
            part = ''
        else:
            part += c
    parts.append(part)
    return [clause] if len(parts) == 1 else [x for p in parts for x in conjuncts(p)]


def closing(text):
    depth = 0
    for i, c in enumerate(text):
        depth += (c == '(') - (c == ')')
        if depth == 0:
            return i
    return -1


FUNCTION = re.compile(r'^ *(?:pub )?(?:extern "C" )?fn (\w+)(?:<[^(]*>)?\(([^{]*?)\)(?: -> ([^\n{]+?))?\s*\n?((?: +(?:requires|ensures)[^\n]*\n)*) *\{', re.M)
facts, together = defaultdict(set), defaultdict(set)
for path in sorted(glob.glob(ROOT + '/crates/*/src/**/*.rt', recursive=True)):
    name = path.split('/crates/')[1]
    text = read(path)
    code = '\n'.join(line.split('//')[0] if '"' not in line else line for line in text.split('\n'))
    lines = code.split('\n')
    for i, line in enumerate(lines):
        at = '%s:%d: %s' % (name, i + 1, line.strip())
        if re.match(r'(?:pub )?enum \w', line):
            body = code[sum(len(l) + 1 for l in lines[:i]):].split('\n}')[0]
            variants = re.findall(r'^    (\w+)', body, re.M)
            # Two ways, one of which holds nothing or a refusal: an Option's shape, or a Result's.
            if len(variants) == 2 and re.search(r'Refus|^    \w+,$', body, re.M):
                lists['1 enums of the shape of Option or Result'].append(at)
        if re.search(r'^\s*(?:pub )?(?:ruled: bool|begun: bool|number: u\d+),', line):
            lists['1 flags and refusal numbers beside values, in structs'].append(at)
        if re.search(r'\brefuse\((?:\d+|number|looked\.number)\b|\bnumber: \d+,', line):
            lists['1 refusals by their numbers'].append(at)
        if re.search(r'\b(?:tag|kind|predicate|p) (?:==|!=|<|<=) \d+|\d+ < rule\.predicate|\d+ < tag', line):
            lists['1 tags, kinds and predicates as numbers'].append(at)
        if re.search(r'\bwhile\b', line):
            if re.search(r'\bwhile (?:left != 0|!)', line):
                lists['3 whiles that take a set apart, or go on until something holds'].append(at)
            else:
                lists['3 loops that count by hand'].append(at)
        if re.match(r'\s*for ', line) or re.search(r"'\w+: for ", line):
            lists['3 for loops'].append(at)
    for f, parameters, result, clauses in FUNCTION.findall(code):
        of = '%s: %s' % (name, f)
        kinds = dict(p.strip().split(': ', 1) for p in re.split(r',\s*(?=\w+: )', parameters.strip().rstrip(',')) if ': ' in p)
        for clause in re.findall(r'requires(?: \w+)? \{ (.*) \}', clauses):
            for fact in conjuncts(re.sub(r'\.(now|old)\b', '', clause)):
                facts[fact].add(of)
        buffers = [p for p, k in kinds.items() if re.match(r'&?(?:mut )?\[', k)]
        if buffers and any(p in ('n', 'm', 'many', 'count') and k == 'usize' for p, k in kinds.items()):
            lists['6 buffers with a length beside, in parameters'].append(of)
        if len(kinds) >= 6:
            lists['5 functions of six parameters and more'].append('%s (%d)' % (of, len(kinds)))
        if f in ('wide', 'as_half', 'least', 'lesser', 'comes_before', 'is_yes', 'is_no', 'is_definite', 'agree', 'opposite', 'open_at', 'epochs_stand', 'digit', 'mask_if', 'put_text', 'clear', 'are_zero'):
            lists['4 conversions, orders, copies and tests written by hand'].append(of)
        if result == 'u64' and re.search(r'coded|_answer|_coded|_code', clauses) or f in ('fault', 'rule_fault', 'body_fault', 'trace_fault', 'hand_fault', 'fault_behind'):
            lists['1 functions that answer by a number which may be a refusal, or by 0 for none'].append(of)
for fact, functions in facts.items():
    if len(functions) >= 3:
        lists['5 facts required by three functions and more'].append('%s (%d)' % (fact, len(functions)))
for path in sorted(glob.glob(ROOT + '/crates/*/proofs/*/Answers.antt')):
    for goal in re.findall(r'^(?:abbrev )?pub (\S+) : goal\.', read(path), re.M):
        lists['8 answers'].append('%s: %s' % (path.split('/crates/')[1], goal))

if len(sys.argv) > 1:
    for name in sorted(lists):
        if name.startswith(sys.argv[1]):
            print('%s:' % name)
            for place in lists[name]:
                print('  %s' % place)
else:
    for name in sorted(lists):
        print('%5d  %s' % (len(lists[name]), name))
