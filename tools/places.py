#!/usr/bin/env python3
"""Counts the places of src/ that have an older form, by the points of docs/DESIGN-PASS.md.

    tools/places.py [-v] [FOLDER]     FOLDER: a checkout, by default this one; -v prints each place
"""
import collections
import glob
import os
import re
import sys

# For each point: what it looks for, and where the pattern stands on one line.
LINES = {
    '1 an Option or Result passed on by hand':
        r'None => (None\b|false|true|0\b|\{\}|Err\()|Err\((\w+)\) => Err\(\2\)|Ok\(\(\)\) => (?!\{|println)'
        r'|Ok\(_\) => Ok\(\(\)\)|\.is_err\(\)|let (Ok|Some)\(.*\) = .* else',
    '1 a number for a kind':
        r'^\s*\d+( \| \d+)* =>|put\(&\[\d|ask(_row)?::<S, K>\(.*, \d, |^ +[123],$',
    '2 a function named after a width':
        r'\bfn \w*?_?u?(8|16|32|64)\b',
    '3 an index or a counter run by hand':
        r'for \w+ in \(?0\.\.|while .*\{|^\s*(count|found|at|mask|self\.len) \+= 1',
    '4 equality, order, conversion or printing by hand':
        r'^impl.*\b(PartialEq|Eq|PartialOrd|Ord|Clone|From|TryFrom|Display|Debug)\b.* for '
        r'|\bfn (same|same_title|same_bytes|same_block|below|at_least|is_statement|kept|edit_named)\b'
        r'|\.same\(|\.below\(|\bat_least\(',
    '6 a buffer, or a length beside one':
        r'^\s*(pub(\(crate\))? )?\w+: \[.*; *\w+\],$|^\s*(pub(\(crate\))? )?(len|count|filled): usize,$'
        r'|let mut \w+ = \[.*; ?\w+\];|by_seat: \[None; 15\]',
    '7 a switch on which step to run':
        r'match (what|step|kind|tag|reaction|parts|verdict|outcome)\b',
}


def sources(folder):
    for path in sorted(glob.glob(os.path.join(folder, 'crates/*/src/**/*.rt'), recursive=True)):
        with open(path, encoding='utf-8') as f:
            yield os.path.relpath(path, folder), f.read()


def code(line):
    return line.split('//')[0]


def by_lines(texts):
    for what, pattern in LINES.items():
        for path, text in texts:
            for number, line in enumerate(text.split('\n'), 1):
                if not line.lstrip().startswith('ghost') and re.search(pattern, code(line)):
                    yield what, f'{path}:{number}: {line.strip()}'


def empty_answers(texts):
    """Functions that answer a number which means nothing."""
    for path, text in texts:
        for m in re.finditer(r'fn (\w+)[^{}]*-> u8\n(?:[^\n]*ensures[^\n]*\n)+\{\n    0\n\}', text):
            yield '1 an answer that means nothing', f'{path}: {m.group(1)}'


def like_option(texts):
    """Enums of one bare variant and one with fields."""
    for path, text in texts:
        for m in re.finditer(r'enum (\w+)[^{]*\{\n(.*?)\n\}', text, re.S):
            body = re.sub(r'//[^\n]*', '', m.group(2))
            body = re.sub(r'\{[^}]*\}', '()', body)
            variants = [v.strip() for v in body.split(',') if v.strip()]
            if len(variants) == 2 and sum('(' in v for v in variants) == 1:
                yield '1 an enum of the shape of Option', f'{path}: {m.group(1)}'


def repeated(texts):
    """Facts of three contracts or more, and parameters that stand beside one another in five functions or more."""
    facts = collections.Counter()
    pairs = collections.Counter()
    for _, text in texts:
        for line in text.split('\n'):
            m = re.match(r'\s+(requires|ensures) (?:\w+ )?(\{.*\})', line)
            if m:
                facts[m.group(1) + ' ' + m.group(2)] += 1
        for m in re.finditer(r'\bfn \w+(?:<[^(]*>)?\(([^()]*(?:\([^()]*\)[^()]*)*)\)', text):
            names = re.findall(r'(\w+): ', m.group(1))
            for a, b in zip(names, names[1:]):
                pairs[f'({a}, {b})'] += 1
    for fact, count in facts.most_common():
        if count >= 3:
            yield '5 a fact of three contracts or more', f'{count} times: {fact}'
    for pair, count in pairs.most_common():
        if count >= 5:
            yield '5 parameters that go together', f'{count} times: {pair}'


def answers(folder):
    for crate in sorted(glob.glob(os.path.join(folder, 'crates/*'))):
        number = 0
        for path in glob.glob(crate + '/proofs/**/Answers.antt', recursive=True):
            with open(path, encoding='utf-8') as f:
                number += len(re.findall(r'^pub \S+ : goal\.', f.read(), re.M))
        yield os.path.basename(crate), number


def main():
    words = [w for w in sys.argv[1:] if w != '-v']
    folder = words[0] if words else os.path.join(os.path.dirname(os.path.abspath(__file__)), '..')
    texts = list(sources(folder))
    found = collections.defaultdict(list)
    for finder in (by_lines, empty_answers, like_option, repeated):
        for what, where in finder(texts):
            found[what].append(where)
    for what in sorted(found):
        print(f'{len(found[what]):4} {what}')
        if '-v' in sys.argv:
            for where in found[what]:
                print(f'       {where}')
    counts = dict(answers(folder))
    print(f'{sum(counts.values()):4} 8 answers in proofs: ' +
          ', '.join(f'{name} {n}' for name, n in counts.items() if n))


main()
