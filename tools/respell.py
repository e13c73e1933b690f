#!/usr/bin/env python3
"""Brings the names of this repository's definitions and lemmas to the spelling of today's Rattle.

    python3 tools/respell.py

Run once, in the repository's root, right after the toolchain's own port script. Functions, definitions, lemmas and
fields are spelled in snake case; a dash stays only where it joins two names, or a type to a name. Comments, texts in
quotes and Rust names are left alone. It prints where a new name stood already beside an old one.
"""
import re
from pathlib import Path

# definitions, constructors and fields
NAMES = {
    'checkOf': 'check_of', 'goodText': 'good_text', 'textFrom': 'text_from', 'inLine': 'in_line',
    'linesIn': 'lines_in', 'toCome': 'to_come', 'refusedAt': 'refused_at', 'anOrder': 'an_order',
    'frontLines': 'front_lines', 'refusalsIn': 'refusals_in', 'notSpace': 'not_space', 'numbersOf': 'numbers_of',
    'inUse': 'in_use', 'leavesAll': 'leaves_all', 'ifAccepted': 'if_accepted', 'tollOf': 'toll_of',
    'highestPrice': 'highest_price', 'isTriangleOf': 'is_triangle_of', 'isFoldOf': 'is_fold_of',
    'joinedUpTo': 'joined_up_to', 'notAbove': 'not_above', 'not-above': 'not_above', 'fold-price': 'fold_price',
    'fold-prices': 'fold_prices', 'sum-worst': 'sum_worst', 'natAbs-minus': 'unsigned_abs_minus',
    'leb-total': 'nat_le_total', 'leb-antisymmetric': 'nat_le_antisymmetric', 'leb-transitive': 'nat_le_transitive',
}

# names of lemmas in which the dash joins two names, and a name of std's that a file gives a lemma of its own
KEPT = {'zeros-replicate', 'All-more', 'cond-false'}

TOKEN = r"(?<![\w'\-·]){}(?![\w'\-·])"


def sources():
    for pattern in ('specs/**/*.antt', 'proofs/**/*.antt', 'src/**/*.rt', 'must-fail/*.edit'):
        yield from sorted(Path('crates').glob('*/' + pattern))


def lemmas():
    """Names with a dash that a file of lemmas, or a helper beside an answer, declares."""
    found = {}
    for path in sources():
        if path.suffix != '.antt':
            continue
        goals = path.name in ('Answers.antt', 'Invariants.antt')
        for line in path.read_text().splitlines():
            m = re.match(r"\s*(?:abbrev |unfoldable |pub )*([^\s:(){},;=λ|]+) :", line)
            if not m or '-' not in m.group(1):
                continue
            name = m.group(1)
            # what answers a goal, or states an invariant, has its name from the check
            if goals and re.search(r": \w+\.%s$" % re.escape(name), line):
                continue
            if name not in KEPT and name not in NAMES:
                found[name] = name.replace('-', '_')
    return found


def code_parts(path, text):
    """The text in parts: (whether names in it are turned, the part). Comments and quoted texts are not."""
    comment = '//' if path.suffix == '.rt' else '--'
    for line in text.splitlines(keepends=True):
        if path.suffix == '.edit' and line.startswith('file:'):
            yield False, line
            continue
        if re.match(r'\s*' + comment, line):
            yield False, line
            continue
        for k, part in enumerate(re.split(r'("(?:[^"\\]|\\.)*")', line)):
            yield k % 2 == 0, part


def main():
    names = {**NAMES, **lemmas()}
    turn = re.compile(TOKEN.format('(' + '|'.join(sorted(map(re.escape, names), key=len, reverse=True)) + ')'))
    for path in sources():
        text = path.read_text()
        parts = list(code_parts(path, text))
        code = ''.join(p for turned, p in parts if turned)
        for old in set(turn.findall(code)):
            if re.search(TOKEN.format(re.escape(names[old])), code):
                print('%s: %s was there beside %s' % (path, names[old], old))
        out = ''.join(turn.sub(lambda m: names[m.group(1)], p) if turned else p for turned, p in parts)
        if out != text:
            path.write_text(out)


main()
