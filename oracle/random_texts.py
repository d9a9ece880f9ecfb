#!/usr/bin/env python3
"""random_texts.py COUNT SEED FILE: one-line programs on random prototypes, formats, numbers and characters."""
from __future__ import annotations

import sys
from random import Random
from typing import Dict, List
from snobol import run, in_a_large_stack


def text(r: Random, characters: str, most: int) -> str:
    return ''.join(r.choice(characters) for _ in range(r.randint(0, most)))


def mutated(r: Random, s: str, characters: str) -> str:
    out = list(s)
    for _ in range(r.choice([0, 0, 1, 1, 2])):
        at = r.randint(0, len(out))
        k = r.random()
        if k < 0.4:
            out.insert(at, r.choice(characters))
        elif at < len(out):
            out[at:at + 1] = [] if k < 0.7 else [r.choice(characters)]
    return ''.join(out)


def key(r: Random) -> str:
    """a number or a text, in one of the ways that a program may write it"""
    n = r.choice(['0', '1', '7', '12', '007', '9223372036854775807', '-1', '-0', ''])
    return r.choice(["'%s'", '%s' if n else "'%s'", "+'%s'", "TRIM('%s ')", "('' '%s')", "'%s '", "-'%s'"]) % n


def line(r: Random) -> List[str]:
    k = r.random()
    if k < 0.15:
        a, b, c = key(r), key(r), mutated(r, r.choice(["'K%s'", "'1'", '12', '.K', "'a' 'B'", "X 'A'"]).replace('%s', text(r, 'AB', 1)), "'1A +")
        return ["  T = TABLE(); U = TABLE()", "  T<%s> = 'X'; T<%s> = 'Y'; U<%s> = 'Z'" % (a, c, b),
                "  OUTPUT = T<%s> T<%s> T<%s> U<%s> U<%s> '.' DATATYPE(T)" % (a, b, c, b, a)]
    if k < 0.40:
        p = mutated(r, r.choice(['F(A,B)C,D', 'F()', ' F ( A ) ', 'F(A)', 'F()B', 'A.B_1(C9)', 'F( , )', 'F(A,B),']), 'AB1,( )._')
        return ["  DEFINE('%s'%s)" % (p, r.choice(['', '', ",'L'", ",' L'", ",ARB"])), "  OUTPUT = 'DEFINED'",
                "  OUTPUT = F(1,2,3) :F(END)", 'F', 'L F = A B C D :(RETURN)'] if 'L' not in p else ["  X = 1"]
    if k < 0.6:
        f = mutated(r, r.choice(['(1A1)', '(1X,3A1)', '(1024A1)', '(1X,1023A1)', '(007A1)', '', '(12A1)']), '(1X,A)02 9')
        return ["  OUTPUT('W',%s,'%s')" % (r.choice(["''", '9', '99']), f), "  W = 'ABCDEF'"]
    if k < 0.8:
        n = mutated(r, r.choice(['12', '-7', '+0', '9223372036854775807', '-9223372036854775808', '000', '']), '-+0129 ')
        m = mutated(r, r.choice(['3', '-2', '0', '63', '1']), '-0129')
        op = r.choice(['+', '-', '*', '/', '**'])
        return ["  X = '%s'; Y = '%s'" % (n, m), "  OUTPUT = X %s Y" % op]
    if k < 0.9:
        a, b, c = (text(r, 'ABC ', 4) for _ in range(3))
        return ["  OUTPUT = REPLACE('%s','%s','%s') '.'" % (a, b, c), "  OUTPUT = TRIM('%s') '.'" % a, "  OUTPUT = DUPL('%s','%s')" % (a, r.choice(['0', '2', '-1', '', 'A']))]
    u = mutated(r, r.choice(['1', '99', '100', '0', '', '8']), '019-')
    return ["  %s" % r.choice(["ENDFILE('%s')", "REWIND('%s')", "INPUT('R','%s')", "OUTPUT('W','%s')", "INPUT('R',8,'%s')"]) % u, '  W = R']


def main() -> None:
    count, seed, path = int(sys.argv[1]), int(sys.argv[2]), sys.argv[3]
    parts: List[str] = []
    n = 0
    while len(parts) < count:
        r = Random(seed)
        cards = line(r) + ['END']
        cards = [c for c in cards if c != 'F']
        try:
            wanted = run(cards, ['GOT ABCDEFGHIJKLMNOPQRSTUVWXYZ', 'DONE', 'DONE', 'DENIED'], 100, 1000)
            parts.append('$CASE t%d\n%s\n$ANSWERS\nGOT ABCDEFGHIJKLMNOPQRSTUVWXYZ\nDONE\nDONE\nDENIED\n$WANTED\n%s\n' % (seed, '\n'.join(cards), '\n'.join(wanted)))
        except (SyntaxError, IndexError):
            n += 1
        seed += 1
    # the limits that the cases name are the oracle's
    parts = [p.replace('\n', ' ST=100 MATCH=1000\n', 1) for p in parts]
    with open(path, 'w') as f:
        f.write('Random texts.\n\n' + '\n'.join(parts))
    print(len(parts), 'cases', n, 'left out')
    ends: Dict[str, int] = {}
    for p in parts:
        e = ' '.join(p.rstrip('\n').split('\n')[-1].split(' ')[1:3])
        ends[e] = ends.get(e, 0) + 1
    print(ends)


if __name__ == '__main__':
    in_a_large_stack(main)
