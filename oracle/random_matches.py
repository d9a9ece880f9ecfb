#!/usr/bin/env python3
"""random_matches.py COUNT SEED FILE: random matches, each under its exact number of steps and under one step less."""
from __future__ import annotations

import sys
from typing import List, Optional
from random_programs import Maker, wrapped
from snobol import Job, Program, in_a_large_stack

TEXTS = ["'AABAB'", "'(A)B(())'", "'ABCABC'", "'A,B,,C'", "''", "'AAAA'", "'12AB'", "'X Y X'", "'((A+B))C'", "')A('"]


class Simple(Maker):
    """In place of a call stands what takes no request."""

    def call(self, deep: int) -> str:
        return self.pick(['A', "'B'", 'P'])


def steps_of(program: Program, answers: List[str]) -> Optional[int]:
    """the number of steps of the longest match of the program, by halving"""
    def limited(n: int) -> bool:
        return 'MATCH LIMIT' in Job(program, answers, 200, n).run()[-1]
    if limited(4000):
        return None
    low, high = 0, 4000                 # limited at low (as if), not at high
    while high - low > 1:
        mid = (low + high) // 2
        if limited(mid):
            low = mid
        else:
            high = mid
    return high


def one(seed: int) -> List[str]:
    m = Simple(seed)
    deep = m.pick([2, 3, 4])
    lines = ["  A = %s; X = %s; N = 2" % (m.pick(["'A'", "'AB'", "''"]), m.pick(["'B'", "*A", "LEN(1)"])),
             "  T = TABLE(); U = T; T<1> = 'A'; U<'A'> = %s; T<N> = P" % m.pick(["'AB'", '*X', "LEN(1) | 'B'"]),
             "  P = %s" % m.pattern(2), "  S = %s" % m.pick(TEXTS)]
    if m.chance(0.2):
        lines.append("  &ANCHOR = 1")
    lines.append("  %s %s :F(NO)" % (m.pick(['S', 'S', m.pick(TEXTS)]), m.pattern(deep)))
    if m.chance(0.4):
        lines[-1] = "  S %s = %s :F(NO)" % (m.pattern(deep), m.pick(["'Z'", '', 'A', "'LONG ONE'"]))
    lines += ["  OUTPUT = 'YES ' S ' ' A ' ' N :(END)", "NO OUTPUT = 'NO ' S ' ' A ' ' N"]
    cards = [c for l in lines for c in wrapped(l)] + ['END']
    answers = m.answers() if m.chance(0.5) else []
    program = Program(cards)
    n = steps_of(program, answers)
    if n is None or n < 2:
        raise SyntaxError('no steps')
    out = []
    for limit in (n, n - 1):
        wanted = Job(program, answers, 200, limit).run()
        out.append('$CASE m%d-%d ST=200 MATCH=%d\n%s\n$ANSWERS\n%s$WANTED\n%s\n' % (
            seed, limit, limit, '\n'.join(cards), ''.join(a + '\n' for a in answers), '\n'.join(wanted)))
    return out


def main() -> None:
    count, seed, path = int(sys.argv[1]), int(sys.argv[2]), sys.argv[3]
    parts: List[str] = []
    left = 0
    while len(parts) < count:
        try:
            parts += one(seed)
        except SyntaxError:
            left += 1
        seed += 1
    with open(path, 'w') as f:
        f.write('Random matches.\n\n' + '\n'.join(parts))
    ends = [p.rstrip('\n').split('\n')[-1] for p in parts]
    print(len(parts), 'cases', left, 'left out;', sum('MATCH LIMIT' in e for e in ends), 'limits', sum('NORMAL' in e for e in ends), 'normal')


if __name__ == '__main__':
    in_a_large_stack(main)
