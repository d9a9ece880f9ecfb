#!/usr/bin/env python3
"""check.py FILE..: runs each case of these files through the oracle, and prints where it differs from what is wanted."""
from __future__ import annotations

import sys
from typing import Dict, Iterator, List, Set, Tuple
from snobol import run, in_a_large_stack


def cases(text: str) -> Iterator[Tuple[str, Dict[str, str], List[str], List[str], List[str]]]:
    """(name, options, cards, answers, wanted) of each case of a file"""
    for part in text.split('\n$CASE ')[1:]:
        head, rest = part.split('\n', 1)
        program, rest = rest.split('$ANSWERS\n', 1)
        answers, wanted = rest.split('$WANTED\n', 1)
        words = head.split(' ')
        options = dict(w.split('=') for w in words[1:])
        yield words[0], options, program.split('\n')[:-1], answers.split('\n')[:-1], wanted.split('\n')[:-1]


def transcript(options: Dict[str, str], cards: List[str], answers: List[str]) -> List[str]:
    return run(cards, answers, int(options.get('ST', 50000)), int(options.get('MATCH', 1000000)))


def main() -> None:
    good = bad = 0
    names: Set[str] = set()
    for path in sys.argv[1:]:
        with open(path) as f:
            text = f.read()
        for name, options, cards, answers, wanted in cases(text):
            if name in names:
                print('TWICE', name)
            names.add(name)
            try:
                seen = transcript(options, cards, answers)
            except SyntaxError as e:
                seen = ['refused: %s' % e]
            while wanted and wanted[-1] == '':
                wanted.pop()
            if seen == wanted:
                good += 1
            else:
                bad += 1
                print('DIFFERS %s' % name)
                for i in range(max(len(seen), len(wanted))):
                    w = wanted[i] if i < len(wanted) else None
                    s = seen[i] if i < len(seen) else None
                    if w != s:
                        print('   line %d: wanted %r, oracle %r' % (i + 1, w, s))
                        break
    print('%d agree, %d differ' % (good, bad))


if __name__ == '__main__':
    in_a_large_stack(main)
