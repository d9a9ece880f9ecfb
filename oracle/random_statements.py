#!/usr/bin/env python3
"""random_statements.py COUNT SEED FOLDER: random cards, each a program, most of them with a fault or two, for the program
`programs`: of each what its statements are, or where it is refused, as refusals.py and the reader of snobol.py have it."""
from __future__ import annotations

import os
import sys
from typing import Dict, List, Optional
from random_programs import Maker
from refusals import verdict
from snobol import NULL, Binary, Call, Constant, Expression, Goto, Group, Item, Keyword, Program, Statement, Unary, in_a_large_stack

CHARACTERS = ' ' * 10 + '<>' * 5 + '()' * 3 + "=,:.$'*+-/&@~?|;1SFAT#\""


# ---- statements as `programs` writes them ------------------------------------------------------------------------

def constant(e: Constant) -> str:
    kind, content = e.value[0], str(e.value[1])
    return "'%s'" % content if kind == 'STRING' else '*' + content if kind == 'EXPRESSION' else content


def argument(e: Expression) -> str:
    return 'null' if isinstance(e, Constant) and e.value == NULL else shown(e)


def shown(e: Expression) -> str:
    if isinstance(e, Constant):
        return constant(e)
    if isinstance(e, Call):
        return '(call %s%s)' % (e.name, ''.join(' ' + argument(a) for a in e.arguments))
    if isinstance(e, Keyword):
        return '&' + e.name
    if isinstance(e, Unary):
        return '(unary%s %s)' % (e.operator, shown(e.operand))
    if isinstance(e, Binary):
        return '(%s %s %s)' % ('cat' if e.operator == ' ' else e.operator, shown(e.left), shown(e.right))
    if isinstance(e, Group):
        return '(group %s)' % shown(e.inner)
    return '(item %s %s)' % (e.table, shown(e.key)) if isinstance(e, Item) else e.name


def target(mark: str, t: Optional[Goto]) -> List[str]:
    return [] if t is None else ['%s %s' % (mark, t if isinstance(t, str) else '(unary$ %s)' % shown(t))]


def statement_line(s: Statement) -> str:
    goto = target(':', s.always) + target(':S', s.success) + target(':F', s.failure)
    return ' '.join([s.label or '-', '-' if s.subject is None else shown(s.subject), '-' if s.pattern is None else shown(s.pattern),
                     '-' if not s.has_object else '(=)' if s.object is None else '(= %s)' % shown(s.object),
                     '(%s)' % ' '.join(goto) if goto else '-'])


def lines_of(card: str) -> List[str]:
    said = verdict([card, 'END'])
    return [said] if said != 'parsed' else [statement_line(s) for s in Program([card, 'END']).statements]


# ---- cards ------------------------------------------------------------------------------------------------------

def mutated(m: Maker, text: str) -> str:
    out = list(text)
    for _ in range(m.pick([0, 0, 1, 1, 1, 2, 3])):
        at = m.r.randint(0, len(out))
        k = m.r.random()
        if k < 0.5:
            out.insert(at, m.pick(CHARACTERS))
        elif k < 0.8:
            del out[at:at + 1]
        else:
            out[at:at + 1] = [m.pick(CHARACTERS)]
    return ''.join(out)


def card(m: Maker) -> str:
    m.labels = ['L1', 'L2']
    text = m.pick([m.body(), m.item(2) + m.pick([' = ', ' ']) + m.any(2), 'X = ' + m.item(3),
                   'X ' + m.group(m.pattern(1)) + m.pick([' . ', ' $ ', ' .', ' @', ' @']) + m.pick(['$', '']) + m.item(2)]) + m.goto()
    return m.pick([' ', ' ', ' ', 'L', 'T<1>']) + ' ' + mutated(m, text)


def main() -> None:
    count, seed, folder = int(sys.argv[1]), int(sys.argv[2]), sys.argv[3]
    m = Maker(seed)
    cards: List[str] = []
    said: Dict[str, int] = {}
    while len(cards) < count:
        one = card(m)
        # two quotes as an argument are null to the reader of snobol.py, as an empty argument is
        if len(one) <= 190 and "''" not in one and '""' not in one:
            cards.append(one)
    os.makedirs(folder + '/statements/random')
    with open(folder + '/statements.txt', 'w') as f:
        f.write('random\n')
    with open(folder + '/statements/random/cards', 'w') as f, open(folder + '/statements/random/wanted', 'w') as g:
        for one in cards:
            f.write(one + '\n')
            g.write(''.join(line + '\n' for line in lines_of(one)))
            word = verdict([one, 'END']).split()[:2][-1]
            said[word] = said.get(word, 0) + 1
    print(len(cards), 'cards', sorted(said.items()))


if __name__ == '__main__':
    in_a_large_stack(main)
