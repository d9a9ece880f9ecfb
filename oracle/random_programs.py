#!/usr/bin/env python3
"""random_programs.py COUNT SEED FILE: writes COUNT random programs as cases, with what the oracle says of each.

Expressions are made by the type that is wanted, and now and then by another, so that programs get some way before a fault."""
from __future__ import annotations

import random
import sys
from typing import Callable, Dict, List, Sequence, Tuple, TypeVar
from snobol import run, in_a_large_stack

One = TypeVar('One')

STRINGS = ["''", "'A'", "'AB'", "'(A)'", "'B A '", "'0'", "'12'", "'-7'", "'AAB'", "'X'", "' '", "'N'", "'A,B'", '"it\'s"']
NUMBERS = ['0', '1', '2', '3', '7', '10', '007', '9223372036854775807']
NAMES = ['A', 'B', 'C', 'X', 'N', 'P', 'S']
TABLES = ['T', 'U']
KEYS = ['1', "'1'", '2', "''", "'A'", "'AB'", 'N', 'A', 'S', 'T', 'U', '-1', '007', "'L2'", 'INPUT', '.A', 'I']
PATTERNS = ['ARB', 'REM', 'BAL', 'FENCE', 'FAIL', 'ABORT', 'SUCCEED']
READ_KEYS = ['&ANCHOR', '&TRIM', '&STLIMIT', '&MAXLNGTH', '&STCOUNT', '&STNO', '&FNCLEVEL', '&FULLSCAN']
SET_KEYS = ['&ANCHOR', '&TRIM', '&FULLSCAN', '&STLIMIT', '&MAXLNGTH']
RECORDS = ['A', 'B', 'AB', '', '12', 'A B ', ' X  ', 'N', '(A)', '7', 'AAB', 'L1', 'RETURN']


class Maker:
    def __init__(self, seed: int) -> None:
        self.r = random.Random(seed)
        self.functions: List[Tuple[str, int]] = []      # how many arguments each has
        self.labels: List[str] = []
        self.at = 0

    def pick(self, xs: Sequence[One]) -> One:
        return self.r.choice(xs)

    def chance(self, p: float) -> bool:
        return self.r.random() < p

    def variable(self) -> str:
        k = self.r.random()
        if k < 0.78:
            return self.pick(NAMES)
        if k < 0.84:
            return self.pick(['INPUT', 'R'])
        if k < 0.92:
            return self.pick(['OUTPUT', 'W', 'PUNCH'])
        return '$' + self.pick(["'A'", "'X Y'", 'S', 'A', "('V' N)", ".B", "$'S'", "INPUT"])

    def assigned(self) -> str:
        return self.variable() if self.chance(0.8) else 'OUTPUT'

    def item(self, deep: int) -> str:
        name = self.pick(TABLES if self.chance(0.96) else NAMES + ['OUTPUT', 'R', 'TABLE'])
        k = self.r.random()
        if deep <= 0 or k < 0.7:
            key = self.pick(KEYS)
        elif k < 0.9:
            key = self.pick([self.text, self.number, self.item])(deep - 1)
        else:
            key = self.any(deep - 1)
        return name + self.pick(['<%s>', '<%s>', '<%s>', '< %s>', '<%s >']) % key

    # elements and expressions
    def number(self, deep: int) -> str:
        k = self.r.random()
        if deep <= 0 or k < 0.25:
            return self.pick(NUMBERS)
        if k < 0.45:
            return 'N'
        if k < 0.49:
            return self.pick(READ_KEYS)
        if k < 0.53:
            return self.item(deep - 1)
        if k < 0.62:
            return 'SIZE(' + self.text(deep - 1) + ')'
        if k < 0.70:
            return self.pick('+-') + self.group(self.number(deep - 1))
        if k < 0.74:
            return self.call(deep)
        return self.chain(deep, self.number, ['+', '-', '*', '/', '+', '-', '**', '-'])

    def chain(self, deep: int, make: Callable[[int], str], operators: Sequence[str]) -> str:
        parts = [self.element_of(make, deep - 1)]
        for _ in range(self.r.randint(1, 3)):
            parts.append(self.pick(operators))
            parts.append(self.element_of(make, deep - 1))
        return ' '.join(parts).replace(' JOIN ', ' ')

    def element_of(self, make: Callable[[int], str], deep: int) -> str:
        e = make(deep)
        # some operands stay without parentheses, so that precedence decides
        return e if ' ' not in e or self.chance(0.4) else '(' + e + ')'

    def group(self, e: str) -> str:
        """one element of this expression"""
        level, quote = 0, ''
        for ch in e:
            if quote:
                quote = '' if ch == quote else quote
            elif ch in '\'"':
                quote = ch
            elif ch in '(<':
                level += 1
            elif ch in ')>':
                level -= 1
            elif ch == ' ' and level == 0:
                return '(' + e + ')'
        return e

    def text(self, deep: int) -> str:
        k = self.r.random()
        if deep <= 0 or k < 0.22:
            return self.pick(STRINGS)
        if k < 0.38:
            return self.pick(['A', 'B', 'C', 'S', 'X', self.variable()])
        if k < 0.42:
            return self.item(deep - 1)
        if k < 0.47:
            return self.number(deep - 1)
        if k < 0.51:
            return 'TRIM(' + self.text(deep - 1) + ')'
        if k < 0.55:
            return 'DUPL(' + self.text(deep - 1) + ',' + self.pick(['0', '1', '2', '3', 'N', '-1']) + ')'
        if k < 0.59:
            return 'REPLACE(' + self.text(deep - 1) + ',' + self.pick(["'AB'", "''", "'A'", "'ABA'", 'S']) + ',' + \
                self.pick(["'BA'", "''", "'X'", "'123'", 'S']) + ')'
        if k < 0.63:
            return 'DATATYPE(' + self.any(deep - 1) + ')'
        if k < 0.66:
            return '.' + self.pick(NAMES + ["$'A'", '$S'])
        if k < 0.72:
            return self.call(deep)
        if k < 0.79:
            return self.predicate(deep) + ' ' + self.element_of(self.text, deep - 1)
        return self.chain(deep, self.text, ['JOIN'])

    def predicate(self, deep: int) -> str:
        k = self.r.random()
        if k < 0.40:
            return self.pick(['EQ', 'NE', 'LT', 'LE', 'GT', 'GE']) + '(' + self.number(deep - 1) + ',' + self.number(deep - 1) + ')'
        if k < 0.58:
            return self.pick(['IDENT', 'DIFFER']) + '(' + self.any(deep - 1) + ',' + self.any(deep - 1) + ')'
        if k < 0.66:
            return 'LGT(' + self.text(deep - 1) + ',' + self.text(deep - 1) + ')'
        if k < 0.74:
            return 'INTEGER(' + self.any(deep - 1) + ')'
        if k < 0.90:
            return self.pick('~?') + self.group(self.predicate(deep - 1) if deep > 0 else self.pick(['EQ(1,2)', 'EQ(N,N)']))
        return self.pick('~?') + self.group(self.any(deep - 1))

    def call(self, deep: int) -> str:
        if not self.functions or self.chance(0.08):
            name = self.pick(['NOFUN', 'DETACH', 'ENDFILE', 'REWIND', 'INPUT', 'OUTPUT', 'DEFINE'])
            return self.acting(name, deep)
        name, count = self.pick(self.functions)
        args = [self.any(deep - 1) if self.chance(0.85) else '' for _ in range(max(0, count + self.pick([0, 0, 0, 0, 1, -1])))]
        return name + '(' + ','.join(args) + ')'

    def acting(self, name: str, deep: int) -> str:
        target = self.pick(["'R'", "'W'", "'A'", '.W', "'INPUT'", "'OUTPUT'", 'S', "''"])
        unit = self.pick(['8', '9', "''", '7', '99', "'08'", '', '8', '100', '0', "'X'"] if self.chance(0.3) else ['8', '9', ''])
        if name == 'INPUT':
            return 'INPUT(%s,%s,%s)' % (target, unit, self.pick(['', '', '1', '3', "'2'", '1024', '0', "'X'"] if self.chance(0.4) else ['', '3']))
        if name == 'OUTPUT':
            return 'OUTPUT(%s,%s,%s)' % (target, unit, self.pick(
                ['', "'(2A1)'", "'(1X,3A1)'", "'(1A1)'", "'(0A1)'", "'X'", "'(1X,1024A1)'"] if self.chance(0.4) else ['', "'(2A1)'", "'(1X,3A1)'"]))
        if name == 'DETACH':
            return 'DETACH(%s)' % target
        if name == 'DEFINE':
            return 'DEFINE(%s)' % self.pick(["'F(A)B'", "'G(X,N)'", "'F()','L1'", "'SIZE(X)','F'", "'H( A , B ) C ','G'", "'F(A'", "'F(A,A)'",
                                             "'F()A,B','NOWHERE'"])
        if name == 'NOFUN':
            return 'NOFUN(%s)' % self.any(deep - 1)
        return '%s(%s)' % (name, unit)

    def pattern(self, deep: int) -> str:
        k = self.r.random()
        if deep <= 0 or k < 0.14:
            return self.text(0)
        if k < 0.20:
            return self.pick(['P', 'A', '*A', '*P', '*S', '*X', '*INPUT'])
        if k < 0.22:
            return self.pick([self.item(deep - 1), '*T'])
        if k < 0.32:
            return self.pick(PATTERNS[:4] if self.chance(0.6) else PATTERNS)
        if k < 0.44:
            return self.pick(['LEN', 'POS', 'RPOS', 'TAB', 'RTAB']) + '(' + (self.pick(['0', '1', '2', '3']) if self.chance(0.85) else self.number(1)) + ')'
        if k < 0.54:
            return self.pick(['SPAN', 'BREAK', 'ANY', 'NOTANY']) + '(' + (self.pick(["'A'", "'AB'", "' '", "'()'", "12"]) if self.chance(0.85) else self.text(1)) + ')'
        if k < 0.60:
            return 'ARBNO(' + self.pattern(deep - 1) + ')'
        if k < 0.68:
            return self.group(self.pattern(deep - 1)) + self.pick([' . ', ' $ ']) + self.assigned()
        if k < 0.73:
            return '@' + self.assigned()
        if k < 0.76:
            return self.call(deep)
        return self.chain(deep, self.pattern, ['JOIN', 'JOIN', '|'])

    def any(self, deep: int) -> str:
        k = self.r.random()
        if k < 0.35:
            return self.text(deep)
        if k < 0.6:
            return self.number(deep)
        if k < 0.72:
            return self.pattern(deep)
        if k < 0.84:
            return self.variable()
        if k < 0.91:
            return self.pick(['T', 'U', 'TABLE()', 'TABLE(N)'] + [self.item(deep - 1)] * 4)
        return '*' + self.pick(NAMES + TABLES)

    # statements
    def target(self) -> str:
        k = self.r.random()
        later = [l for l in self.labels if int(l[1:]) > self.at + 1]
        if k < 0.55 and later:
            return '(' + self.pick(later) + ')'
        if k < 0.70 and self.labels:
            return '(' + self.pick(self.labels) + ')'
        if k < 0.74:
            return '(' + self.pick(['RETURN', 'FRETURN']) + ')'
        if k < 0.90:
            return '(END)'
        if k < 0.96:
            return '($' + self.pick(["('L' N)", "'L1'", 'S', 'INPUT', 'A', "'RETURN'", '.L2', self.item(1)]) + ')'
        return '(' + self.pick(['NOWHERE', 'NRETURN']) + ')'

    def goto(self) -> str:
        k = self.r.random()
        if k < 0.55:
            return ''
        if k < 0.68:
            return ' :' + self.target()
        if k < 0.80:
            return ' :S' + self.target()
        if k < 0.92:
            return ' :F' + self.target()
        return ' :S' + self.target() + 'F' + self.target()

    def body(self) -> str:
        k = self.r.random()
        deep = self.pick([1, 2, 2, 3])
        if k < 0.20:
            return self.assigned() + ' = ' + self.any(deep)
        if k < 0.28:
            return self.item(2) + ' =' + self.pick(['', ' ' + self.any(deep), ' ' + self.any(deep)])
        if k < 0.30:
            return self.pick(TABLES) + ' = ' + self.pick(['TABLE()'] * 5 + ['T', 'U', self.item(1), self.call(1)])
        if k < 0.42:
            return self.pick(['N', 'N', self.variable()]) + ' = ' + self.number(deep)
        if k < 0.52:
            return 'P = ' + self.pattern(deep)
        if k < 0.57:
            return self.pick(SET_KEYS if self.chance(0.9) else ['&STCOUNT', '&NOSUCH']) + ' = ' + \
                (self.pick(['0', '1', '20', '100', "'5'", '', '-1']) if self.chance(0.8) else self.number(1))
        if k < 0.62:
            return self.pick(['R', 'W', 'S', 'A', 'X']) + ' ='
        if k < 0.77:
            return self.group(self.text(deep)) + ' ' + self.pattern(deep)
        if k < 0.80:
            return self.item(2) + ' ' + self.pattern(deep) + self.pick(['', ' =', ' = ' + self.text(deep)])
        if k < 0.87:
            return self.variable() + ' ' + self.pattern(deep) + ' = ' + self.pick([self.text(deep), self.text(1), ''])
        if k < 0.93:
            return self.acting(self.pick(['INPUT', 'OUTPUT', 'DETACH', 'ENDFILE', 'REWIND', 'DEFINE', 'OUTPUT', 'INPUT']), 1)
        if k < 0.97:
            return self.group(self.pick([self.predicate(deep), self.call(deep)]))
        return ''

    def program(self) -> List[str]:
        n = self.r.randint(4, 12)
        names = ['L%d' % (i + 1) for i in range(n)]
        self.labels = [l for l in names if self.chance(0.6)]
        lines: List[str] = []
        functions = self.r.randint(0, 2)
        tail: List[str] = []
        for f in ['F', 'G'][:functions]:
            count = self.r.randint(0, 2)
            own = self.r.randint(0, 1)
            args = self.r.sample(NAMES + TABLES, count + own)
            lines.append("  DEFINE('%s(%s)%s')" % (f, ','.join(args[:count]), ','.join(args[count:])))
            self.functions.append((f, count))
            tail.append(f + ' ' + self.pick([f + ' = ' + self.any(2), self.body() or f]) + self.pick(['', ' :S(RETURN)F(FRETURN)', ' :(RETURN)']))
            if not tail[-1].endswith(':(RETURN)'):
                tail.append('  ' + f + ' = ' + self.any(2) + self.pick([' :(RETURN)', ' :S(RETURN)F(FRETURN)', ' :(FRETURN)']))
        if self.chance(0.5):
            lines.append("  INPUT('R',8)")
        if self.chance(0.5):
            lines.append("  OUTPUT('W',9,%s)" % self.pick(["''", "'(2A1)'", "'(1X,3A1)'"]))
        if self.chance(0.7):
            lines.append("  A = %s; S = %s" % (self.pick(STRINGS), self.pick(STRINGS)))
            lines.append("  N = %s; P = %s" % (self.pick(NUMBERS[:6]), self.pattern(2)))
        if self.chance(0.93):
            lines.append("  T = TABLE(); U = " + self.pick(['TABLE()', 'TABLE()', 'T']))
            lines += ['  ' + self.pick(['T<1>', "T<'A'>", 'U<1>', "U<'L2'>", 'T<U>']) + ' = ' + self.pick(STRINGS + NUMBERS + ['P', 'T', '*A'])
                      for _ in range(self.r.randint(0, 3))]
        for i in range(n):
            self.at = i
            label = names[i] if names[i] in self.labels else ''
            text = self.body() + self.goto()
            lines.append(label + ' ' + (text if label else ' ' + text))
        lines[-1] += ' :(END)' if ' :' not in lines[-1] else ''
        return lines + tail

    def answers(self) -> List[str]:
        out = []
        for _ in range(self.r.randint(0, 12)):
            k = self.r.random()
            out.append('GOT ' + self.pick(RECORDS) if k < 0.55 else 'DONE' if k < 0.85 else self.pick(['EOF', 'DENIED', 'FULL']))
        return [a.rstrip() if a == 'GOT ' else a for a in out]


def wrapped(line: str) -> List[str]:
    """a statement over cards of at most 190 characters, cut at blanks outside literals"""
    out = []
    while len(line) > 190:
        at, quote = 0, ''
        for i, ch in enumerate(line[:190]):
            if quote:
                quote = '' if ch == quote else quote
            elif ch in '\'"':
                quote = ch
            elif ch == ' ' and i > 5:
                at = i
        if not at:
            raise SyntaxError('too long')
        out.append(line[:at])
        line = '+' + line[at + 1:]
    return out + [line]


def one(seed: int) -> str:
    m = Maker(seed)
    cards = [c for line in m.program() for c in wrapped(line)] + ['END']
    statements, steps = m.pick([30, 60, 100]), m.pick([20, 100, 400, 2000])
    answers = m.answers()
    wanted = run(cards, answers, statements, steps)
    return '$CASE r%d ST=%d MATCH=%d\n%s\n$ANSWERS\n%s$WANTED\n%s\n' % (
        seed, statements, steps, '\n'.join(cards), ''.join(a + '\n' for a in answers), '\n'.join(wanted))


def main() -> None:
    count, seed, path = int(sys.argv[1]), int(sys.argv[2]), sys.argv[3]
    parts: List[str] = []
    endings: Dict[str, int] = {}
    refused = 0
    while len(parts) < count:
        try:
            parts.append(one(seed))
            words = parts[-1].rstrip('\n').split('\n')[-1].split(' ')
            ending = ' '.join(words[1:3 if words[1] in ('FAULT', 'MATCH', 'STATEMENT') else 2])
            endings[ending] = endings.get(ending, 0) + 1
        except SyntaxError:
            refused += 1
        seed += 1
    with open(path, 'w') as f:
        f.write('Random programs.\n\n' + '\n'.join(parts))
    print('%d programs, %d not taken; next seed %d' % (len(parts), refused, seed))
    print(sorted(endings.items(), key=lambda e: -e[1]))


if __name__ == '__main__':
    in_a_large_stack(main)
