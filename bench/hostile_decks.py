"""The decks of bench/hostile: each is one job, or one section of a deck, that does one thing at a length.

A case has a name, its size at the most, what is done before, a statement that is repeated, how many steps of a match it takes, and
a unit with how many of it there are, by which its time is told."""

from __future__ import annotations

import os
import subprocess
import sys
import tempfile
from typing import Callable, Dict, Iterable, Iterator, List, Optional, Sequence, Union

sys.dont_write_bytecode = True  # the repository has no folder for it
import job_decks

HERE = os.path.dirname(os.path.realpath(__file__))
LIST = job_decks.PAYROLL_LIST
MOST = 100_000  # &MAXLNGTH at the most
CARD = '$JOB lisa ST=10000000 MATCH=10000000'


Lines = Callable[[int], Iterable[str]]  # by the size
Count = Callable[[int], float]


class Case:
    """One statement of a job: `prepare` and `statement` give lines, by the size where they are functions. Without a unit it has no length."""

    def __init__(self, name: str, prepare: Union[Sequence[str], Lines], statement: Union[str, Callable[[int], str]], *, size: int = MOST,
                 steps: Count = lambda n: 1, unit: str = 'character', units: Optional[Count] = None, cards: Sequence[str] = (),
                 sets: Sequence[str] = (), most: int = 2_000_000) -> None:
        self.name, self.prepare, self.statement, self.size = name, prepare, statement, size
        self.steps, self.unit = steps, unit
        self.units: Count = units or (lambda n: n if unit else 1)
        self.cards, self.sets, self.most = cards, sets, most

    def deck(self, size: int, count: int) -> str:
        prepare = self.prepare(size) if callable(self.prepare) else self.prepare
        statement = self.statement(size) if callable(self.statement) else self.statement
        program = [
            '  &MAXLNGTH = 100000',
            *prepare,
            f'L.L N.N = LT(N.N,{count}) N.N + 1 :F(END)',
            f'{statement} :(L.L)',
            'END',
        ]
        return '\n'.join(job_decks.job(CARD, [*self.cards, *program], self.sets)) + '\n'


class Whole:
    """A deck whose length is the work: the lines by size."""

    most = 1

    def __init__(self, name: str, lines: Lines, size: int, unit: str) -> None:
        self.name, self.lines, self.size, self.unit = name, lines, size, unit

    def units(self, n: int) -> float:
        return n

    steps = units

    def deck(self, size: int, count: int) -> str:
        return '\n'.join(self.lines(size if count else 0)) + '\n'


Cases = Iterator[Union[Case, Whole]]


def text(letter: str, n: int) -> str:
    return f"DUPL('{letter}',{n})"


def classes() -> Cases:
    """A character at the end of what the class has, or in none of it."""

    def filled(n: int) -> List[str]:
        return [f"  A = {text('z', n - 1)} 'x'; S = {text('x', n)}"]

    for name in ('SPAN', 'BREAK', 'ANY', 'NOTANY'):
        def prepare(n: int, name: str = name) -> List[str]:
            return [*filled(n), f"  P = {name}(A); T = {text('y', n)}"]

        subject = {'SPAN': '  S POS(0) P', 'BREAK': '  T POS(0) P', 'ANY': '  S POS(0) P', 'NOTANY': '  T POS(0) P'}[name]
        yield Case(f'{name} of n', prepare, subject, steps=lambda n: 3)
        yield Case(f'{name} made of n', filled, f'  Q = {name}(A)')
    yield Case('SPAN of 10', lambda n: [f"  S = {text('x', n)}; P = SPAN('abcdefghix')"], '  S POS(0) P', steps=lambda n: 3)
    yield Case('BREAK of 10', lambda n: [f"  S = {text('x', n)} 'z'; P = BREAK('abcdefghiz')"], '  S POS(0) P', size=MOST - 1, steps=lambda n: 3)
    yield Case('BREAK at each start', lambda n: [f"  S = {text('x', n)}; P = BREAK('z')"], '  S P', steps=lambda n: n + 1)


def elements() -> Cases:
    """The other parts of patterns, where a text has n characters x."""

    def x(n: int) -> List[str]:
        return [f"  S = {text('x', n)}"]

    def plain(name: str, pattern: str, steps: Count, prepare: Lines = x) -> Case:
        return Case(name, prepare, f'  S {pattern}', steps=steps, unit='step', units=steps)

    def whole(name: str, prepare: Lines, statement: str) -> Case:
        return Case(name, prepare, statement, steps=lambda n: 3)

    for name in ('LEN', 'POS', 'TAB'):
        yield plain(name, f'{name}(100001)', lambda n: n + 1)
    yield plain('RPOS', 'RPOS(0)', lambda n: n + 1)
    yield plain('RTAB', "RTAB(0) 'y'", lambda n: 3 * (n + 1))
    yield plain('REM', "REM 'y'", lambda n: 3 * (n + 1))
    yield plain('FENCE', "FENCE 'y'", lambda n: 3)
    yield plain('FAIL', 'FAIL', lambda n: n + 1)
    yield Case('SUCCEED', x, '  S POS(0) SUCCEED POS(1)', steps=lambda n: 10_000_000, unit='step', units=lambda n: 10_000_000, most=1)
    yield plain('ARB', "POS(0) ARB 'y'", lambda n: 3 * n)
    yield plain('ARBNO', "POS(0) ARBNO('x') 'y'", lambda n: 5 * n)
    yield plain('ARBNO of a class', "POS(0) ARBNO(ANY('x')) 'y'", lambda n: 5 * n)
    yield plain('ARBNO with .', "POS(0) ARBNO(LEN(1) . V) 'y'", lambda n: 7 * n)
    yield plain('ARBNO with $', "POS(0) ARBNO(LEN(1) $ V) 'y'", lambda n: 7 * n)
    yield plain('ARBNO with @', "POS(0) ARBNO(LEN(1) @V) 'y'", lambda n: 7 * n)
    yield plain('ARBNO of *V', "POS(0) ARBNO(*V) 'y'", lambda n: 6 * n, lambda n: [*x(n), "  V = 'x'"])
    yield plain('ARBNO that matches, with .', 'POS(0) ARBNO(LEN(1) . V) RPOS(0)', lambda n: 7 * n)
    yield whole('BAL without an end', lambda n: [f"  S = {text('(', n)}"], '  S POS(0) BAL')
    yield Case('BAL at each start', lambda n: [f"  S = {text('(', n)}"], '  S BAL', size=MOST // 4, steps=lambda n: n + 1, unit='character of each step',
               units=lambda n: n * n / 2)
    yield whole('BAL, nested', lambda n: [f"  S = {text('(', n // 2)} {text(')', n // 2)}"], '  S POS(0) BAL RPOS(0)')
    yield Case('BAL, many ends', x, "  S POS(0) BAL 'y'", unit='character', steps=lambda n: n)
    yield Case('a text at each start', lambda n: [f"  S = {text('x', n)}; P = {text('x', n // 2)} 'y'"], '  S P', size=MOST // 4, steps=lambda n: n,
               unit='character of each step', units=lambda n: n * n * 3 / 8)
    yield whole('a text', lambda n: [f"  S = {text('x', n)}; P = {text('x', n)}"], '  S POS(0) P')
    yield whole('REM .', x, '  S REM . V')
    yield whole('REM $', x, '  S REM $ V')
    yield Case('$ of each beginning', x, "  S POS(0) ARB $ V 'y'", size=MOST // 4, steps=lambda n: 3 * n, unit='character of each step',
               units=lambda n: n * n / 2)

    def deep(n: int) -> List[str]:
        return [*x(n), '  P = REM', 'D P = LT(D,900) P . V :F(D2)', '  D = D + 1 :(D)', 'D2']

    yield Case('900 . of one part', deep, '  S P', steps=lambda n: 1801, unit='character of each step', units=lambda n: 900 * n)

    def many(n: int) -> List[str]:
        return [f"  S = {text('x', 5_000)}; P = 'a'", f'D D = LT(D,{n}) D + 1 :F(D2)', "  P = ('b' D) | P :(D)", 'D2']

    yield Case('n alternatives', many, '  S P', size=990, steps=lambda n: 10_000 * n, unit='step', units=lambda n: 10_000 * n)

    def joined(n: int) -> List[str]:
        return [f"  &ANCHOR = 1; S = {text('x', MOST)}; P = LEN(1)", f'D D = LT(D,{n}) D + 1 :F(D2)', '  P = LEN(1) P :(D)', 'D2']

    yield Case('n parts joined', joined, "  S P 'y'", size=990, steps=lambda n: 2 * n, unit='step', units=lambda n: 2 * n)

    def chain(n: int) -> List[str]:
        return ["  S = 'x'", '  V1 = *V1']

    yield Case('*V that stands for itself', chain, "  Y = 'x' (*V2 | 'x')", size=100, unit='')

    def named(n: int) -> List[str]:
        return [f"  S = 'x'; K = {text('k', n)}", '  P = LEN(1) $ $K']

    yield Case('$ to a name of n', named, '  S P', steps=lambda n: 3)
    yield Case('a pattern made of n and .', lambda n: [f"  K = {text('k', n)}"], '  P = LEN(1) . $K')


def functions() -> Cases:
    """The primitive functions on texts of n."""

    def two(n: int) -> List[str]:
        return [f"  S = {text('x', n - 1)} 'y'; T = {text('x', n - 1)} 'z'; U = {text('x', n - 1)} 'y'"]

    def zeros(n: int) -> List[str]:
        return [f"  Z = {text('0', n - 1)} '1'; Y = {text('0', n - 1)} '2'; M = '-' {text('0', n - 2)} '1'"]

    def blanks(n: int) -> List[str]:
        return [f"  B = {text(' ', n)}; C = 'x' {text(' ', n - 1)}"]

    def half(n: int) -> List[str]:
        return [f"  S = {text('x', n // 2)}; T = {text('y', n // 2)}"]

    yield Case('DUPL of 1', (), lambda n: f"  V = {text('x', n)}")
    yield Case('DUPL of n / 2', half, '  V = DUPL(S,2)')
    yield Case('DUPL of null', (), "  V = DUPL('',9223372036854775807)", unit='')
    yield Case('REPLACE', two, '  V = REPLACE(S,S,T)')
    yield Case('TRIM', blanks, '  V = TRIM(B)')
    yield Case('TRIM of none', two, '  V = TRIM(S)')
    yield Case('SIZE', two, '  V = SIZE(S)')
    yield Case('LGT', two, '  V = LGT(T,S)')
    yield Case('IDENT', two, '  V = IDENT(S,U)')
    yield Case('DIFFER', two, '  V = DIFFER(S,T)')
    yield Case('INTEGER', zeros, '  V = INTEGER(Z)')
    yield Case('DATATYPE', two, '  V = DATATYPE(S)', unit='')
    yield Case('EQ', zeros, '  V = EQ(Z,Z)', units=lambda n: 2 * n)
    for sign in '+-':
        yield Case(f'unary {sign}', zeros, f'  V = {sign}Z')
    for sign in ('+', '-', '*', '/', '**'):
        yield Case(f'binary {sign}', zeros, f'  V = Z {sign} Y', units=lambda n: 2 * n)
    for name in ('LEN', 'POS', 'RPOS', 'TAB', 'RTAB'):
        yield Case(f'{name} of n digits', zeros, f'  V = {name}(Z)')
    yield Case('a blank', half, '  V = S T')
    yield Case('a blank, of 490 operands', lambda n: [f"  S = {text('x', n // 490)}"], '  V = ' + '\n+ '.join(['S ' * 49] * 10), steps=lambda n: 489,
               unit='character of each operator', units=lambda n: n * 245)
    yield Case('a replacement', two, "  S POS(0) LEN(1) = 'x'")
    yield Case('a copy', two, '  V = S', unit='')
    yield Case('$ of a name of n', lambda n: [f"  K = {text('k', n)}"], '  V = $K')
    yield Case('$ of a name of n, set', lambda n: [f"  K = {text('k', n)}"], '  $K = 1')

    def alike(n: int) -> List[str]:
        return [f"  K = {text('k', n)}; J = {text('k', n - 2)} 'j' 'k'; $K = 1; $J = 2"]

    yield Case('$ of two names of n', alike, '  V = $K $J', units=lambda n: 2 * n)
    yield Case('a keyword', zeros, '  &ANCHOR = Z')
    yield Case('T<n> of a text', lambda n: [f"  T = TABLE(); K = {text('k', n)}; T<K> = 1"], '  V = T<K>')
    yield Case('T<n> of a text, set', lambda n: [f"  T = TABLE(); K = {text('k', n)}"], '  T<K> = 1')


def units() -> Cases:
    """Associations, records and formats."""

    def digits(n: int) -> List[str]:
        return [f"  F = '(' {text('0', n - 5)} '9A1)'; Z = {text('0', n - 1)} '8'; K = {text('k', n)}; S = {text('x', n)}"]

    def narrow(n: int) -> List[str]:
        return [f"  S = {text('x', n)}; OUTPUT('O',6,'(1A1)'); OUTPUT('W',8,'(1A1)'); OUTPUT('A',9,'(1A1)')"]

    sets = ['$SET WIDE anna admin 0', LIST.replace('lisa:rw-', 'lisa:rwx'), '$SET LOG anna admin 0', LIST]
    yield Case('OUTPUT with a format of n', digits, "  OUTPUT('W',8,F)")
    yield Case('OUTPUT of a name of n', digits, '  OUTPUT(K,8)')
    yield Case('INPUT with n digits', digits, "  INPUT('R',Z,Z)", units=lambda n: 2 * n)
    yield Case('DETACH', digits, '  DETACH(K)')
    yield Case('ENDFILE, denied', digits, '  ENDFILE(Z)', most=100_000)
    yield Case('REWIND', digits, '  REWIND(Z)', most=100_000)
    yield Case('n records of one character spooled', narrow, '  O = S', unit='record', most=3)
    yield Case('n records of one character to a SEQ set', narrow, '  W = S', unit='record', most=1, cards=['$UNIT 8 WIDE'], sets=sets)
    yield Case('98 records of 1,024 spooled', lambda n: [f"  S = {text('x', n)}; OUTPUT('O',6)"], '  O = S', most=1_000)

    def again(n: int) -> List[str]:
        return [f"  S = {text('x', n)}; OUTPUT('W',8,'(1A1)'); OUTPUT('V',9,'(1A1)'); W = S"]

    yield Case('n records cut by a write', again, "  V = 'x'", unit='record', most=1, cards=['$UNIT 8 WIDE', '$UNIT 9 WIDE'], sets=sets)
    yield Case('98 notes in a statement', lambda n: ["  OUTPUT('W',20)"], "  W = 'x'", unit='', most=100_000)


def names() -> Cases:
    """As many names of three or four characters as n characters hold, each with a comma."""
    prepare = [
        "  A = 'ABCDEFGHIJKLMNOPQRSTUVWXYZabcdefghijklmnopqrstuvwxyz'",
        'NEXT A LEN(1) . X = :F(MADE)',
        "  B = 'ABCDEFGHIJKLMNOPQRSTUVWXYZabcdefghijklmnopqrstuvwxyz'",
        'BACK B LEN(1) . Y = :F(NEXT)',
        "  C = 'ABCDEFGHIJKLMNOPQRSTUVWXYZabcdefghijklmnopqrstuvwxyz'",
        'LAST C LEN(1) . Z = :F(BACK)',
        '  K = K + 1; LT(K,{most}) :F(MADE)',
        "  P = P ',' X Y Z :(LAST)",
        'MADE',
    ]
    size = 24_900

    def listed(n: int) -> List[str]:
        return [line.format(most=n) for line in prepare]

    shape = "'F(' 'AAA.' P ')'"
    yield Case('DEFINE of n names', listed, f'  DEFINE({shape})', size=size, unit='name', most=100_000)

    def many(n: int) -> List[str]:
        return [*listed(n), f'  DEFINE({shape}) :(GO)', 'F :(RETURN)', 'GO']

    yield Case('a call with n arguments that are null', many, '  F()', size=size, unit='name', most=100_000)
    body = 'F R = LT(R,190) R + 1 :F(RETURN)\n  F() :S(RETURN)F(FRETURN)'

    def deep(n: int) -> List[str]:
        return [*listed(n), f'  DEFINE({shape}) :(GO)', *body.split('\n'), 'GO']

    yield Case('190 calls, one in the other, of n names', deep, '  R = 0; F()', size=size, unit='name of each call', units=lambda n: 190 * n,
               steps=lambda n: 190, most=100)


def gotos() -> Cases:
    """Computed gotos among n labels."""

    def lines(n: int) -> List[str]:
        program = ['B N = LT(N,%d) N + 1 :F(END)' % n, "  X = 'X' N :($X)", *(f'X{i} :(B)' for i in range(1, n + 1)), 'END']
        return job_decks.job(CARD, program)

    yield Whole('n labels, each gone to', lines, 200_000, 'label')


def programs() -> Cases:
    """Long programs: what a line of a deck costs."""
    yield Whole('statements of 1,000 tokens', lambda n: job_decks.refused(c for i in range(n) for c in job_decks.wrapped(['W'] * 996)), 1_000, 'statement')
    nested = '  X = ' + '(' * 90 + 'A' + ')' * 90
    yield Whole('statements of 90 parentheses', lambda n: job_decks.refused(nested for _ in range(n)), 20_000, 'statement')
    yield Whole('unary operators', lambda n: job_decks.refused(['  X = ' + '-' * 190 + 'A'] * n), 20_000, 'statement')
    powers = ['  X = A', *['+' + ' ** A' * 39] * 12]
    yield Whole('statements of 468 powers', lambda n: job_decks.refused(powers * n), 2_000, 'statement')
    yield Whole('statements', lambda n: job_decks.refused(f'  N{i} = {i}' for i in range(n)), 400_000, 'statement')
    yield Whole('labels', lambda n: job_decks.refused(f'L{i}' for i in range(n)), 400_000, 'statement')
    yield Whole('statements of one line', lambda n: job_decks.refused(['  A', *['+' + ';A' * 99] * (n // 99)]), 400_000, 'statement')
    yield Whole('blank continuations', lambda n: job_decks.refused(['  A', *['+' + ' ' * 199] * n]), 100_000, 'card')
    yield Whole('an open literal', lambda n: job_decks.refused(["  A = '", *['+' + 'x' * 199] * n]), 100_000, 'card')
    yield Whole('comments', lambda n: job_decks.refused(['*' + 'x' * 199] * n), 200_000, 'card')
    yield Whole('comments between continuations', lambda n: job_decks.refused(['  A', *['* x', '+'] * n]), 200_000, 'card')
    yield Whole('lines of data', lambda n: job_decks.job(CARD, ['END', *['x'] * n]), 1_000_000, 'line')
    yield Whole('a statement with its fault at the end', lambda n: job_decks.refused(['  A = A', *['+ ' + 'B' * 190] * n, '+ )']), 900, 'card')


def decks() -> Cases:
    """Cards, lists and jobs."""
    entries = ['user::rwx', 'group::r--', 'mask::rwx', 'other::---', *(f'user:account{i:03}:rw-' for i in range(100))]

    def alike(text: str, n: int) -> List[str]:
        return [*job_decks.opening(['$SET S anna admin 0', LIST]), *[text] * n, '$STOP']

    whole = '\n'.join(['$SETACL anna S', *entries, '$ENDACL'])
    yield Whole('$SETACL of 100 entries', lambda n: alike(whole, n), 10_000, 'card')
    worst = '\n'.join(['$SETACL anna S', *reversed(entries), '$ENDACL'])
    yield Whole('$SETACL of 100 entries, backwards', lambda n: alike(worst, n), 10_000, 'card')
    yield Whole('a list of n comments', lambda n: alike('\n'.join(['$SETACL anna S', *['#' + 'x' * 190] * n, '$ENDACL']), 1), 200_000, 'line')
    yield Whole('a list of n entries', lambda n: alike('\n'.join(['$SETACL anna S', *(f'u:a{i}:r' for i in range(n)), '$ENDACL']), 1), 200_000, 'line')
    yield Whole('a list of n empty entries', lambda n: alike('\n'.join(['$SETACL anna S', *[':'] * n, '$ENDACL']), 1), 200_000, 'line')
    yield Whole('$LIST', lambda n: alike('$LIST anna S', n), 500_000, 'card')
    yield Whole('$TURN of no job', lambda n: alike('$TURN 8 1000000', n), 200_000, 'card')
    yield Whole('$DRAIN of no job', lambda n: alike('$DRAIN', n), 500_000, 'card')
    yield Whole('jobs of one statement', lambda n: alike('$JOB lisa\n A\nEND\n$EOJ', n), 100_000, 'job')
    yield Whole('jobs that are refused', lambda n: alike('$JOB nobody\n$EOJ', n), 200_000, 'job')
    ties = '\n'.join(f'$UNIT {i} S' for i in range(1, 100))
    yield Whole('jobs of 99 ties', lambda n: alike(f'$JOB lisa\n{ties}\nEND\n$EOJ', n), 5_000, 'job')
    twice = '\n'.join(['$UNIT 1 S'] * 1000)
    yield Whole('jobs of 1,000 refused ties', lambda n: alike(f'$JOB lisa\n{twice}\nEND\n$EOJ', n), 500, 'job')
    yield Whole('ties of one job', lambda n: alike('$JOB lisa\n' + '$UNIT 1 S\n' * n + 'END\n$EOJ', 1), 200_000, 'card')

    def accounts(n: int) -> List[str]:
        return ['$ACCOUNTS', *(f'a{i} ' + ' '.join(f'g{k}' for k in range(17)) for i in range(n)), '$CATALOGUE', '$STREAM', '$STOP']

    yield Whole('accounts', accounts, 100_000, 'account')


COLLIDING: Dict[str, List[str]] = {}


def colliding(count: int, kind: str) -> List[str]:
    """The keys of plain/colliding.rs, which are made once."""
    if kind not in COLLIDING:
        with tempfile.TemporaryDirectory() as folder:
            program = f'{folder}/colliding'
            subprocess.run(['rustc', '--edition', '2021', '-O', '-o', program, f'{HERE}/plain/colliding.rs'], check=True)
            for each in ('keys', 'names'):
                words = [program, '100000', *(['names'] if each == 'names' else [])]
                COLLIDING[each] = subprocess.run(words, stdout=subprocess.PIPE, text=True, check=True).stdout.split()
    return COLLIDING[kind][:count]


def keys() -> Cases:
    """Keys of tables and names of variables: in order, and chosen so that they collide."""

    def reading(records: List[str], statement: str) -> List[str]:
        sets = [f'$SET KEYS anna admin {len(records)}', LIST, *records]
        return job_decks.job(CARD, ['$UNIT 5 KEYS', '  T = TABLE()', 'L N = INPUT :F(END)', statement, 'END'], sets)

    item, variable = '  T<+N> = 1 :(L)', '  $N = 1 :(L)'
    yield Whole('integers as keys', lambda n: reading([str(i) for i in range(n)], item), 100_000, 'key')
    yield Whole('texts as keys', lambda n: reading([str(i) for i in range(n)], '  T<N> = 1 :(L)'), 100_000, 'key')
    yield Whole('names', lambda n: reading([f'1{i}' for i in range(n)], variable), 100_000, 'name')
    yield Whole('integers that collide as keys', lambda n: reading(colliding(n, 'keys'), item), 100_000, 'key')
    yield Whole('names that collide', lambda n: reading(colliding(n, 'names'), variable), 100_000, 'name')


def cases() -> Dict[str, Union[Case, Whole]]:
    groups: List[Callable[[], Cases]] = [classes, elements, functions, units, names, gotos, programs, decks, keys]
    return {case.name: case for group in groups for case in group()}


def kept() -> Iterator[Whole]:
    """What a job keeps in memory: a deck by how many there are, and how many at the most are measured."""

    def one(name: str, *program: str, size: int = 1_000_000, options: str = 'ST=10000000 MATCH=10000000', cards: Sequence[str] = (),
            data: Sequence[str] = (), sets: Sequence[str] = ()) -> Whole:
        def lines(n: int) -> List[str]:
            return job_decks.job(f'$JOB lisa {options}'.replace('#', str(n)),
                                 [*cards, *(line.replace('#', str(n)) for line in program), 'END', *list(data) * n], sets)

        return Whole(name, lines, size, name)

    log = ['$SET LOG anna admin 0', LIST]
    yield one('spooled line of 1 character', 'L N = LT(N,#) N + 1 :F(END)', "  OUTPUT = 'x' :(L)")
    yield one('spooled line of 132', "  S = DUPL('x',132)", 'L N = LT(N,#) N + 1 :F(END)', '  OUTPUT = S :(L)')
    yield one('spooled line of 1,024', "  S = DUPL('x',1024); OUTPUT('OUTPUT',6)", 'L N = LT(N,#) N + 1 :F(END)', '  OUTPUT = S :(L)', size=200_000)
    yield one('note of a unit', "  OUTPUT('W',20)", 'L N = LT(N,#) N + 1 :F(END)', "  W = 'x' :(L)")
    yield one('note of a data set', "  INPUT('W',8)", 'L N = LT(N,#) N + 1 :F(END)', '  X = W :(L)', cards=['$UNIT 8 A.NAME.OF.31.CHARACTERS.AT.MOST'[:39]])
    yield one('record of 1', "  OUTPUT('W',8)", 'L N = LT(N,#) N + 1 :F(END)', "  W = 'x' :(L)", cards=['$UNIT 8 LOG'], sets=log, size=100_000)
    yield one('record of 1,024', "  OUTPUT('W',8); S = DUPL('x',1024)", 'L N = LT(N,#) N + 1 :F(END)', '  W = S :(L)', cards=['$UNIT 8 LOG'], sets=log,
              size=100_000)
    yield one('variable of an integer', 'L N = LT(N,#) N + 1 :F(END)', '  $N = N :(L)')
    yield one('string of 10 in a variable', 'L N = LT(N,#) N + 1 :F(END)', "  $N = N 'ABC' :(L)")
    yield one('string of 1,000 in a variable', "  S = DUPL('x',993)", 'L N = LT(N,#) N + 1 :F(END)', '  $N = S N :(L)', size=200_000)
    yield one('string of 100,000 in a variable', "  &MAXLNGTH = 100000; S = DUPL('x',99993)", 'L N = LT(N,#) N + 1 :F(END)', '  $N = S N :(L)', size=5_000)
    yield one('item of an integer by an integer', '  T = TABLE()', 'L N = LT(N,#) N + 1 :F(END)', '  T<N> = N :(L)', size=100_000)
    yield one('item of a string by a string', '  T = TABLE()', 'L N = LT(N,#) N + 1 :F(END)', "  T<N 'ABC'> = 'D' N :(L)", size=100_000)
    yield one('pattern of one part', 'L N = LT(N,#) N + 1 :F(END)', '  $N = LEN(N) :(L)', size=500_000)
    yield one('pattern of 10 parts', 'L N = LT(N,#) N + 1 :F(END)', '  $N = LEN(N) | POS(N) | TAB(N) | RTAB(N) | RPOS(N) :(L)', size=200_000)
    yield one('step of a match', "  Q = *Q 'C' | 'D'", "  'E' Q :(END)", options='MATCH=#', size=4_000_000)
    yield one('step of a match with .', "  &MAXLNGTH = 100000; S = DUPL('x',100000)", "  S POS(0) ARBNO(LEN(0) LEN(1) . V) 'y'", options='MATCH=#',
              size=800_000)
    yield one('name of a function, in each call', "  DEFINE('F(N)" + ','.join(f'V{i}' for i in range(20)) + "') :(GO)", 'F EQ(N,0) :S(RETURN)',
              '  F(N - 1) :(RETURN)', 'GO F(# / 22)', size=4_000)
    yield one('line of data of 1', data=['x'])
    yield one('line of data of 200', data=['x' * 200], size=200_000)
    yield Whole('card of a comment', lambda n: job_decks.job(CARD, [*['*'] * n, 'END']), 1_000_000, 'card')
    yield Whole('statement A = 1', lambda n: job_decks.job(CARD, [' A = 1 :(END)'] * n + ['END']), 500_000, 'statement')
    yield Whole('statement of a card of 200', lambda n: job_decks.job(CARD, [' A = ' + ' '.join(['B'] * 90) + ' :(END)'] * n + ['END']), 20_000, 'statement')
    yield Whole('label', lambda n: job_decks.job(CARD, [f'L{i} :(END)' for i in range(n)] + ['END']), 500_000, 'label')
