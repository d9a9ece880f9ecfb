#!/usr/bin/env python3
"""job_decks.py CASE [SIZE]: writes a deck whose work is that of jobs, or of many commands. SIZE is 1, the whole, or less.

The cases, at their whole size:

  copy            100,000 records read from one data set and written to another, by a named user without further groups
  copy_by_owner   the same by the owner of both
  copy_by_groups  the same by an account of 16 further groups, of which the lists name the last
  spool           100,000 records read from a data set and printed
  match           100 matches of 503,503 steps, nearly all of it one text that is tried at each cursor
  alternatives    one match of 10,000,000 steps that backs up through ARBNO, an alternation and conditional assignments
  recursion       a left-recursive pattern, until 10,000,000 steps are taken: the most goals and choices that there can be
  loop            10,000,000 statements of arithmetic
  functions       some 910,000 statements, nearly all within calls of a function of three arguments and a local
  calls           10,000,000 calls of a function, in two jobs that come one behind the other, ten calls a statement
  matches         a match in each of 10,000,000 statements
  classes         a match of 3,000 steps, of which each fourth is a SPAN over 10,000 characters whose argument has 99,601, the
                  last of them the one that counts; and the same of BREAK, in a second job
  strings         870,031 statements: words cut off a text by a pattern, and counted in variables named by them
  item_counts     50,000 items of a table, to each of which 1 is added 20 times: 2,000,000 statements
  variable_counts the same over variables that `$` names
  item_words      870,012 words cut off a text by a pattern, and counted in the items of a table
  variable_words  the same over variables that `$` names
  items           100,000 items, the most that a job may have, of an integer each
  lists           the case of decks.py: 20,000 commands, 2,018,000 access checks on lists of 100 named entries
  many_names      20,000 $CATALOG over 1,000 data sets of 100 named entries; a list is set anew now and then
  joined          1,000 statements of 996 joined names, read and refused at the END line, so that nothing runs
  statements      100,000 statements of a card each, read and refused at the END line
  table_int       100,000 items by integers that are spread, set and read again
  table_text      100,000 items by texts of five to ten characters, formed, set, formed again and read
  small_jobs      20,000 jobs of three statements and a line of spool; a job ends before the fifth behind it is loaded
  turns           four jobs of 250,000 statements each in four slots, so that each turn is of another job than the one before
  copy_and_spool  100,000 records read by a variable, written from there to another data set, and printed
  arguments       500,000 calls of a function of three arguments and a local, one a statement, two statements a call
  operands        1,500,000 statements whose objects have two or three operands, all of them integers
  concatenation   400,000 statements, of which three of four join two, three and four texts; one text grows to 3,000 characters
  replacing       600,000 statements, of which one of three is a REPLACE and one a DUPL, on texts of 44 characters
  set_lists       5,000 $SETACL with a list of 100 named entries each, over 100 data sets, and 5,000 with lists on the card
"""

from __future__ import annotations

import random
import sys
from typing import Callable, Dict, Iterable, Iterator, List, Tuple

sys.dont_write_bytecode = True  # the repository has no folder for it
import decks

PAYROLL_LIST = 'user::rwx,user:lisa:rw-,group::r--,mask::rw-,other::---'
TEAM_LIST = 'user::rwx,group::r--,group:team:rw-,mask::rw-,other::---'


def opening(catalogue: Iterable[str] = (), lisa: str = 'lisa staff') -> List[str]:
    return ['$ACCOUNTS', 'anna admin', lisa, 'hugo ops staff', '$CATALOGUE', *catalogue, '$STREAM']


def job(card: str, lines: Iterable[str], catalogue: Iterable[str] = (), lisa: str = 'lisa staff', behind: Iterable[str] = ()) -> List[str]:
    """A deck of one job, and what stands behind it."""
    return [*opening(catalogue, lisa), card, *lines, '$EOJ', *behind, '$STOP']


def records(count: int, acl: str = PAYROLL_LIST) -> List[str]:
    tail = 'ABCDEFGHIJKLMNOPQRSTUVWXYZ0123456789'
    return [f'$SET BIG anna admin {count}', acl, *(f'RECORD {i:06} {tail}' for i in range(count))]


def copies(size: float, acl: str, who: str = 'lisa', lisa: str = 'lisa staff') -> List[str]:
    sets = [*records(int(100_000 * size), acl), '$SET OUT anna admin 0', acl]
    program = ['$UNIT 8 BIG', '$UNIT 9 OUT', "  INPUT('R',8); OUTPUT('W',9)", 'L W = R :S(L)', 'END']
    return job(f'$JOB {who} ST=200000', program, sets, lisa)


def copy(size: float) -> List[str]:
    return copies(size, PAYROLL_LIST)


def copy_by_owner(size: float) -> List[str]:
    return copies(size, PAYROLL_LIST, who='anna')


def copy_by_groups(size: float) -> List[str]:
    groups = [f'g{i:02}' for i in range(15)]
    return copies(size, TEAM_LIST, lisa=' '.join(['lisa staff', *groups, 'team']))


def spool(size: float) -> List[str]:
    return job('$JOB lisa ST=200000', ['$UNIT 5 BIG', 'L OUTPUT = INPUT :S(L)', 'END'], records(int(100_000 * size)))


def match(size: float) -> List[str]:
    count = int(100 * size)
    program = ["  S = DUPL('A',1000)", f'L N = LT(N,{count}) N + 1 :F(END)', "  S ARB 'B' :F(L)", 'END']
    return job('$JOB lisa MATCH=1000000', program)


def alternatives(size: float) -> List[str]:
    program = ["  S = DUPL('XYZ',1500)", "  S POS(0) ARBNO(('X' | 'YZ' | 'Y' | 'Z') . V) 'W'", 'END']
    return job(f'$JOB lisa MATCH={int(10_000_000 * size)}', program)


def recursion(size: float) -> List[str]:
    return job(f'$JOB lisa MATCH={int(10_000_000 * size)}', ["  Q = *Q 'C' | 'D'", "  'E' Q", 'END'])


def loop(size: float) -> List[str]:
    count = int(10_000_000 * size)
    program = ['  I = 0', 'L I = I + 1', '  S = S + I * 3 - 1', f'  LT(I,{count}) :S(L)', 'END']
    return job(f'$JOB lisa ST={count}', program)


def functions(size: float) -> List[str]:
    return job(
        '$JOB lisa ST=5000000',
        [
            "  DEFINE('TAK(X,Y,Z)R') :(GO)",
            'TAK TAK = GE(Y,X) Z :S(RETURN)',
            '  R = TAK(Y - 1,Z,X)',
            '  TAK = TAK(TAK(X - 1,Y,Z),R,TAK(Z - 1,X,Y)) :(RETURN)',
            f'GO N = LT(N,{int(350 * size)}) N + 1 :F(END)',
            '  X = TAK(12,8,4) :(GO)',
            'END',
        ],
    )


def calls(size: float) -> List[str]:
    """The second job comes when the first has ended: neither may begin more than 10,000,000 statements."""
    count = int(500_000 * size)
    program = [
        "  DEFINE('F(N)') :(L)",
        'F F = N :(RETURN)',
        f'L N = LT(N,{count}) N + 1 :F(END)',
        f"  X ={' + F(N)' * 10} :(L)".replace('= + ', '= '),
        'END',
    ]
    card = f'$JOB lisa ST={13 * count + 10}'
    return job(card, program, behind=['$DRAIN', card, *program, '$EOJ'])


def matches(size: float) -> List[str]:
    return job(f'$JOB lisa ST={int(10_000_000 * size)}', ["L 'A' LEN(1) :(L)", 'END'])


def classes(size: float) -> List[str]:
    def lines(pattern: str, text: str) -> List[str]:
        return [
            '  &MAXLNGTH = 100000',
            "  A = DUPL('A',99600) 'X'",
            f'  S = {text}',
            f"  S POS(0) SUCCEED {pattern} 'Z'",
            'END',
        ]

    card = f'$JOB lisa MATCH={int(3_000 * size)}'
    behind = ['$DRAIN', card, *lines('BREAK(A)', "DUPL('Y',9999) 'X'"), '$EOJ']
    return job(card, lines('SPAN(A)', "DUPL('X',10000)"), behind=behind)


def strings(size: float) -> List[str]:
    return job(
        '$JOB lisa ST=1000000',
        [
            "  W = BREAK(' ') . X SPAN(' ')",
            "G S = 'THE QUICK BROWN FOX JUMPS OVER THE LAZY DOG AND RUNS AWAY AGAIN '",
            'L S W = :F(T)',
            "  $('C.' X) = $('C.' X) + 1 :(L)",
            f'T N = LT(N,{int(30_000 * size)}) N + 1 :S(G)',
            "  OUTPUT = $'C.THE'",
            'END',
        ],
    )


def counts(size: float, opened: str, one: Callable[[str], str]) -> List[str]:
    program = [
        f'  {opened}',
        f'G R = LT(R,{int(20 * size)}) R + 1 :F(T)',
        '  I = 0',
        'L I = LT(I,50000) I + 1 :F(G)',
        f"  {one('I')} = {one('I')} + 1 :(L)",
        f"T OUTPUT = {one('1')} ' ' {one('50000')}",
        'END',
    ]
    return job('$JOB lisa ST=10000000', program)


def words(size: float, opened: str, one: Callable[[str], str]) -> List[str]:
    program = [
        f"  {opened}; W = BREAK(' ') . X SPAN(' ')",
        "G S = 'THE QUICK BROWN FOX JUMPS OVER THE LAZY DOG AND RUNS AWAY AGAIN '",
        'L S W = :F(T)',
        f"  {one('X')} = {one('X')} + 1 :(L)",
        f'T N = LT(N,{int(66_923 * size)}) N + 1 :S(G)',
        f"  OUTPUT = {one(chr(39) + 'THE' + chr(39))}",
        'END',
    ]
    return job('$JOB lisa ST=10000000', program)


ITEMS: Tuple[str, Callable[[str], str]] = ('T = TABLE()', lambda key: f'T<{key}>')
VARIABLES: Tuple[str, Callable[[str], str]] = ("T = ''", lambda key: f"$('T.' {key})")


def item_counts(size: float) -> List[str]:
    return counts(size, *ITEMS)


def variable_counts(size: float) -> List[str]:
    return counts(size, *VARIABLES)


def item_words(size: float) -> List[str]:
    return words(size, *ITEMS)


def variable_words(size: float) -> List[str]:
    return words(size, *VARIABLES)


def items(size: float) -> List[str]:
    program = [
        '  T = TABLE()',
        f'L N = LT(N,{int(100_000 * size)}) N + 1 :F(END)',
        '  T<N> = N :(L)',
        'END',
    ]
    return job('$JOB lisa ST=300000', program)


def lists(size: float) -> Iterator[str]:
    return decks.drawn_lists(int(1_000 * size), 20_000)


def many_names(size: float) -> Iterator[str]:
    dice, sets = random.Random(7), int(1_000 * size)
    accounts = [f'user{i:03}' for i in range(200)]
    yield '$ACCOUNTS'
    for i, account in enumerate(accounts):
        yield ' '.join([account, *(f'team{group:02}' for group in [i % 40, *((i * 11 + k) % 40 for k in range(1, 5))])])
    yield '$CATALOGUE'
    for i in range(sets):
        yield f'$SET DATA{i:04} user000 team{dice.randrange(40):02} 0'
        entries = ['user::rwx', 'group::r--', 'mask::rwx', 'other::---']
        entries += [f'user:{name}:r--' for name in dice.sample(accounts, 65)]
        entries += [f"group:team{name:02}:{dice.choice(['r--', '---', 'r-x'])}" for name in dice.sample(range(40), 35)]
        yield ','.join(entries)
    yield '$STREAM'
    for k in range(20_000):
        if k % 150 == 0:
            yield f'$SETACL user000 DATA{dice.randrange(sets):04} u::rwx,g::r,o::---'
        yield f'$CATALOG {dice.choice(accounts)}'
    yield '$STOP'


def wrapped(words: Iterable[str]) -> Iterator[str]:
    """The cards of a statement whose object is these words, joined."""
    text = '  X ='
    for word in words:
        if len(text) + len(word) + 1 > 190:
            yield text
            text = '+'
        text += ' ' + word
    yield text


def refused(lines: Iterable[str]) -> List[str]:
    """A deck whose one job is read, and refused for a label that is missing."""
    return job('$JOB lisa', [*lines, 'END NOWHERE'])


def joined(size: float) -> List[str]:
    return refused(card for i in range(int(1_000 * size)) for card in wrapped(f'W{(k * 7 + i) % 97}' for k in range(996)))


def statements(size: float) -> List[str]:
    return refused(f'  N{i % 500} = N{(i * 3) % 500} + {i}' for i in range(int(100_000 * size)))


def table_items(size: float, key: str, read_key: str) -> List[str]:
    count = int(100_000 * size)
    program = [
        '  T = TABLE()',
        f'L N = LT(N,{count}) N + 1 :F(M)',
        f'  T<{key}> = N :(L)',
        f'M I = LT(I,{count}) I + 1 :F(E)',
        f'  S = S + T<{read_key}> :(M)',
        'E OUTPUT = S',
        'END',
    ]
    return job('$JOB lisa ST=500000', program)


def table_int(size: float) -> List[str]:
    return table_items(size, 'N * 7919', 'I * 7919')


def table_text(size: float) -> List[str]:
    return table_items(size, "'KEY.' N", "'KEY.' I")


def small_jobs(size: float) -> Iterator[str]:
    yield from opening()
    for i in range(1, int(20_000 * size) + 1):
        yield from ('$JOB lisa', f'  N = {i}', '  M = N * 2 + 1', "  OUTPUT = 'JOB ' N ' GIVES ' M", 'END', '$EOJ')
        if i % 4 == 0:
            yield '$DRAIN'
    yield '$STOP'


def turns(size: float) -> Iterator[str]:
    yield from opening()
    for _ in range(4):
        yield from ('$JOB lisa ST=1000000', f'L N = LT(N,{int(250_000 * size)}) N + 1 :S(L)', '  OUTPUT = N', 'END', '$EOJ')
    yield '$STOP'


def copy_and_spool(size: float) -> List[str]:
    sets = [*records(int(100_000 * size)), '$SET OUT anna admin 0', PAYROLL_LIST]
    program = ["  INPUT('R',8); OUTPUT('W',9)", 'L X = R :F(END)', '  W = X', '  OUTPUT = X :(L)', 'END']
    return job('$JOB lisa ST=500000', ['$UNIT 8 BIG', '$UNIT 9 OUT', *program], sets)


def arguments(size: float) -> List[str]:
    program = [
        "  DEFINE('F(A,B,C)D') :(GO)",
        'F D = A + B; F = D * C :(RETURN)',
        f'GO N = LT(N,{int(500_000 * size)}) N + 1 :F(END)',
        '  X = F(N,2,3) - N :(GO)',
        'END',
    ]
    return job('$JOB lisa ST=5000000', program)


def operands(size: float) -> List[str]:
    program = [
        f'L I = LT(I,{int(500_000 * size)}) I + 1 :F(E)',
        '  A = I + 2; B = A - I * 3; C = A * B - I :(L)',
        "E OUTPUT = A ' ' B ' ' C",
        'END',
    ]
    return job('$JOB lisa ST=5000000', program)


def concatenation(size: float) -> List[str]:
    program = [
        "  &MAXLNGTH = 100000; A = 'ONE'; B = 'TWO'",
        f'G R = LT(R,{int(100 * size)}) R + 1 :F(E)',
        "  I = 0; S = ''",
        'L I = LT(I,1000) I + 1 :F(G)',
        "  S = S A; C = A ' ' B; D = I A '-' B :(L)",
        "E OUTPUT = SIZE(S) ' ' C ' ' D",
        'END',
    ]
    return job('$JOB lisa ST=5000000', program)


def replacing(size: float) -> List[str]:
    program = [
        "  S = 'THE QUICK BROWN FOX JUMPS OVER THE LAZY DOGS'",
        "  A = 'ABCDEFGHIJKLMNOPQRSTUVWXYZ'; B = 'NOPQRSTUVWXYZABCDEFGHIJKLM'",
        f'L N = LT(N,{int(200_000 * size)}) N + 1 :F(E)',
        "  S = REPLACE(S,A,B); D = DUPL('ABCD',11) :(L)",
        "E OUTPUT = S ' ' D",
        'END',
    ]
    return job('$JOB lisa ST=5000000', program)


def set_lists(size: float) -> Iterator[str]:
    accounts, count = [f'user{i:03}' for i in range(200)], int(5_000 * size)
    letters = ['r--', 'rw-', '---', 'r-x', 'rwx']

    def entries(i: int) -> Iterator[str]:
        yield from ('user::rwx', 'group::r--', 'mask::rwx', 'other::---')
        yield from (f'user:{accounts[(i * 7 + k * 3) % 200]}:{letters[(i + k) % 5]}' for k in range(60))
        yield from (f'group:team{(i * 3 + k) % 100:02}:{letters[(i + k) % 5]}' for k in range(40))

    yield '$ACCOUNTS'
    yield from (f'{account} team{i % 100:02}' for i, account in enumerate(accounts))
    yield '$CATALOGUE'
    for i in range(100):
        yield f'$SET DATA{i:02} user{i:03} team{i:02} 0'
        yield 'user::rwx,group::r--,other::---'
    yield '$STREAM'
    for i in range(count):
        yield f'$SETACL user{i % 100:03} DATA{i % 100:02}'
        yield from entries(i)
        yield '$ENDACL'
        other = (i + 50) % 100
        yield f'$SETACL user{other:03} DATA{other:02} u::rwx,u:{accounts[i % 200]}:rw,g::r,g:team{i % 100:02}:x,m::rwx,o::'
    yield '$STOP'


CASES: Dict[str, Callable[[float], Iterable[str]]] = {
    write.__name__: write
    for write in (
        copy,
        copy_by_owner,
        copy_by_groups,
        spool,
        match,
        alternatives,
        recursion,
        loop,
        functions,
        calls,
        matches,
        classes,
        strings,
        item_counts,
        variable_counts,
        item_words,
        variable_words,
        items,
        lists,
        many_names,
        joined,
        statements,
        table_int,
        table_text,
        small_jobs,
        turns,
        copy_and_spool,
        arguments,
        operands,
        concatenation,
        replacing,
        set_lists,
    )
}


def deck(case: str, size: float = 1) -> str:
    return '\n'.join(CASES[case](size)) + '\n'


if __name__ == '__main__':
    if len(sys.argv) not in (2, 3) or sys.argv[1] not in CASES:
        sys.exit(__doc__)
    sys.stdout.write(deck(sys.argv[1], float(sys.argv[2]) if len(sys.argv) == 3 else 1))
