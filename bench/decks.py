#!/usr/bin/env python3
"""decks.py CASE [HALVES]: writes a deck to measure with, the same each time and in time linear in its size.

The cases, at their whole size (HALVES is 2, and 1 gives half of it):

  cards      1,000 sets with 100 named entries each, and 20,000 $LIST cards of a few records each
  records    one set of 100,000 records of 80 characters, listed 20 times
  catalogue  1,000 sets with 100 named entries each and 1,000,000 records of 40 characters in all, and no card
  commands   1,000 sets with 100 named entries each, and 20,000 commands of all kinds; at each size 100 of them are
             $CATALOG and 100 $DELETE, which look at every set
  names      1,000 sets with 100 named entries each, and 400 $CATALOG cards, as many at half the size
  lists      1,000 sets with 70 named users of 200 and 30 named groups of 40 each, drawn by lot, and 20,000 commands, of
             which each tenth is $CATALOG: 2,018,000 access checks; as many commands at half the size
  stream     one set of one record, and 1,000,000 $LIST cards of it

decks.py sets SETS COMMANDS: so many sets as in `commands`, and so many commands but $CATALOG and $DELETE.
decks.py drains JOBS: so many jobs of three statements, with $DRAIN behind each.
decks.py programs STATEMENTS: no deck, but the cards of a SNOBOL4 program: so many statements of 1,000 tokens each.
"""

from __future__ import annotations

import random
import sys
from typing import Callable, Dict, Iterable, Iterator, List, TextIO

ACCOUNTS = 400
GROUPS = 100
# Permissions of named entries, so that lists grant and deny by all kinds of entry.
PERMS = ['r--', 'rw-', '---', '-w-', 'r-x', 'rwx', '--x']


def account(i: int) -> str:
    return 'a%03d' % (i % ACCOUNTS)


def group(i: int) -> str:
    return 'g%02d' % (i % GROUPS)


def account_lines() -> Iterator[str]:
    for i in range(ACCOUNTS):
        yield ' '.join([account(i), *(group(i + 7 * k) for k in range(4))])


def entries(i: int) -> Iterator[str]:
    """A list of 50 named users and 50 named groups, which differ from one data set to the next."""
    yield 'user::rw-'
    yield 'group::%s' % PERMS[i % 7]
    yield 'mask::%s' % ('rwx' if i % 5 else '-w-')
    yield 'other::%s' % PERMS[i % 3]
    for k in range(50):
        yield 'user:%s:%s' % (account(i + 3 * k), PERMS[(i + k) % 7])
    for k in range(50):
        yield 'group:%s:%s' % (group(i + k), PERMS[(i + 2 * k) % 7])


def data_set(i: int, records: int, length: int) -> Iterator[str]:
    yield '$SET S%d %s %s %d' % (i, account(i), group(i), records)
    yield ','.join(entries(i))
    for k in range(records):
        yield ('RECORD %d OF S%d ' % (k, i)).ljust(length, '*')


def head(sets: int, records: int, length: int) -> Iterator[str]:
    """A deck up to its commands."""
    yield '$ACCOUNTS'
    yield from account_lines()
    yield '$CATALOGUE'
    for i in range(sets):
        yield from data_set(i, records, length)
    yield '$STREAM'


def many_sets(sets: int, records: int, cards: int, length: int) -> Iterator[str]:
    yield from head(sets, records, length)
    for i in range(cards):
        # Neighbouring cards name sets far apart; 37 and 1,000 have no common factor.
        yield '$LIST %s S%d' % (account(i * 11 + i // 1000), i * 37 % sets)
    yield '$STOP'


def one_set(records: int, cards: int, length: int) -> Iterator[str]:
    yield '$ACCOUNTS'
    yield 'anna admin'
    yield '$CATALOGUE'
    yield '$SET LONG anna admin %d' % records
    yield 'user::rw-,group::---,other::---'
    for k in range(records):
        yield ('RECORD %d ' % k).ljust(length, '*')
    yield '$STREAM'
    yield from ['$LIST anna LONG'] * cards
    yield '$STOP'


def command(i: int, sets: int) -> Iterator[str]:
    """One of 20 kinds, by turns. The sets of the last tenth get short lists, all others keep their 100 named entries."""
    # So each kind meets each set: 741 has no common factor with the numbers of sets.
    s = (i * 37 + i // 20) % sets
    owner, other = account(s), account(i * 11 + i // 20)
    kind = i % 20
    if kind < 6:
        yield '$LIST %s S%d' % (other, s)
    elif kind < 9:
        yield '$SHOWACL %s S%d' % (owner, s)
    elif kind < 11:
        yield '$SHOWACL %s S%d' % (other, s)
    elif kind < 14:
        yield '$SETACL %s S%d' % (owner, s)
        yield '# list %d' % i
        yield from entries(s + i)
        yield '$ENDACL'
    elif kind == 14:
        small = sets * 9 // 10 + i // 20 % (sets // 10)
        yield '$SETACL %s S%d u::rwx, u:%s:rw, g::r, g:%s:x, m::rx, o::' % (account(small), small, other, group(i))
    elif kind == 15:
        yield '$SETACL %s S%d u::rwx, g::r, o::' % (account(s + 1), s)
    elif kind == 16:
        yield '$SETACL %s S%d u::rwx, u:%s:rw, g::r, o::' % (owner, s, other)
    elif kind == 17:
        yield '$CREATE %s S%d' % (other, s)
    elif kind == 18:
        yield '$LIST %s GONE%d' % (other, s)
    else:
        yield '$SHOWACL nobody S%d' % s


def mixed(sets: int, commands: int) -> Iterator[str]:
    """All kinds of command: those above, and at equal distances 100 times names, a deletion and a creation."""
    yield from head(sets, records=5, length=40)
    distance = commands // 100
    for i in range(commands):
        turn, place = divmod(i, distance)
        small = sets - 1 - turn % (sets // 10)
        if place == 0:
            yield '$CATALOG %s' % account(i * 7)
        elif place == 1:
            yield '$DELETE %s S%d' % (account(small), small)
        elif place == 2:
            yield '$CREATE %s S%d' % (account(small), small)
        else:
            yield from command(i, sets)
    yield '$STOP'


def names(sets: int, cards: int) -> Iterator[str]:
    yield from head(sets, records=5, length=40)
    yield from ('$CATALOG %s' % account(i * 7) for i in range(cards))
    yield '$STOP'


def drawn_lists(sets: int, commands: int) -> Iterator[str]:
    """Lists in which most accounts are found neither at once nor last, and groups that mostly do not hold a request."""
    dice = random.Random(1)
    accounts, groups = ['acc%03d' % i for i in range(200)], ['g%02d' % i for i in range(40)]
    yield '$ACCOUNTS'
    for i, name in enumerate(accounts):
        yield ' '.join([name, groups[i % 40], *(groups[(i * 7 + k) % 40] for k in range(1, 5))])
    yield '$CATALOGUE'
    for i in range(sets):
        yield '$SET SET%04d %s %s 5' % (i, dice.choice(accounts), dice.choice(groups))
        users, members = dice.sample(accounts, 70), dice.sample(groups, 30)
        named = ['user:%s:%s' % (name, dice.choice(['r--', 'rw-', 'r-x', '---', 'rwx'])) for name in users]
        named += ['group:%s:%s' % (name, dice.choice(['r--', 'rw-', 'r-x', '---'])) for name in members]
        yield ','.join(['user::rwx', 'group::r--', 'mask::rwx', 'other::--x', *named])
        for k in range(5):
            yield 'RECORD %d OF SET %d' % (k, i)
    yield '$STREAM'
    for k in range(commands):
        if k % 10:
            yield '$LIST %s SET%04d' % (dice.choice(accounts), dice.randrange(sets))
        else:
            yield '$CATALOG %s' % dice.choice(accounts)
    yield '$STOP'


def some_sets(sets: int, commands: int) -> Iterator[str]:
    yield from head(sets, records=5, length=40)
    for i in range(commands):
        yield from command(i, sets)
    yield '$STOP'


def drains(jobs: int) -> Iterator[str]:
    """Small jobs, each run to its end before the next is loaded, as the texts of a site's round are."""
    yield from ('$ACCOUNTS', 'anna admin', '$CATALOGUE', '$STREAM')
    for i in range(jobs):
        yield from ('$JOB anna', '  N = %d' % i, '  M = N * 2 + 1', "  OUTPUT = N ' GIVES ' M", 'END', '$EOJ', '$DRAIN')
    yield '$STOP'


PHRASE = "F(A,'B') + 1 * (C D)"  # 13 tokens


def cards_of(words: List[str], on_a_card: int) -> Iterator[str]:
    """Continuations with so many of the words on each."""
    for first in range(0, len(words), on_a_card):
        yield '+ ' + ' '.join(words[first : first + on_a_card])


def statement(i: int, statements: int) -> Iterator[str]:
    """A statement of 1,000 tokens, the most that there may be: 2, then 989, and the 9 of its goto.

    The first of two has some of everything; the second is one concatenation, the deepest tree that there may be.
    """
    yield 'L%d X =' % i
    yield from cards_of(['V'] * 989, 90) if i % 2 else cards_of([PHRASE] * 76 + ['1'], 8)
    yield '+ :S(L%d)F(L%d)' % (i * 37 % statements, (i + 1) % statements)


def program(statements: int) -> Iterator[str]:
    for i in range(statements):
        yield from statement(i, statements)
    yield 'END L0'


CASES: Dict[str, Callable[[float], Iterator[str]]] = {
    'cards': lambda halves: many_sets(sets=int(500 * halves), records=5, cards=int(10_000 * halves), length=40),
    'records': lambda halves: one_set(records=int(50_000 * halves), cards=20, length=80),
    'catalogue': lambda halves: many_sets(sets=int(500 * halves), records=1_000, cards=0, length=40),
    'commands': lambda halves: mixed(sets=int(500 * halves), commands=int(10_000 * halves)),
    'names': lambda halves: names(sets=int(500 * halves), cards=400),
    'lists': lambda halves: drawn_lists(sets=int(500 * halves), commands=20_000),
    'stream': lambda halves: one_set(records=1, cards=int(500_000 * halves), length=10),
}


def write_deck(case: str, halves: float, file: TextIO) -> None:
    write_lines(CASES[case](halves), file)


def write_lines(lines: Iterable[str], file: TextIO) -> None:
    file.writelines(line + '\n' for line in lines)


if __name__ == '__main__':
    words = sys.argv[1:]
    if len(words) == 3 and words[0] == 'sets':
        write_lines(some_sets(int(words[1]), int(words[2])), sys.stdout)
    elif len(words) == 2 and words[0] == 'drains':
        write_lines(drains(int(words[1])), sys.stdout)
    elif len(words) == 2 and words[0] == 'programs':
        write_lines(program(int(words[1])), sys.stdout)
    elif len(words) in (1, 2) and words[0] in CASES:
        write_deck(words[0], int(words[1]) if len(words) == 2 else 2, sys.stdout)
    else:
        sys.exit(__doc__)
