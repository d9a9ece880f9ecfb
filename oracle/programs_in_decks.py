#!/usr/bin/env python3
"""programs_in_decks.py KIND COUNT SEED PROGRAM: programs as the jobs of decks, beside what monitor.py says of these decks.

KIND is programs, matches, texts or statements, for random ones as random_KIND.py makes them; or worked, for all that are
worked by hand for the crate `programs` (COUNT and SEED are then not looked at), of which those that are refused are
compared with what was worked out too. What a case is answered is made the job's data; its units are tied to data sets
that it may read, write, both or not, by chance. Tells what differs, and then has the status 1."""
from __future__ import annotations

import glob
import multiprocessing
import os
import subprocess
import sys
from random import Random
from typing import Callable, Dict, Iterator, List, Optional, Tuple
import check
import monitor
import random_statements
import random_texts
from random_matches import TEXTS, steps_of
from random_programs import Maker, wrapped
from snobol import Program, in_a_large_stack

Case = Tuple[List[str], List[str], int, int]    # cards, what they are answered, statements, steps
Named = Tuple[str, Case]
AT_A_TIME = 20  # jobs in one deck
CRATES = os.path.join(os.path.dirname(os.path.realpath(__file__)), '..', 'crates')
FRONT = '''$ACCOUNTS
anna admin
lisa staff
$CATALOGUE 2
$SET READ anna admin SEQ 3
user::rwx,group::r--,other::r--
ADA 100
 12 

$SET WRITE anna admin SEQ 1
user::rwx,group::---,other::-w-
A
$SET BOTH anna admin SEQ 2
user::rwx,user:lisa:rw-,group::---,mask::rw-,other::---
AB
(A)B
$SET NEITHER anna admin SEQ 1
user::rwx,user:lisa:rw-,group::---,mask::---,other::---
B
$SET LOG anna admin APPEND 1
user::rwx,group::---,other::rw-
$JOB
$STREAM
'''


def of_programs(seed: int) -> Case:
    m = Maker(seed)
    cards = [c for line in m.program() for c in wrapped(line)] + ['END']
    return cards, m.answers(), m.pick([30, 60, 100]), m.pick([20, 100, 400, 2000])


def of_matches(seed: int) -> Case:
    """A match under its exact number of steps, or one less."""
    m = Maker(seed)
    lines = ["  A = 'AB'; X = LEN(1); N = 2; P = %s; S = %s" % (m.pattern(2), m.pick(TEXTS)),
             '  S %s :F(NO)' % m.pattern(m.pick([2, 3, 4])), "  OUTPUT = 'YES ' S ' ' A ' ' N :(END)", "NO OUTPUT = 'NO ' S ' ' A ' ' N"]
    cards = [c for line in lines for c in wrapped(line)] + ['END']
    steps = steps_of(Program(cards), [])
    return cards, [], 200, max(1, (steps or 4000) - m.pick([0, 1]))


def of_texts(seed: int) -> Case:
    r = Random(seed)
    return random_texts.line(r) + ['END'], ['GOT ABCDEFGHIJKLMNOPQRSTUVWXYZ'], 100, 1000


def of_statements(seed: int) -> Case:
    return [random_statements.card(Maker(seed)), 'END'], [], 5, 1000


KINDS: Dict[str, Callable[[int], Case]] = {
    'programs': of_programs, 'matches': of_matches, 'texts': of_texts, 'statements': of_statements}


def of_file(path: str) -> Iterator[Named]:
    """The cases of a file of programs that run."""
    with open(path) as file:
        for name, options, cards, answers, _ in check.cases(file.read()):
            yield name, (cards, answers, int(options.get('ST', 50000)), int(options.get('MATCH', 1000000)))


def read(*names: str) -> str:
    with open(os.path.join(*names)) as file:
        return file.read()


def of_folder(folder: str) -> Iterator[Named]:
    """The cases of a folder of programs that are read, each run for a few statements only. In `statements` each card is a program."""
    for name in sorted(os.listdir(folder)):
        cards = read(folder, name, 'cards').splitlines()
        for program in [[card, 'END'] for card in cards] if os.path.basename(folder) == 'statements' else [cards]:
            yield name, (program, [], 5, 1000)


def refusals(folder: str) -> Iterator[Tuple[str, List[str], str]]:
    """What was worked out of the verdicts there, where it is a refusal: the deck of that job alone prints just that."""
    for name in sorted(os.listdir(folder)):
        wanted = read(folder, name, 'wanted').strip()
        if wanted.startswith('REFUSED'):
            yield name, read(folder, name, 'cards').splitlines(), 'JOB 1 anna\n' + wanted + '\n$CATALOGUE 2\n'


def of_kind(kind: str, count: int, seed: int) -> Iterator[Named]:
    while count:
        try:
            yield '%s of seed %d' % (kind, seed), KINDS[kind](seed)
            count -= 1
        except SyntaxError:  # a line that cannot be wrapped
            pass
        seed += 1


def in_a_job(lines: List[str]) -> List[str]:
    return [line if line[:1] != '$' else '$' + line for line in lines]


def job(r: Random, cards: List[str], answers: List[str], statements: int, steps: int) -> List[str]:
    """Its lines in a deck; whoever hands it in may read and write what it is tied to, or not."""
    data = [answer[4:] for answer in answers if answer[:3] == 'GOT']
    ties = {unit: r.choice(['READ', 'WRITE', 'BOTH', 'NEITHER', 'LOG', 'GONE']) for unit in r.sample([7, 8, 9, 99], r.randint(0, 4))}
    return ['$JOB %s ST=%d MATCH=%d' % (r.choice(['anna', 'lisa']), statements, steps)] + [
        '$UNIT %d %s' % tie for tie in ties.items()] + in_a_job(cards + data) + ['$EOJ']


def is_same(given: Tuple[str, List[Named]]) -> Optional[str]:
    """Whether the program does with a deck of these cases what monitor.py does; else which they are."""
    program, cases = given
    r = Random(cases[0][0])
    slots = r.choice([1, 2, 4, 8])
    lines = [line for _, case in cases for line in job(r, *case)]
    deck = (FRONT + '\n'.join(lines + ['$STOP', ''])).encode()
    wanted = in_a_large_stack(lambda: monitor.run(deck, slots))
    done = subprocess.run([program, '--slots', str(slots)], input=deck, capture_output=True, timeout=120)
    if (done.stdout.decode(), done.stderr.decode(), done.returncode) == wanted:
        return None
    return 'DIFFERENT: a deck of %s .. %s' % (cases[0][0], cases[-1][0]) if len(cases) > 1 else 'DIFFERENT: ' + cases[0][0]


def narrowed(given: Tuple[str, List[Named]]) -> Optional[str]:
    """The same, and where a deck of several differs, for each of them alone."""
    said = is_same(given)
    if said is None or len(given[1]) == 1:
        return said
    return '\n'.join([said, *filter(None, (is_same((given[0], [case])) for case in given[1]))])


def in_decks(program: str, cases: List[Named]) -> List[Tuple[str, List[Named]]]:
    return [(program, cases[at:at + AT_A_TIME]) for at in range(0, len(cases), AT_A_TIME)]


def cases_of(kind: str, count: int, seed: int) -> List[Named]:
    if os.path.isdir(kind):
        return list(of_folder(kind))
    return list(of_file(kind) if os.path.isfile(kind) else of_kind(kind, count, seed))


def share(given: Tuple[str, int, int, str]) -> Tuple[int, List[str]]:
    """A part of the cases, which each process makes by itself: how many there were, and what differs."""
    kind, count, seed, program = given
    cases = cases_of(kind, count, seed)
    said = in_a_large_stack(lambda: [narrowed(deck) for deck in in_decks(program, cases)])
    return len(cases), [one for one in said if one]


def refused(program: str) -> Tuple[int, List[str]]:
    """How many worked refusals there are, and which are told in another way."""
    different, count = [], 0
    for name, cards, wanted in refusals(os.path.join(CRATES, 'programs', 'data', 'verdicts')):
        deck = '\n'.join(['$ACCOUNTS', 'anna admin', '$CATALOGUE', '$STREAM', '$JOB anna', *in_a_job(cards), '$EOJ', '$STOP', ''])
        done = subprocess.run([program], input=deck.encode(), capture_output=True, timeout=60)
        count += 1
        if (done.stdout.decode(), done.returncode) != (wanted, 0):
            different.append('DIFFERENT: the refusal of ' + name)
    return count, different


def shares_of(kind: str, count: int, seed: int, program: str) -> List[Tuple[str, int, int, str]]:
    if kind != 'worked':
        return [(kind, AT_A_TIME, seed + 1000 * part, program) for part in range(count // AT_A_TIME)]
    files = glob.glob(os.path.join(CRATES, 'programs', 'data', '*.cases'))
    folders = [os.path.join(CRATES, 'programs', 'data', name) for name in ('verdicts', 'trees', 'statements')]
    return [(path, 0, 0, program) for path in sorted(files) + folders]


def main() -> int:
    kind, count, seed, program = sys.argv[1], int(sys.argv[2]), int(sys.argv[3]), os.path.abspath(sys.argv[4])
    with multiprocessing.Pool() as pool:
        done = pool.map(share, shares_of(kind, count, seed, program), chunksize=1 if kind == 'worked' else 8)
    if kind == 'worked':
        done.append(refused(program))
    different = [one for _, said in done for one in said]
    print('\n'.join([*different, '%d programs in decks, %d different' % (sum(number for number, _ in done), len(different))]))
    return 1 if different or not done else 0


if __name__ == '__main__':
    sys.exit(main())
