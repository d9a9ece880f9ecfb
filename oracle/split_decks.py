"""Random decks split by tools/deck, run, and joined, beside the whole deck's own run.

python3 split_decks.py COUNT SEED PROGRAM      tells what differs, and then has status 1

Kept have to be the catalogue, byte for byte; the printouts of the commands, in their order; and between two $DRAIN cards
the jobs that are printed there, each byte for byte. Of the audit, too: the lines of the commands, in their order; those of
each job, in theirs; and the last. Where the program reads version 2 of the catalogue's text, half of the decks are of that
version."""
from __future__ import annotations

import concurrent.futures
import io
import os
import subprocess
import sys
import tempfile
from random import Random
from typing import Callable, Dict, List, NamedTuple, Optional, Tuple
import random_decks

sys.path.insert(0, os.path.join(os.path.dirname(os.path.abspath(__file__)), '..', 'tools'))
from decks import join, join_audit, split, text as texts  # noqa: E402

TITLES = tuple('JOB CREATE DELETE SETACL SHOWACL LIST CATALOG'.split())
COMMANDS = tuple('$' + title + ' ' for title in TITLES[1:])
Printout = List[str]
Stretch = Tuple[List[Printout], List[Printout]]             # between two $DRAIN cards: those of commands, and those of jobs
Run = Callable[[bytes, int, str], Tuple[str, str, int]]     # of a deck, with slots, and a file for the audit: output, standard error, status
EMPTY_OF_VERSION_2 = '$ACCOUNTS\n$CATALOGUE 2\n$STREAM\n$STOP\n'


def renamed(card: List[str], group: int) -> List[str]:
    """A card whose data sets are those of a group."""
    first = card[0].split(' ')
    if first[0] == '$JOB':
        return [line + '.%d' % group if line.startswith('$UNIT ') else line for line in card]
    if first[0][1:] in TITLES[1:-1]:
        first[2] += '.%d' % group
    return [' '.join(first)] + card[1:]


# What one job does to a data set that another one reads or writes shows here, whoever is given the turn.
BUSY_PROGRAMS = [["  OUTPUT('W',8)", 'L N = N + 1', "  W = 'N' N", '  LT(N,%d) :S(L)'],
                 ["  INPUT('R',8)", 'L N = N + 1', '  OUTPUT = N R :S(M)', '  REWIND(8)', 'M LT(N,%d) :S(L)'],
                 ["  INPUT('R',8); OUTPUT('W',8)", 'L N = N + 1', '  X = R', '  W = X N', '  LT(N,%d) :S(L)']]
OPEN_LIST = ['user::rwx', 'group::rwx', 'other::rwx']


def busy_job(r: Random) -> List[str]:
    body = [line % r.randint(1, 6) if '%d' in line else line for line in r.choice(BUSY_PROGRAMS)]
    head = ['$JOB %s' % r.choice(sorted(random_decks.ACCOUNTS)), '$UNIT 8 %s' % r.choice(random_decks.SETS)]
    return head + body + ['END', '$EOJ']


def data_set(r: Random, name: str, version: int) -> List[str]:
    records = r.choices(random_decks.TEXTS + ['$CATALOGUE', '$SET A b c 1', '$STREAM', '$STOP'], k=r.randint(0, 5))
    mode = r.choice(['SEQ ', 'APPEND ']) if version == 2 else ''
    acl = random_decks.acl(r) if r.random() < 0.3 else OPEN_LIST
    owner, group = r.choice(sorted(random_decks.ACCOUNTS)), r.choice(random_decks.GROUPS)
    return ['$SET %s %s %s %s%d' % (name, owner, group, mode, len(records)), ','.join(acl)] + records


def card(r: Random, slots: int, groups: int, version: int) -> List[str]:
    made = busy_job(r) if r.random() < 0.4 else random_decks.card(r, slots)
    made = renamed(made, r.randint(1, groups))
    if made[0].startswith('$JOB') and r.random() < 0.1:  # a job that ties data sets of two groups together
        made.insert(1, '$UNIT 30 %s.%d' % (r.choice(random_decks.SETS), r.randint(1, groups)))
    if made[0].startswith('$CREATE') and version == 2 and len(made[0].split(' ')) == 3:
        made[0] += r.choice(['', ' SEQ', ' APPEND'])
    return made


def deck(r: Random, slots: int, version: int) -> str:
    groups = r.randint(1, 6)
    lines = ['$ACCOUNTS'] + [' '.join([a] + g) for a, g in random_decks.ACCOUNTS.items()]
    lines.append('$CATALOGUE 2' if version == 2 else '$CATALOGUE')
    names = ['%s.%d' % (name, group) for name in random_decks.SETS for group in range(1, groups + 1)]
    for name in r.sample(names, r.randint(len(names) // 2, len(names))):
        lines += data_set(r, name, version)
    lines.append('$STREAM')
    drains = r.choice([0, 0.1, 0.4])
    for _ in range(r.randint(2, 18)):
        lines += card(r, slots, groups, version)
        if r.random() < drains:
            lines.append('$DRAIN')
    return '\n'.join(lines + ['$STOP', ''])


def runs_of(path: str) -> Run:
    """A run of that program."""
    def run(text: bytes, slots: int, audit: str) -> Tuple[str, str, int]:
        done = subprocess.run([path, '--slots', str(slots), '--audit', audit], input=text, capture_output=True, timeout=60)
        return done.stdout.decode(), done.stderr.decode(), done.returncode
    return run


def split_run_and_join(run: Run, path: str, folder: str, slots: int, parts: int) -> Tuple[int, str, str, str]:
    """(how many decks, what was told of the cut, the joined output, the joined audit)"""
    decks, told = split.split_deck(path, folder, parts, slots)
    for name in decks:
        with open(name, 'rb') as file:
            out, error, status = run(file.read(), slots, name[:-len('deck')] + 'audit')
        if status:
            raise texts.Fault('%s: status %d: %s' % (name, status, error))
        with open(name[:-len('deck')] + 'out', 'w') as file:
            file.write(out)
    joined, audit = io.BytesIO(), io.BytesIO()
    join.join_outputs(folder, joined)
    join_audit.join_audits(folder, audit)
    return len(decks), '\n'.join(told), joined.getvalue().decode(), audit.getvalue().decode()


def by_asker(audit: str) -> Tuple[Dict[Tuple[str, ...], List[str]], List[str]]:
    """The lines of an audit by what they are of: each job by its number, the commands, the run."""
    found: Dict[Tuple[str, ...], List[str]] = {}
    for line in audit.splitlines():
        found.setdefault(tuple(line.split(' ')[:2]), []).append(line)
    return found, audit.splitlines()[-1:]


def printouts(lines: List[str]) -> List[Printout]:
    found: List[Printout] = []
    for line in lines:
        if line.split(' ')[0] in TITLES:
            found.append([])
        found[-1].append(line)
    return found


def by_stretch(found: List[Printout], deck_lines: List[str]) -> Tuple[List[Stretch], List[Printout]]:
    """Of the printouts between two $DRAIN cards: those of commands in their order, and those of jobs in any."""
    stretches: List[Stretch] = []
    taken = due = 0
    for line in deck_lines:
        due += line.startswith(('$JOB ',) + COMMANDS)
        if line in ('$DRAIN', '$STOP'):
            these = found[taken:due]
            taken = due
            stretches.append(([p for p in these if not p[0].startswith('JOB')],
                              sorted(p for p in these if p[0].startswith('JOB'))))
    return stretches, found[taken:]


def what_is_kept(output: str, deck_text: str) -> Tuple[List[Stretch], List[Printout], List[str]]:
    lines = output.split('\n')
    heading = next(n for n, line in enumerate(lines) if line.startswith('$'))
    stretches, others = by_stretch(printouts(lines[:heading]), stream_of(deck_text))
    return stretches, others, lines[heading:]


def stream_of(deck_text: str) -> List[str]:
    """The lines of the stream of a deck that was made here: a data set may have a record `$STREAM`, and then more records."""
    lines, at = deck_text.split('\n'), 0
    while lines[at] not in ('$CATALOGUE', '$CATALOGUE 2'):
        at += 1
    at += 1
    while lines[at] != '$STREAM':
        at += 2 + int(lines[at].split(' ')[-1])
    return lines[at + 1:]


def reads_version_2(run: Run) -> bool:
    return run(EMPTY_OF_VERSION_2.encode(), 4, os.devnull)[2] == 0


class Tried(NamedTuple):
    different: Optional[str]    # what differs
    decks: int                  # how many there were of one
    kept: bool                  # whether jobs were kept together
    joined: bool                # whether a $CATALOG was joined


def try_one(run: Run, seed: int, version: int) -> Tried:
    r = Random(seed)
    slots, parts = r.choice([1, 2, 3, 4, 8]), r.choice([2, 3, 16])
    text = deck(r, slots, version)
    with tempfile.TemporaryDirectory() as room:
        path = room + '/whole.deck'
        with open(path, 'w') as file:
            file.write(text)
        whole, error, status = run(text.encode(), slots, room + '/whole.audit')
        if status:
            return Tried('status %d: %s' % (status, error), 0, False, False)
        try:
            count, told, joined, audit = split_run_and_join(run, path, room + '/parts', slots, parts)
            with open(room + '/whole.audit') as file:
                whole_audit = file.read()
        except (texts.Refused, texts.Fault) as fault:
            return Tried(str(fault), 0, False, False)
    different = ('another output' if what_is_kept(whole, text) != what_is_kept(joined, text) else
                 'another audit' if by_asker(whole_audit) != by_asker(audit) else None)
    return Tried(different, count, 'stay in one deck' in told, 'join makes one' in told)


def compare(run: Run, count: int, seed: int, at_once: int = 2) -> Tuple[str, List[str]]:
    """(a line that tells what was tried, those that differ)"""
    versions = [1, 2] if reads_version_2(run) else [1]
    with concurrent.futures.ThreadPoolExecutor(at_once) as pool:
        tried = list(pool.map(lambda n: try_one(run, seed + n, versions[n % len(versions)]), range(count)))
    different = ['DIFFERENT seed %d: %s' % (seed + n, it.different) for n, it in enumerate(tried) if it.different]
    several, kept, catalogs = sum(it.decks > 1 for it in tried), sum(it.kept for it in tried), sum(it.joined for it in tried)
    return ('%d decks, %d of them cut into %d, %d with jobs kept together, %d with $CATALOG in each, versions %s, %d different'
            % (count, several, sum(it.decks for it in tried), kept, catalogs, versions, len(different)), different)


if __name__ == '__main__':
    line, found = compare(runs_of(sys.argv[3]), int(sys.argv[1]), int(sys.argv[2]))
    print('\n'.join(found + [line]))
    sys.exit(1 if found else 0)
