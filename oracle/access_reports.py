"""Reports of who may do what on random decks, beside the access check of monitor.py and what a run grants.

python3 access_reports.py COUNT SEED LISTING SNOMON      tells what differs, and then has status 1

The reports of LISTING, in both forms, on all or on one account or data set, have to be what monitor.py's access check makes
of the deck. The stream of each deck then tries each permission of each account on each data set: r by $LIST and by a job's
READ, w by a job's WRITE, x by $SHOWACL and $CATALOG. What SNOMON grants there, and by which entry it denies the rest, has to
be what the report says; and the catalogue that the run leaves has to have the same report."""
from __future__ import annotations

import concurrent.futures
import re
import subprocess
import sys
from random import Random
from typing import Dict, Iterator, List, Optional, Set, Tuple
import monitor
from split_decks import printouts

ACCOUNTS = ['anna', 'lisa', 'hugo', 'eve', 'Z', 'a.-_9', 'n' * 31]
GROUPS = ['admin', 'staff', 'ops', 'guest', 'lisa', 'Z']  # a group may be called as an account is
SETS = ['PAY', 'LOG', 'pay', 'BOX.1', 'S' * 31]
TITLE = 'account,set,permission,answer,entry'
Asked = Tuple[str, str, str]  # account, data set, permission
UNIT = 10  # of a job's first data set


# ---- decks ------------------------------------------------------------------------------------------------------

def entry(r: Random, kind: str, name: str = '') -> str:
    """An entry with any permissions, in one of the ways to write it."""
    permissions = [letter for letter in 'rwx' if r.random() < 0.5]
    r.shuffle(permissions)
    return ':'.join([r.choice([kind, kind[0]]), name, ''.join(permissions) or r.choice(['', '-', '---'])])


def permission_list(r: Random) -> str:
    entries = [entry(r, kind) for kind in ('user', 'group', 'other')]
    entries += [entry(r, 'user', name) for name in r.sample(ACCOUNTS, r.choice([0, 0, 1, 3, 7]))]
    entries += [entry(r, 'group', name) for name in r.sample(GROUPS, r.choice([0, 0, 1, 3, 6]))]
    if len(entries) > 3 or r.random() < 0.3:
        entries.append(entry(r, 'mask'))
    r.shuffle(entries)
    return r.choice([',', ', ']).join(entries)


def data_set(r: Random, name: str, version: int) -> List[str]:
    records = r.choices(['ADA 100', '', '$STREAM', '$CATALOGUE'], k=r.randint(0, 3))
    mode = [r.choice(monitor.MODES)] if version == 2 else []
    words = ['$SET', name, r.choice(ACCOUNTS), r.choice(GROUPS), *mode, '%d' % len(records)]
    return [' '.join(words), permission_list(r)] + records


def trials(accounts: List[str], names: List[str]) -> Iterator[str]:
    """Cards that ask for each permission. Each job is over before the next card."""
    for account in accounts:
        for name in names:
            yield from ('$LIST %s %s' % (account, name), '$SHOWACL %s %s' % (account, name))
        yield from ('$CATALOG ' + account, '$JOB ' + account)
        yield from ('$UNIT %d %s' % (UNIT + at, name) for at, name in enumerate(names))
        for unit in range(UNIT, UNIT + len(names)):
            yield from ("  INPUT('R',%d); OUTPUT('W',%d)" % (unit, unit), '  X = R', "  W = 'A'")
        yield from ('END', '$EOJ', '$DRAIN')


def deck(r: Random) -> str:
    accounts = r.sample(ACCOUNTS, r.randint(0, len(ACCOUNTS)))
    names, version = r.sample(SETS, r.randint(0, len(SETS))), r.choice([1, 2])
    lines = ['$ACCOUNTS'] + [' '.join([name] + r.choices(GROUPS, k=r.randint(1, 3))) for name in accounts]
    lines.append('$CATALOGUE 2' if version == 2 else '$CATALOGUE')
    for name in names:
        lines += data_set(r, name, version)
    return '\n'.join(lines + ['$STREAM', *trials(accounts, names), '$STOP', ''])


# ---- what has to be reported ------------------------------------------------------------------------------------

def front(text: str) -> monitor.Monitor:
    """The accounts and data sets of a deck, as the other reader reads them."""
    reading = monitor.Deck(monitor.Monitor(1))
    for line in text.split('\n'):
        if reading.section == reading.stream:
            break
        reading.take(line.encode())
    return reading.monitor


def answers(world: monitor.Monitor, account: str, name: str) -> Iterator[Tuple[str, Optional[str]]]:
    """Each permission of an account on a data set, with the entry that denies it, or None."""
    for permission in 'rwx':
        yield permission, monitor.decider((account, world.accounts[account]), world.sets[name], permission)


def fields(world: monitor.Monitor, accounts: List[str], names: List[str]) -> Iterator[str]:
    """The report that --csv asks for."""
    yield TITLE
    for name in names:
        for account in accounts:
            for permission, by in answers(world, account, name):
                yield ','.join([account, name, permission, 'granted' if by is None else 'denied', by or ''])


def plain(world: monitor.Monitor, accounts: List[str], names: List[str]) -> Iterator[str]:
    """The report as it is without --csv."""
    for name in names:
        it = world.sets[name]
        yield 'SET %s OWNER %s GROUP %s MODE %s RECORDS %d' % (name, it.owner, it.group, it.mode, len(it.records))
        yield 'LIST ' + ','.join('%s:%s:%s' % (*who, monitor.shown(it.acl[who])) for who in monitor.canonical(it.acl))
        for account in accounts:
            told = list(answers(world, account, name))
            granted = ''.join('-' if by else permission for permission, by in told)
            yield ' %s %s' % (account, granted) + ''.join(' %s BY %s' % it for it in told if it[1])


def questions(r: Random, world: monitor.Monitor) -> Iterator[Tuple[List[str], Iterator[str]]]:
    """The words of a call of the program, and the lines that it has to write: both forms on all, and one on less than that."""
    accounts, names = list(world.accounts), list(world.sets)
    yield ['--csv'], fields(world, accounts, names)
    yield [], plain(world, accounts, names)
    words: List[str] = []
    if accounts and r.random() < 0.7:
        accounts = [r.choice(accounts)]
        words += ['--account', accounts[0]]
    if names and r.random() < 0.7:
        names = [r.choice(names)]
        words += ['--set', names[0]]
    if r.random() < 0.5:
        yield words + ['--csv'], fields(world, accounts, names)
    else:
        yield words, plain(world, accounts, names)


# ---- what a run grants ------------------------------------------------------------------------------------------

def granted(printout: List[str], names: List[str]) -> Iterator[Tuple[Asked, Optional[str]]]:
    """What a printout shows of accounts, data sets and permissions: '' for one that is granted, the entry that denies it, or
    None for one that is denied where no entry is told."""
    word, account, *further = printout[0].split(' ')
    by = printout[-1][len('DENIED BY '):] if printout[-1].startswith('DENIED BY ') else ''
    if word == 'LIST':
        yield (account, further[0], 'r'), by
    elif word == 'SHOWACL' and not printout[1].startswith('OWNER %s ' % account):  # which is shown to the owner anyway
        yield (account, further[0], 'x'), by
    elif word == 'CATALOG':
        shown = {line.split()[0] for line in printout if line.startswith(' ')}
        yield from (((account, name, 'x'), '' if name in shown else None) for name in names)
    elif word == 'JOB':
        yield from granted_to_a_job(further[0], printout[1:], names)


def granted_to_a_job(account: str, lines: List[str], names: List[str]) -> Iterator[Tuple[Asked, str]]:
    """Nothing, where the job did not come to its end or has a note of another kind: then its writes were not tried."""
    notes = [re.fullmatch(r'DENIED STATEMENT \d+ (READ|WRITE) (\S+) BY (.*)', line) for line in lines[:-1]]
    denied = {(note[1], note[2]): note[3] for note in notes if note}
    if all(notes) and lines[-1].startswith('END NORMAL AFTER '):
        for name in names:
            yield (account, name, 'r'), denied.get(('READ', name), '')
            yield (account, name, 'w'), denied.get(('WRITE', name), '')


def reported(report: str) -> Dict[Asked, str]:
    """What a report with fields says of each account, data set and permission: '' or the entry that denies it."""
    lines = [line.split(',') for line in report.splitlines()[1:]]
    return {(line[0], line[1], line[2]): line[4] for line in lines}


def differences(report: str, output: str, names: List[str]) -> Iterator[str]:
    """Where a run's printouts and a report differ. Each permission has to be tried."""
    wanted = reported(report)
    tried: Set[Asked] = set()
    lines = output.split('\n')
    for printout in printouts(lines[:lines.index('$CATALOGUE 2')]):
        for asked, by in granted(printout, names):
            tried.add(asked)
            if asked not in wanted or by != wanted[asked] and (by is not None or wanted[asked] == ''):
                yield '%s: the run says %s, and the report %s' % (asked, by, wanted.get(asked))
    yield from ('%s was not tried' % (asked,) for asked in wanted.keys() - tried)


# ---- comparing --------------------------------------------------------------------------------------------------

def run(words: List[str], text: str) -> Tuple[str, str, int]:
    done = subprocess.run(words, input=text.encode(), capture_output=True, timeout=60)
    return done.stdout.decode(), done.stderr.decode(), done.returncode


def try_one(seed: int, listing: str, snomon: str) -> Tuple[List[str], int]:
    """(what differs, how many permissions the report tells of)"""
    r = Random(seed)
    text = deck(r)
    world = front(text)
    different: List[str] = []
    for words, lines in questions(r, world):
        if run([listing, '--access', *words], text) != (''.join(line + '\n' for line in lines), '', 0):
            different.append('another report by %s' % ['--access', *words])
    report = run([listing, '--access', '--csv'], text)[0]
    output, error, status = run([snomon], text)
    if status:
        return different + ['status %d of the run: %s' % (status, error)], 0
    different += differences(report, output, list(world.sets))
    left = text[:text.index('$CATALOGUE')] + output[output.index('$CATALOGUE 2\n'):] + '$STREAM\n$STOP\n'
    if run([listing, '--access', '--csv'], left) != (report, '', 0):
        different.append('another report on the catalogue that the run leaves')
    return different, len(reported(report))


def main(count: int, seed: int, listing: str, snomon: str) -> int:
    with concurrent.futures.ThreadPoolExecutor(2) as pool:
        tried = list(pool.map(lambda number: try_one(seed + number, listing, snomon), range(count)))
    for number, (different, _) in enumerate(tried):
        for what in different:
            print('DIFFERENT seed %d: %s' % (seed + number, what))
    failed = sum(1 for different, _ in tried if different)
    print('%d decks, %d permissions, %d different' % (count, sum(told for _, told in tried), failed))
    return 1 if failed or not count else 0


if __name__ == '__main__':
    sys.exit(main(int(sys.argv[1]), int(sys.argv[2]), sys.argv[3], sys.argv[4]))
