"""Random decks with commands and jobs, and what they have to print.

python3 random_decks.py COUNT SEED FOLDER [SLOTS] writes FOLDER/N.deck, N.stdout, N.status and N.audit;
python3 random_decks.py --compare FOLDER SLOTS COMMAND.. runs the command on each, tells what differs, and then has status 1."""
from __future__ import annotations

import os
import subprocess
import sys
from random import Random
from typing import List
import monitor
from snobol import in_a_large_stack

ACCOUNTS = {'anna': ['admin'], 'lisa': ['staff'], 'hugo': ['ops', 'staff'], 'eve': ['guest', 'admin', 'ops']}
GROUPS = ['admin', 'staff', 'ops', 'guest', 'none']
SETS = ['PAY', 'LOG', 'FIVE', 'BOX.1']
TEXTS = ['A', 'BB', '', 'ADA 100', 'X' * 40, ' Z ', '$JOB', '7']


def perms(r: Random) -> str:
    return ''.join(c if r.random() < 0.6 else '-' for c in 'rwx')


def acl(r: Random) -> List[str]:
    named = ['user:%s:%s' % (n, perms(r)) for n in r.sample(sorted(ACCOUNTS), r.randint(0, 2))]
    groups = ['group:%s:%s' % (g, perms(r)) for g in r.sample(GROUPS, r.randint(0, 3))]
    mask = ['mask::' + perms(r)] if named or groups or r.random() < 0.2 else []
    return ['user::' + perms(r), 'group::' + perms(r), 'other::' + perms(r)] + named + groups + mask


def quoted(r: Random) -> str:
    return "'%s'" % r.choice(TEXTS)


def act(r: Random, tied: List[int], reads: List[str], writes: List[str]) -> str:
    u, v = r.choice([5, 6, 9, 20] + 4 * tied), r.choice('ABC')
    goto = r.choice(['', '', '', ' :F(END)', ' :S(L)', ' :F(L)'])
    kind = r.randrange(10)
    if kind == 0:
        reads.append(v)
        return "  INPUT('%s',%d%s)" % (v, u, r.choice(['', ',3', ',40']))
    if kind == 1:
        writes.append(v + 'W')
        return "  OUTPUT('%sW',%d%s)" % (v, u, r.choice(['', ",'(2A1)'", ",'(1X,5A1)'"]))
    if kind in (2, 3):
        return '  X = %s%s' % (r.choice(reads), goto)
    if kind in (4, 5):
        return '  %s = %s%s' % (r.choice(writes), r.choice([quoted(r), 'X', "X '.' N"]), goto)
    if kind == 6:
        return '  %s(%d)%s' % (r.choice(['REWIND', 'ENDFILE', 'ENDFILE']), u, goto)
    if kind == 7:
        return '  OUTPUT = %s%s' % (r.choice(['X', quoted(r), 'INPUT', 'N', '&STNO', "F('Y')"]), goto)
    if kind == 8:
        return '  ' + r.choice(["T<X> = T<X> 'Y'", 'OUTPUT = T<N> T<X>', 'T<N> = INPUT', 'T<INPUT> = X', "T<X> 'A' = 'T'", 'T = TABLE()']) + goto
    return '  N = N + 1'


def job(r: Random) -> List[str]:
    reads, writes = ['INPUT'], ['OUTPUT']
    tied = r.choices([5, 6, 7, 8, 9, 9, 8], k=r.randint(0, 3))
    body = [act(r, tied, reads, writes) for _ in range(r.randint(1, 9))]
    body.insert(0, r.choice(['  T = TABLE()', "  T = TABLE(); T<''> = 'A'", '  T = TABLE(); X = T<X>', '  N ='] if r.random() < 0.9 else ['  T = N']))
    body.insert(r.randint(0, len(body)), 'L N = N + 1')
    body.append('  %s' % r.choice(["GT(N,%d) :F(L)" % r.randint(1, 4), 'X = X', "X 'A' = 'B'"]))
    if r.random() < 0.3:
        body = ["  DEFINE('F(P)A') :(G)", "F F = P A INPUT; A = 'K' :(RETURN)", 'G'] + body
    options = [' ST=%d' % r.choice([1, 3, 9, 30, 200])] if r.random() < 0.7 else [' ST=500']
    ties = ['$UNIT %d %s' % (u, r.choice(SETS + ['GONE'])) for u in tied]
    data = [('$' if t[:1] == '$' else '') + t for t in r.choices(TEXTS, k=r.randint(0, 4))]
    return (['$JOB %s%s' % (r.choice(sorted(ACCOUNTS)), ''.join(options))] + ties + body
            + [r.choice(['END', 'END', 'END L'])] + data + ['$EOJ'])


def card(r: Random, slots: int) -> List[str]:
    who, name = r.choice(sorted(ACCOUNTS) + ['nobody']), r.choice(SETS + ['GONE'])
    kind = r.randrange(14)
    if kind < 6:
        return job(r)
    if kind < 8:
        return ['$TURN %d %d' % (r.randint(1, min(8, slots + 1)), r.randint(1, 6))]
    if kind == 8:
        return ['$DRAIN']
    if kind == 9:
        return ['$SETACL %s %s %s' % (who, name, ','.join(acl(r)))]
    if kind == 10:
        return ['$SETACL %s %s' % (who, name)] + acl(r) + ['$ENDACL']
    if kind == 11:
        return ['$CATALOG ' + who]
    word = r.choice(['CREATE', 'CREATE', 'DELETE', 'SHOWACL', 'LIST', 'LIST'])
    mode = r.choice(['', ' SEQ', ' APPEND', ' APPEND']) if word == 'CREATE' else ''
    return ['$%s %s %s%s' % (word, who, name, mode)]


def catalogue(r: Random) -> List[str]:
    version = r.choice([1, 2, 2])
    lines = ['$CATALOGUE' + ' 2' * (version == 2)]
    for name in SETS[:r.randint(2, 4)]:
        records = r.choices(TEXTS, k=r.randint(0, 5))
        mode = ' ' + r.choice(['SEQ', 'APPEND']) if version == 2 else ''
        lines += ['$SET %s %s %s%s %d' % (name, r.choice(sorted(ACCOUNTS)), r.choice(GROUPS), mode, len(records)), ','.join(acl(r))]
        lines += records
    return lines


def deck(r: Random, slots: int) -> str:
    lines = ['$ACCOUNTS'] + [' '.join([a] + g) for a, g in ACCOUNTS.items()] + catalogue(r) + ['$STREAM']
    for _ in range(r.randint(1, 12)):
        lines += card(r, slots)
    return '\n'.join(lines + ['$STOP', ''])


def write(count: int, seed: int, folder: str, slots: int) -> None:
    r = Random(seed)
    os.makedirs(folder, exist_ok=True)
    for n in range(count):
        text = deck(r, slots)
        audit: List[str] = []
        out, err, status = monitor.run(text.encode(), slots, audit)
        for what, it in (('deck', text), ('stdout', out), ('status', '%d\n%s' % (status, err)), ('audit', '\n'.join(audit + ['']))):
            with open('%s/%d.%s' % (folder, n, what), 'w') as f:
                f.write(it)


def compare(folder: str, slots: str, command: List[str]) -> None:
    decks = sorted((f for f in os.listdir(folder) if f.endswith('.deck')), key=lambda f: int(f[:-5]))
    different = 0
    for f in decks:
        base = folder + '/' + f[:-5]
        words = command + ['--slots', slots, '--audit', base + '.seen']
        got = subprocess.run(words, stdin=open(base + '.deck'), capture_output=True, text=True, timeout=60)
        wanted = open(base + '.stdout').read(), open(base + '.status').read(), open(base + '.audit').read()
        if (got.stdout, '%d\n%s' % (got.returncode, got.stderr), open(base + '.seen').read()) != wanted:
            different += 1
            print('DIFFERENT', base)
    print('%d decks, %d different' % (len(decks), different))
    sys.exit(1 if different or not decks else 0)


if __name__ == '__main__':
    if sys.argv[1] == '--compare':
        compare(sys.argv[2], sys.argv[3], sys.argv[4:])
    else:
        slots = int(sys.argv[4]) if len(sys.argv) > 4 else 4
        in_a_large_stack(lambda: write(int(sys.argv[1]), int(sys.argv[2]), sys.argv[3], slots))
