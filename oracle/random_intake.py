#!/usr/bin/env python3
"""random_intake.py texts COUNT SEED FILE: random texts, whole, cut, and with faults, and what intake.py says of them.

random_intake.py rounds COUNT SEED FILE PROGRAM: random rounds of 2 to 12 texts. PROGRAM runs the deck of each text alone over
the catalogue as the text before it left it, and what it prints is wanted as that text's part.

random_intake.py decks COUNT SEED PROGRAM: the same texts in decks. One is admitted exactly where PROGRAM takes the deck of it
and a $STOP; one that is refused for a line's code is refused so there.

The first two write cases for the program `rows`."""
from __future__ import annotations

import concurrent.futures
import re
import subprocess
import sys
from random import Random
from typing import Iterator, List, NamedTuple, Optional, Tuple
import random_decks
from intake import FOREIGN, STOPS, UNFINISHED, Noted, examine, first_broken, in_turns, verdict

# Lines that are refused where nothing is open, or in a list, or in a job; {own} is the account, {other} is none of its names.
FAULTS = {
    'T1': ['$LIST {own} 1P', '$LIST 9 P', '$CATALOG _', '$JOB 7', '$JOB {own}, ST=5', '$UNIT 7 P*', '$SETACL {own} A+B u::',
           '$SETACL {own} A+B', '$CREATE {own} ' + 'N' * 32, '$CREATE {own} 1 APPEND', '$DELETE {own}: P', '$SHOWACL {own} P,Q'],
    'T2': ['$TURN x 1', '$TURN 1 -1', '$TURN 1 ' + '1' * 20, '$TURN +1 1', '$JOB {own} ST=', '$JOB {own} MATCH=1e3', '$UNIT A P',
           '$UNIT -7 P', '$JOB {own} ST=' + '0' * 20],
    'T3': ['$LIST {own} P\t', '\xe9', '\x7f', 'A\rB', '$DRAIN\r', '$ENDACL\t', '\t', 'user::rwx\t# \xfc', '\x1f', '\u20ac\x00'],
    'T4': ['$DRAIN'.ljust(201), '$TURN 1 1'.ljust(500), 'X' * 201, ' ' * 201, '#' * 300, '\t' * 201],
    'E1': ['$list {own} P', 'LIST {own} P', '$', '$ LIST', '$FOO', '$$', '$LISTS {own} P', '$ADA', 'END', '$CATALOG.'],
    'E2': ['$LIST {own}', '$LIST {own} P Q', '$CATALOG', '$CATALOG {own} P', '$CREATE {own} P seq', '$CREATE {own} P SEQ SEQ',
           '$TURN 0 1', '$TURN 9 1', '$TURN 1 0', '$TURN 1 1000001', '$TURN 1', '$TURN 1 1 1', '$DRAIN 1', '$STOP 1', '$JOB',
           '$JOB {own} ST=0', '$JOB {own} ST=10000001', '$JOB {own} ST=1 ST=2', '$JOB {own} X=1', '$JOB {own} st=1',
           '$JOB {own} MATCH=0', '$SETACL {own}', '$EOJ 1', '$UNIT 7', '$UNIT 7 P Q', '$ENDACL x', '$DELETE {own}'],
    'E3': ['$ACCOUNTS', '$CATALOGUE', '$CATALOGUE 2', '$SET P {own} staff SEQ 0', '$STREAM', '$ENDACL', '$UNIT 7 P', '$EOJ', ' $EOJ',
           '$STREAM X', '$UNIT', '$DRAIN'],
    STOPS: ['$STOP', ' $STOP ', '  $STOP'],
    FOREIGN: ['$LIST {other} P', ' $CATALOG {other}', '$JOB {other}', '$JOB {other} ST=5', '$SETACL {other} P',
              '$SETACL {other} P u::rwx', '$CREATE {other} P', '$DELETE {other} P', '   $SHOWACL {other} P'],
}
# Lines that are taken although they may not look so.
ODD = ['$TURN 8 1000000', '$TURN 01 0002', ' $DRAIN ', '$JOB {own} ST=10000000 MATCH=10000000\n$EOJ', '$DRAIN'.ljust(200), ' ' * 200,
       '$JOB {own} MATCH=0007 ST=1\n$EOJ ', '$CREATE {own} ' + 'N' * 31, '  $CATALOG   {own}  ', '$SETACL {own} P what is this',
       '$JOB {own}\n$$STOP\n$$\n' + 'X' * 200 + '\n$EOJ', '$JOB {own} ST=3\n$UNIT 0 P\n$UNIT 100 P\n\n $EOJ\n$EOJ',
       '$SETACL {own} P\n\tuser::rwx # all\t\n\n $STOP\n' + '#' * 200 + '\n$ENDACL', '$JOB {own}\n *\n $STOP\n$$LIST\n$EOJ']


def others(own: str) -> List[str]:
    return sorted(set(random_decks.ACCOUNTS) - {own}) + [own.upper(), own.capitalize(), own + '.', own + 'x', own[:-1]]


def filled(r: Random, line: str, own: str) -> str:
    return line.format(own=own, other=r.choice(others(own)))


def long_list(r: Random, own: str) -> List[str]:
    entries = random_decks.acl(r)
    lines = [r.choice(['', '', ' ', '\t']) + entry + r.choice(['', '', ' ', '\t# \t mine']) for entry in entries]
    lines += r.choices(['', '# $ENDACL', ' \t ', ' $ENDACL'], k=r.randint(0, 2)) + ['# more'] * r.choice([0, 0, 0, 150])
    return ['$SETACL %s %s' % (own, r.choice(random_decks.SETS))] + lines + ['$ENDACL']


def long_job(r: Random, own: str) -> List[str]:
    units, lines = r.choices([0, 1, 62, 63, 64, 65, 130], k=2)
    return ['$JOB %s ST=%d' % (own, r.randint(1, 99))] + ['$UNIT 7 PAY'] * units + r.choices(['*', '', '$$'], k=lines) + ['$EOJ']


def card(r: Random, own: str) -> List[str]:
    """A card of this account, with what belongs to it."""
    kind = r.random()
    if kind < 0.13:
        return long_list(r, own) if kind < 0.1 else long_job(r, own)
    made = random_decks.card(r, 4)
    words = made[0].split(' ')
    if words[0] not in ('$TURN', '$DRAIN'):
        words[1] = own
    if words[0] == '$JOB':
        words += r.choices(['', ' MATCH=%d' % r.choice([1, 50, 2000, 1000000])], [3, 1])
    return [r.choice(['', '', '', ' ', '   ']) + ' '.join(words)] + made[1:]


def whole(r: Random, own: str, most: int) -> List[str]:
    lines = []
    for _ in range(r.randint(0, most)):
        lines += card(r, own) + r.choices(['', '   '], k=r.choice([0, 0, 0, 1, 2]))
    return lines


def bytes_of(r: Random, lines: List[str]) -> str:
    """With LF, with CR LF, or with both; the last line may have none."""
    ends = r.choice([['\n'], ['\n'], ['\n'], ['\r\n'], ['\n', '\r\n']])
    text = ''.join(line + r.choice(ends) for line in lines)
    if r.random() < 0.1:
        text = re.sub('\r?\n\\Z', '', text)
    return text


def text_of(r: Random, own: str) -> str:
    lines = whole(r, own, r.choice([2, 4, 8]))
    kind, at = r.random(), r.randint(0, len(lines))
    if kind < 0.5:
        lines[at:at] = filled(r, r.choice(FAULTS[r.choice(sorted(FAULTS))]), own).split('\n')
    elif kind < 0.6:
        lines[at:at] = filled(r, r.choice(ODD), own).split('\n')
    elif kind < 0.7 and lines:
        del lines[r.randrange(len(lines))]
    elif kind < 0.75:
        lines += whole(r, r.choice(others(own)), 2)
    text = bytes_of(r, lines)
    if 0.75 <= kind < 0.85:
        return text[:r.randint(0, len(text))]
    if 0.85 <= kind < 0.9 and text:
        at = r.randrange(len(text))
        return text[:at] + r.choice('$ \t\r\n\x7f\xe9A0') + text[at + 1:]
    return text


def texts(count: int, seed: int) -> Iterator[Tuple[str, str, str]]:
    """(its name, the account, the text)"""
    for n in range(seed, seed + count):
        r = Random(n)
        own = r.choice(sorted(random_decks.ACCOUNTS))
        yield 'text-%d' % n, own, text_of(r, own)


def block(text: str) -> str:
    """A line of a case for each line: one that ends with LF has a blank before it, the last one may have a - instead."""
    lines = text.split('\n')
    last = lines.pop()
    return ''.join(' %s\n' % line for line in lines) + ('-%s\n' % last if last else '')


def kind_of(said: str) -> str:
    return said.split(' ', 2)[2] if said.startswith('REFUSED') else 'ADMITTED'


def counted(kinds: List[str]) -> str:
    return ', '.join('%d %s' % (kinds.count(kind), kind) for kind in sorted(set(kinds)))


def write_texts(count: int, seed: int, path: str) -> None:
    parts, kinds = [], []
    for name, own, text in texts(count, seed):
        said = verdict(own, text.encode())
        kinds.append(kind_of(said))
        parts.append('$CASE TEXT %s %s\n%s$WANTED\n %s\n' % (name, own, block(text), said))
    with open(path, 'w', encoding='utf-8', newline='') as file:
        file.write('Random texts.\n\n' + '\n'.join(parts))
    print('%d texts: %s' % (len(parts), counted(kinds)))


# ---- rounds, orders and limits -------------------------------------------------------------------------------------

TALLY = 'jobs statements largest work creates bytes'.split()
LIMITS = ['texts', 'bytes', 'jobs', 'statements', 'largest', 'work', 'data sets', 'records']
TABLE = '$ACCOUNTS\n' + ''.join('%s\n' % ' '.join([name] + groups) for name, groups in random_decks.ACCOUNTS.items())


def ended(text: str) -> str:
    return text if text[-1:] in ('', '\n') else text + '\n'


def admitted(r: Random, own: str) -> str:
    while True:
        text = bytes_of(r, whole(r, own, 5)) if r.random() < 0.8 else text_of(r, own)
        if isinstance(examine(own, text.encode()), Noted):
            return text


def alone(program: str, slots: int, catalogue: str, text: str) -> Tuple[str, str]:
    """What the submission prints as the only one of a deck, and the catalogue that it leaves."""
    deck = TABLE + catalogue + '$STREAM\n' + ended(text) + '$STOP\n'
    done = subprocess.run([program, '--slots', str(slots)], input=deck.encode(), capture_output=True, timeout=60, check=True)
    output = done.stdout.decode()
    heading = re.search('^\\$CATALOGUE 2$', output, re.M)
    assert heading
    return output[:heading.start()], output[heading.start():]


def numbered_behind(jobs: int, printed: str) -> str:
    return re.sub('^JOB ([0-9]+) ', lambda said: 'JOB %d ' % (int(said[1]) + jobs), printed, flags=re.M)


class Round(NamedTuple):
    case: str
    texts: int
    jobs: int
    prints_the_same: bool       # as one deck of all submissions


def round_of(program: str, seed: int) -> Round:
    r = Random(seed)
    slots, jobs, wanted = r.choice([1, 2, 4, 4, 8]), 0, ''
    texts: List[Tuple[str, str]] = []
    first = catalogue = alone(program, slots, '\n'.join(random_decks.catalogue(r) + ['']), '')[1]
    for own in r.choices(sorted(random_decks.ACCOUNTS), k=r.randint(2, 12)):
        texts.append((own, admitted(r, own)))
        printed, catalogue = alone(program, slots, catalogue, texts[-1][1])
        wanted += '$OF %s\n' % own + numbered_behind(jobs, printed)
        noted = examine(own, texts[-1][1].encode())
        assert isinstance(noted, Noted)
        jobs += noted.jobs
    together = alone(program, slots, first, ''.join(ended(text) + '$DRAIN\n' for _, text in texts))
    given = block(TABLE.split('\n', 1)[1]) + '$SETS\n' + block(first.split('\n', 1)[1])
    given += ''.join('$OF %s\n%s' % (own, block(text)) for own, text in texts)
    case = '$CASE ROUND round-%d %d\n%s$WANTED\n%s' % (seed, slots, given, block(wanted + '$LEFT\n' + catalogue))
    return Round(case, len(texts), jobs, together == (re.sub('^\\$OF .*\n', '', wanted, flags=re.M), catalogue))


def order_of(seed: int) -> str:
    """The submissions of some accounts, and in which order a round takes them."""
    r = Random(seed)
    queues = [['%s%d' % (name, k) for k in range(r.choice([0, 1, 2, 2, 5]))] for name in 'abcdef'[:r.randint(0, 6)]]
    number = r.choice([0, 1, 2, 3, 7, 12, 2**64 - 1])
    lines = ''.join(' %s\n' % ' '.join(queue) for queue in queues)
    wanted = ''.join(' %s\n' % one for one in in_turns(number, queues))
    return '$CASE ORDER order-%d %d\n%s$WANTED\n%s' % (seed, number, lines, wanted)


def limits_of(seed: int) -> str:
    """The limits of an account, most of them about what its submissions come to; what it owns; and the tallies of its submissions."""
    r = Random(seed)
    tallies = [[r.choice([0, 1, 2, 10**6, 10**14]) for _ in TALLY] for _ in range(r.randint(0, 5))]
    owned = r.choice([0, 3, 1000]), r.choice([0, 60, 10**9])
    sums = [sum(one[k] for one in tallies) for k in range(len(TALLY))]
    largest = max((one[2] for one in tallies), default=0)
    about = [len(tallies), sums[5], sums[0], sums[1], largest, sums[3], owned[0] + sums[4], owned[1]]
    limits = [max(0, n + r.choice([-1, 0, 0, 0, 0, 0, 0, 1, 10])) for n in about]
    broken = first_broken(dict(zip(LIMITS, limits)), owned, [dict(zip(TALLY, one)) for one in tallies])
    lines = ''.join(' %s\n' % ' '.join(map(str, line)) for line in [limits, owned, *tallies])
    return '$CASE LIMITS limits-%d\n%s$WANTED\n %s\n' % (seed, lines, (broken or 'none').upper())


def write_rounds(count: int, seed: int, path: str, program: str) -> bool:
    with concurrent.futures.ThreadPoolExecutor(2) as pool:
        made = list(pool.map(lambda n: round_of(program, n), range(seed, seed + count)))
    with open(path, 'w', encoding='utf-8', newline='') as file:
        file.write('Random rounds, orders and limits.\n\n')
        file.writelines('\n'.join([one.case, order_of(seed + n), limits_of(seed + n), '']) for n, one in enumerate(made))
    different = ['DIFFERENT as one deck: round-%d' % (seed + n) for n, one in enumerate(made) if not one.prints_the_same]
    texts_and_jobs = sum(one.texts for one in made), sum(one.jobs for one in made)
    print('\n'.join(different + ['%d rounds of %d texts and %d jobs, %d of them different as one deck; as many orders, and limits'
                                 % (count, *texts_and_jobs, len(different))]))
    return bool(different) or not count


# ---- the same submissions in decks ---------------------------------------------------------------------------------------

FRONT = TABLE + '$CATALOGUE 2\n$STREAM\n'


def asked_of(text: str, said: str) -> Tuple[str, Optional[Tuple[int, str]]]:
    """(a stream that shows why the submission is admitted or refused so, the line and the code for which its deck is refused, or None)"""
    if said.startswith('ADMITTED'):
        return ended(text) + '$STOP', None
    _, line, why = said.split(' ', 2)
    if why == STOPS:
        return text, None
    if why == UNFINISHED:
        return ended(text) + '$STOP', (int(line), 'E3 OUT OF PLACE')
    if why == FOREIGN:
        return ''.join(one + '\n' for one in text.split('\n')[:int(line)]), (int(line) + 1, 'E4 TRUNCATED')
    return text, (int(line), why)


def deck_differs(program: str, own: str, text: str) -> bool:
    stream, refused = asked_of(text, verdict(own, text.encode()))
    done = subprocess.run([program, '--check'], input=(FRONT + stream).encode(), capture_output=True, timeout=60)
    error = 'snomon: line %d: %s\n' % (FRONT.count('\n') + refused[0], refused[1]) if refused else ''
    return (done.returncode, done.stderr.decode()) != (1 if refused else 0, error)


def compare_decks(count: int, seed: int, program: str) -> bool:
    made = list(texts(count, seed))
    with concurrent.futures.ThreadPoolExecutor(2) as pool:
        differing = pool.map(lambda one: deck_differs(program, one[1], one[2]), made)
        different = [name for (name, _, _), differs in zip(made, differing) if differs]
    for name in different:
        print('DIFFERENT', name)
    print('%d texts in decks, %d different' % (count, len(different)))
    return bool(different) or not count


if __name__ == '__main__':
    kind, rest = sys.argv[1], sys.argv[2:]
    count, seed = int(rest[0]), int(rest[1])
    if kind == 'texts':
        write_texts(count, seed, rest[2])
    elif kind == 'rounds':
        sys.exit(write_rounds(count, seed, rest[2], rest[3]))
    else:
        sys.exit(compare_decks(count, seed, rest[2]))
