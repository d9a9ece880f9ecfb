"""Jobs that take all the memory that there is, beside jobs and commands of others: what is left of these.

python3 hostile_decks.py PROGRAM [HOG ..]      (HOG: the name of one, or of one and its megabytes, as spool:300)

Three jobs and twenty commands make a deck, whose output monitor.py gives. Into it one more account's cards are put, a hog: its data
sets, a job that is loaded behind the three, and turns that give it most of the memory while the others wait. The deck then runs
with an address space that is limited to so many megabytes. The run has to end with status 0 and nothing on standard error; what the
others and the catalogue print is what monitor.py gives without the hog, byte by byte; the hog's own printout is a whole one, where it
spools or is denied with as many lines and notes as its count of statements says; and its data sets stand in the catalogue with all
the records that their cards count.

4,096 megabytes are tried with few hogs alone, since to fill and to print them takes seconds, and names and variables, which take long
to make, under 300 megabytes alone."""
from __future__ import annotations

import os
import resource
import subprocess
import sys
import time
from typing import Callable, Dict, Iterable, Iterator, List, Optional, Tuple
import monitor
from snobol import in_a_large_stack

Lines = List[str]
Parts = Tuple[Lines, Lines, Lines, Lines]   # of a hog: its data sets, its jobs, the turns that they get while the others wait, and commands at the end
Hog = Callable[[int], Parts]                # to be told how many megabytes there are
MEGABYTE = 1 << 20
LONG = 'HOG.HAS.A.NAME.OF.31.CHARACTERS'

# ---- the others -------------------------------------------------------------------------------------------------

OPENING = ['$ACCOUNTS', 'anna admin', 'lisa staff', 'hugo ops staff', 'hog crew', '$CATALOGUE 2']
SETS = (['$SET PAYROLL anna admin SEQ 60', 'user::rwx,user:lisa:rw-,group::r--,group:ops:r-x,mask::rwx,other::---']
        + ['NAME%02d %d' % (n, 100 * n) for n in range(60)]
        + ['$SET LOG anna admin APPEND 2', 'user::rwx,group::r--,group:staff:-w-,mask::rwx,other::---', 'FIRST', '']
        + ['$SET REPORT lisa staff SEQ 1', 'user::rw-,user:hugo:r--,group::---,mask::r--,other::---', 'OLD'])

LONG_LIST = ['$SETACL anna LOG', 'user::rwx', 'group::r--', 'group:staff:-w-', 'mask::rw-', 'other::---  # nobody else',
             *('user:account%02d:rw-' % n for n in range(99)), '$ENDACL']

BEFORE = ['$LIST anna PAYROLL', '$CATALOG anna', '$SHOWACL lisa REPORT', '$CREATE hugo DIARY APPEND', '$SETACL lisa REPORT u::rw,g::,o::r']

# Each runs for some thousands of turns.
JOBS = [
    ['$JOB lisa ST=40000', '$UNIT 8 PAYROLL', '$UNIT 9 REPORT', "  INPUT('R',8); OUTPUT('W',9); N = 0",
     "L LINE = R :F(T)", "  LINE BREAK(' ') . WHO ' ' REM . PAY :F(L)", '  SUM = SUM + PAY; W = WHO " HAS " PAY :(L)',
     'T N = LT(N,3000) N + 1 :F(DONE)', "  ('ABC' N) LEN(3) REM . M :(T)", "DONE OUTPUT = 'SUM ' SUM ' ' M", 'END', '$EOJ'],
    ['$JOB hugo ST=40000', '$UNIT 8 LOG', '$UNIT 9 PAYROLL', "  OUTPUT('W',8); OUTPUT('P',9)", "  DEFINE('F(N)') :(GO)",
     'F F = LE(N,1) 1 :S(RETURN)', '  F = N + F(N - 1) :(RETURN)', 'GO N = LT(N,2000) N + 1 :F(END)', "  W = EQ(N,N / 100 * 100) 'SUM ' F(50)",
     '  P = EQ(N,N / 500 * 500) N :(GO)', 'END', '$EOJ'],
    ['$JOB anna ST=40000', '  T = TABLE()', 'L LINE = INPUT :F(GO)', "W LINE SPAN('ABCDEFGHIJKLMNOPQRSTUVWXYZ') . X = :F(L)",
     '  T<X> = T<X> + 1 :(W)', 'GO N = LT(N,3000) N + 1 :F(TELL)', '  T<N> = N * N; OUTPUT = EQ(N,N / 250 * 250) T<N - 1> :(GO)',
     "TELL OUTPUT = T<'THE'> ' ' T<'DOG'>", 'END', 'THE CAT AND THE DOG', 'THE END', '$EOJ'],
]
TURNS = ['$TURN 1 100', '$TURN 2 100', '$TURN 3 100']

# The hog has most of the memory when these come.
MEANWHILE = ['$LIST anna PAYROLL', '$SHOWACL anna LOG', *LONG_LIST, '$SHOWACL anna LOG', '$CREATE lisa DIARY', '$CREATE lisa PLANS',
             '$LIST hugo REPORT', '$CATALOG lisa', '$SETACL hugo LOG u::,g::,o::']
AFTER = ['$LIST anna LOG', '$LIST lisa REPORT', '$DELETE lisa PLANS', '$CATALOG hugo', '$SHOWACL nobody LOG', '$LIST lisa PAYROLL']


def deck(hog: Optional[Hog] = None, megabytes: int = 0) -> str:
    """The deck, with a hog or without."""
    none: Parts = [], [], [], []
    sets, jobs, turns, later = hog(megabytes) if hog else none
    cards = [*OPENING, *SETS, *sets, '$STREAM', *BEFORE, *(card for job in JOBS for card in job), *TURNS, *jobs, *turns,
             *MEANWHILE, *TURNS, '$DRAIN', *later, *AFTER, '$STOP']
    return ''.join(card + '\n' for card in cards)


# ---- the hogs ---------------------------------------------------------------------------------------------------

def job(program: Lines, options: str = 'ST=10000000 MATCH=10000000', ties: Iterable[str] = (), data: Iterable[str] = ()) -> Lines:
    return ['$JOB hog ' + options, *ties, *program, 'END', *data, '$EOJ']


def turns(count: int) -> Iterator[str]:
    """So many turns of the fourth slot."""
    while count > 0:
        yield '$TURN 4 %d' % min(count, 1000000)
        count -= 1000000


def share(megabytes: int, each: int) -> Lines:
    """So many turns as fill nearly two thirds of the memory, if each takes so many bytes."""
    return list(turns(megabytes * MEGABYTE * 6 // 10 // each))


def short_lines(megabytes: int) -> Parts:
    program = ["  S = DUPL('x',1024); OUTPUT('O',6)", 'L O = S :(L)']
    return [], job(program), share(megabytes, 1032), []


def long_texts(megabytes: int) -> Parts:
    program = ['  &MAXLNGTH = 100000', "  S = DUPL('x',100000)", 'L OUTPUT = S :(L)']
    return [], job(program, 'ST=50000'), share(megabytes, 103000), []


def notes_of_units(megabytes: int) -> Parts:
    program = ["  OUTPUT('W',20)", "L W = 'x' :(L)"]
    return [], job(program), share(megabytes, 200), []


def notes_of_sets(megabytes: int) -> Parts:
    sets = ['$SET %s anna admin SEQ 0' % LONG, 'user::rw-,user:hog:r--,group::---,mask::r--,other::---']
    program = ["  OUTPUT('W',8)", "L W = 'x' :(L)"]
    return sets, job(program, ties=['$UNIT 8 ' + LONG]), share(megabytes, 250), []


def own_sets(megabytes: int) -> Parts:
    sets = [line for n in range(20) for line in ['$SET HOG%02d hog crew APPEND 0' % n, 'user::rwx,group::---,other::---']]
    ties = ['$UNIT %d HOG%02d' % (10 + n, n) for n in range(20)]
    program = ["  S = DUPL('x',1024)", 'N N = LT(N,20) N + 1 :F(END)', "  OUTPUT('W',9 + N)", 'L W = S :S(L)F(N)']
    return sets, job(program, ties=ties), share(megabytes, 1100), ['$LIST hog HOG00']


def one_set_listed(megabytes: int) -> Parts:
    sets = ['$SET HOG00 hog crew SEQ 0', 'user::rwx,group::---,other::---']
    program = ["  S = DUPL('x',1024); OUTPUT('W',10)", 'L W = S :S(L)']
    return sets, job(program, ties=['$UNIT 10 HOG00']), list(turns(90000)), ['$LIST hog HOG00'] * 3


def strings(megabytes: int) -> Parts:
    program = ['  &MAXLNGTH = 100000', "  S = DUPL('x',99980)", "L N = N + 1; $('V' N) = S N :(L)"]
    return [], job(program), share(megabytes, 50000), []


def names(megabytes: int) -> Parts:
    program = ['  &MAXLNGTH = 100000', "  S = DUPL('x',99980)", 'L N = N + 1; $(S N) = 1 :(L)']
    return [], job(program), share(megabytes, 50000), []


def variables(megabytes: int) -> Parts:
    program = ["L N = N + 1; $('V' N) = N :(L)"]
    return [], job(program), share(megabytes, 100), []


def items(megabytes: int) -> Parts:
    program = ['  &MAXLNGTH = 100000', "  S = DUPL('x',99980); T = TABLE()", 'L N = N + 1; T<S N> = 1 :(L)']
    return [], job(program), share(megabytes, 50000), []


def tables(megabytes: int) -> Parts:
    program = ["  S = DUPL('x',4990); T = TABLE(); K = TABLE()", 'L N = LT(N,9990) N + 1 :F(M)', '  T<N> = TABLE() :(L)',
               'M M = M + 1; U = T<M - (M / 9990) * 9990>; U = IDENT(DATATYPE(U),"TABLE") U :F(M)', '  U<U> = S M; K<M> = S M :(M)']
    return [], job(program), share(megabytes, 5000), []


def patterns(megabytes: int) -> Parts:
    program = ["  S = 'x'", "L N = N + 1; $('P' N) = SPAN(N) BREAK(N) . V ARBNO(S | LEN(N)) | TAB(N) @V *S :(L)"]
    return [], job(program), share(megabytes, 500), []


def steps(megabytes: int) -> Parts:
    return [], job(["  Q = *Q 'C' | 'D'", "  'E' Q"]), list(turns(2)), []


def waiting(megabytes: int) -> Parts:
    program = ['  &MAXLNGTH = 100000', "  S = DUPL('x',100000); P = REM", 'L D = LT(D,900) D + 1 :F(M)', '  P = P . V :(L)', 'M N = N + 1',
               "  S P :(M)"]
    return [], job(program, 'ST=2000'), list(turns(1810)), []


def calls(megabytes: int) -> Parts:
    locals = ['V%d' % n for n in range(75)]
    program = ['  &MAXLNGTH = 100000', "  S = DUPL('x',99990)", "  DEFINE('F(N)%s') :(GO)" % ','.join(locals[:40]), 'F',
               *('  %s = S N' % local for local in locals[:40]), '  G(N + 1) :S(RETURN)F(FRETURN)', 'GO',
               "  DEFINE('G(N)%s') :(GO2)" % ','.join(locals[40:]), 'G', *('  %s = S N' % local for local in locals[40:]),
               '  F(N + 1) :S(RETURN)F(FRETURN)', 'GO2 F(1)']
    return [], job(program), [], []


def labels(megabytes: int) -> Parts:
    program = ['L N = LT(N,100000) N + 1 :F(END)', "  Y = 'X' N :($Y)", *('X%d X%d = 1 :(L)' % (n, n) for n in range(1, 100001))]
    return [], job(program), list(turns(150000)), []


def continuations(megabytes: int) -> Parts:
    program = ['  A = 1', *['+' + ' ' * 199] * 50000, '*', '+ + 1; OUTPUT = A']
    return [], job(program), list(turns(1)), []


def lists(megabytes: int) -> Parts:
    comment = ['#' + 'x' * 199] * 2000
    entries = ['u::rwx', 'g::', 'm::rwx', 'o::', *('u:someone.with.a.long.name.%04d:rwx' % n for n in range(100))]
    changed = ['$SETACL hog HOG00', *comment, *entries, *comment, '$ENDACL']
    sets = ['$SET HOG00 hog crew SEQ 0', 'user::rwx,group::---,other::---']
    return sets, [], [], changed * 20


def ties(megabytes: int) -> Parts:
    sets = ['$SET HOG00 hog crew APPEND 0', 'user::rwx,group::---,other::---']
    cards = ['$UNIT %d HOG00' % n for n in range(1, 100)]
    program = ["  S = DUPL('x',1000)", 'L N = LT(N,99) N + 1 :F(AGAIN)', "  OUTPUT('W' N,N); $('W' N) = S :(L)", 'AGAIN N = 0 :(L)']
    return sets, job(program, 'ST=50000', ties=cards), list(turns(30000)), []


def data(megabytes: int) -> Parts:
    program = ['L LINE = INPUT :F(END)', "  N = N + 1; $('V' N) = LINE :(L)"]
    return [], job(program, data=['y' * 200] * 50000), list(turns(100000)), []


def five_at_once(megabytes: int) -> Parts:
    """Lines, notes, strings, variables and records, each of a job of its own."""
    parts = [hog(megabytes) for hog in (short_lines, notes_of_units, strings, variables, own_sets)]
    all_turns = ['$TURN %d %d' % (slot, 20 * megabytes) for slot in range(4, 9)] * 5
    return parts[4][0], [card for part in parts for card in part[1]], all_turns, []


HOGS: Dict[str, Hog] = {
    f.__name__: f for f in (short_lines, long_texts, notes_of_units, notes_of_sets, own_sets, one_set_listed, strings, names, variables, items,
                                tables, patterns, steps, waiting, calls, labels, continuations, lists, ties, data, five_at_once)}
LIMITS = 300, 1024
LARGE = 4096
FILLING = 'short_lines', 'notes_of_sets', 'own_sets', 'strings'    # these are run at the large limit too
SLOW = 'names', 'variables'                                        # and these at the smallest alone
# how many statements a hog begins before it prints, and how many lines or notes each further one makes
PRINTED = {'short_lines': (2, 1), 'long_texts': (2, 758), 'notes_of_units': (1, 1), 'notes_of_sets': (1, 1)}

# ---- what came out ----------------------------------------------------------------------------------------------


class Wrong(Exception):
    """The output is not as it has to be."""


def job_left_out(lines: Iterator[bytes]) -> Tuple[str, int]:
    """Goes behind the printout of a job; its last line, and how many lines and notes were before it."""
    count, told = 0, False
    for line in lines:
        if line[:1] != b' ':
            word = line.split(None, 1)[0]
            if word == b'END':
                return line.decode().strip(), count
            if word not in (b'DENIED', b'FULL'):
                raise Wrong('in the printout of the hog: %r' % line[:80])
            told = True
        elif told:
            raise Wrong('a line of the spool behind a note')
        count += 1
    raise Wrong('the printout of the hog has no end')


def is_whole(name: str, end: str, count: int) -> bool:
    """Whether a hog that ended so has printed so many lines and notes. Its last statement may have been broken off."""
    if name not in PRINTED:
        return True
    before, each = PRINTED[name]
    statements = int(end.split()[-1]) - before
    return each * (statements - 1) <= count <= each * statements


def listing_left_out(lines: Iterator[bytes]) -> None:
    """Goes behind what $LIST prints."""
    count = 0
    for line in lines:
        if line[:1] == b' ':
            count += 1
        elif line == b'RECORDS %d\n' % count:
            return
        else:
            break
    raise Wrong('a listing of %d records ends with %r' % (count, line[:80]))


def catalogue_of_others(lines: Iterator[bytes], kept: List[bytes]) -> None:
    """The catalogue without the data sets of the hog, which have as many records as they say."""
    for card in lines:
        words = card.split()
        if words[:1] != [b'$SET']:
            raise Wrong('in the catalogue: %r' % card[:80])
        own = words[1].startswith(b'HOG')
        if not own:
            kept.append(card)
        for n in range(int(words[5]) + 1):
            line = next(lines, None)
            if line is None:
                raise Wrong('the catalogue ends within %s' % words[1].decode())
            if not own:
                kept.append(line)


def of_others(lines: Iterator[bytes]) -> Tuple[bytes, List[Tuple[str, int]]]:
    """What is printed without what the hog prints; and how its jobs ended, with how many lines and notes."""
    kept: List[bytes] = []
    ends: List[Tuple[str, int]] = []
    for line in lines:
        if line[:4] == b'JOB ' and line.split()[2] == b'hog':
            ends.append(job_left_out(lines))
        elif line.startswith(b'LIST hog '):
            listing_left_out(lines)
        elif line.startswith(b'SETACL hog '):
            if next(lines, b'') != b'DONE\n':
                raise Wrong('a list is not set')
        else:
            kept.append(line)
            if line == b'$CATALOGUE 2\n':
                catalogue_of_others(lines, kept)
    return b''.join(kept), ends


def difference(got: bytes, wanted: bytes) -> str:
    """Where two outputs differ first."""
    seen, due = got.split(b'\n'), wanted.split(b'\n')
    at = next((n for n, pair in enumerate(zip(seen, due)) if pair[0] != pair[1]), min(len(seen), len(due)))
    here, there = (lines[at][:80] if at < len(lines) else 'nothing' for lines in (seen, due))
    return 'line %d of what the others print is %r in place of %r' % (at + 1, here, there)


def limited(megabytes: int) -> Callable[[], None]:
    return lambda: resource.setrlimit(resource.RLIMIT_AS, (megabytes * MEGABYTE, megabytes * MEGABYTE))


def run(program: str, text: str, megabytes: int) -> Tuple[bytes, List[Tuple[str, int]]]:
    """What the others print, and how the hog's jobs ended, with how many lines and notes."""
    with open('/dev/shm/hostile.%d' % os.getpid() if os.path.isdir('/dev/shm') else '/tmp/hostile.%d' % os.getpid(), 'w+b') as file:
        os.unlink(file.name)
        file.write(text.encode())
        file.seek(0)
        ran = subprocess.Popen([program, '--slots', '8'], stdin=file, stdout=subprocess.PIPE, stderr=subprocess.PIPE, preexec_fn=limited(megabytes))
        assert ran.stdout and ran.stderr
        wrong: Optional[Wrong] = None
        try:
            others, ends = of_others(iter(ran.stdout))
        except Wrong as found:
            wrong = found
        for _ in ran.stdout:
            pass
        said = ran.stderr.read().decode()
    if ran.wait() or said:
        raise Wrong('status %d, %r' % (ran.returncode, said))
    if wrong:
        raise wrong
    return others, ends


def tried(program: str, name: str, megabytes: int, wanted: bytes) -> Tuple[Optional[str], List[str]]:
    """What is wrong, if anything, and how the hog ended."""
    try:
        others, ends = run(program, deck(HOGS[name], megabytes), megabytes)
    except Wrong as wrong:
        return str(wrong), []
    if others != wanted:
        return difference(others, wanted), []
    if not all(is_whole(name, end, count) for end, count in ends):
        return 'lines or notes are missing, or there are too many: %s' % ends, []
    return None, [end for end, _ in ends]


def cases(words: List[str]) -> Iterator[Tuple[str, int]]:
    """Which hogs are tried, under how many megabytes."""
    for word in words:
        name, _, megabytes = word.partition(':')
        for limit in [int(megabytes)] if megabytes else LIMITS:
            yield name, limit
    if not words:
        yield from ((name, limit) for limit in LIMITS for name in HOGS if limit == LIMITS[0] or name not in SLOW)
        yield from ((name, LARGE) for name in FILLING)


def main() -> None:
    program, words = sys.argv[1], sys.argv[2:]
    wanted, _, status = monitor.run(deck().encode(), 8)
    alone, _ = run(program, deck(), min(LIMITS) - 64)
    failed = status != 0 or alone != wanted.encode()
    if failed:
        print('DIFFERENT without a hog: ' + difference(alone, wanted.encode()))
    count = 0
    for name, megabytes in cases(words):
        begun = time.monotonic()
        wrong, ends = tried(program, name, megabytes, wanted.encode())
        failed, count = failed or bool(wrong), count + 1
        told = 'FAILED' if wrong else 'ok', name, megabytes, wrong or ', '.join(ends), time.monotonic() - begun
        print('%s %s in %d MB: %s (%.1f s)' % told, flush=True)
    print('%d hostile decks' % count)
    sys.exit(1 if failed else 0)


if __name__ == '__main__':
    in_a_large_stack(main)
