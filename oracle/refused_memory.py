"""Each growth refused in turn: what a program prints then, beside what monitor.py says of it.

python3 refused_memory.py PROGRAM DECK..    (needs a C compiler; PROGRAM takes its memory by malloc and realloc)

The n-th growth is refused, for each n that there is. Then either the run tells that it is out of memory, and has written a
beginning of what it writes else; or one job has ended with END MEMORY, and all is as where that job is ended behind some
moment of some turn, at which a statement began or something was asked, with the count that monitor.py has there; or nothing
differs."""
from __future__ import annotations

import os
import re
import subprocess
import sys
import tempfile
from typing import Dict, List, Optional, Set, Tuple
import monitor
from failing_files import made_library
from monitor import Monitor, Running
from snobol import in_a_large_stack

Place = Tuple[int, int, int]    # a job's number, one of its turns from 1 on, and how many moments of it are over

SHIM = r'''
#define _GNU_SOURCE
#include <dlfcn.h>
#include <stdlib.h>
#include <string.h>
#include <unistd.h>
static long left = -2;
static int refuses(void) {
    if (left == -2) { const char *n = getenv("REFUSE"); left = n ? atol(n) : -1; }
    return left > 0 && --left == 0;
}
void *malloc(size_t n) {
    static void *(*next)(size_t);
    if (!next) next = dlsym(RTLD_NEXT, "malloc");
    return refuses() ? 0 : next(n);
}
void *realloc(void *p, size_t n) {
    static void *(*next)(void *, size_t);
    if (!next) next = dlsym(RTLD_NEXT, "realloc");
    return refuses() ? 0 : next(p, n);
}
void *aligned_alloc(size_t a, size_t n) {
    static void *(*next)(size_t, size_t);
    if (!next) next = dlsym(RTLD_NEXT, "aligned_alloc");
    return refuses() ? 0 : next(a, n);
}
int posix_memalign(void **p, size_t a, size_t n) {
    static int (*next)(void **, size_t, size_t);
    if (!next) next = dlsym(RTLD_NEXT, "posix_memalign");
    return refuses() ? 12 : next(p, a, n);
}
__attribute__((destructor)) static void tell(void) {
    const char *f = getenv("REFUSED");
    if (f && left == 0) { int k = symlink("yes", f); (void)k; }
}
'''


class Broken(Exception):
    """Memory breaks the turn off."""


def ended_at(data: bytes, place: Optional[Place]) -> Tuple[str, Dict[int, List[int]]]:
    """The output where a job is broken off at that place; and how many moments each turn of each job had. A moment is the
    beginning of a statement, or an exchange."""
    turns: Dict[int, List[int]] = {}

    class Ended(Running):
        def turn(self) -> Optional[str]:
            turns.setdefault(self.number, []).append(0)
            self.left = place[2] if place and place[:2] == (self.number, len(turns[self.number])) else None
            try:
                ending = super().turn()
            except Broken:
                return 'MEMORY'
            return ending if self.left is None else 'MEMORY'

        def moment(self) -> None:
            if self.left == turns[self.number][-1]:
                raise Broken()
            turns[self.number][-1] += 1

        def begin(self, index: int) -> None:
            self.moment()
            super().begin(index)

        def ask(self, act: str, number: int, text: Optional[str] = None) -> str:
            self.moment()
            return super().ask(act, number, text)

    return monitor.run(data, running=Ended)[0], turns


def all_ends(data: bytes, job: int) -> Set[str]:
    """All outputs where this job is broken off, each turn behind each of its moments: in the first of them its statement
    begins, and a turn that begins none takes no memory."""
    turns = ended_at(data, None)[1].get(job, [])
    return {ended_at(data, (job, turn + 1, moments))[0] for turn, all in enumerate(turns) for moments in range(1, all + 1)}


def is_explained(data: bytes, out: str, ends: Dict[int, Set[str]]) -> bool:
    """Whether some job that is broken off somewhere gives this output; `ends` keeps those that were made of the deck."""
    lines = out.split('\n')
    at = next(i for i, line in enumerate(lines) if line.startswith('END MEMORY AFTER '))
    job = int([line for line in lines[:at] if line.startswith('JOB ')][-1].split()[1])
    if job not in ends:
        ends[job] = all_ends(data, job)
    return out in ends[job]


def held_by(job: Running) -> int:
    """How many bytes the printout of a job in a slot takes so far."""
    return sum(len(line) + 5 for line in job.spool) + 96 * len(job.notes)


def told_at(data: bytes, line: int) -> Tuple[str, str]:
    """What is printed up to a line of a deck, and what is told where memory runs out at it."""
    state = Monitor(4)
    deck = monitor.Deck(state)
    for raw in data.split(b'\n')[:line - 1]:
        deck.take(raw.removesuffix(b'\r'))
    most = max(filter(None, state.slots), key=held_by, default=None)
    held = '' if most is None else '; job %d of %s holds most: %d bytes of printout' % (most.number, most.account[0], held_by(most))
    return ''.join(line + '\n' for line in state.out), 'snomon: at line %d%s\n' % (line, held)


def is_told(data: bytes, out: str, err: str) -> bool:
    """Whether all of this, or for want of memory less, tells of memory, of a line up to which all that is printed is right, and of the
    job that then holds most."""
    first, line = 'snomon: out of memory\n', re.search('at line ([0-9]+)', err)
    if line is None:
        return err in ('', first)
    printed, second = told_at(data, int(line[1]))
    return printed.startswith(out) and err == first + second


def main() -> None:
    program, decks = sys.argv[1], sys.argv[2:]
    with tempfile.TemporaryDirectory() as room:
        library = made_library(room, SHIM)
        failed, total = False, 0
        for deck in decks:
            data = open(deck, 'rb').read()
            whole = monitor.run(data)
            counts = {'told': 0, 'of a job': 0, 'not seen': 0}
            n = 0
            bad: List[int] = []
            ends: Dict[int, Set[str]] = {}
            while True:
                n += 1
                mark = room + '/refused'
                if os.path.islink(mark):
                    os.unlink(mark)
                got = subprocess.run([program], input=data, capture_output=True, timeout=60,
                                     env={'LD_PRELOAD': library, 'REFUSE': str(n), 'REFUSED': mark})
                out, err = got.stdout.decode(), got.stderr.decode()
                if not os.path.islink(mark):
                    break
                if got.returncode == 3:
                    counts['told'] += 1
                    good = whole[0].startswith(out) and is_told(data, out, err)
                elif (out, err, got.returncode) == whole:
                    counts['not seen'] += 1
                    good = True
                else:
                    counts['of a job'] += 1
                    good = got.returncode == whole[2] and err == whole[1] and 'END MEMORY AFTER ' in out and is_explained(data, out, ends)
                if not good:
                    bad.append(n)
            failed = failed or bool(bad) or n == 1
            total += n - 1
            print('%s: %d growths: %s; wrong: %s' % (deck, n - 1, counts, bad))
        print('%d growths refused on %d decks' % (total, len(decks)))
    sys.exit(1 if failed else 0)


if __name__ == '__main__':
    in_a_large_stack(main)
