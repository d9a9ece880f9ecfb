"""Each read and each write failing in turn: what a program prints then, beside what monitor.py says of it.

python3 failing_streams.py PROGRAM DECK..    (needs a C compiler; PROGRAM reads and writes by read and write)

Decks are good ones. The k-th call fails, for each k that there is: it and all later ones, or it alone. Calls move as many bytes
as they are asked to, or 7, or 1. Each such run has to tell the fault and to end with status 3. Where a read failed, it has
printed what the lines that were read whole cause; where a write failed, a beginning of the output, of calls that move one byte
exactly as many bytes as calls went before. Where a write to the output or to an audit failed, the audit is a beginning of the whole, and
has the lines of each printout that the output has a byte of."""
from __future__ import annotations

import functools
import os
import subprocess
import sys
import tempfile
from typing import List, Tuple
import audits
import monitor
from failing_files import made_library
from monitor import Deck, Monitor
from snobol import in_a_large_stack

SHIM = r'''
#define _GNU_SOURCE
#include <dlfcn.h>
#include <errno.h>
#include <stdlib.h>
#include <unistd.h>
static long number(const char *name) {
    const char *n = getenv(name);
    return n ? atol(n) : 0;
}
static int fails(int file) {
    static long calls;
    if (file != number("FAIL_FILE")) return 0;
    ++calls;
    if (calls < number("FAIL_CALL") || (calls > number("FAIL_CALL") && number("FAIL_ONCE"))) return 0;
    int made = symlink("yes", getenv("FAILED"));
    (void)made;
    errno = EIO;
    return 1;
}
static size_t moved(size_t n) {
    size_t most = number("MOST");
    return most && most < n ? most : n;
}
ssize_t read(int file, void *into, size_t n) {
    static ssize_t (*next)(int, void *, size_t);
    if (!next) next = dlsym(RTLD_NEXT, "read");
    if (file != 0) return next(file, into, n);
    return fails(file) ? -1 : next(file, into, moved(n));
}
ssize_t write(int file, const void *from, size_t n) {
    static ssize_t (*next)(int, const void *, size_t);
    if (!next) next = dlsym(RTLD_NEXT, "write");
    if (file != 1 && file != number("FAIL_FILE")) return next(file, from, n);
    return fails(file) ? -1 : next(file, from, moved(n));
}
'''
FILES = {'read': 0, 'write': 1, 'audit': 3}  # an audit is the first file that is opened


@functools.lru_cache(maxsize=None)
def printed(lines: bytes) -> str:
    """What whole lines print; with `$STOP` among them that is all, the catalogue too."""
    deck = Deck(Monitor(4))
    end: List[str] = []
    try:
        for line in lines.split(b'\n')[:-1]:
            deck.take(line[:-1] if line.endswith(b'\r') else line)
    except EOFError:
        end = deck.monitor.catalogue()
    return ''.join(line + '\n' for line in deck.monitor.out + end)


@functools.lru_cache(maxsize=None)
def whole_run(data: bytes) -> Tuple[str, str, List[int]]:
    """The output, the audit, and where each printout begins in the output."""
    audit: List[str] = []
    begins: List[int] = []
    at = 0
    whole = monitor.run(data, 4, audit)[0]
    lines = whole.split('\n')
    for block in audits.blocks(lines[:lines.index('$CATALOGUE 2')]):
        begins.append(at)
        at += sum(len(line) + 1 for line in block)
    return whole, ''.join(line + '\n' for line in audit), begins


def is_ahead(data: bytes, out: str, audit: str) -> bool:
    """Whether the audit was written before what the output shows."""
    _, whole, begins = whole_run(data)
    told = audits.printed(line for line in audit.split('\n')[:-1] if not line.startswith('RUN '))
    return whole.startswith(audit) and sum(1 for _ in told) >= sum(1 for at in begins if at < len(out))


def is_due(data: bytes, whole: str, call: str, k: int, most: int, out: str) -> bool:
    """Whether this is what stands written where the k-th call fails."""
    moved = (most or len(data)) * (k - 1)
    if call == 'read':
        return out == printed(data[:data.rfind(b'\n', 0, moved) + 1])
    return whole.startswith(out) and (call == 'audit' or most != 1 or len(out) == moved)


def failing(program: str, data: bytes, room: str, library: str, call: str, most: int, once: bool) -> Tuple[int, List[int]]:
    """(how many calls were made to fail, the numbers of those behind which something else was seen)"""
    whole, k = whole_run(data)[0], 0
    wrong: List[int] = []
    mark, audit = room + '/failed', room + '/audit'
    while True:
        k += 1
        got = subprocess.run([program] if call == 'read' else [program, '--audit', audit], input=data, capture_output=True, timeout=60, env={
            'LD_PRELOAD': library, 'FAIL_FILE': str(FILES[call]), 'FAIL_CALL': str(k), 'FAIL_ONCE': str(int(once)),
            'MOST': str(most), 'FAILED': mark})
        if not os.path.islink(mark):
            return k - 1, wrong
        os.unlink(mark)
        out = got.stdout.decode()
        if (got.returncode, got.stderr.decode()) != (3, 'snomon: %s fault\n' % call) or not is_due(data, whole, call, k, most, out):
            wrong.append(k)
        elif call != 'read' and not is_ahead(data, out, open(audit).read()):
            wrong.append(k)


def main() -> None:
    program, decks = sys.argv[1], sys.argv[2:]
    total, failed = 0, False
    with tempfile.TemporaryDirectory() as room:
        library = made_library(room, SHIM)
        for deck in decks:
            data = open(deck, 'rb').read()
            for call in FILES:
                for most in (0, 7, 1):
                    for once in (False, True):
                        count, wrong = failing(program, data, room, library, call, most, once)
                        total += count
                        if wrong or not count:
                            failed = True
                            print('%s: the %s fails%s, %s bytes a call: %d calls; wrong: %s' % (
                                deck, call, ' once' if once else '', most or 'all', count, wrong))
    print('%d reads and writes failed' % total)
    sys.exit(1 if failed else 0)


if __name__ == '__main__':
    in_a_large_stack(main)
