"""Decks cut at each of their bytes: what a program prints of each beginning, beside what monitor.py says of it.

python3 cut_decks.py PROGRAM DECK..        of decks without jobs; a deck of 70,000 bytes takes a processor some minutes"""
from __future__ import annotations

import subprocess
import sys
from typing import Iterable, List, Optional, Tuple
from monitor import DataSet, Deck, Monitor, Refused


def copied(deck: Deck) -> Deck:
    """The same deck once more, as far as it has come."""
    old, new = deck.monitor, Monitor(len(deck.monitor.slots))
    new.accounts = dict(old.accounts)
    new.sets = {name: DataSet(s.owner, s.group, s.mode, s.acl, list(s.records)) for name, s in old.sets.items()}
    other = Deck(new)
    other.section, other.limit, other.due = getattr(other, deck.section.__name__), deck.limit, deck.due
    other.version = deck.version
    if deck.list:
        account, name, lines = deck.list
        other.list = account, name, list(lines)
    if isinstance(deck.due, tuple):
        records, wanted = deck.due
        open_set = next(name for name, s in old.sets.items() if s.records is records)
        other.due = new.sets[open_set].records, wanted
    return other


def text_of(lines: Iterable[str]) -> str:
    return ''.join(line + '\n' for line in lines)


def taken(deck: Deck, line: bytes, number: int) -> Tuple[str, str, int, bool]:
    """What the deck prints of a line, on standard error and as its status where it ends with that line; whether it has ended."""
    try:
        deck.take(line)
        return text_of(deck.monitor.out), 'snomon: line %d: E4 TRUNCATED\n' % (number + 1), 1, False
    except EOFError:
        return text_of(deck.monitor.out + deck.monitor.catalogue()), '', 0, True
    except Refused as code:
        return text_of(deck.monitor.out), 'snomon: line %d: %s\n' % (number, code), 1, True


def compare(program: str, data: bytes) -> Tuple[int, List[int]]:
    """(how many beginnings were tried, those at which something differs)"""
    deck, printed, at = Deck(Monitor(4)), '', 0
    ended: Optional[Tuple[str, str, int]] = None
    different: List[int] = []
    for number, line in enumerate(data.split(b'\n'), 1):
        for end in range(len(line) + 1):
            if at + end >= len(data):
                break
            wanted = ended
            if ended is None and end == 0:
                wanted = printed, 'snomon: line %d: E4 TRUNCATED\n' % number, 1
            elif ended is None:
                out, error, status, _ = taken(copied(deck), line[:end], number)
                wanted = printed + out, error, status
            got = subprocess.run([program], input=data[:at + end], capture_output=True)
            if (got.stdout.decode(), got.stderr.decode(), got.returncode) != wanted:
                different.append(at + end)
        at += len(line) + 1
        if ended is None and at <= len(data):
            out, error, status, last = taken(deck, line[:-1] if line.endswith(b'\r') else line, number)
            printed, deck.monitor.out = printed + out, []
            if last:
                ended = printed, error, status
    return len(data), different


if __name__ == '__main__':
    for path in sys.argv[2:]:
        tried, different = compare(sys.argv[1], open(path, 'rb').read())
        print('%s: %d beginnings, %d different %s' % (path, tried, len(different), different[:5]))
