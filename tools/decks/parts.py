"""A folder with the decks that a whole one was split into: what its files are called, and what its `cards` says.

`cards` has a line for each thing of the whole deck that counts for putting the outputs together, in the deck's order:

    decks 2                       how many decks there are
    set 1 PAYROLL                 a data set, and the deck that has it
    job 2 lisa                    a job
    command 1 LIST anna PAYROLL   a command
    command - CATALOG lisa        a command that stands in every deck
    drain                         where no job is left: a $DRAIN, and the $STOP"""
from __future__ import annotations

import os
from dataclasses import dataclass
from typing import Iterator, List, Optional

from .text import Lines, is_count, is_name, shown

CARDS_FILE = 'cards'
PARTS_LIMIT = 999
KINDS = {b'decks': (1, 1), b'set': (1, 1), b'job': (1, 1), b'command': (2, 3), b'drain': (0, 0)}  # how many words there are
WITHOUT_A_DECK = (b'decks', b'drain')


def deck_of(folder: str, part: int) -> str:
    return os.path.join(folder, f'{part + 1}.deck')


def output_of(folder: str, part: int) -> str:
    return os.path.join(folder, f'{part + 1}.out')


def audit_of(folder: str, part: int) -> str:
    return os.path.join(folder, f'{part + 1}.audit')


@dataclass(frozen=True)
class Event:
    """A line of `cards`. The part is counted from 0, and None where there is none or where it is all of them."""
    kind: bytes
    part: Optional[int]
    words: List[bytes]


def event_line(event: Event) -> bytes:
    part = b'-' if event.part is None else b'%d' % (event.part + 1)
    return b' '.join([event.kind, *([] if event.kind in WITHOUT_A_DECK else [part]), *event.words])


def read_events(lines: Lines) -> Iterator[Event]:
    """The first has the number of decks, in which all others stand."""
    decks = 0
    for line in iter(lines.next, None):
        words = line.split(b' ')
        has_part = words[0] not in WITHOUT_A_DECK
        rest = words[2:] if has_part else words[1:]
        fewest, most = KINDS.get(words[0], (1, 0))
        if not fewest <= len(rest) <= most or (words[0] == b'decks') != (lines.number == 1):
            raise lines.refused(f'snomon-deck split writes no such line: {shown(line)}')
        if not all(map(is_count if words[0] == b'decks' else is_name, rest)):
            raise lines.refused(f'snomon-deck split writes no such words: {shown(line)}')
        part = _part(lines, words, decks) if has_part else None
        if words[0] == b'decks':
            decks = int(rest[0])
            if not 1 <= decks <= PARTS_LIMIT:
                raise lines.refused(f'there are 1 to {PARTS_LIMIT} decks')
        yield Event(words[0], part, rest)
    if lines.number == 0:
        raise lines.cut_off('the number of decks is due')


def _part(lines: Lines, words: List[bytes], decks: int) -> Optional[int]:
    if words[:3] and words[0] == b'command' and words[1:3] == [b'-', b'CATALOG']:
        return None
    if not is_count(words[1]) or not 1 <= int(words[1]) <= decks:
        raise lines.refused(f'there is no deck {shown(words[1])}')
    return int(words[1]) - 1
