"""A program by itself: what `try` does."""
from __future__ import annotations

import re
from typing import BinaryIO, Iterator, List, Optional, Tuple

from .catalogue import DataSet
from .files import opened
from .rounds import read_records, write_set
from .text import CARD_LIMIT, Lines, Refused, text_of

ACCOUNT, GROUP = b'me', b'users'
HEAD = [b'$ACCOUNTS', ACCOUNT + b' ' + GROUP, b'$CATALOGUE 2']
FOOT = [b'$EOJ', b'$STOP']
OWN_LIST = b'user::rwx,group::---,other::---'
TAB_STOPS = 8
END_LINE = re.compile(rb'END( |;|\Z)')


def deck_of_program(program: str, data: Optional[str], units: List[Tuple[int, str]], deck: BinaryIO) -> None:
    """A deck with one account, whose job is the program, and a data set for each unit, with the lines of its file. What stands behind
    the program's END line is data, and so are the lines of the other file."""
    ended = False
    deck.write(text_of(HEAD))
    for unit, path in sorted(units):
        _write_unit(unit, path, deck)
    deck.write(text_of([b'$STREAM', b'$JOB ' + ACCOUNT, *(b'$UNIT %d UNIT%d' % (unit, unit) for unit, _ in sorted(units))]))
    for line in _lines_of_job(program):
        ended = ended or END_LINE.match(line) is not None
        deck.write(text_of([line]))
    if data is not None:
        if not ended:
            raise Refused(f'{program}: no line has END, in capitals, in columns 1 to 3, so the data would be taken for statements')
        for line in _lines_of_job(data):
            deck.write(text_of([line]))
    deck.write(text_of(FOOT))


def _write_unit(unit: int, path: str, deck: BinaryIO) -> None:
    records = read_records(path)
    with records.file:
        write_set(DataSet(0, b'UNIT%d' % unit, ACCOUNT, GROUP, b'SEQ', records.count), OWN_LIST, records, deck)


def _lines_of_job(name: str) -> Iterator[bytes]:
    """The lines of a file as a job may have them: blanks for tabs, and `$$` for `$` at the front."""
    with opened(name) as file:
        lines = Lines(name, file)
        for line in iter(lines.next, None):
            line = line.expandtabs(TAB_STOPS)
            if line.startswith(b'$'):
                line = b'$' + line
            lines.check(line, CARD_LIMIT)
            yield line
