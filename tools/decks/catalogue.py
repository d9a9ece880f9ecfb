"""The text of a catalogue, in its two versions: its heading, and data sets read by what their cards count."""
from __future__ import annotations

from dataclasses import dataclass
from typing import Iterator, List, Optional, Set

from .lists import BadList, canonical
from .text import CATALOGUE_LIMIT, PIECE, Lines, counted, is_count, is_name, shown

SETS_LIMIT = 1000
RECORDS_LIMIT = 100_000
HEADINGS = {b'$CATALOGUE': 1, b'$CATALOGUE 2': 2}
MODES = (b'SEQ', b'APPEND')
CARD_FORMS = {1: '$SET name owner group count', 2: '$SET name owner group SEQ|APPEND count'}


def heading(version: int) -> bytes:
    return next(line for line, number in HEADINGS.items() if number == version)


@dataclass(frozen=True)
class DataSet:
    """A `$SET` card. There is a mode in version 2 alone."""
    line: int
    name: bytes
    owner: bytes
    group: bytes
    mode: Optional[bytes]
    count: int

    def words(self) -> List[bytes]:
        mode = [] if self.mode is None else [self.mode]
        return [self.name, self.owner, self.group, *mode, b'%d' % self.count]

    def card(self) -> bytes:
        return b' '.join([b'$SET', *self.words()])


@dataclass(frozen=True)
class Found:
    """A data set with what follows its card. The records come in pieces, once."""
    data_set: DataSet
    card: bytes
    permissions: bytes
    records: Iterator[List[bytes]]

    def pieces(self) -> Iterator[List[bytes]]:
        """All lines, as they were read."""
        yield [self.card, self.permissions]
        yield from self.records


class Sets:
    """Reads data sets one after the other, each to the last record that its card counts, whatever these look like."""

    def __init__(self, lines: Lines, version: int) -> None:
        self.lines, self.version = lines, version
        self.names: Set[bytes] = set()

    def found(self, card: bytes) -> Iterator[Found]:
        """The data set of this card, which is the line read last. Records that are not asked for are read all the same."""
        data_set = self._data_set(card)
        permissions = self._permissions(data_set)
        records = self._records(data_set)
        yield Found(data_set, card, permissions, records)
        for _ in records:
            pass

    def _data_set(self, card: bytes) -> DataSet:
        words, form = card.split(), CARD_FORMS[self.version]
        if words[:1] != [b'$SET'] or len(words) != len(form.split()):
            raise self._bad(f'a card "{form}" is due')
        for word in words[1:4]:
            if not is_name(word):
                raise self._bad(f'{shown(word)} is no name')
        mode = words[4] if self.version == 2 else None
        if mode is not None and mode not in MODES:
            raise self._bad(f'{shown(mode)} is neither SEQ nor APPEND')
        if not is_count(words[-1]):
            raise self._bad(f'{shown(words[-1])} is no count')
        data_set = DataSet(self.lines.number, words[1], words[2], words[3], mode, int(words[-1]))
        if data_set.count > RECORDS_LIMIT:
            raise self.lines.refused(f'K3 SET FULL: a data set has at most {RECORDS_LIMIT:,} records')
        if data_set.name in self.names:
            raise self.lines.refused(f'K1 NAME TAKEN: a data set before this one is called {shown(data_set.name)} too')
        if len(self.names) == SETS_LIMIT:
            raise self.lines.refused(f'K4 CATALOGUE FULL: there are at most {SETS_LIMIT:,} data sets')
        self.names.add(data_set.name)
        return data_set

    def _bad(self, text: str) -> Exception:
        return self.lines.refused(f'K5 BAD TEXT: {text}')

    def _permissions(self, data_set: DataSet) -> bytes:
        line = self.lines.next()
        if line is None:
            raise self.lines.cut_off(f'E4 TRUNCATED: the list of {shown(data_set.name)} is due')
        self.lines.check(line, CATALOGUE_LIMIT)
        try:
            canonical(line)
        except BadList as fault:
            raise self._bad(f'the list of {shown(data_set.name)}: {fault}') from fault
        return line

    def _records(self, data_set: DataSet) -> Iterator[List[bytes]]:
        left = data_set.count
        while left:
            piece = self.lines.take(min(left, PIECE))
            if not piece:
                there = counted(data_set.count - left, 'record')
                raise self.lines.cut_off(f'E4 TRUNCATED: {shown(data_set.name)} has {there}, and line {data_set.line} '
                                         f'says {data_set.count}')
            self.lines.check_records(piece, CATALOGUE_LIMIT)
            left -= len(piece)
            yield piece
