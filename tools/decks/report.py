"""A report of who may do what, as `listing --access --csv` writes it.

It has three lines for each account on each data set: for r, w and x whether it is granted, or what entry denies it.
Data set stands after data set, each with the same accounts in the same order."""
from __future__ import annotations

import itertools
import re
from dataclasses import dataclass
from typing import Dict, Iterator, List, Match, Optional, Set, Tuple

from .text import NAME, Lines, shown

TITLE = b'account,set,permission,answer,entry'
PERMISSIONS = (b'r', b'w', b'x')
LINE = re.compile(rb'(%(name)b),(%(name)b),([rwx]),(?:granted,|denied,((?:user|group):(?:%(name)b)?:|(?:mask|other)::))'
                  % {b'name': NAME.pattern})

Deniers = Tuple[Optional[bytes], ...]  # for r, w and x the entry that denies it, or None where it is granted
Row = Dict[bytes, Deniers]  # by account, in the report's order


@dataclass(frozen=True)
class Cell:
    """What a report tells of an account on a data set, from this line on."""
    line: int
    account: bytes
    data_set: bytes
    deniers: Deniers


class Report:
    """Reads a report from front to back. Refused is what no report has, and where it was cut off within a data set."""

    def __init__(self, lines: Lines) -> None:
        self.lines = lines
        self.names: Set[bytes] = set()   # of the data sets that were read
        self.accounts: List[bytes] = []  # those of the first data set, which all others have in the same order

    def rows(self, title: Optional[bytes]) -> Iterator[Tuple[bytes, Row]]:
        """Each data set with its row, behind this first line."""
        if title is None:
            raise self.lines.cut_off(f'the line {shown(TITLE)} is due')
        if title != TITLE:
            raise self.lines.refused(f'the line {shown(TITLE)} is due, and there is {shown(title)}')
        for name, cells in itertools.groupby(self._cells(), key=lambda cell: cell.data_set):
            row = self._row(name, cells)
            self.names.add(name)
            self.accounts = self.accounts or list(row)
            yield name, row

    def _cells(self) -> Iterator[Cell]:
        for three in iter(lambda: self.lines.take(len(PERMISSIONS)), []):
            begun = self.lines.number - len(three) + 1
            found = []
            for number, (permission, line) in enumerate(zip(PERMISSIONS, three), begun):
                found.append(self._answer(line, number))
                due, there = (*found[0].group(1, 2), permission), found[-1].group(1, 2, 3)
                if there != due:
                    raise self.lines.refused(f'{_asked(*due)} is due, and there is {_asked(*there)}', number)
            if len(three) < len(PERMISSIONS):
                raise self.lines.cut_off(f'the report was cut off: there is no more of {_asked(*found[0].group(1, 2))}')
            yield Cell(begun, found[0].group(1), found[0].group(2), tuple(answer.group(4) for answer in found))

    def _answer(self, line: bytes, number: int) -> Match[bytes]:
        answer = LINE.fullmatch(line)
        if answer is None:
            raise self.lines.refused(f'a report has no such line: {shown(line)}', number)
        return answer

    def _row(self, name: bytes, cells: Iterator[Cell]) -> Row:
        row: Row = {}
        behind = 0
        for cell in cells:
            if not row and name in self.names:
                raise self.lines.refused(f'{shown(name)} was told of before', cell.line)
            if cell.account in row:
                raise self.lines.refused(f'{_asked(cell.account, name)} was told of before', cell.line)
            if self.names:
                self._check_account(cell, len(row))
            row[cell.account] = cell.deniers
            behind = cell.line + len(PERMISSIONS)
        if len(row) < len(self.accounts):
            raise self.lines.refused(f'{_asked(self.accounts[len(row)], name)} is due, as for the first data set', behind)
        return row

    def _check_account(self, cell: Cell, place: int) -> None:
        """Refuses a cell of another account than the one that the first data set has at this place."""
        due = self.accounts[place] if place < len(self.accounts) else None
        if cell.account != due:
            wanted = 'another data set' if due is None else _asked(due, cell.data_set)
            there = _asked(cell.account, cell.data_set)
            raise self.lines.refused(f'{wanted} is due, as for the first data set, and there is {there}', cell.line)


def _asked(account: bytes, data_set: bytes, permission: bytes = b'') -> str:
    asked = f'{shown(account)} on {shown(data_set)}'
    return f'{shown(permission)} of {asked}' if permission else asked
