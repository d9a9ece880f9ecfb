"""Rows as a table, as CSV and as JSON. They come in lists, so that a million of them is written in no more time than it has to be."""
from __future__ import annotations

import json
from dataclasses import dataclass
from typing import BinaryIO, Callable, FrozenSet, Iterable, Iterator, List, Tuple

Row = Tuple[str, ...]
Rows = Callable[[], Iterator[List[Row]]]  # all rows, from the first on each time


@dataclass(frozen=True)
class Columns:
    """What columns are called, and which of them are numbers: those stand to the right of their column."""
    names: Tuple[str, ...]
    numbers: FrozenSet[str]

    def behind(self, count: int) -> 'Columns':
        """Those behind the first so many."""
        return Columns(self.names[count:], self.numbers)


def write_rows(columns: Columns, rows: Rows, form: str, listing: BinaryIO) -> None:
    """All rows in one of the forms. A table is as wide as it has to be, so its rows are asked for twice."""
    if form == 'csv':
        pieces = _csv(columns, rows())
    elif form == 'json':
        pieces = _json(columns, rows())
    else:
        pieces = _table(columns, _widths(columns, rows()), rows())
    for text in pieces:
        listing.write(text.encode('utf-8', 'surrogateescape'))


def _widths(columns: Columns, pieces: Iterable[List[Row]]) -> List[int]:
    widths = list(map(len, columns.names))
    for rows in pieces:
        if rows:
            widths = [max(width, max(map(len, cells))) for width, cells in zip(widths, zip(*rows))]
    return widths


def _table(columns: Columns, widths: List[int], pieces: Iterable[List[Row]]) -> Iterator[str]:
    form = '  '.join(f'%{"" if name in columns.numbers else "-"}{width}s' for name, width in zip(columns.names, widths))
    yield (form % columns.names).rstrip() + '\n'
    for rows in pieces:
        yield ''.join([(form % row).rstrip() + '\n' for row in rows])


def _csv(columns: Columns, pieces: Iterable[List[Row]]) -> Iterator[str]:
    yield ','.join(columns.names) + '\n'
    for rows in pieces:
        lines = [','.join(row) for row in rows]
        text = '\n'.join(lines) + '\n' if lines else ''
        if text.count(',') == len(rows) * (len(columns.names) - 1) and text.count('\n') == len(rows) and '"' not in text:
            yield text  # no cell has to be quoted
        else:
            yield ''.join([','.join(map(_quoted, row)) + '\n' for row in rows])


def _quoted(cell: str) -> str:
    return '"' + cell.replace('"', '""') + '"' if any(sign in cell for sign in ',"\n\r') else cell


def _json(columns: Columns, pieces: Iterable[List[Row]]) -> Iterator[str]:
    """A list with an object in each line, which has no member where the cell is empty."""
    whole = '{' + ', '.join(f'"{name}": %s' if name in columns.numbers else f'"{name}": "%s"' for name in columns.names) + '}'
    before = '[\n'
    for rows in pieces:
        if rows:
            is_plain = _is_plain(''.join([''.join(row) for row in rows]))
            yield before + ',\n'.join([whole % row if is_plain and '' not in row else _object(columns, row) for row in rows])
            before = ',\n'
    yield '[]\n' if before == '[\n' else '\n]\n'


def _is_plain(text: str) -> bool:
    """Whether JSON has the text as it is."""
    return text.isascii() and text.isprintable() and '"' not in text and '\\' not in text


def _object(columns: Columns, row: Row) -> str:
    members = (f'"{name}": {cell}' if name in columns.numbers else f'"{name}": {json.dumps(cell)}'
               for name, cell in zip(columns.names, row) if cell)
    return '{' + ', '.join(members) + '}'
