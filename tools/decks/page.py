"""What `page` does: a page of HTML of a report of who may do what, or of audits."""
from __future__ import annotations

import functools
import itertools
import os
from typing import BinaryIO, Iterator, List, Optional, Tuple

from . import audit_page, markup
from .audits import audits_of
from .files import opened_twice
from .report import Deniers, Report, Row
from .text import Lines, OutputLines, counted

WORDS = {b'r': b'read', b'w': b'write', b'x': b'look up'}


def page_of(paths: List[str], page: BinaryIO) -> None:
    """The page of a report, or of audits: which it is, the first line says. Several files, and folders, are of audits."""
    if len(paths) > 1 or os.path.isdir(paths[0]):
        audit_page.write_page(audits_of(paths), page)
        return
    with opened_twice(paths[0]) as file:
        lines = OutputLines(paths[0], file)
        first = lines.next()
        if first is None or not first.startswith(audit_page.BEGINNINGS):
            write_access_page(lines, first, page)
            return
        file.seek(0)
        audit_page.write_page(audits_of(paths, file), page)


def write_access_page(lines: Lines, title: Optional[bytes], page: BinaryIO) -> None:
    """The page of a report with this title. Each row is written as it was read, so memory does not grow with the number of data sets."""
    reading = Report(lines)
    rows = reading.rows(title)
    first = next(rows, None)
    markup.begin(b'Who may do what', ABOUT, page)
    if first is None:
        markup.paragraph('The report has no account, or no data set.', page)
    else:
        _write_table(reading.accounts, itertools.chain([first], rows), page)
    markup.end(page)


def _write_table(accounts: List[bytes], rows: Iterator[Tuple[bytes, Row]], page: BinaryIO) -> None:
    markup.begin_table(b'What each account may do with each data set', accounts, page)
    count = 0
    for count, (name, row) in enumerate(rows, 1):
        markup.write_row(name, [_told(deniers) for deniers in row.values()], page)
    markup.end_table(page)
    markup.paragraph(f'In all {counted(count, "data set")} and {counted(len(accounts), "account")}.', page)


@functools.lru_cache(4096)
def _told(deniers: Deniers) -> bytes:
    """A cell of the table: what is granted, and then in a line for each entry what it denies."""
    granted = [word for word, entry in zip(WORDS.values(), deniers) if entry is None]
    told = [b'may ' + b', '.join(granted)] if granted else []
    for denier in dict.fromkeys(entry for entry in deniers if entry is not None):
        denied = [word for word, entry in zip(WORDS.values(), deniers) if entry == denier]
        told.append(b', '.join(denied) + b' denied by ' + denier)
    return markup.cell(told, b'' if len(granted) == len(WORDS) else b'part' if granted else b'none')


ABOUT = b'''<p>Each row is a data set, each column an account. A cell says what the account may do with the data set: read its records, write
to it, look up its name, its size and its permission list. Of what it may not do, the cell names the entry of that list which
denies it. Each permission is asked for by itself.</p>
<p>The entry <code>user::</code> is the owner's, <code>user:NAME:</code> that of another account, <code>group::</code> that of the
data set's group, <code>group:NAME:</code> that of a group by its name, and <code>other::</code> that of everyone else.
<code>mask::</code> limits the named accounts and all groups. Whatever is denied to the owner, the owner can still see and replace
the list, and delete the data set.</p>
'''
