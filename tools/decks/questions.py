"""What `audit` does: the lines of audits that answer a question."""
from __future__ import annotations

import re
from dataclasses import dataclass
from typing import BinaryIO, Iterator, List, Optional, Tuple

from .audit import ACCOUNT, COLUMNS, LINE, SET, Event
from .audits import Audit, rows_of
from .tables import Row, write_rows
from .text import Refused


@dataclass(frozen=True)
class Question:
    """Which lines are wanted: those that all of this holds of."""
    data_set: Optional[str] = None
    account: Optional[str] = None
    denied: bool = False
    lists: bool = False
    first: Optional[int] = None  # the job with which they begin, as it enters
    last: Optional[int] = None   # and the one with which they end, as it leaves

    def wants(self, row: Row) -> bool:
        return ((self.data_set is None or row[SET] == self.data_set)
                and (self.account is None or row[ACCOUNT] == self.account)
                and (not self.denied or Event(*row).is_denied())
                and (not self.lists or Event(*row).changes_a_list()))

    def needle(self) -> str:
        """What stands in each line that is wanted; a line without it need not be looked at."""
        if self.denied:
            return ' DENIED '
        if self.lists:
            return 'COMMAND '
        return f' {self.data_set or self.account or ""} ' if self.data_set or self.account else ''


def answered(audits: List[Audit], question: Question, form: str, listing: BinaryIO) -> None:
    """Writes what answers the question. The table of one run does not name it in each row; the other forms do."""
    spans = [_span(audit, question) for audit in audits]

    def rows() -> Iterator[List[Row]]:
        for audit, span in zip(audits, spans):
            yield from _wanted(audit, question, span)

    if form == 'table' and len(audits) == 1:
        write_rows(COLUMNS.behind(1), lambda: ([row[1:] for row in some] for some in rows()), form, listing)
    else:
        write_rows(COLUMNS, rows, form, listing)


Span = Tuple[int, Optional[int]]  # the number of the first line, and of the last, which may be that of the audit


def _wanted(audit: Audit, question: Question, span: Span) -> Iterator[List[Row]]:
    begin, end = span
    needle, is_all = question.needle(), question == Question()
    for first, text in audit.pieces():
        rows = rows_of(audit.run, first, text, needle)
        if not is_all:
            rows = [row for row in rows if question.wants(row) and begin <= int(row[LINE]) and (end is None or int(row[LINE]) <= end)]
        yield rows


def _span(audit: Audit, question: Question) -> Span:
    """From where the first of the jobs enters to where the last leaves, or to the end where it has not."""
    if question.first is None and question.last is None:
        return 1, None
    begin = None if question.first is not None else 1
    end, is_there = None, question.last is None
    for first, text in audit.pieces():
        if begin is None:
            begin = _line_of(f'JOB {question.first} [^ \n]+ (?:LOADED|REFUSED)', first, text)
        if end is None and question.last is not None:
            end = _line_of(f'JOB {question.last} [^ \n]+ (?:ENDED|REFUSED)', first, text)
            is_there = is_there or end is not None or _line_of(f'JOB {question.last} ', first, text) is not None
    for is_seen, job in ((begin is not None, question.first), (is_there, question.last)):
        if not is_seen:
            raise Refused(f'{audit.path}: no job has the number {job}')
    return begin or 1, end


def _line_of(begins: str, first: int, text: bytes) -> Optional[int]:
    """The number of the first line that begins so."""
    found = re.search(f'\n{begins}'.encode(), b'\n' + text)
    return None if found is None else first + text.count(b'\n', 0, found.start())
