"""What `history` lists: a row for each thing that a site's ledger tells, of those that answer a question."""
from __future__ import annotations

import functools
from dataclasses import dataclass
from typing import BinaryIO, Iterator, List, Optional, Tuple

from .course import TABLES, Asked, Changed, Checked, Claimed, Course, Edited, Ended, Given, Happened, Head, Known, Tables, What
from .ledger import Ledger
from .tables import Columns, Row, write_rows
from .text import PIECE, counted

COLUMNS = Columns(('commit', 'time', 'submission', 'account', 'operator', 'event', 'set', 'job', 'statement', 'answer', 'times', 'more'),
                  frozenset(('commit', 'submission', 'job', 'statement', 'times')))
ACCOUNT, EVENT, SET, JOB, ANSWER = (COLUMNS.names.index(name) for name in ('account', 'event', 'set', 'job', 'answer'))
NOT_SERVED = ('REFUSED', 'DROPPED')                           # what became of a submission that did not run
ACCOUNT_IN = {TABLES[0]: 0, TABLES[1]: 1}                     # which word of a table's lines is an account
ASPECTS = (('owner', 0), ('group', 1), ('mode', 2), ('list', 3))  # of a data set, and where its head has them

Cells = Tuple[str, str, str, str, str, str, str, str, str]  # submission, account, event, set, job, statement, answer, times, more


@dataclass(frozen=True)
class Question:
    """Which rows are wanted: those that all of this holds of."""
    since: Optional[str] = None
    until: Optional[str] = None
    account: Optional[str] = None
    data_set: Optional[str] = None
    denied: bool = False

    def is_of_the_time(self, time: str) -> bool:
        return (self.since is None or self.since <= time) and (self.until is None or time < self.until)

    def wants(self, row: Row) -> bool:
        return ((self.account is None or row[ACCOUNT] == self.account)
                and (self.data_set is None or row[SET] == self.data_set)
                and (not self.denied or row[ANSWER] == 'DENIED' or not row[JOB] and row[EVENT] in NOT_SERVED))


def write_history(site: str, question: Question, form: str, listing: BinaryIO) -> None:
    """Writes what answers the question."""
    ledger = Ledger(site)

    def rows() -> Iterator[List[Row]]:
        course, some = Course(Known()), []
        for commit in ledger.commits():
            happened = [one for one in course.told(commit) if question.is_of_the_time(one.time)]
            some += [row for one in happened for row in _rows(one) if question.wants(row)]
            if len(some) > PIECE:
                yield some
                some = []
        yield some

    write_rows(COLUMNS, rows, form, listing)


def _rows(one: Happened) -> Iterator[Row]:
    for submission, account, *cells in cells_of(one.what):
        yield (str(one.commit.number), one.time, submission, account, one.operator or '', *cells)


@functools.singledispatch
def cells_of(what: What) -> Iterator[Cells]:
    """The cells of the rows that tell of it."""
    raise TypeError(what)


@cells_of.register(Claimed)
def _of_claimed(what: Claimed) -> Iterator[Cells]:
    file = f'{what.claim.file} of uid {what.claim.uid}'
    event, more = ('TOOK', f'{file} with {counted(what.size, "byte")}') if what.reply is None else ('REFUSED', f'{file}: {what.reason()}')
    yield str(what.number), what.claim.account, event, '', '', '', '', '', more


@cells_of.register(Ended)
def _of_ended(what: Ended) -> Iterator[Cells]:
    account, file = ('', '') if what.claim is None else (what.claim.account, what.claim.file)
    event, more = ('RAN', f'{file} printed {counted(what.printed, "byte")}') if what.reason is None else ('DROPPED', f'{file}: {what.reason}')
    yield str(what.number), account, event, '', '', '', '', '', more


@cells_of.register(Asked)
def _of_asked(what: Asked) -> Iterator[Cells]:
    for (job, account, event, data_set, statement, answer, more), times in what.told.items():
        yield str(what.number), account, event, data_set, job, statement, answer, str(times), more


@cells_of.register(Changed)
def _of_changed(what: Changed) -> Iterator[Cells]:
    submission, account = '' if what.number is None else str(what.number), '' if what.claim is None else what.claim.account
    if what.before is None or what.after is None:
        head = what.after or what.before or Head('', '', '', '', 0)
        event, more = 'GONE' if what.after is None else 'NEW', ' '.join([*head[:4], counted(head.records, 'record')])
    else:
        event, more = 'CHANGED', _differences(what.before, what.after, what.kept)
    yield submission, account, event, what.data_set, '', '', '', '', more


def _differences(before: Head, after: Head, kept: int) -> str:
    told = [f'{aspect} {before[place]} to {after[place]}' for aspect, place in ASPECTS if before[place] != after[place]]
    told.append(f'records {before.records} to {after.records}' + (f' with the first {kept} as before' if kept else ''))
    return '; '.join(told)


@cells_of.register(Tables)
def _of_tables(what: Tables) -> Iterator[Cells]:
    for answer, lines in (('GONE', what.gone), ('NEW', what.new)):
        for line in lines:
            words = line.split()
            account = words[ACCOUNT_IN[what.table]] if len(words) > ACCOUNT_IN.get(what.table, len(words)) else ''
            yield '', account, what.table.upper(), '', '', '', answer, '', line


@cells_of.register(Edited)
def _of_edited(what: Edited) -> Iterator[Cells]:
    yield '', '', 'EDIT', '', '', '', '', '', what.act


@cells_of.register(Given)
def _of_given(what: Given) -> Iterator[Cells]:
    yield '', '', 'GAVE', '', '', '', '', '', f'answers {what.first} to {what.last}'


@cells_of.register(Checked)
def _of_checked(what: Checked) -> Iterator[Cells]:
    yield '', '', 'CHECKED', '', '', '', '', '', f'{what.count} commits {what.digest}'
