"""What of the rights that there are was used: what `audit --unused` and `audit --could` do."""
from __future__ import annotations

from typing import BinaryIO, Dict, Iterator, List, Set, Tuple

from .audit import GRANTED, PERMISSION
from .audits import Audit, tally
from .files import opened
from .questions import Question
from .report import PERMISSIONS, Report
from .rounds import at_its_catalogue
from .tables import Columns, Row, write_rows
from .text import OutputLines

UNUSED_COLUMNS = Columns(('set', 'owner', 'group', 'records', 'denied'), frozenset(('records', 'denied')))
COULD_COLUMNS = Columns(('account', 'set', 'could', 'did'), frozenset())


class Usage:
    """Which permission on which data set an account used, and how often it was denied one. Memory grows with their number."""

    def __init__(self, audits: List[Audit]) -> None:
        self.used: Dict[Tuple[str, str], Set[str]] = {}
        self.denied: Dict[Tuple[str, str], int] = {}
        for audit in audits:
            for (account, event, data_set, answer, _), times in tally(audit)[0].items():
                if event in PERMISSION and answer in GRANTED:
                    self.used.setdefault((account, data_set), set()).add(PERMISSION[event])
                elif event in PERMISSION and answer == 'DENIED':
                    self.denied[account, data_set] = self.denied.get((account, data_set), 0) + times


def write_unused(output: str, audits: List[Audit], question: Question, form: str, listing: BinaryIO) -> None:
    """The data sets of the output's catalogue of which nobody read or wrote a record, or not the account of the question."""
    usage = Usage(audits)
    used = {data_set for (account, data_set), letters in usage.used.items() if letters - {'x'} and question.account in (None, account)}
    rows: List[Row] = []
    with opened(output) as file:
        for found in at_its_catalogue(output, file).data_sets():
            name, owner, group = (word.decode() for word in (found.data_set.name, found.data_set.owner, found.data_set.group))
            if name not in used and question.data_set in (None, name):
                denied = sum(times for (account, data_set), times in usage.denied.items() if data_set == name and question.account in (None, account))
                rows.append((name, owner, group, str(found.data_set.count), str(denied)))
    write_rows(UNUSED_COLUMNS, lambda: iter([rows]), form, listing)


def write_could(report: str, audits: List[Audit], question: Question, form: str, listing: BinaryIO) -> None:
    """The accounts that may do something with a data set and did not, by a report of who may do what."""
    usage = Usage(audits)
    with opened(report) as file:
        lines = OutputLines(report, file)
        rows = list(_idle(Report(lines), lines, usage, question))
    write_rows(COULD_COLUMNS, lambda: iter([rows]), form, listing)


def _idle(report: Report, lines: OutputLines, usage: Usage, question: Question) -> Iterator[Row]:
    for data_set, row in report.rows(lines.next()):
        for account, deniers in row.items():
            asked = (account.decode(), data_set.decode())
            could = {letter.decode() for letter, denier in zip(PERMISSIONS, deniers) if denier is None}
            did = usage.used.get(asked, set())
            if could - did and question.account in (None, asked[0]) and question.data_set in (None, asked[1]):
                yield (*asked, letters_of(could), letters_of(did))


def letters_of(permissions: Set[str]) -> str:
    """As a list has them, `rw-` say."""
    return ''.join(letter if letter in permissions else '-' for letter in 'rwx')
