"""What the records of a ledger tell, one after the other, with what has to be known of those before them: whose a submission is, and what
the data sets and the operator's tables were. What is kept for that grows with the submissions that wait and the data sets, not with the ledger."""
from __future__ import annotations

import datetime
import io
import re
from collections import Counter
from dataclasses import dataclass, field
from typing import Callable, Dict, Iterator, List, NamedTuple, Optional, Tuple, Union

from .audit import cells_of
from .audits import Shapes
from .catalogue import Sets
from .ledger import Commit, Field, Record, fields_of
from .text import CATALOGUE_LIMIT, PIECE, OutputLines, Refused

TABLES = ('accounts', 'users', 'limits')  # of the operator, in this order in a record
LATEST = 253402300799                     # the last second of the year 9999
AUDIT_PIECE = 1 << 16
OTHERS = re.compile('[\x00-\x1f\x7f-\x9f\u2028\u2029]')

Line = Tuple[str, ...]  # of an audit: job, account, event, set, statement, answer, more
Submission = Optional[int]  # the number of one; of the operator's acts there is none


def plain(text: bytes) -> str:
    """A text of any bytes in one line, without what a terminal could take for a command."""
    return OTHERS.sub(lambda sign: sign[0].encode('unicode_escape').decode(), text.decode('utf-8', 'backslashreplace'))


def plain_lines(text: bytes) -> str:
    return '\n'.join(map(plain, text.split(b'\n')))


class Head(NamedTuple):
    """What a data set is, but for the text of its records."""
    owner: str
    group: str
    mode: str
    list: str
    records: int


class Claim(NamedTuple):
    """Whose a submission is, of which user of the system, and what its file was called."""
    account: str
    uid: int
    file: str


@dataclass
class Known:
    """What is known where a record begins."""
    next: int = 0  # no number of a submission from this one on was given
    waiting: Dict[int, Claim] = field(default_factory=dict)
    heads: Dict[str, Head] = field(default_factory=dict)
    lines: Dict[str, List[str]] = field(default_factory=lambda: {name: [] for name in TABLES})


@dataclass(frozen=True)
class Claimed:
    """A file was claimed. It waits as a submission; or was refused with a reply."""
    number: int
    claim: Claim
    size: int
    reply: Optional[str]

    def reason(self) -> str:
        """The line of the reply behind the one that names the file."""
        lines = (self.reply or '').split('\n')
        return lines[1] if lines[0].startswith('REFUSED ') and len(lines) > 1 else lines[0]


@dataclass(frozen=True)
class Ended:
    """A submission ran, and printed so much; or was dropped for a reason, with a reply."""
    number: int
    claim: Optional[Claim]
    printed: int
    reason: Optional[str]
    reply: Optional[str]


@dataclass(frozen=True)
class Asked:
    """What a submission's jobs and commands asked for and what came of it: in the order of the first time, and how often."""
    number: int
    told: Dict[Line, int]


@dataclass(frozen=True)
class Changed:
    """A data set is new, or gone, or changed: so many of its records stay, and others stand behind them. It was a submission, or an edit."""
    number: Optional[int]
    claim: Optional[Claim]
    data_set: str
    before: Optional[Head]
    after: Optional[Head]
    kept: int
    records: List[str]


@dataclass(frozen=True)
class Tables:
    """One of the operator's tables has lines no more, and others that it had not."""
    table: str
    gone: List[str]
    new: List[str]


@dataclass(frozen=True)
class Edited:
    """The operator did this."""
    act: str


@dataclass(frozen=True)
class Given:
    """The answers of these numbers are on the disk."""
    first: int
    last: int


@dataclass(frozen=True)
class Checked:
    """A checkpoint of what so many commits leave stands, with this digest."""
    count: int
    digest: str


What = Union[Claimed, Ended, Asked, Changed, Tables, Edited, Given, Checked]


@dataclass(frozen=True)
class Happened:
    """What a record tells, when, and who the operator was, if it was an edit."""
    commit: Commit
    time: str
    operator: Optional[str]
    what: What


class Course:
    """Tells commits in their order, and keeps what is known behind them."""

    def __init__(self, known: Known) -> None:
        self.known = known
        self.shapes = Shapes()

    def told(self, commit: Commit) -> Iterator[Happened]:
        """What a commit tells: its record, and then what that changed, which a submission did or the operator."""
        head = commit.head
        operator = plain(head.text('who')) if head.kind == 'EDIT' else None
        submission = head.number('number') if 'number' in head.fields else None
        try:
            time = time_of(head.number('time'))
            for record in (head, *commit.changes):
                for what in TOLD_BY[record.kind](self, record, submission):
                    yield Happened(commit, time, operator, what)
        except Refused as fault:
            raise Refused(f'{commit.path}: {fault}') from fault
        if submission is not None and head.kind != 'TOOK':
            self.known.waiting.pop(submission, None)

    def took(self, record: Record, _: Submission) -> Iterator[What]:
        number, claim = self._claim(record)
        self.known.waiting[number] = claim
        yield Claimed(number, claim, len(record.fields['text']), None)

    def refused(self, record: Record, _: Submission) -> Iterator[What]:
        yield Claimed(*self._claim(record), 0, plain_lines(record.text('reply')))

    def _claim(self, record: Record) -> Tuple[int, Claim]:
        number = record.number('number')
        if number < self.known.next:
            raise Refused(f'its number, {number}, is not beyond those before it')
        self.known.next = number + 1
        return number, Claim(plain(record.text('account')), record.number('uid'), plain(record.text('name')))

    def ran(self, record: Record, _: Submission) -> Iterator[What]:
        number = record.number('number')
        yield Ended(number, self.known.waiting.get(number), len(record.fields['printout']), None, None)

    def dropped(self, record: Record, _: Submission) -> Iterator[What]:
        number = record.number('number')
        yield Ended(number, self.known.waiting.get(number), 0, plain(record.text('reason')), plain_lines(record.text('reply')))

    def audit(self, record: Record, submission: Submission) -> Iterator[What]:
        if submission is None:
            raise Refused('it has an audit, and no submission ran')
        told: 'Counter[Line]' = Counter()
        for piece in _pieces(record.fields['lines']):
            if not self.shapes.are_of(piece):
                raise _bad_line(record.text('lines'))
            told.update(map(_asked, piece.decode('latin-1')[:-1].split('\n')))
        yield Asked(submission, told)

    def keep(self, record: Record, submission: Submission) -> Iterator[What]:
        before, kept, records = self._head(record), record.number('first'), records_of(record)
        if kept > before.records:
            raise Refused(f'it keeps {kept} records of a data set that has {before.records}')
        yield self._changed(record, submission, before._replace(records=kept + len(records)), kept, records)

    def set(self, record: Record, submission: Submission) -> Iterator[What]:
        after, records = data_set_of(record)
        yield self._changed(record, submission, after, 0, records)

    def gone(self, record: Record, submission: Submission) -> Iterator[What]:
        self._head(record)
        yield self._changed(record, submission, None, 0, [])

    def _head(self, record: Record) -> Head:
        name = plain(record.text('set'))
        if name not in self.known.heads:
            raise Refused(f'there is no data set {name} then')
        return self.known.heads[name]

    def _changed(self, record: Record, submission: Submission, after: Optional[Head], kept: int, records: List[str]) -> Changed:
        name = plain(record.text('set'))
        before = self.known.heads.pop(name, None)
        if after is not None:
            self.known.heads[name] = after
        return Changed(submission, None if submission is None else self.known.waiting.get(submission), name, before, after, kept, records)

    def tables(self, record: Record, _: Submission) -> Iterator[What]:
        fields = fields_of(record.fields['tables'])
        if fields is None or len(fields) != len(TABLES):
            raise Refused(f'its tables are not {len(TABLES)}, each behind its length')
        for table, content in zip(TABLES, fields):
            now = [plain(line) for line in dict.fromkeys(bytes(content).splitlines()) if line.strip() and not line.startswith(b'#')]
            before, self.known.lines[table] = self.known.lines[table], now
            gone, new = ([line for line in some if line not in others] for some, others in ((before, set(now)), (now, set(before))))
            if gone or new:
                yield Tables(table, gone, new)

    def edit(self, record: Record, _: Submission) -> Iterator[What]:
        yield Edited(plain(record.text('act')))

    def gave(self, record: Record, _: Submission) -> Iterator[What]:
        yield Given(record.number('first'), record.number('last'))

    def checked(self, record: Record, _: Submission) -> Iterator[What]:
        yield Checked(record.number('count'), plain(record.text('digest')))


TOLD_BY: Dict[str, Callable[[Course, Record, Submission], Iterator[What]]] = {
    'TOOK': Course.took, 'REFUSED': Course.refused, 'RAN': Course.ran, 'AUDIT': Course.audit, 'KEEP': Course.keep, 'SET': Course.set,
    'GONE': Course.gone, 'DROPPED': Course.dropped, 'GAVE': Course.gave, 'TABLES': Course.tables, 'CHECKED': Course.checked, 'EDIT': Course.edit}


def _asked(line: str) -> Line:
    words = line.split(' ', 10)
    if len(words) > 9 and words[3] == 'ASKED':  # as cells_of has it, which takes ten times as long
        return words[1], words[2], words[5], words[7], words[4], words[9], words[10] if len(words) > 10 else ''
    job, account, event, data_set, statement, _, _, answer, more = cells_of(line) or ('',) * 9
    return job, account, event, data_set, statement, answer, more


def time_of(seconds: int) -> str:
    """A time of a record, in seconds since the beginning of 1970, UTC."""
    if seconds > LATEST:
        raise Refused('its time is behind the year 9999')
    return (datetime.datetime(1970, 1, 1) + datetime.timedelta(seconds=seconds)).isoformat() + 'Z'


def records_of(record: Record) -> List[str]:
    """The records that a set has behind those that stay."""
    lines = OutputLines('its records', io.BytesIO(record.text('records')))
    records: List[str] = []
    for piece in iter(lambda: lines.take(PIECE), []):
        lines.check_records(piece, CATALOGUE_LIMIT)
        records += [line.decode() for line in piece]
    return records


def data_set_of(record: Record) -> Tuple[Head, List[str]]:
    """A data set that stands as in a catalogue of version 2: its card and its list are the head, and behind these are its records."""
    lines = OutputLines('its text', io.BytesIO(record.text('head') + record.text('records')))
    records: List[str] = []
    for found in Sets(lines, 2).found(lines.next() or b''):
        card, listed = found.data_set, found.permissions
        records = [line.decode() for piece in found.records for line in piece]
    if card.name != record.text('set') or lines.next() is not None:
        raise Refused(f'its head is not that of {plain(record.text("set"))} with so many records')
    return Head(plain(card.owner), plain(card.group), plain(card.mode or b''), plain(listed), card.count), records


def _pieces(lines: Field) -> Iterator[bytes]:
    """An audit in pieces of whole lines, none of which is longer than a piece; what is longer is no line."""
    begin = 0
    while begin < len(lines):
        piece = bytes(lines[begin:begin + AUDIT_PIECE])
        if begin + len(piece) < len(lines):
            piece = piece[:piece.rfind(b'\n') + 1] or piece
        yield piece
        begin += len(piece)


def _bad_line(text: bytes) -> Refused:
    lines = OutputLines('its audit', io.BytesIO(text))
    try:
        for line in iter(lines.next, None):
            if cells_of(line.decode('latin-1')) is None:
                return lines.refused(f'an audit has no such line: {plain(line)}')
    except Refused as fault:
        return fault
    return Refused('its audit has a line that no audit has')
