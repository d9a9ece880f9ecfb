"""A deck, read from front to back: what it has, in order, each with its lines; refused where snomon would refuse it."""
from __future__ import annotations

import re
from dataclasses import dataclass, field
from typing import Generator, Iterator, List, Optional, Set, Tuple, Union

from .catalogue import HEADINGS, MODES, DataSet, Sets
from .text import CARD_LIMIT, CATALOGUE_LIMIT, PRINTABLE, Lines, is_count, is_name, shown

CARDS = {b'$' + word for word in b'ACCOUNTS CATALOGUE SET STREAM CREATE DELETE SETACL ENDACL SHOWACL LIST CATALOG JOB '
                                 b'UNIT EOJ TURN DRAIN STOP'.split()}
COMMANDS = {b'$CREATE', b'$DELETE', b'$SETACL', b'$SHOWACL', b'$LIST', b'$CATALOG'}
OPTION = re.compile(rb'(ST|MATCH)=(.*)')
GROUPS_LIMIT = 16
SLOTS_LIMIT = 8
TURNS_LIMIT = 1_000_000
STEPS_LIMIT = 10_000_000


@dataclass(frozen=True)
class Heading:
    """A line that opens a section; of the catalogue's, its version."""
    line: int
    word: bytes
    version: int = 1


@dataclass(frozen=True)
class Account:
    line: int
    name: bytes


@dataclass(frozen=True)
class Command:
    """A command. `$CATALOG` names no data set, and sees them all."""
    line: int
    word: bytes
    account: bytes
    name: Optional[bytes]

    def title(self) -> bytes:
        """The first line of its printout."""
        return b' '.join([self.word[1:], self.account] + ([] if self.name is None else [self.name]))


@dataclass(frozen=True)
class Job:
    """A job. Its ties are there when its lines have been read."""
    line: int
    account: bytes
    ties: List[bytes] = field(default_factory=list)


@dataclass(frozen=True)
class Turn:
    line: int


@dataclass(frozen=True)
class Drain:
    line: int


@dataclass(frozen=True)
class Stop:
    line: int


StreamItem = Union[Command, Job, Turn, Drain, Stop]
Item = Union[Heading, Account, DataSet, StreamItem]
Pieces = Iterator[List[bytes]]


def read_deck(lines: Lines) -> Iterator[Tuple[Item, Pieces]]:
    """All of a deck up to its `$STOP`. Lines of an item that are not asked for are read all the same."""
    opening = _card_due(lines, b'$ACCOUNTS')
    yield Heading(lines.number, b'$ACCOUNTS'), iter([[opening]])
    card = yield from read_accounts(lines)
    if card is None:
        raise _ends_early(lines, '$CATALOGUE is due')
    heading = _catalogue_heading(lines, card)
    yield heading, iter([[card]])
    yield from _read_sets(lines, heading.version)
    yield from read_stream(lines, stops=True)


def _ends_early(lines: Lines, due: str) -> Exception:
    return lines.cut_off(f'E4 TRUNCATED: {due}')


def _card_due(lines: Lines, card: bytes) -> bytes:
    """The next line that is not blank, which has to be that card alone."""
    while True:
        line = lines.next()
        if line is None:
            raise _ends_early(lines, f'{shown(card)} is due')
        lines.check(line, CARD_LIMIT)
        if line.strip(b' '):
            _lone_card(lines, line, card)
            return line


def _lone_card(lines: Lines, line: bytes, card: bytes) -> None:
    _known_card(lines, line, card)
    if len(line.split()) != 1:
        raise lines.refused(f'E2 BAD CARD: {shown(card)} stands alone on its line')


def _known_card(lines: Lines, line: bytes, card: bytes) -> None:
    word = line.split()[0]
    if word not in CARDS:
        raise lines.refused(f'E1 UNKNOWN CARD: {shown(word)}, where {shown(card)} is due')
    if word != card:
        raise lines.refused(f'E3 OUT OF PLACE: {shown(word)}, where {shown(card)} is due')


class Accounts:
    """The names of an account table, as its lines are read."""

    def __init__(self, lines: Lines) -> None:
        self.lines = lines
        self.names: Set[bytes] = set()

    def account(self, line: bytes) -> Account:
        words = line.split()
        if len(words) < 2:
            raise self.lines.refused('E2 BAD CARD: an account has a name and a group')
        for word in words:
            if not is_name(word):
                raise self.lines.refused(f'T1 BAD NAME: {shown(word)}')
        if words[0] in self.names:
            raise self.lines.refused(f'C1 ACCOUNT TWICE: {shown(words[0])}')
        if len(words) > 2 + GROUPS_LIMIT:
            raise self.lines.refused(f'C2 TOO MANY GROUPS: at most {GROUPS_LIMIT} beside the primary one')
        self.names.add(words[0])
        return Account(self.lines.number, words[0])


def read_accounts(lines: Lines) -> Generator[Tuple[Account, Pieces], None, Optional[bytes]]:
    """The accounts. The generator's value is the line behind them, which begins with `$`, or None at the end."""
    accounts = Accounts(lines)
    while True:
        line = lines.next()
        if line is None:
            return None
        lines.check(line, CARD_LIMIT)
        if line[:1] == b'$':
            return line
        if line.strip(b' '):
            yield accounts.account(line), iter([[line]])


def _catalogue_heading(lines: Lines, line: bytes) -> Heading:
    _known_card(lines, line, b'$CATALOGUE')
    version = HEADINGS.get(b' '.join(line.split()))
    if version is None:
        raise lines.refused('E2 BAD CARD: "$CATALOGUE" or "$CATALOGUE 2" is due')
    return Heading(lines.number, b'$CATALOGUE', version)


def _read_sets(lines: Lines, version: int) -> Iterator[Tuple[Item, Pieces]]:
    sets = Sets(lines, version)
    while True:
        line = lines.next()
        if line is None:
            raise _ends_early(lines, '$STREAM is due')
        lines.check(line, CATALOGUE_LIMIT)
        words = line.split()
        if words and words[0] != b'$SET':
            _lone_card(lines, line, b'$STREAM')
            yield Heading(lines.number, b'$STREAM'), iter([[line]])
            return
        if words:
            for found in sets.found(line):
                yield found.data_set, found.pieces()


def read_stream(lines: Lines, stops: bool) -> Iterator[Tuple[StreamItem, Pieces]]:
    """The cards of a stream, up to its `$STOP`; where it need not stop, that may be missing."""
    while True:
        line = lines.next()
        if line is None:
            if stops:
                raise _ends_early(lines, '$STOP is due')
            return
        lines.check(line, CARD_LIMIT)
        if not line.strip(b' '):
            continue
        item, rest = _stream_item(lines, line)
        yield item, _together(line, rest)
        for _ in rest:
            pass
        if isinstance(item, Stop):
            return


def _together(line: bytes, rest: Pieces) -> Pieces:
    yield [line]
    yield from rest


def _stream_item(lines: Lines, line: bytes) -> Tuple[StreamItem, Pieces]:
    words = line.split()
    card = words[0]
    nothing: Pieces = iter(())
    if card not in CARDS:
        raise lines.refused(f'E1 UNKNOWN CARD: {shown(card)}')
    if card == b'$JOB':
        return _job(lines, words)
    if card in COMMANDS:
        return _command(lines, words)
    if card == b'$TURN':
        _check_turn(lines, words)
        return Turn(lines.number), nothing
    if card not in (b'$DRAIN', b'$STOP'):
        raise lines.refused(f'E3 OUT OF PLACE: {shown(card)}')
    _lone_card(lines, line, card)
    return Drain(lines.number) if card == b'$DRAIN' else Stop(lines.number), nothing


def _name(lines: Lines, word: bytes) -> bytes:
    if not is_name(word):
        raise lines.refused(f'T1 BAD NAME: {shown(word)}')
    return word


def _number(lines: Lines, word: bytes) -> int:
    if not is_count(word):
        raise lines.refused(f'T2 BAD NUMBER: {shown(word)}')
    return int(word)


def _check_turn(lines: Lines, words: List[bytes]) -> None:
    if len(words) != 3:
        raise lines.refused('E2 BAD CARD: "$TURN slot count" is due')
    slot, count = _number(lines, words[1]), _number(lines, words[2])
    if not (1 <= slot <= SLOTS_LIMIT and 1 <= count <= TURNS_LIMIT):
        raise lines.refused(f'E2 BAD CARD: slots are 1 to {SLOTS_LIMIT}, and turns 1 to {TURNS_LIMIT:,}')


def _command(lines: Lines, words: List[bytes]) -> Tuple[Command, Pieces]:
    card, number = words[0], len(words)
    due = 2 if card == b'$CATALOG' else 3
    more = card == b'$SETACL' and number > 3 or card == b'$CREATE' and number == 4 and words[3] in MODES
    if number != due and not more:
        raise lines.refused(f'E2 BAD CARD: {shown(card)} has other words')
    names = [_name(lines, word) for word in words[1:due]]
    command = Command(lines.number, card, names[0], names[1] if due == 3 else None)
    long_list = card == b'$SETACL' and number == 3
    return command, _long_list(lines) if long_list else iter(())


def _long_list(lines: Lines) -> Pieces:
    """The lines of a list up to its `$ENDACL`; tabs may stand in them."""
    begun = lines.number
    while True:
        line = lines.next()
        if line is None:
            raise _ends_early(lines, f'the list that begins at line {begun} has no $ENDACL')
        is_card = line[:1] == b'$'
        lines.check(line, CARD_LIMIT, PRINTABLE if is_card else PRINTABLE + b'\t')
        if is_card:
            if line.split()[0] != b'$ENDACL':
                raise lines.refused(f'E3 OUT OF PLACE: the list that begins at line {begun} has no $ENDACL')
            _lone_card(lines, line, b'$ENDACL')
            yield [line]
            return
        yield [line]


def _job(lines: Lines, words: List[bytes]) -> Tuple[Job, Pieces]:
    options = [OPTION.fullmatch(word) for word in words[2:]]
    keys = [option.group(1) for option in options if option]
    if len(words) < 2 or len(keys) != len(options) or len(set(keys)) != len(keys):
        raise lines.refused('E2 BAD CARD: "$JOB account [ST=n] [MATCH=m]" is due')
    job = Job(lines.number, _name(lines, words[1]))
    values = [_number(lines, option.group(2)) for option in options if option]
    if not all(1 <= value <= STEPS_LIMIT for value in values):
        raise lines.refused(f'E2 BAD CARD: ST and MATCH are 1 to {STEPS_LIMIT:,}')
    return job, _job_lines(lines, job)


def _job_lines(lines: Lines, job: Job) -> Pieces:
    begun = False
    while True:
        line = lines.next()
        if line is None:
            raise _ends_early(lines, f'the job that begins at line {job.line} has no $EOJ')
        lines.check(line, CARD_LIMIT)
        if line[:1] != b'$' or line[:2] == b'$$':
            begun = True
        elif _job_card(lines, line, job, begun):
            yield [line]
            return
        yield [line]


def _job_card(lines: Lines, line: bytes, job: Job, begun: bool) -> bool:
    """Takes a card within a job; whether it ends the job."""
    words = line.split()
    card = words[0]
    if card not in CARDS and not begun:
        raise lines.refused(f'E1 UNKNOWN CARD: {shown(card)}')
    if card != b'$EOJ' and (card != b'$UNIT' or begun):
        raise lines.refused(f'E3 OUT OF PLACE: {shown(card)} in the job that begins at line {job.line}')
    if card == b'$EOJ':
        _lone_card(lines, line, card)
        return True
    if len(words) != 3:
        raise lines.refused('E2 BAD CARD: "$UNIT unit set" is due')
    _number(lines, words[1])
    job.ties.append(_name(lines, words[2]))
    return False
