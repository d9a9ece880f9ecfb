"""What listing has written of a deck or a submission: of each job the lines of its program, and what is told of it."""
from __future__ import annotations

import re
from dataclasses import dataclass, field
from typing import BinaryIO, Iterator, List, Optional, Tuple

from .text import Lines, shown

JOB = re.compile(rb'JOB (\d+) (\S+) LINE (\d+) STATEMENTS (\d+) STEPS (\d+)')
HEADING = b'   LINE  CARD  STATEMENT'
ROW = re.compile(rb'( *\d+)( +\d+)(.{11})  (.*)')
DIGITS = tuple(b'%d' % digit for digit in range(10))
REPORT = re.compile(rb'LINE (\d+) (?:STATEMENT \d+ )?(WARNING )?(.*)')
CONTINUES, PASSED_OVER = (b'+', b'.'), (b'*', b'-')


@dataclass(frozen=True)
class Card:
    """A line of a program: its line of the file, its number, the statements that begin on it, and its text."""
    line: int
    number: int
    first: int
    last: int
    text: bytes


@dataclass
class Report:
    """A mistake or a warning, with the lines that show where it is."""
    line: int
    what: bytes
    shown: List[bytes] = field(default_factory=list)


@dataclass
class Program:
    """A job as it was listed. `line` is that of its `$JOB` card."""
    number: int
    account: bytes
    line: int
    statements: int
    steps: int
    cards: List[Card] = field(default_factory=list)
    reports: List[Report] = field(default_factory=list)

    def of_statement(self, number: int) -> List[Card]:
        """The cards of a statement: that on which it begins, and those that go on with it. None where there is no such statement."""
        found: List[Card] = []
        for card in self.cards:
            if card.first <= number <= card.last:
                found = [card]
            elif found and card.text.startswith(CONTINUES):
                found.append(card)
            elif found and not card.text.startswith(PASSED_OVER):
                break
        return found


def programs(name: str, file: BinaryIO) -> Iterator[Program]:
    """The jobs of a listing, in their order. Refused where the file is none."""
    lines = Lines(name, file)
    program: Optional[Program] = None
    in_cards = False
    for line in iter(lines.next, None):
        opened = JOB.fullmatch(line)
        if opened is not None:
            if program is not None:
                yield program
            number, account, at, statements, steps = opened.groups()
            program, in_cards = Program(int(number), account, int(at), int(statements), int(steps)), False
        elif program is not None and line == HEADING:
            in_cards = True
        elif program is not None and in_cards and line[:1] in (b' ', *DIGITS):
            program.cards.append(_card(lines, line))
        elif line[:1] != b' ':
            in_cards = False
            _note_report(program, line)
        elif program is not None and program.reports:
            program.reports[-1].shown.append(line)
    if program is None:
        raise lines.cut_off('no job is listed here')
    yield program


def _note_report(program: Optional[Program], line: bytes) -> None:
    told = REPORT.fullmatch(line)
    if program is not None and told is not None:
        program.reports.append(Report(int(told.group(1)), told.group(3)))


def _card(lines: Lines, line: bytes) -> Card:
    row = ROW.fullmatch(line)
    first, last = _range(row.group(3).strip()) if row is not None else (None, None)
    if row is None or first is None or last is None:
        raise lines.refused(f'no line of a program is shown so: {shown(line)}')
    return Card(int(row.group(1)), int(row.group(2)), first, last, row.group(4))


def _range(text: bytes) -> Tuple[Optional[int], Optional[int]]:
    """The first and the last statement of `4` or `4-6`; of nothing a first one that is behind the last."""
    ends = text.split(b'-')
    if text == b'':
        return 1, 0
    if len(ends) > 2 or not all(end.isdigit() for end in ends):
        return None, None
    return int(ends[0]), int(ends[-1])
