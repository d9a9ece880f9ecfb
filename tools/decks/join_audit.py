"""The audits of the decks that a whole one was split into, put together as one: `join --audit`.

It follows the whole deck's cards, as `join` does for the outputs. Behind each card stands what its deck's audit has up to what that
card did: a job's entering, a command's answer; and at each `$DRAIN` what the decks have left. So each deck's lines stay in their
order, jobs have their numbers in the whole deck, and commands stand in the order of their cards. What the jobs of different decks
did between two cards may stand in another order than in the audit of the whole deck, as it may with other slots."""
from __future__ import annotations

import contextlib
import os
from typing import BinaryIO, Dict, Iterator, List, Optional

from . import parting
from .audit import Event, cells_of
from .files import opened
from .parts import CARDS_FILE, Event as Card, audit_of, read_events
from .text import Lines, OutputLines, Refused, shown, text_of

STOPPED = 'RUN 0 .NONE STOPPED'


class PartAudit:
    """A deck's audit as it is read, with the line at hand, and the numbers that its jobs have in the whole deck."""

    def __init__(self, name: str, file: BinaryIO) -> None:
        self.lines = OutputLines(name, file)
        self.numbers: List[int] = []
        self.line = ''
        self.event: Optional[Event] = None  # of the line at hand; nothing at the end
        self.step()

    def step(self) -> None:
        line = self.lines.next()
        self.line = '' if line is None else line.decode('latin-1')
        cells = cells_of(self.line)
        if line is not None and cells is None:
            raise self.lines.refused(f'an audit has no such line: {shown(line)}')
        self.event = None if cells is None else Event('', '', *cells)

    def is_at_a_job(self) -> bool:
        """Whether the line at hand is of a job whose card was followed."""
        return self.event is not None and self.event.is_of_a_job() and 1 <= int(self.event.job) <= len(self.numbers)

    def taken(self) -> str:
        """The line at hand, with the job's number in the whole deck."""
        line, event = self.line, self.event
        if event is not None and event.is_of_a_job():
            line = f'JOB {self.numbers[int(event.job) - 1]} ' + line.split(' ', 2)[2]
        self.step()
        return line

    def copy_jobs(self, joined: BinaryIO) -> None:
        """What the jobs did before the next command, or before the next job's card, or to the end."""
        while self.is_at_a_job():
            joined.write(text_of([self.taken().encode()]))

    def copy_entering(self, number: int, account: str, joined: BinaryIO) -> None:
        """To where this job enters."""
        self.numbers.append(number)
        while self.is_at_a_job():
            event = self.event
            is_entering = event is not None and event.enters() and int(event.job) == len(self.numbers)
            if is_entering and event is not None and event.account != account:
                break
            joined.write(text_of([self.taken().encode()]))
            if is_entering:
                return
        raise self.due(f'job {len(self.numbers)} of {account} is to enter here')

    def command(self, title: List[str]) -> str:
        """The line of this command, which has to be at hand."""
        event = self.event
        if event is None or not event.is_of_a_command() or [event.event, event.account, *([event.set] if event.set else [])] != title:
            raise self.due(f'the command {" ".join(title)} is due here')
        return self.taken()

    def shown_sets(self) -> Iterator[str]:
        """The lines behind that of a `$CATALOG`, one for each data set that it shows."""
        while self.event is not None and self.event.answer == 'SHOWN':
            yield self.taken()

    def due(self, what: str) -> Refused:
        if self.event is None:
            return self.lines.cut_off(f'{what}, and the audit ends')
        return self.lines.refused(f'{what}, and there is {self.line}')


class JoiningAudits:
    """The whole audit, as far as the whole deck's cards have been followed."""

    def __init__(self, parts: List[PartAudit], joined: BinaryIO) -> None:
        self.parts, self.joined = parts, joined
        self.jobs = 0
        self.names: Dict[str, int] = {}  # the data sets that are there, in the catalogue's order

    def follow(self, card: Card) -> None:
        words = [word.decode() for word in card.words]
        if card.kind == b'set' and card.part is not None:
            self.names[words[0]] = card.part
        elif card.kind == b'job' and card.part is not None:
            self.jobs += 1
            self.parts[card.part].copy_entering(self.jobs, words[0], self.joined)
        elif card.kind == b'command' and card.part is not None:
            self._command(card.part, words)
        elif card.kind == b'command':
            self._catalog(words)
        elif card.kind == b'drain':
            for part in self.parts:
                part.copy_jobs(self.joined)

    def _command(self, place: int, title: List[str]) -> None:
        part = self.parts[place]
        part.copy_jobs(self.joined)
        line = part.command(title)
        self._write(line)
        words = line.split(' ')
        if words[5:6] == ['DONE'] and title[0] == 'CREATE':
            self.names[title[2]] = place
        if words[5:6] == ['DONE'] and title[0] == 'DELETE':
            self.names.pop(title[2], None)

    def _catalog(self, title: List[str]) -> None:
        """One line of those of all decks, and the data sets in the order of the whole catalogue."""
        shown_sets: Dict[str, str] = {}
        line, count = '', 0
        for part in self.parts:
            part.copy_jobs(self.joined)
            line = part.command(title)
            for told in part.shown_sets():
                shown_sets[told.split(' ')[5]] = told
                count += 1
        is_refused = line.split(' ')[4] == 'REFUSED'
        self._write(line if is_refused else f'COMMAND 0 {title[1]} CATALOG NAMES {count}')
        for name in self.names:
            if name in shown_sets:
                self._write(shown_sets[name])

    def end(self) -> None:
        """Each deck has come to its end, and so has the whole one."""
        for part in self.parts:
            if part.line != STOPPED:
                raise part.due(f'the line {STOPPED} is due')
            part.step()
            if part.event is not None:
                raise part.due('nothing stands behind the end of a run')
        self._write(STOPPED)

    def _write(self, line: str) -> None:
        self.joined.write(text_of([line.encode()]))


def join_audits(folder: str, joined: BinaryIO) -> None:
    """One audit of those of the decks in a folder that `snomon-deck split` filled."""
    if parting.was_split(folder):
        parting.join(folder, True, joined)
        return
    path = os.path.join(folder, CARDS_FILE)
    with contextlib.ExitStack() as stack:
        cards = read_events(Lines(path, stack.enter_context(opened(path))))
        names = [audit_of(folder, part) for part in range(int(next(cards).words[0]))]
        joining = JoiningAudits([PartAudit(name, stack.enter_context(opened(name))) for name in names], joined)
        for card in cards:
            joining.follow(card)
        joining.end()
