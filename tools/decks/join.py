"""The outputs of the decks that a whole one was split into, put together as one. `split` says what is kept.

It follows the whole deck's cards: behind each command stands what its deck printed up to there, and at each `$DRAIN` what
the decks have left, those of jobs with lower numbers first. A deck's own printouts stay in their order. Jobs get the
numbers that their cards have in the whole deck; data sets stand in the order that the whole deck's catalogue has by
then, which follows from its `$SET` cards and from the `$CREATE` and `$DELETE` cards that were done."""
from __future__ import annotations

import contextlib
import heapq
import os
from typing import BinaryIO, Dict, Iterator, List, Optional, Set

from . import parting
from .catalogue import Found, heading
from .files import opened
from .output import Output
from .parts import CARDS_FILE, Event, output_of, read_events
from .text import Lines, OutputLines, Refused, shown, text_of

Names = Dict[bytes, int]  # the data sets that are there, in the catalogue's order, and the deck of each


class Part:
    """A deck's output as it is read, and the deck's jobs."""

    def __init__(self, name: str, file: BinaryIO) -> None:
        self.output = Output(OutputLines(name, file))
        self.numbers: List[int] = []      # by its number in this deck, from 1, each job's number in the whole one
        self.accounts: Dict[int, bytes] = {}  # of the jobs that are not yet printed, by their numbers in the whole deck

    def load(self, number: int, account: bytes) -> None:
        self.numbers.append(number)
        self.accounts[number] = account

    def job_at_hand(self) -> Optional[int]:
        """The number in the whole deck of the job whose printout is the next one; None where it is no job's."""
        if not self.output.is_at_a_printout():
            return None
        title = self.output.title()
        if title[0] != b'JOB':
            return None
        place = int(title[1]) - 1
        number = self.numbers[place] if 0 <= place < len(self.numbers) else 0
        if self.accounts.get(number) != title[2]:
            raise self.output.lines.refused(f'the deck has no such job that is to be printed here: {shown(b" ".join(title))}')
        return number

    def copy_job(self, number: int, joined: BinaryIO) -> None:
        lines = self.output.printout()
        next(lines)
        joined.write(text_of([b'JOB %d %s' % (number, self.accounts.pop(number))]))
        for line in lines:
            joined.write(text_of([line]))

    def copy_jobs(self, joined: BinaryIO) -> None:
        """Those that stand before the next command or the catalogue."""
        for number in iter(self.job_at_hand, None):
            self.copy_job(number, joined)

    def command(self, title: bytes) -> Iterator[bytes]:
        """The lines of this command's printout, which has to be at hand."""
        if not self.output.is_at_a_printout() or self.output.line != title:
            at_hand = 'the output ends' if self.output.line is None else f'there is {shown(self.output.line)}'
            raise self.output.refused_here(f'the printout {shown(title)} is due here, and {at_hand}')
        return self.output.printout()


class Joining:
    """The whole output, as far as the whole deck's cards have been followed."""

    def __init__(self, parts: List[Part], joined: BinaryIO) -> None:
        self.parts, self.joined = parts, joined
        self.jobs = 0
        self.loaded: Set[int] = set()  # the parts that got a job since no part had one left
        self.names: Names = {}

    def follow(self, event: Event) -> None:
        if event.kind == b'set' and event.part is not None:
            self.names[event.words[0]] = event.part
        elif event.kind == b'job' and event.part is not None:
            self.jobs += 1
            self.parts[event.part].load(self.jobs, event.words[0])
            self.loaded.add(event.part)
        elif event.kind == b'command' and event.part is not None:
            self._command(event.part, event.words)
        elif event.kind == b'command':
            self._catalog(b' '.join(event.words))
        elif event.kind == b'drain':
            self._drain()

    def _command(self, part: int, words: List[bytes]) -> None:
        self.parts[part].copy_jobs(self.joined)
        line = b''
        for line in self.parts[part].command(b' '.join(words)):
            self.joined.write(text_of([line]))
        if line == b'DONE' and words[0] == b'CREATE':
            self.names[words[2]] = part
        if line == b'DONE' and words[0] == b'DELETE':
            self.names.pop(words[2], None)

    def _catalog(self, title: bytes) -> None:
        """One printout of those of all decks."""
        shown_sets: Dict[bytes, bytes] = {}
        refusal: Optional[bytes] = None
        for number, part in enumerate(self.parts):
            part.copy_jobs(self.joined)
            for line in list(part.command(title))[1:]:
                if line[:1] == b' ':
                    shown_sets[self._known(number, part, line.split()[0])] = line
                elif line.startswith(b'REFUSED'):
                    refusal = line
        last = refusal if refusal is not None else b'NAMES %d' % len(shown_sets)
        self.joined.write(text_of([title, *(shown_sets[name] for name in self.names if name in shown_sets), last]))

    def _known(self, number: int, part: Part, name: bytes) -> bytes:
        if self.names.get(name) != number:
            raise part.output.lines.refused(f'the deck has no data set {shown(name)} here')
        return name

    def _drain(self) -> None:
        """What the parts have left. A heap has the job at hand of each, or 0 where there is none."""
        left = [(self.parts[place].job_at_hand() or 0, place) for place in sorted(self.loaded) if self.parts[place].accounts]
        self.loaded.clear()
        heapq.heapify(left)
        while left:
            number, place = heapq.heappop(left)
            part = self.parts[place]
            if number == 0:
                raise part.output.refused_here('a job of this deck is to be printed here, and is not')
            part.copy_job(number, self.joined)
            if part.accounts:
                heapq.heappush(left, (part.job_at_hand() or 0, place))

    def catalogue(self) -> None:
        versions = {part.output.version(): part.output.lines.name for part in self.parts}
        if len(versions) > 1:
            raise Refused(f'{versions[1]} and {versions[2]}: their catalogues are of different versions')
        self.joined.write(text_of([heading(min(versions))]))
        readings = [part.output.data_sets() for part in self.parts]
        for name, place in self.names.items():
            self._copy_set(self.parts[place], name, next(readings[place], None))
        for part, reading in zip(self.parts, readings):
            for found in reading:
                raise part.output.lines.refused(f'the deck has no data set {shown(found.data_set.name)} in the end')

    def _copy_set(self, part: Part, name: bytes, found: Optional[Found]) -> None:
        if found is None:
            raise part.output.lines.cut_off(f'the data set {shown(name)} is due')
        if found.data_set.name != name:
            raise part.output.lines.refused(f'the data set {shown(name)} is due, and there is {shown(found.data_set.name)}',
                                            found.data_set.line)
        for piece in found.pieces():
            self.joined.write(text_of(piece))


def join_outputs(folder: str, joined: BinaryIO) -> None:
    """One output of those of the decks in a folder that `snomon-deck split` filled."""
    if parting.was_split(folder):
        parting.join(folder, False, joined)
        return
    path = os.path.join(folder, CARDS_FILE)
    with contextlib.ExitStack() as stack:
        events = read_events(Lines(path, stack.enter_context(opened(path))))
        outputs = [output_of(folder, part) for part in range(int(next(events).words[0]))]
        parts = [Part(output, stack.enter_context(opened(output))) for output in outputs]
        joining = Joining(parts, joined)
        for event in events:
            joining.follow(event)
        joining.catalogue()
