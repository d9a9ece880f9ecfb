"""A deck cut into several that share no data set. Where each submission in it ends with a `$DRAIN` card, and `snomon-parts` is there,
that does it (parting.py), and this is about all other decks.

What the decks' outputs, put together by `join`, keep of what the whole deck prints, run with as many slots:

- the catalogue, byte for byte;
- each printout, byte for byte; the commands' in the order of their cards, and each job's between the same two `$DRAIN`
  cards. Jobs between two `$DRAIN` cards may be printed in another order, and before or behind commands there.

A *stretch* is what stands between two `$DRAIN` cards, so no job of one stretch runs in another. Why the above is so:

- Data sets that one job ties, and all cards that name one data set, stay together: so each deck has all that is asked of
  its data sets, in order, and each name means the same data set in it.
- Where no job of a stretch shares a data set with a card behind it, it does not matter there which job is given turns
  when. `$TURN` cards are left out there, since a job's slot is another one.
- A stretch in which one does (they *clash*) gives the same turns where each of its jobs finds a free slot and there is no
  `$TURN`: then nothing runs before the stretch's end, and from there on turns go round in the order of the cards. Any
  other stretch with a clash is *kept*: all its jobs stay in one deck, with its `$TURN` cards, and so with the same turns.
- `$CATALOG` sees every data set. It stands in every deck, and clashes with each job before it that has ties. Joined, its
  lines stand in the order of the whole catalogue, and their numbers are added up.
- `$CREATE` is refused where 1,000 data sets are there. A deck whose cards name so many is not cut.

Memory is left out: where a job ends with END MEMORY, or a run for want of it, another run may do otherwise."""
from __future__ import annotations

import contextlib
import os
import re
from dataclasses import dataclass, field
from typing import BinaryIO, Dict, Iterator, List, Optional, Sequence, Set, Tuple, Union

from . import parting
from .cards import Account, Command, Drain, Heading, Item, Job, Stop, StreamItem, Turn, read_deck
from .catalogue import SETS_LIMIT, DataSet
from .files import blaming, filled, made, opened_twice
from .parts import CARDS_FILE, Event, deck_of, event_line
from .text import Lines, Refused, counted, shown, text_of

IN_THE_WAY = re.compile(r'cards|[0-9]+\.(deck|new|out|audit)')  # what a folder has of another split, and of the runs of its decks
Node = Union[bytes, int]  # the name of a data set, or the line of a job's card


class Groups:
    """What stays together: names of data sets, and jobs."""

    def __init__(self) -> None:
        self._above: Dict[Node, Node] = {}

    def of(self, node: Node) -> Node:
        """The one that stands for the group of this one."""
        above = self._above.setdefault(node, node)
        while above != self._above[above]:
            self._above[node] = above = self._above[above]
        return above

    def join(self, nodes: Sequence[Node]) -> None:
        for node in nodes[1:]:
            self._above[self.of(node)] = self.of(nodes[0])


@dataclass(frozen=True)
class Clash:
    """A job, and a card behind it in its stretch that shares a data set with it."""
    job: Job
    later: Union[Command, Job]
    name: bytes

    def told(self) -> str:
        if isinstance(self.later, Command) and self.later.name is None:
            return f'$CATALOG in line {self.later.line} sees {shown(self.name)}, which the job in line {self.job.line} is tied to'
        what = 'job' if isinstance(self.later, Job) else shown(self.later.word)
        return f'the job in line {self.job.line} shares {shown(self.name)} with the {what} in line {self.later.line}'


@dataclass
class Stretch:
    """The cards between two `$DRAIN` cards."""
    cards: List[StreamItem] = field(default_factory=list)

    def jobs(self) -> List[Job]:
        return [card for card in self.cards if isinstance(card, Job)]

    def clash(self) -> Optional[Clash]:
        """The first."""
        tied: Dict[bytes, Job] = {}
        for card in self.cards:
            for name in _seen_by(card, tied):
                if name in tied and isinstance(card, (Command, Job)):
                    return Clash(tied[name], card, name)
            if isinstance(card, Job):
                tied.update((name, card) for name in card.ties)
        return None

    def has_turns(self) -> bool:
        """Whether a `$TURN` stands behind a job."""
        has_begun = False
        for card in self.cards:
            has_begun = has_begun or isinstance(card, Job)
            if has_begun and isinstance(card, Turn):
                return True
        return False


def _seen_by(card: StreamItem, tied: Dict[bytes, Job]) -> List[bytes]:
    if isinstance(card, Job):
        return card.ties
    if isinstance(card, Command):
        return list(tied) if card.name is None else [card.name]
    return []


@dataclass
class Survey:
    """What a deck has: the cards of its data sets, and of its stream."""
    name: str
    sets: List[DataSet] = field(default_factory=list)
    cards: List[StreamItem] = field(default_factory=list)

    def stretches(self) -> List[Stretch]:
        found = [Stretch()]
        for card in self.cards:
            if isinstance(card, Drain):
                found.append(Stretch())
            else:
                found[-1].cards.append(card)
        return found


def survey(lines: Lines) -> Survey:
    """Reads a deck to its `$STOP`; refuses one that snomon would refuse, and one whose `$CREATE` cards may be refused."""
    found = Survey(lines.name)
    for item, _ in read_deck(lines):
        if isinstance(item, DataSet):
            found.sets.append(item)
        elif not isinstance(item, (Heading, Account)):
            found.cards.append(item)
    _refuse_a_full_catalogue(found)
    return found


def _refuse_a_full_catalogue(deck: Survey) -> None:
    """There are never more data sets than names on `$SET` and `$CREATE` cards; a full catalogue shows in whole decks alone."""
    names = {data_set.name for data_set in deck.sets}
    for card in deck.cards:
        if isinstance(card, Command) and card.word == b'$CREATE' and card.name is not None:
            names.add(card.name)
            if len(names) > SETS_LIMIT:
                raise Refused(f'{deck.name}: line {card.line}: this $CREATE may be refused with K4, since with it more than '
                              f'{SETS_LIMIT:,} data sets are named; such a deck is not cut')


@dataclass
class Plan:
    """In which of the decks, counted from 0, the cards of a whole deck stand; and what there is to tell of it."""
    name: str
    count: int
    by_line: Dict[int, Tuple[int, ...]]
    notes: List[str]

    def parts(self, item: Item) -> Tuple[int, ...]:
        parts = self.by_line.get(item.line)
        if parts is None:
            raise Refused(f'{self.name}: line {item.line}: the deck has changed since it was read first')
        return parts


def plan(deck: Survey, most: int, slots: int, tells_ties: bool = False) -> Plan:
    groups, notes = Groups(), []
    for card in deck.cards:
        if isinstance(card, Job):
            groups.join([card.line, *card.ties])
    stretches = deck.stretches()
    for stretch in stretches:
        clash, jobs = stretch.clash(), stretch.jobs()
        is_kept = clash is not None and (len(jobs) > slots or stretch.has_turns())
        if clash is not None and is_kept and len({groups.of(job.line) for job in jobs}) > 1:
            groups.join([job.line for job in jobs])
            notes.append(_told_of_kept(deck, clash, jobs, slots))
    if tells_ties:
        notes.extend(_told_of_ties(deck))
    count, part_of = _packed(deck, groups, most)
    everywhere = tuple(range(count))
    by_line: Dict[int, Tuple[int, ...]] = {data_set.line: (part_of[groups.of(data_set.name)],) for data_set in deck.sets}
    for stretch in stretches:
        by_line.update(_placed(stretch, groups, part_of, everywhere))
    by_line.update((card.line, everywhere) for card in deck.cards if isinstance(card, (Drain, Stop)))
    if count > 1:
        notes.extend(_told_of_catalog(deck, count))
    return Plan(deck.name, count, by_line, notes)


def _told_of_kept(deck: Survey, clash: Clash, jobs: List[Job], slots: int) -> str:
    between = f'more jobs than the {counted(slots, "slot")}' if len(jobs) > slots else '$TURN cards'
    return (f'{deck.name}: lines {jobs[0].line} to {jobs[-1].line}: {clash.told()}, with {between} and no $DRAIN between; '
            f'so the {counted(len(jobs), "job")} there stay in one deck')


def _told_of_ties(deck: Survey) -> Iterator[str]:
    """The data sets that several jobs are tied to, those with the most jobs first."""
    jobs = [card for card in deck.cards if isinstance(card, Job)]
    tied: Dict[bytes, int] = {}
    for job in jobs:
        for name in dict.fromkeys(job.ties):
            tied[name] = tied.get(name, 0) + 1
    for name in sorted(tied, key=lambda name: -tied[name]):
        if tied[name] > 1:
            yield f'{deck.name}: {shown(name)} keeps {tied[name]} of {counted(len(jobs), "job")} in one deck'


def _told_of_catalog(deck: Survey, count: int) -> Iterator[str]:
    for card in deck.cards:
        if isinstance(card, Command) and card.name is None:
            yield (f'{deck.name}: line {card.line}: $CATALOG sees every data set: it stands in each of the '
                   f'{count} decks, and join makes one printout of theirs')


def _packed(deck: Survey, groups: Groups, most: int) -> Tuple[int, Dict[Node, int]]:
    """Into how many decks the groups go, and which goes into which: those with the most jobs first, each where the fewest
    are. Groups without a job go together."""
    jobs: Dict[Node, int] = {}
    for card in deck.cards:
        if isinstance(card, Job):
            group = groups.of(card.line)
            jobs[group] = jobs.get(group, 0) + 1
    loads = [0] * max(1, min(most, len(jobs)))
    part_of: Dict[Node, int] = {}
    for group in sorted(jobs, key=lambda group: -jobs[group]):
        part = loads.index(min(loads))
        part_of[group] = part
        loads[part] += jobs[group]
    rest = loads.index(min(loads))
    for name in _names(deck):
        part_of.setdefault(groups.of(name), rest)
    return len(loads), part_of


def _names(deck: Survey) -> Set[bytes]:
    named = {card.name for card in deck.cards if isinstance(card, Command) and card.name is not None}
    return named | {data_set.name for data_set in deck.sets}


def _placed(stretch: Stretch, groups: Groups, part_of: Dict[Node, int],
            everywhere: Tuple[int, ...]) -> Iterator[Tuple[int, Tuple[int, ...]]]:
    of_jobs = {part_of[groups.of(job.line)] for job in stretch.jobs()}
    for card in stretch.cards:
        if isinstance(card, Job):
            yield card.line, (part_of[groups.of(card.line)],)
        elif isinstance(card, Command):
            yield card.line, everywhere if card.name is None else (part_of[groups.of(card.name)],)
        elif isinstance(card, Turn):
            yield card.line, tuple(of_jobs) if len(of_jobs) == 1 else ()


def split_deck(path: str, folder: str, most: int, slots: int, tells_ties: bool = False) -> Tuple[List[str], List[str]]:
    """Fills the folder with the decks, and with the file that `join` needs: the decks' paths, and what there is to tell."""
    return parting.split_deck(path, folder, most, tells_ties) or _split_deck(path, folder, most, slots, tells_ties)


def _split_deck(path: str, folder: str, most: int, slots: int, tells_ties: bool) -> Tuple[List[str], List[str]]:
    _refuse_older_decks(folder)
    with opened_twice(path) as file:
        deck = survey(Lines(path, file))
        planned = plan(deck, most, slots, tells_ties)
        file.seek(0)
        with filled(folder) as room:
            _write_cards(deck, planned, room)
            _write_decks(Lines(path, file), planned, room)
    return [deck_of(folder, part) for part in range(planned.count)], planned.notes


def _refuse_older_decks(folder: str) -> None:
    """An output of an older deck that was left in the folder would be joined as that of a new one."""
    if os.path.lexists(folder):
        with blaming(folder):
            older = sorted(filter(IN_THE_WAY.fullmatch, os.listdir(folder)))
        if older:
            raise Refused(f'{folder}: it has {older[0]}, as of another split; decks are put only where no others are')


def _write_cards(deck: Survey, planned: Plan, room: str) -> None:
    with made(os.path.join(room, CARDS_FILE)) as file:
        file.write(text_of([event_line(event) for event in _events(deck, planned)]))


def _events(deck: Survey, planned: Plan) -> Iterator[Event]:
    yield Event(b'decks', None, [b'%d' % planned.count])
    for data_set in deck.sets:
        yield Event(b'set', planned.parts(data_set)[0], [data_set.name])
    for card in deck.cards:
        if isinstance(card, Job):
            yield Event(b'job', planned.parts(card)[0], [card.account])
        elif isinstance(card, Command):
            part = None if card.name is None else planned.parts(card)[0]
            yield Event(b'command', part, card.title().split(b' '))
        elif isinstance(card, (Drain, Stop)):
            yield Event(b'drain', None, [])


def _write_decks(lines: Lines, planned: Plan, room: str) -> None:
    with contextlib.ExitStack() as stack:
        files: List[BinaryIO] = [stack.enter_context(made(deck_of(room, part))) for part in range(planned.count)]
        for item, pieces in read_deck(lines):
            is_shared = isinstance(item, (Heading, Account))
            parts = files if is_shared else [files[part] for part in planned.parts(item)]
            for piece in pieces:
                for part_file in parts:
                    part_file.write(text_of(piece))
