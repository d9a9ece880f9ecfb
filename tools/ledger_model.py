#!/usr/bin/env python3
"""tools/ledger_model.py [TEXTS]            searches the calls of a ledger on a disk through every crash
tools/ledger_model.py --calls TEXTS     lists the calls of a run that is not cut off, and how many outcomes a strict disk has

A run opens the ledger, claims dropped files, records them, runs them, answers, until nothing waits. Behind each of its calls the
power may be cut, or the run be killed; every outcome that the disk allows is tried, and a run goes on from each, until no new disk
is reached. So many texts (three, if none is said) are dropped before the first run; each planted fault is tried with two. The disk
is that of crates/ledger_disk, the calls are those of crates/ledger_laws and ledger_run, written a second time: nothing is read there.
crates/ledger_tests searches what is proved, on a strict disk: what it prints is what `--calls` lists.

A disk is read as one of these. In each, a file that was not brought to the disk may have any bytes.
  strict   each name by itself has what is seen, or what it had at any moment since its folder was last brought to the disk
  notlost  the same, but a file that was renamed is left under one of its two names at least
  ordered  all names have what they had at one moment; a folder that is brought to the disk is so alone
  journal  the same, and any folder brings all (ext4, XFS): faults of order do not show there
"""
from __future__ import annotations

import itertools
import re
import sys
import time
from typing import Dict, FrozenSet, Iterable, Iterator, List, NamedTuple, Optional, Set, Tuple, Union

ORDERS = ('strict', 'notlost', 'ordered', 'journal')
TORN = 'torn'
BOXES = {'in/a': 'out/a', 'in/b': 'out/b'}  # and where their answers are put
DROPS = (('in/a/x', 'A'), ('in/b/z', 'C'), ('in/a/y', 'B'))
CALLED = {'ledger': 'commit', 'taken': 'claimed', 'out': 'answer'}

# What a run may leave out, or do in another order. On a strict disk each loses a text, runs it twice, or shows a wrong answer; where
# a renamed file is never left under neither name, the last does no harm.
FAULTS = (
    'opens without syncs', 'no sync of a draft', 'no sync of the ledger', 'no sync of what was claimed', 'no sync of the boxes',
    'removes before it records', 'answers before it commits', 'no sync of an answer', 'claims by rename',
    'claims by rename, and finishes that',
)


class Took(NamedTuple):
    number: int
    account: str  # who dropped it
    text: str


class Ran(NamedTuple):
    number: int
    text: str
    before: Tuple[str, ...]  # the texts that had run then


class Gave(NamedTuple):
    first: int  # of the numbers whose answers were put
    last: int


Record = Union[Took, Ran, Gave]


class Commit(NamedTuple):
    before: int  # the hash of the commit before
    record: Record


class Answer(NamedTuple):
    text: str
    before: Tuple[str, ...]


Content = Union[str, Commit, Answer]  # a text that was dropped, or torn


class File(NamedTuple):
    content: Content
    whole: bool  # whether its bytes are on the disk


class Slot(NamedTuple):
    """A name: what is seen, and what else a crash may leave."""
    now: Optional[File]
    others: FrozenSet[Optional[File]]


NOTHING = Slot(None, frozenset())
Change = Tuple[str, Optional[File], Optional[File]]  # a name, what it had, what it got
Calls = Tuple[Tuple[Change, ...], ...]
Key = Tuple[FrozenSet[Tuple[str, Slot]], Calls]


def folder_of(name: str) -> str:
    return name.rpartition('/')[0]


def is_draft(name: str) -> bool:
    return name.startswith('draft/')


def number_of(name: str) -> int:
    found = re.search('[0-9]+$', name)
    assert found
    return int(found.group())


def called(name: str) -> str:
    """A name, as crates/ledger_tests prints it."""
    if is_draft(name):
        return 'draft' if name == 'draft/commit' else 'unfinished'
    kind = name.partition('/')[0]
    return f'dropped {[drop for drop, _ in DROPS].index(name)}' if kind == 'in' else f'{CALLED[kind]} {number_of(name)}'


class Disk:
    """Names in folders. What stands in `draft` is never read, and written anew before it gets another name: no crash leaves it."""

    def __init__(self, order: str, slots: Dict[str, Slot], log: Calls = ()) -> None:
        self.order, self.slots, self.log = order, slots, log
        self.moments: Optional[List[Disk]] = None  # the disks behind each call, where they are kept
        self.made: List[str] = []                  # and these calls

    def copy(self) -> Disk:
        return Disk(self.order, dict(self.slots), self.log)

    def key(self) -> Key:
        return frozenset((name, slot) for name, slot in self.slots.items() if slot != NOTHING and not is_draft(name)), self.log

    def now(self, name: str) -> Optional[File]:
        return self.slots.get(name, NOTHING).now

    def content(self, name: str) -> Optional[Content]:
        file = self.now(name)
        return file.content if file else None

    def names(self, folder: str) -> List[str]:
        return sorted(name for name, slot in self.slots.items() if folder_of(name) == folder and slot.now is not None)

    def change(self, *given: Tuple[str, Optional[File]]) -> None:
        call = tuple((name, self.now(name), file) for name, file in given if not is_draft(name))
        if call and self.order != 'strict':
            self.log += (call,)
        for name, file in given:
            slot = self.slots.get(name, NOTHING)
            self.slots[name] = Slot(file, frozenset() if is_draft(name) else slot.others | {slot.now})

    def done(self, call: str) -> None:
        if self.moments is not None:
            self.moments.append(self.copy())
            self.made.append(call)

    def write(self, name: str, content: Content) -> None:
        self.change((name, File(content, False)))
        self.done(f'write {called(name)}')

    def rename(self, old: str, new: str) -> None:
        self.change((old, None), (new, self.now(old)))
        self.done(f'rename {called(old)} to {called(new)}')

    def link(self, old: str, new: str) -> None:
        self.change((new, self.now(old)))
        self.done(f'link {called(old)} to {called(new)}')

    def remove(self, name: str) -> None:
        self.change((name, None))
        self.done(f'remove {called(name)}')

    def sync_file(self, name: str) -> None:
        file, others = self.slots[name]
        assert file
        whole = File(file.content, True)
        self.slots[name] = Slot(whole, others)
        self.log = tuple(tuple((n, old, whole if n == name and new == file else new) for n, old, new in call) for call in self.log)
        self.done(f'sync {called(name)}')

    def sync_folders(self, what: str, folders: Iterable[str]) -> None:
        """Brings these to the disk, one after the other. On a strict disk that is one call: what is left between two of them is left
        before the first too."""
        for folder in folders:
            self.bring(folder)
            if self.order != 'strict':
                self.done(f'sync {what}')
        if self.order == 'strict':
            self.done(f'sync {what}')

    def bring(self, folder: str) -> None:
        def stays(name: str) -> bool:
            return self.order != 'journal' and folder_of(name) != folder
        self.slots = {name: slot if stays(name) else Slot(slot.now, frozenset()) for name, slot in self.slots.items()}
        calls = (tuple(change for change in call if stays(change[0])) for call in self.log)
        self.log = tuple(call for call in calls if call)

    def outcomes(self) -> Iterator[Disk]:
        """The disks that a power cut may leave."""
        for names in self.moments_left() if self.order in ('ordered', 'journal') else [self.choices()]:
            for files in itertools.product(*names.values()):
                left = dict(zip(names, files))
                if self.order != 'notlost' or not any(self.is_lost(call, left) for call in self.log):
                    yield Disk(self.order, {name: Slot(file, frozenset()) for name, file in left.items() if file is not None})

    def choices(self) -> Dict[str, List[Optional[File]]]:
        return {name: sorted({left for file in slot.others | {slot.now} for left in read_as(file)}, key=repr)
                for name, slot in self.slots.items() if not is_draft(name)}

    def moments_left(self) -> Iterator[Dict[str, List[Optional[File]]]]:
        left = {name: slot.now for name, slot in self.slots.items() if not is_draft(name)}
        yield {name: read_as(file) for name, file in left.items()}
        for call in reversed(self.log):
            left.update((name, old) for name, old, _ in call)
            yield {name: read_as(file) for name, file in left.items()}

    @staticmethod
    def is_lost(call: Tuple[Change, ...], left: Dict[str, Optional[File]]) -> bool:
        """Whether a dropped file that was renamed is left under neither name."""
        return len(call) == 2 and call[1][2] is not None and isinstance(call[1][2].content, str) and call[1][2] not in left.values()


def read_as(file: Optional[File]) -> List[Optional[File]]:
    if file is None or file.whole:
        return [file]
    return [File(file.content, True), File(TORN, True)]


class Wrong(Exception):
    """What was promised does not hold of a disk."""


class State(NamedTuple):
    """What the ledger says."""
    ran: Tuple[str, ...]        # the texts that ran, in their order
    taken: Dict[int, Took]      # who dropped each, and what
    printed: Dict[int, Answer]  # what each printed
    given: FrozenSet[int]       # who has his answer


class Ledger:
    """The commits of a disk, each with the hash of the one before."""

    def __init__(self, disk: Disk) -> None:
        self.disk = disk
        self.commits: List[Commit] = []
        for number, name in enumerate(disk.names('ledger')):
            commit = disk.content(name)
            if name != commit_name(number) or not isinstance(commit, Commit) or commit.before != self.last():
                raise Wrong(f'the ledger is refused at {name}')
            self.commits.append(commit)

    def last(self) -> int:
        return hash(self.commits[-1]) if self.commits else 0

    def records(self) -> Iterator[Record]:
        return (commit.record for commit in self.commits)

    def state(self) -> State:
        ran: Tuple[str, ...] = ()
        taken: Dict[int, Took] = {}
        printed: Dict[int, Answer] = {}
        given: FrozenSet[int] = frozenset()
        for record in self.records():
            if isinstance(record, Took):
                taken[record.number] = record
            elif isinstance(record, Ran):
                printed[record.number] = Answer(record.text, record.before)
                ran += (taken[record.number].text,) if record.number in taken else ('?',)
            else:
                given = frozenset(printed)
        return State(ran, taken, printed, given)

    def commit(self, record: Record, faults: FrozenSet[str]) -> None:
        content = Commit(self.last(), record)
        self.disk.write('draft/commit', content)
        if 'no sync of a draft' not in faults:
            self.disk.sync_file('draft/commit')
        self.disk.rename('draft/commit', commit_name(len(self.commits)))
        if 'no sync of the ledger' not in faults:
            self.disk.sync_folders('ledger', ['ledger'])
        self.commits.append(content)


def commit_name(number: int) -> str:
    return f'ledger/{number:02}'


def account_of(claimed: str) -> str:
    return claimed.split('/')[1].split('.')[0]


def dropped(disk: Disk) -> List[str]:
    return [name for name, _ in DROPS if disk.now(name) is not None]


def claimed(disk: Disk) -> List[str]:
    return sorted(disk.names('taken'), key=number_of)


def is_claimed(disk: Disk, drop: str) -> bool:
    return disk.now(drop) in map(disk.now, disk.names('taken'))


def finish_claims(disk: Disk, faults: FrozenSet[str]) -> None:
    """What stands under a number leaves its box."""
    if 'claims by rename' not in faults:
        for drop in [drop for drop in dropped(disk) if is_claimed(disk, drop)]:
            disk.remove(drop)
    if 'no sync of the boxes' not in faults:
        disk.sync_folders('boxes', BOXES)


def claim(disk: Disk, ledger: Ledger, faults: FrozenSet[str]) -> None:
    drops = [drop for drop in dropped(disk) if not is_claimed(disk, drop)]
    if not drops:
        return
    by_rename = bool(faults & {'claims by rename', 'claims by rename, and finishes that'})
    first = max([-1, *ledger.state().taken, *map(number_of, claimed(disk))]) + 1
    for number, drop in enumerate(drops, first):
        (disk.rename if by_rename else disk.link)(drop, f'taken/{folder_of(drop)[3:]}.{number}')
    if 'no sync of what was claimed' not in faults:
        disk.sync_folders('taken', ['taken'])
    if not by_rename:
        for drop in drops:
            disk.remove(drop)
    if 'no sync of the boxes' not in faults:
        disk.sync_folders('boxes', BOXES)


def take_all(disk: Disk, ledger: Ledger, faults: FrozenSet[str]) -> None:
    """Commits the files that were claimed and are not in the ledger, each, and removes it then; and those that are."""
    for name in claimed(disk):
        text = disk.content(name)
        assert isinstance(text, str)
        if 'removes before it records' in faults:
            disk.remove(name)
        if number_of(name) not in ledger.state().taken:
            ledger.commit(Took(number_of(name), account_of(name), text), faults)
        if 'removes before it records' not in faults:
            disk.remove(name)


def answer_name(state: State, number: int) -> str:
    return f'out/{state.taken[number].account}/{number}'


def put_answer(disk: Disk, name: str, printed: Answer, faults: FrozenSet[str]) -> None:
    disk.write('draft/answer', printed)
    if 'no sync of an answer' not in faults:
        disk.sync_file('draft/answer')
    disk.rename('draft/answer', name)


def waiting(state: State) -> List[int]:
    return [number for number in sorted(state.taken) if number not in state.printed]


def run_first(disk: Disk, ledger: Ledger, faults: FrozenSet[str]) -> None:
    state = ledger.state()
    for number in waiting(state)[:1]:
        printed = Answer(state.taken[number].text, state.ran)
        if 'answers before it commits' in faults:
            put_answer(disk, answer_name(state, number), printed, faults)
        ledger.commit(Ran(number, printed.text, printed.before), faults)


def give(disk: Disk, ledger: Ledger, faults: FrozenSet[str]) -> None:
    state = ledger.state()
    owed = [number for number in sorted(state.printed) if number not in state.given]
    for number in owed:
        put_answer(disk, answer_name(state, number), state.printed[number], faults)
    if owed:
        disk.sync_folders('out', BOXES.values())
        ledger.commit(Gave(owed[0], owed[-1]), faults)


def run(disk: Disk, batch: int, faults: FrozenSet[str]) -> None:
    if 'opens without syncs' not in faults:
        for what, folders in (('ledger', ['ledger']), ('boxes', [*BOXES]), ('taken', ['taken']), ('out', [*BOXES.values()])):
            disk.sync_folders(what, folders)
    ledger = Ledger(disk)
    finish_claims(disk, faults)
    claim(disk, ledger, faults)
    take_all(disk, ledger, faults)
    for _ in range(8):
        for _ in range(batch):
            run_first(disk, ledger, faults)
        give(disk, ledger, faults)
        if not waiting(ledger.state()):
            return
    raise Wrong('a run does not end')


def check(disk: Disk, texts: List[str], is_over: bool) -> None:
    """What is promised of each disk; of one behind a whole run more."""
    ledger = Ledger(disk)
    state = ledger.state()
    check_runs(ledger)
    for text in texts:
        waits = sum(slot.now is not None and slot.now.content == text for slot in disk.slots.values())
        taken = sum(isinstance(record, Took) and record.text == text for record in ledger.records())
        if taken > 1:
            raise Wrong(f'text {text} is in {taken} commits')
        if waits + taken == 0:
            raise Wrong(f'text {text} is lost')
        if is_over and (waits or not taken):
            raise Wrong(f'text {text} is not done')
    for name in [name for folder in BOXES.values() for name in disk.names(folder)]:
        number = int(name.rpartition('/')[2])
        if number not in state.printed:
            raise Wrong('an answer that is not committed')
        if name != answer_name(state, number) or disk.content(name) != state.printed[number]:
            raise Wrong('another answer')
    if is_over and (set(state.printed) != set(state.taken) or any(disk.now(answer_name(state, n)) is None for n in state.given)):
        raise Wrong('a text waits, or an answer is missing')


def check_runs(ledger: Ledger) -> None:
    """Each text ran once, over what those before it left."""
    before: Tuple[str, ...] = ()
    seen: Set[int] = set()
    taken = ledger.state().taken
    for record in ledger.records():
        if isinstance(record, Ran):
            if record.number in seen or record.number not in taken:
                raise Wrong('a text ran twice, or was never taken')
            if (record.text, record.before) != (taken[record.number].text, before):
                raise Wrong('a text ran over another state')
            seen.add(record.number)
            before += (record.text,)


class Search(NamedTuple):
    """A search that found nothing wrong."""
    disks: int
    outcomes: int
    calls: int


def begun(order: str, texts: int) -> Disk:
    """So many texts are dropped, and are on the disk."""
    return Disk(order, {name: Slot(File(text, True), frozenset()) for name, text in DROPS[:texts]})


def calls_of(texts: int) -> List[str]:
    """The calls of a run that is not cut off."""
    disk = begun('strict', texts)
    disk.moments = []
    run(disk, 1, frozenset())
    return disk.made


def search(order: str, texts: int, batch: int = 2, late: bool = False, faults: FrozenSet[str] = frozenset()) -> Search:
    """Every crash of every run, from so many dropped texts on; where `late`, another file of the first one's name is dropped between
    two runs once. Raises Wrong at the first disk on which something does not hold."""
    first = begun(order, texts)
    todo, known, outcomes, calls = [(first, False)], {(first.key(), False)}, 0, 0

    def reach(disk: Disk, dropped: bool) -> bool:
        key = (disk.key(), dropped)
        if key in known:
            return False
        known.add(key)
        todo.append((disk, dropped))
        return True

    for start, dropped in todo:  # breadth first
        ids = [text for _, text in DROPS[:texts]] + ['X'] * dropped
        if late and not dropped and start.now('in/a/x') is None:
            reach(with_late(start), True)
        disk = start.copy()
        disk.moments = [start.copy()]
        run(disk, batch, faults)
        check(disk, ids, True)
        calls += len(disk.moments)
        for moment in disk.moments:
            for left in itertools.chain([moment], moment.outcomes()):
                outcomes += 1
                if reach(left, dropped):
                    check(left, ids, False)
    return Search(len(known), outcomes, calls)


def with_late(disk: Disk) -> Disk:
    """A user drops another file, which is on the disk."""
    late = disk.copy()
    if disk.order in ('ordered', 'journal'):  # and so is all that was done before
        late.slots = {name: Slot(slot.now, frozenset()) for name, slot in late.slots.items()}
        late.log = ()
    late.slots['in/a/x'] = Slot(File('X', True), frozenset())
    return late


def told(order: str, texts: int, batch: int = 2, late: bool = False, faults: FrozenSet[str] = frozenset()) -> str:
    start = time.monotonic()
    try:
        found = search(order, texts, batch, late, faults)
        what = f'holds: {found.disks:,} disks, {found.outcomes:,} outcomes, {found.calls:,} calls'
    except Wrong as wrong:
        what = f'FAILS: {wrong}'
    return f'{what} ({time.monotonic() - start:.0f} s)'


def listed(texts: int) -> Iterator[str]:
    """What crates/ledger_tests prints for so many texts."""
    for batch in (1, 2):
        found = search('strict', texts, batch=batch)
        yield f'{texts} dropped, {batch} in a batch: holds: {found.disks} disks, {found.outcomes} outcomes, {found.calls} calls'
    for call in calls_of(texts):
        yield f'  {call}'


def main() -> int:
    if sys.argv[1:2] == ['--calls']:
        for line in listed(int(sys.argv[2])):
            print(line)
        return 0
    texts = int(sys.argv[1]) if len(sys.argv) > 1 else len(DROPS)
    for fault in FAULTS:
        for order in ORDERS:
            print(f'{order}, {fault}: {told(order, 1 if fault == FAULTS[0] else 2, faults=frozenset([fault]))}', flush=True)
    failed = 0
    for order in ORDERS:
        for batch, late in ((2, False), (1, False), (2, True)):
            what = told(order, texts if not late else min(texts, 2), batch=batch, late=late)
            print(f'{order}, {batch} in a commit{", one late" if late else ""}: {what}', flush=True)
            failed += what.startswith('FAILS')
    return 1 if failed else 0


if __name__ == '__main__':
    sys.exit(main())
