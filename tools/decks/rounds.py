"""The daily round: what `next`, `get`, `put`, `names` and `new` do."""
from __future__ import annotations

import os
import tempfile
from dataclasses import dataclass, replace
from typing import BinaryIO, Callable, Iterator, List, Optional, Set

from .cards import Stop, read_accounts, read_stream
from .catalogue import RECORDS_LIMIT, SETS_LIMIT, DataSet, Found, heading
from .files import blaming, opened, unnamed
from .lists import named_users
from .output import Output
from .text import CATALOGUE_LIMIT, PIECE, Fault, Lines, OutputLines, Refused, counted, is_name, shown, text_of


def next_deck(output: str, accounts: str, stream: str, deck: BinaryIO) -> List[str]:
    """The deck of these accounts, the output's catalogue and the cards of that stream. What there is to tell: the owners and
    the named users of data sets that are no accounts there."""
    deck.write(b'$ACCOUNTS\n')
    with opened(accounts) as file:
        known = _copy_accounts(Lines(accounts, file), deck)
    missing: List[str] = []
    with opened(output) as file:
        reading = at_its_catalogue(output, file)
        deck.write(text_of([heading(reading.version())]))
        for found in reading.data_sets():
            missing.extend(f'{output}: {told}, and {accounts} has no such account' for told in _named_beyond(found, known))
            _copy(found.pieces(), deck)
    deck.write(b'$STREAM\n')
    with opened(stream) as file:
        _copy_stream(Lines(stream, file), deck)
    deck.write(b'$STOP\n')
    return missing


def _copy_accounts(lines: Lines, deck: BinaryIO) -> Set[bytes]:
    """The names of the accounts."""
    reading = read_accounts(lines)
    names: Set[bytes] = set()
    while True:
        try:
            account, pieces = next(reading)
        except StopIteration as end:
            if end.value is not None:
                raise lines.refused(f'a file of accounts has accounts alone, and no card: {shown(end.value)}')
            return names
        names.add(account.name)
        _copy(pieces, deck)


def _named_beyond(found: Found, known: Set[bytes]) -> Iterator[str]:
    """Where a data set has an owner or a named user that is none of the known accounts."""
    data_set = found.data_set
    name = shown(data_set.name)
    if data_set.owner not in known:
        yield f'line {data_set.line}: {name} belongs to {shown(data_set.owner)}'
    for user, entry in named_users(found.permissions):
        if user not in known:
            yield f'line {data_set.line + 1}: the list of {name} has {shown(entry)}'


def _copy_stream(lines: Lines, deck: BinaryIO) -> None:
    for item, pieces in read_stream(lines, stops=False):
        if not isinstance(item, Stop):
            _copy(pieces, deck)
    for line in iter(lines.next, None):
        if line.strip(b' '):
            raise lines.refused('nothing stands behind $STOP')


def _copy(pieces: Iterator[List[bytes]], file: BinaryIO) -> None:
    for piece in pieces:
        file.write(text_of(piece))


def at_its_catalogue(name: str, file: BinaryIO) -> Output:
    output = Output(OutputLines(name, file))
    for _ in output.skip_printouts():
        pass
    return output


def get_records(output: str, name: bytes, records: BinaryIO) -> None:
    """The records of that data set, a line each."""
    with opened(output) as file:
        is_there = False
        for found in at_its_catalogue(output, file).data_sets():
            if found.data_set.name == name:
                is_there = True
                _copy(found.records, records)
        if not is_there:
            raise Refused(f'{output}: no data set is called {shown(name)}')


def names(output: str, long: bool, listing: BinaryIO) -> None:
    """The names of the data sets; with `long` all that their cards say."""
    with opened(output) as file:
        for found in at_its_catalogue(output, file).data_sets():
            data_set = found.data_set
            listing.write(text_of([b' '.join(data_set.words()) if long else data_set.name]))


@dataclass
class Records:
    """The lines of a text file, which can all be records, in a file of their own."""
    count: int
    file: BinaryIO

    def copy_to(self, file: BinaryIO) -> None:
        self.file.seek(0)
        for piece in iter(lambda: self.file.read(1 << 16), b''):
            file.write(piece)


def read_records(path: str) -> Records:
    """The lines of this text file. The first that cannot be a record is told."""
    with blaming(tempfile.gettempdir()):
        records = Records(0, unnamed())
        with opened(path) as file:
            lines = Lines(path, file)
            for piece in iter(lambda: lines.take(PIECE), []):
                lines.check_records(piece, CATALOGUE_LIMIT)
                records.count += len(piece)
                if records.count > RECORDS_LIMIT:
                    raise lines.refused(f'a data set has at most {RECORDS_LIMIT:,} records', RECORDS_LIMIT + 1)
                records.file.write(text_of(piece))
        return records


def put_records(output: str, name: bytes, path: str, changed: BinaryIO) -> None:
    """The output with the lines of that file as the records of that data set, and all else as it was."""
    records = read_records(path)
    with opened(output) as file:
        reading = Output(OutputLines(output, file))
        for line in reading.skip_printouts():
            changed.write(text_of([line]))
        changed.write(text_of([heading(reading.version())]))
        is_there = False
        for found in reading.data_sets():
            if found.data_set.name == name:
                is_there = True
                write_set(found.data_set, found.permissions, records, changed)
            else:
                _copy(found.pieces(), changed)
        if not is_there:
            raise Refused(f'{output}: no data set is called {shown(name)}')


def write_set(data_set: DataSet, permissions: bytes, records: Records, file: BinaryIO) -> None:
    file.write(text_of([replace(data_set, count=records.count).card(), permissions]))
    records.copy_to(file)


@dataclass(frozen=True)
class NewSet:
    """What a data set of a new catalogue is called and whose it is."""
    name: bytes
    owner: bytes
    group: bytes
    permissions: bytes


def new_catalogue(folder: str, made: Callable[[str, bytes], NewSet], mode: Optional[bytes], catalogue: BinaryIO) -> None:
    """A catalogue with a data set for each file of the folder, in the order of their names. With a mode it is one of version 2."""
    try:
        paths = sorted(os.listdir(os.fsencode(folder)))
    except OSError as error:
        raise Fault(f'{folder}: {error.strerror}') from error
    if len(paths) > SETS_LIMIT:
        raise Refused(f'{folder}: it has {counted(len(paths), "file")}, and there are at most {SETS_LIMIT:,} data sets')
    catalogue.write(text_of([heading(1 if mode is None else 2)]))
    names: Set[bytes] = set()
    for name in paths:
        path = os.path.join(folder, os.fsdecode(name))
        new = made(path, name)
        if not is_name(new.name) or new.name in names:
            raise Refused(f'{path}: what the file is called can be no name of a data set, or is one already')
        names.add(new.name)
        records = read_records(path)
        with records.file:
            write_set(DataSet(0, new.name, new.owner, new.group, mode, records.count), new.permissions, records, catalogue)
