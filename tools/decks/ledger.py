"""A site's ledger, read from front to back: commits, each a file that names the SHA-256 of the one before it, and the records in them.

What a text of fields is, and which fields a record has, is defined in crates/ledger_text/specs (Text, Records); what a commit has, in
crates/ledger_run/specs (Meaning); how the files are called, in crates/ledger_disk/src. A commit has three fields: the digest of the one
before it, a record, and what that changed: nothing, or the text of fields each of which is a record. When it was, and of which submission, the
record of the commit says: one in a change says neither."""
from __future__ import annotations

import hashlib
import os
import re
from dataclasses import dataclass
from typing import Dict, Iterator, List, Optional, Tuple

from .files import blaming, opened
from .text import Refused, is_count, shown

FOLDER = os.path.join('keep', 'ledger')
ARCHIVE = os.path.join('keep', 'archive')
NAME = re.compile(r'[0-9]{8}|[1-9][0-9]{8,18}')
LENGTH = re.compile(rb'0*([0-9]{0,19})\n')
# By a record's first field, what the others are called; and those of them that are numbers.
KINDS = {kind: tuple(fields.split()) for kind, fields in {
    'TOOK': 'time number account uid name text', 'REFUSED': 'time number account uid name reply', 'RAN': 'time number printout',
    'AUDIT': 'time number lines', 'KEEP': 'time number set first records', 'SET': 'time number set head records', 'GONE': 'time number set',
    'DROPPED': 'time number reason reply', 'GAVE': 'time first last', 'TABLES': 'time tables', 'CHECKED': 'time count digest',
    'EDIT': 'time who act'}.items()}
NUMBERS = frozenset(('time', 'number', 'uid', 'first', 'last', 'count'))
OF_CHANGES = frozenset(('AUDIT', 'KEEP', 'SET', 'GONE'))  # the kinds that stand in a change, and nowhere else
ANYWHERE = frozenset(('TABLES',))                         # and those that do there too

Field = memoryview


def fields_of(text: Field) -> Optional[List[Field]]:
    """The fields of a text, which stand behind their number, each behind its length; None where it is no such text. They are no copies:
    an audit can be long."""
    count, place = _number_at(text, 0)
    fields: List[Field] = []
    while place is not None and len(fields) < count:
        length, begin = _number_at(text, place)
        if begin is None or text[begin + length:begin + length + 1] != b'\n':
            return None
        fields.append(text[begin:begin + length])
        place = begin + length + 1
    return fields if place == len(text) else None


def _number_at(text: Field, place: int) -> Tuple[int, Optional[int]]:
    """The number that stands there, and where what is behind its line begins; None where there is none."""
    found = LENGTH.match(text, place)
    return (0, None) if found is None else (int(found.group(1) or b'0'), found.end())


@dataclass(frozen=True)
class Record:
    """What a record says, by the names that KINDS has for its fields."""
    kind: str
    fields: Dict[str, Field]

    def number(self, name: str) -> int:
        return int(bytes(self.fields[name]))

    def text(self, name: str) -> bytes:
        return bytes(self.fields[name])


def record_of(text: Field) -> Optional[Record]:
    """The record of this text; None where it is none."""
    fields = fields_of(text)
    if not fields:
        return None
    kind = bytes(fields[0]).decode('latin-1')
    names = KINDS.get(kind, ())
    if not names or len(fields) != 1 + len(names):
        return None
    named = dict(zip(names, fields[1:]))
    return Record(kind, named) if all(is_count(bytes(field)) for name, field in named.items() if name in NUMBERS) else None


def _record(path: str, text: Field, is_of_change: bool) -> Record:
    record = record_of(text)
    if record is None or (record.kind in OF_CHANGES) != is_of_change and record.kind not in ANYWHERE:
        raise Refused(f'{path}: no {"change" if is_of_change else "record"} is so: {shown(bytes(text[:40]))!r}')
    return record


@dataclass(frozen=True)
class Commit:
    """A file of the ledger: what it says, and what that changed."""
    number: int
    path: str
    digest: str
    size: int
    head: Record
    changes: List[Record]


class Ledger:
    """The ledger of a site, as it stands now: commits that come later are not read."""

    def __init__(self, site: str) -> None:
        self.folder, self.archive = os.path.join(site, FOLDER), os.path.join(site, ARCHIVE)
        with blaming(self.folder):
            try:
                self.count = self._count()
            except FileNotFoundError:
                if not os.path.isdir(site):
                    raise
                raise Refused(f'{site}: it has no ledger, {FOLDER}; of rounds, snomon-deck audit tells who did what') from None

    def path(self, number: int) -> str:
        """Where a commit stands: in the ledger, or among those that were archived."""
        path, archived = (os.path.join(folder, f'{number:08}') for folder in (self.folder, self.archive))
        return archived if not os.path.exists(path) and os.path.exists(archived) else path

    def commits(self, first: int = 0, before: str = '') -> Iterator[Commit]:
        """Those from this number on; the one before it has this digest. Refused is a file that is no commit, that is missing, or that
        names another as the one before it."""
        for number in range(first, self.count):
            commit, named = self._commit(number)
            if named != before:
                raise Refused(f'{commit.path}: it names {named or "none"} as the SHA-256 of the commit before it, and that is {before or "none"}: '
                              'one of the two files was changed')
            yield commit
            before = commit.digest

    def digest(self, number: int) -> str:
        return hashlib.sha256(self._read(number)).hexdigest()

    def _commit(self, number: int) -> Tuple[Commit, str]:
        text, path = self._read(number), self.path(number)
        fields = fields_of(memoryview(text))
        if fields is None or len(fields) != 3:
            raise Refused(f'{path}: it is no commit: it was changed, or cut off')
        before, head, change = fields
        changes = fields_of(change) if change else []
        if changes is None:
            raise Refused(f'{path}: what it changed is no text of records')
        return Commit(number, path, hashlib.sha256(text).hexdigest(), len(text), _record(path, head, False),
                      [_record(path, field, True) for field in changes]), shown(bytes(before))

    def _read(self, number: int) -> bytes:
        path = self.path(number)
        with opened(path) as file, blaming(path):
            return file.read()

    def _count(self) -> int:
        """How many commits there are. They have the numbers from 0 on; the folder has nothing else."""
        count, last = 0, -1
        with os.scandir(self.folder) as entries:
            for entry in entries:
                if not NAME.fullmatch(entry.name):
                    raise Refused(f'{os.path.join(self.folder, entry.name)}: no commit is called so')
                count, last = count + 1, max(last, int(entry.name))
        if count <= last:  # or commits came meanwhile
            for number in range(last):
                if not os.path.exists(self.path(number)):
                    raise Refused(f'{self.path(number)}: this commit is missing')
        return last + 1
