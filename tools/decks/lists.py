"""Permission lists in the short form, as they stand behind `$SET` cards."""
from __future__ import annotations

from typing import Dict, FrozenSet, List, Tuple

from .text import is_name, shown

TAGS = {b'user': b'user', b'u': b'user', b'group': b'group', b'g': b'group',
        b'mask': b'mask', b'm': b'mask', b'other': b'other', b'o': b'other'}
ORDER = [b'user', b'group', b'mask', b'other']
NAMED_LIMIT = 100

Entries = Dict[Tuple[bytes, bytes], FrozenSet[int]]


class BadList(Exception):
    """The first fault of a list, with its code."""


def canonical(text: bytes) -> bytes:
    """The list as it is written back. BadList where it is none."""
    entries: Entries = {}
    for number, piece in enumerate(text.split(b','), 1):
        _read_entry(piece, number, entries)
    for tag in (b'user', b'group', b'other'):
        if (tag, b'') not in entries:
            raise BadList(f'A4 MISSING {shown(tag)}::')
    if any(name for _, name in entries) and (b'mask', b'') not in entries:
        raise BadList('A6 NO MASK')
    return b','.join(_spelled(tag, name, entries[tag, name]) for tag, name in _in_order(entries))


def named_users(text: bytes) -> List[Tuple[bytes, bytes]]:
    """The users that a list names, each with its entry as it is written back."""
    entries = [entry.split(b':') for entry in canonical(text).split(b',')]
    return [(name, b':'.join([tag, name, permissions])) for tag, name, permissions in entries if tag == b'user' and name]


def _read_entry(piece: bytes, number: int, entries: Entries) -> None:
    fields = [field.strip(b' \t') for field in piece.split(b':')]
    tag = TAGS.get(fields[0])
    if tag is None:
        raise BadList(f'A1 BAD TAG ENTRY {number}')
    if len(fields) == 2 and tag in (b'mask', b'other'):
        fields.insert(1, b'')
    if len(fields) != 3:
        raise BadList(f'A3 BAD PERMS ENTRY {number}')
    name, permissions = fields[1], fields[2]
    if name and (tag in (b'mask', b'other') or not is_name(name)):
        raise BadList(f'A2 BAD QUALIFIER ENTRY {number}')
    if permissions.translate(None, b'rwx-') or any(permissions.count(letter) > 1 for letter in b'rwx'):
        raise BadList(f'A3 BAD PERMS ENTRY {number}')
    if (tag, name) in entries:
        raise BadList(f'A5 TWICE ENTRY {number}')
    if name and sum(1 for _, other in entries if other) == NAMED_LIMIT:
        raise BadList(f'A7 TOO MANY ENTRY {number}')
    entries[tag, name] = frozenset(permissions) - {ord('-')}


def _in_order(entries: Entries) -> List[Tuple[bytes, bytes]]:
    return sorted(entries, key=lambda entry: (ORDER.index(entry[0]), entry[1]))


def _spelled(tag: bytes, name: bytes, permissions: FrozenSet[int]) -> bytes:
    return b'%s:%s:%s' % (tag, name, bytes(letter if letter in permissions else ord('-') for letter in b'rwx'))
