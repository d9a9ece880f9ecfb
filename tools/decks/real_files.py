"""Owners, groups and permission lists of real files, as the kernel keeps them and as `getfacl -R` writes them; and what a map makes
of their names here."""
from __future__ import annotations

import errno
import grp
import os
import pwd
import re
import stat
import struct
from dataclasses import dataclass, field
from typing import Callable, Dict, Iterator, List, Optional, Tuple

from .beside import PERMISSION_LIST
from .files import blaming, opened
from .lists import BadList, canonical
from .text import Lines, Refused, is_name, shown

TAG_OF = {0x01: b'user', 0x02: b'user', 0x04: b'group', 0x08: b'group', 0x10: b'mask', 0x20: b'other'}
NAMED_TAGS = (0x02, 0x08)
DEFAULT_LIST = 'system.posix_acl_default'
KINDS = (b'user', b'group', b'file')
ESCAPED = re.compile(rb'\\([0-7]{3}|\\)')


@dataclass(frozen=True)
class RealFile:
    """A file as it is: by its path under the folder; its list is not yet one of names that are names here."""
    told: str   # where it is told of, for messages
    path: bytes
    owner: bytes
    group: bytes
    entries: List[Tuple[bytes, bytes, bytes]]  # tag, name or id, permissions


@dataclass
class Map:
    """What files, users and groups are called here; a line for each: `user 1001 lisa`, `group _ssh ssh`, `file a/b PAYROLL`, and
    `file a/c -`, which passes that file over. A blank in a word is spelled as getfacl does, `\\040`."""
    names: Dict[Tuple[bytes, bytes], bytes] = field(default_factory=dict)

    def name(self, told: str, kind: bytes, word: bytes) -> bytes:
        """What a user, group or file is called here. Refused is what has no name."""
        name = self.names.get((kind, word), word)
        if not is_name(name):
            line = f'{shown(kind)} {shown(escaped(word))}'
            raise Refused(f'{told}: {shown(kind)} {shown(word)} is no name here; a line "{line} NAME" of --map gives it one')
        return name

    def is_passed_over(self, path: bytes) -> bool:
        return self.names.get((b'file', path)) == b'-'

    def origin(self, kind: bytes, name: bytes) -> bytes:
        """What the name stands for, which is the first of the map's that has it, or itself."""
        return next((word for (other, word), here in self.names.items() if (other, here) == (kind, name)), name)


def read_map(path: Optional[str]) -> Map:
    found = Map()
    if path is not None:
        with opened(path) as file:
            lines = Lines(path, file)
            for line in iter(lines.next, None):
                words = line.split()
                if not words or words[0][:1] == b'#':
                    continue
                if len(words) != 3 or words[0] not in KINDS or not (is_name(words[2]) or (words[0], words[2]) == (b'file', b'-')):
                    raise lines.refused('a map has lines "user|group|file WORD NAME"; of a file that is passed over the name is -')
                key = (words[0], unescaped(words[1]))
                if key in found.names:
                    raise lines.refused(f'{shown(words[0])} {shown(words[1])} has a name already')
                found.names[key] = words[2]
    return found


def list_of(real: RealFile, names: Map) -> bytes:
    """Its permission list in the short form, with the names that are names here."""
    entries = [b':'.join([tag, names.name(real.told, tag, word) if word else b'', permissions]) for tag, word, permissions in real.entries]
    try:
        return canonical(b','.join(entries))
    except BadList as fault:
        raise Refused(f'{real.told}: its list: {fault}') from fault


def deviation(real: RealFile) -> Optional[str]:
    """Where Linux would grant what the list, as acl(5) has it, denies: it looks at no list whose mask is empty."""
    by_tag = {tag: permissions for tag, _, permissions in real.entries if tag in (b'mask', b'other')}
    if by_tag.get(b'mask') == b'---' and by_tag.get(b'other') != b'---':
        return (f'{real.told}: its mask is ---: Linux then gives to whom an entry names, and who is not in the group, '
                f'what other:: has ({shown(by_tag[b"other"])}); here the mask denies it, as acl(5) says')
    return None


Say = Callable[[str], None]


def files_of(path: str, names: Map, tell: Say) -> Iterator[RealFile]:
    """Those of a folder and of the folders in it; or those of a text that `getfacl -R` wrote. What is passed over is told."""
    for real in _in_folder(path, b'', tell) if os.path.isdir(path) else _in_text(path, tell):
        if not names.is_passed_over(real.path):
            yield real


def _in_folder(top: str, under: bytes, tell: Say) -> Iterator[RealFile]:
    folder = os.path.join(os.fsencode(top), under)
    with blaming(os.fsdecode(folder)):
        entries = sorted(os.listdir(folder))
        if DEFAULT_LIST in os.listxattr(folder):
            tell(f'{os.fsdecode(folder)}: its default: entries are passed over')
    for entry in entries:
        path, name = os.path.join(folder, entry), os.path.join(under, entry)
        with blaming(os.fsdecode(path)):
            there = os.lstat(path)
        if stat.S_ISDIR(there.st_mode):
            yield from _in_folder(top, name, tell)
        elif stat.S_ISREG(there.st_mode):
            yield real_file(path, name)
        else:
            tell(f'{os.fsdecode(path)}: it is neither a file nor a folder, and is passed over')


def real_file(path: bytes, name: bytes) -> RealFile:
    """The file at a path."""
    with blaming(os.fsdecode(path)):
        there = os.stat(path)
        return RealFile(os.fsdecode(path), name, _user(there.st_uid), _group(there.st_gid), _entries(path, there.st_mode))


def _entries(path: bytes, mode: int) -> List[Tuple[bytes, bytes, bytes]]:
    try:
        packed = os.getxattr(path, PERMISSION_LIST)
    except OSError as error:
        if error.errno not in (errno.ENODATA, errno.ENOTSUP):
            raise
        return [(tag, b'', _letters(mode >> shift)) for tag, shift in ((b'user', 6), (b'group', 3), (b'other', 0))]
    found = []
    for tag, permissions, number in struct.iter_unpack('<HHI', packed[4:]):
        name = _user if tag == NAMED_TAGS[0] else _group
        found.append((TAG_OF[tag], name(number) if tag in NAMED_TAGS else b'', _letters(permissions)))
    return found


def _letters(bits: int) -> bytes:
    return bytes(letter if bits & bit else ord('-') for letter, bit in zip(b'rwx', (4, 2, 1)))


def _user(number: int) -> bytes:
    """Its name, or its number where it has none."""
    try:
        return os.fsencode(pwd.getpwuid(number).pw_name)
    except KeyError:
        return b'%d' % number


def _group(number: int) -> bytes:
    try:
        return os.fsencode(grp.getgrgid(number).gr_name)
    except KeyError:
        return b'%d' % number


def _in_text(path: str, tell: Say) -> Iterator[RealFile]:
    """The files of what `getfacl -R` wrote. The text does not tell files from folders: a folder is what has others in it, or
    default: entries, and what comes first where others do."""
    with opened(path) as file:
        found = list(_paragraphs(Lines(path, file)))
    paths = [real.path for real, _ in found]
    folders = {one[:at] for one in paths for at in range(len(one)) if one[at:at + 1] == b'/'}
    top = paths[0] + b'/' if paths and paths[0] in folders else b''
    for real, has_default in found:
        if has_default:
            tell(f'{real.told}: its default: entries are passed over')
        elif real.path not in folders:
            name = real.path[len(top):] if real.path.startswith(top) else real.path
            yield RealFile(real.told, name, real.owner, real.group, real.entries)


def _paragraphs(lines: Lines) -> Iterator[Tuple[RealFile, bool]]:
    """Each file that the text tells of, and whether it has default: entries."""
    said: List[bytes] = []
    for line in iter(lambda: lines.next(), None):
        if line.strip():
            said.append(line)
        elif said:
            yield _paragraph(lines, said, lines.number - len(said))
            said = []
    if said:
        yield _paragraph(lines, said, lines.number + 1 - len(said))


def _paragraph(lines: Lines, said: List[bytes], begun: int) -> Tuple[RealFile, bool]:
    heads: Dict[bytes, bytes] = {}
    entries: List[Tuple[bytes, bytes, bytes]] = []
    has_default = False
    for number, line in enumerate(said, begun):
        if line.startswith(b'# '):
            key, _, value = line[2:].partition(b': ')
            heads[key] = value
        elif line.startswith(b'default:'):
            has_default = True
        else:
            words = line.partition(b'#')[0].strip().split(b':')
            if len(words) != 3 or words[0] not in TAG_OF.values():
                raise lines.refused(f'getfacl writes no such line: {shown(line)}', number)
            entries.append((words[0], unescaped(words[1]), words[2]))
    missing = [head for head in (b'file', b'owner', b'group') if head not in heads]
    if missing:
        raise lines.refused(f'the line "# {shown(missing[0])}: .." is due, as getfacl writes it', begun)
    path, owner, group = (unescaped(heads[head]) for head in (b'file', b'owner', b'group'))
    return RealFile(f'{lines.name}: line {begun}: {shown(path)}', path, owner, group, entries), has_default


def unescaped(word: bytes) -> bytes:
    """What getfacl spells with a backslash and three digits, or two backslashes."""
    return ESCAPED.sub(lambda found: b'\\' if found.group(1) == b'\\' else bytes([int(found.group(1), 8) & 255]), word)


def escaped(word: bytes) -> bytes:
    return b''.join(bytes([byte]) if 32 < byte < 127 and byte not in b'\\:=' else b'\\%03o' % byte for byte in word)
