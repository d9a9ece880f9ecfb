"""The audits that a command is asked about: files, and folders that have them. Each is the audit of a run, and is called as its file
is; it is read in pieces of whole lines, all of which are lines that an audit may have.

To look at each line by a pattern would take ten times as long as all else. So a line is looked at only where no line before it was
the same but for its digits: what an audit has in a place has no rule that tells one digit from another, but for the 0 of
`COMMAND 0` and of `RUN 0`, which are counted."""
from __future__ import annotations

import contextlib
import io
import os
import re
from collections import Counter
from typing import BinaryIO, Dict, Iterator, List, Set, Tuple

from . import progress
from .audit import Asked, asked_of, cells_of
from .files import blaming, copied, opened, say
from .tables import Row
from .text import CATALOGUE_LIMIT, OutputLines, Refused, shown

PIECE = 1 << 16          # how many bytes are read at a time
SHAPES_LIMIT = 100_000   # how many are kept; then they are learnt anew
ZEROS = bytes.maketrans(b'123456789', b'000000000')
ENDING = '.audit'        # of the files that a folder's audits are

Piece = Tuple[int, bytes]  # the number of its first line, and its lines


class Shapes:
    """How lines look that an audit may have, with a 0 for each digit."""

    def __init__(self) -> None:
        self.known: Set[bytes] = set()

    def are_of(self, text: bytes) -> bool:
        """Whether all lines of this text are such ones."""
        behind = b'\n' + text
        if text[-1:] != b'\n' or any(behind.count(b'\n' + word + b' ') != behind.count(b'\n' + word + b' 0 ') for word in (b'COMMAND', b'RUN')):
            return False
        if len(self.known) > SHAPES_LIMIT:
            self.known.clear()
        others = set(text[:-1].translate(ZEROS).split(b'\n')) - self.known
        self.known |= others
        return all(cells_of(shape.decode('latin-1')) is not None for shape in others)


class Audit:
    """One audit, which can be read more than once."""

    def __init__(self, run: str, path: str, shapes: Shapes) -> None:
        self.run, self.path, self.shapes = run, path, shapes
        self.copies: List[BinaryIO] = []  # of what can be read only once, or nothing

    def pieces(self) -> Iterator[Piece]:
        """All lines, from the first on. Refused is what no audit has."""
        first = 1
        with self._file() as file:
            while True:
                with blaming(self.path):
                    text = file.read(PIECE)
                    text += b'' if text[-1:] in (b'', b'\n') else file.readline(CATALOGUE_LIMIT + 3)
                if not text:
                    return
                if not self.shapes.are_of(text):
                    self._refuse(first, text)
                yield first, text
                first += text.count(b'\n')

    def rows(self) -> Iterator[List[Row]]:
        """A row for each line, with the run's name."""
        for first, text in self.pieces():
            yield rows_of(self.run, first, text, '')

    @contextlib.contextmanager
    def _file(self) -> Iterator[BinaryIO]:
        if self.copies:
            self.copies[0].seek(0)
            yield self.copies[0]
            return
        file = opened(self.path)
        if not file.seekable():
            self.copies.append(copied(file))
            yield self.copies[0]
            return
        with file:
            yield file

    def _refuse(self, first: int, text: bytes) -> None:
        lines = OutputLines(self.path, io.BytesIO(text))
        lines.number = first - 1
        for line in iter(lines.next, None):
            if cells_of(line.decode('latin-1')) is None:
                raise lines.refused(f'an audit has no such line: {shown(line)}')


def rows_of(run: str, first: int, text: bytes, needle: str) -> List[Row]:
    """A row for each line that has the needle in it."""
    lines = text.decode('latin-1')[:-1].split('\n')
    numbered = [(number, line) for number, line in enumerate(lines, first) if needle in line] if needle else enumerate(lines, first)
    rows: List[Row] = []
    for number, line in numbered:
        words = line.split(' ', 10)
        if len(words) > 9 and words[3] == 'ASKED':  # as cells_of has it, which takes ten times as long
            rows.append((run, str(number), words[1], words[2], words[5], words[7], words[4], words[6], words[8], words[9],
                         words[10] if len(words) > 10 else ''))
        else:
            rows.append((run, str(number), *(cells_of(line) or ())))
    return rows


def tally(audit: Audit) -> Tuple[Dict[Asked, int], List[Row]]:
    """What was asked in this run, in the order of its first time, and how often; and the rows of all that no job asked."""
    told: 'Counter[Asked]' = Counter()
    others: List[Row] = []
    for first, text in audit.pieces():
        asked: List[Asked] = []
        for number, line in enumerate(text.decode('latin-1')[:-1].split('\n'), first):
            words = line.split(' ', 10)
            if len(words) > 9 and words[3] == 'ASKED':
                asked.append((words[2], words[5], words[7], words[9], words[10] if len(words) > 10 else ''))
            else:
                others.append((audit.run, str(number), *(cells_of(line) or ())))
                asked.append(asked_of(others[-1]))
        told.update(asked)
    return told, others


def audits_of(paths: List[str], *copies: BinaryIO) -> List[Audit]:
    """Those that the paths name, a folder's in the order of their numbers. A run is called as its file is, without its ending;
    where two would be called the same, each is called by its path. A copy of the first stands for what can be read only once."""
    files = [file for path in paths for file in (_in_folder(path) if os.path.isdir(path) else [path])]
    names = [_without_ending(os.path.basename(file)) for file in files]
    if len(set(names)) < len(names):
        names = [_without_ending(file) for file in files]
    progress.will_read(len(files))
    shapes = Shapes()
    audits = [Audit(name, file, shapes) for name, file in zip(names, files)]
    audits[0].copies.extend(copies)
    return audits


def _without_ending(name: str) -> str:
    return name[:-len(ENDING)] if name.endswith(ENDING) and name != ENDING else name


def _in_folder(folder: str) -> List[str]:
    with blaming(folder):
        there = [name for name in os.listdir(folder) if not name.startswith('.')]
    names = [name for name in there if name.endswith(ENDING)]
    packed = sum(name.endswith(ENDING + '.gz') for name in there)
    if packed:
        say(f'{folder}: {packed} of its files end in {ENDING}.gz, and are not asked: unpack them')
    if not names:
        raise Refused(f'{folder}: it has no file NAME{ENDING}')
    return [os.path.join(folder, name) for name in sorted(names, key=_by_number)]


def _by_number(name: str) -> List[Tuple[bool, int, str]]:
    """2.audit stands before 10.audit."""
    return [(not part, int(part or 0), rest) for part, rest in re.findall('([0-9]*)([^0-9]*)', name)]
