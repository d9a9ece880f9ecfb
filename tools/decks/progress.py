"""What a command tells on a terminal while it is at work: nothing for two seconds, and then in one line which file it reads and how
much of that is done. The line is taken away before anything else is said, and at the end."""
from __future__ import annotations

import contextlib
import os
import stat
import sys
from typing import BinaryIO, Iterator, List, Tuple

SILENT, EACH = 2.0, 0.5  # seconds before the first line, and between two
WIDTH = 78
AWAY = '\r\x1b[K'

_read: List[Tuple[str, BinaryIO]] = []  # the file that was opened last, and how many were before it
_count = [0, 0]                         # files that were opened, and those that will be, where that is known
_shows = [False]                        # whether a line is there


def reads(name: str, file: BinaryIO) -> None:
    """This file is read from now on."""
    _read[:] = [(name, file)]
    _count[0] += 1


def will_read(number: int) -> None:
    """So many files will be read, from now on."""
    _count[:] = [0, number]


@contextlib.contextmanager
def told() -> Iterator[None]:
    """Tells of what is done within, where standard error is a terminal."""
    if sys.stderr is None or not sys.stderr.isatty():
        yield
        return
    import threading  # which most commands do without
    ended = threading.Event()

    def tell() -> None:
        wait = SILENT
        while not ended.wait(wait):
            wait = EACH
            _show(_line())

    telling = threading.Thread(target=tell, daemon=True)
    telling.start()
    try:
        yield
    finally:
        ended.set()
        telling.join()
        take_away()


def writes() -> None:
    """From now on it is written what was made: nothing is told until another file is read."""
    _read.clear()
    take_away()


def take_away() -> None:
    """Takes the line away, if one is there."""
    _show('')


def _show(line: str) -> None:
    if not line and not _shows[0]:
        return
    _shows[0] = line != ''
    with contextlib.suppress(OSError, ValueError):
        sys.stderr.write(AWAY + line)
        sys.stderr.flush()


def _line() -> str:
    if not _read:
        return ''
    name, file = _read[0]
    counted = f' ({_count[0]} of {_count[1]})' if _count[1] > 1 else ''
    done = f'{counted}{_done(file)}'
    shown = ''.join(letter if letter.isprintable() else '?' for letter in name)
    return f'snomon-deck: {shown[-max(WIDTH - len(done) - 13, 8):]}{done}'


def _done(file: BinaryIO) -> str:
    """How much of the file was read, where the system tells. The place is asked of the system, since the file itself is at work."""
    try:
        seen, place = os.fstat(file.fileno()), os.lseek(file.fileno(), 0, os.SEEK_CUR)
    except (OSError, ValueError):
        return ''
    if not stat.S_ISREG(seen.st_mode) or not seen.st_size:
        return ''
    return f': {min(100 * place // seen.st_size, 100)} % of {max(seen.st_size >> 20, 1)} MiB'
