"""Files that are there whole or not at all; and devices, pipes and descriptors, which are written into."""
from __future__ import annotations

import contextlib
import errno
import os
import re
import select
import shutil
import stat
import sys
import tempfile
from typing import BinaryIO, Iterator, Optional, cast

from . import progress
from .beside import FILE_MODE, part_file, part_folder, take_after
from .text import Fault, Refused

DESCRIPTORS = re.compile(r'/proc/[^/]+(/task/[^/]+)?/fd')  # the folder of a process's descriptors
LINKS_LIMIT = 40
PIECE = 1 << 16


def say(text: str) -> None:
    """A line on standard error."""
    line = ''.join(letter if letter.isprintable() else repr(letter)[1:-1] for letter in text)
    if sys.stderr is not None:
        progress.take_away()
        with contextlib.suppress(OSError):  # there is nowhere else to say it
            print(f'snomon-deck: {line}', file=sys.stderr)


def opened(path: str) -> BinaryIO:
    """A file to read. It is not a folder; whatever else can be read is good."""
    try:
        file = open(path, 'rb')
    except OSError as error:
        raise Fault(f'{path}: {error.strerror}') from error
    progress.reads(path, file)
    return file


def opened_twice(path: str) -> BinaryIO:
    """A file to read more than once: one that cannot be read again is copied first."""
    file = opened(path)
    return file if file.seekable() else copied(file)


def copied(file: BinaryIO) -> BinaryIO:
    """What is left of a file, in one that has no name. The file is closed."""
    with file, blaming(tempfile.gettempdir()):
        copy = unnamed()
        shutil.copyfileobj(file, copy)
        copy.seek(0)
    return copy


def unnamed() -> BinaryIO:
    """A new file that is gone when it is closed."""
    return cast(BinaryIO, tempfile.TemporaryFile())


def made(path: str) -> BinaryIO:
    """A file to write on from its end, which is new, or of this run."""
    return open(path, 'ab', opener=_opener)


def _opener(path: str, flags: int) -> int:
    number = os.open(path, flags, FILE_MODE)
    os.fchmod(number, FILE_MODE)
    return number


@contextlib.contextmanager
def blaming(name: str) -> Iterator[None]:
    """What fails within is a fault of this file."""
    try:
        yield
    except OSError as error:
        raise Fault(f'{name}: {error.strerror}') from error


@contextlib.contextmanager
def written(path: Optional[str]) -> Iterator[BinaryIO]:
    """A file to write, or standard output where there is no path. Only what was written to its end without a fault gets
    there: a file takes the place of an older one then, and not before."""
    if path is None:
        with _written_into('standard output', '', 1) as file:
            yield file
        return
    with blaming(path):
        target = _followed(path)
    folder, base = os.path.split(target)
    is_descriptor = DESCRIPTORS.fullmatch(folder) is not None
    if is_descriptor or os.path.exists(target) and not os.path.isfile(target):
        is_own = is_descriptor and base.isdigit() and folder == os.path.realpath('/proc/self/fd')
        with _written_into(path, target, int(base) if is_own else None) as file:
            yield file
        return
    with _renamed(path, target) as file:
        yield file


def _followed(path: str) -> str:
    """What a path leads to, over links, which stay. What is behind a descriptor is not looked for: it may have no name, or
    one that leads to something else."""
    for _ in range(LINKS_LIMIT):
        folder, base = os.path.split(path)
        folder = os.path.realpath(folder)
        path = os.path.join(folder, base)
        if DESCRIPTORS.fullmatch(folder) or not os.path.islink(path):
            return path
        path = os.path.join(folder, os.readlink(path))
    raise OSError(errno.ELOOP, os.strerror(errno.ELOOP))


@contextlib.contextmanager
def _written_into(name: str, target: str, own: Optional[int]) -> Iterator[BinaryIO]:
    """A descriptor of this process, or a device: nothing can take its place, so it gets all at the end."""
    with contextlib.ExitStack() as stack:
        into = None
        if own is not None:
            into = _copy_of(name, own)  # before another file can get this number
            stack.callback(os.close, into)
        stack.enter_context(blaming(tempfile.gettempdir()))
        file = stack.enter_context(unnamed())
        yield file
        file.seek(0)
        with blaming(name):
            if into is None:
                into = os.open(target, os.O_WRONLY | os.O_APPEND | os.O_NOCTTY)
                stack.callback(os.close, into)
            _pour(file, into)


def _copy_of(name: str, number: int) -> int:
    try:
        return os.dup(number)
    except OSError as error:
        raise Fault(f'{name}: it is closed') from error


def _pour(file: BinaryIO, into: int) -> None:
    """All that is left of the file. A descriptor that does not block is waited for."""
    progress.writes()
    ready = select.poll()
    ready.register(into, select.POLLOUT)
    for piece in iter(lambda: file.read(PIECE), b''):
        left = memoryview(piece)
        while left:
            try:
                left = left[os.write(into, left):]
            except BlockingIOError:
                ready.poll()


@contextlib.contextmanager
def _renamed(path: str, target: str) -> Iterator[BinaryIO]:
    with blaming(path), part_file(target) as (beside, file):
        yield file
        file.flush()
        lost = take_after(file.fileno(), target)
        os.fsync(file.fileno())
        os.replace(beside, target)
    _wait_for_names(os.path.dirname(target))
    if lost:
        say(f'{path}: {lost}')


def _wait_for_names(folder: str) -> None:
    """Until the names that a folder has now are on the disk, where it is one that can tell."""
    with contextlib.suppress(OSError):
        number = os.open(folder, os.O_RDONLY | os.O_DIRECTORY)
        try:
            os.fsync(number)
        finally:
            os.close(number)


@contextlib.contextmanager
def filled(path: str) -> Iterator[str]:
    """An empty folder to write files into. Only where no fault comes before do they get into the folder that the path names:
    it is new, or has them beside what it has already, each whole in the place of one that was called so."""
    target = os.path.realpath(path)
    with blaming(path):
        if not os.path.lexists(target):
            with part_folder(target) as room:
                yield room
                os.rename(room, target)
            return
        with part_folder(os.path.join(target, 'files')) as room:
            yield room
            _move_all(room, target, path)


def _move_all(room: str, target: str, path: str) -> None:
    names = sorted(os.listdir(room))
    for name in names:
        there = os.path.join(target, name)
        if os.path.lexists(there) and not stat.S_ISREG(os.lstat(there).st_mode):
            raise Refused(f'{os.path.join(path, name)}: it is there already, and is no file')
    for name in names:
        lost = take_after(os.path.join(room, name), os.path.join(target, name))
        if lost:
            say(f'{os.path.join(path, name)}: {lost}')
    for name in names:
        os.replace(os.path.join(room, name), os.path.join(target, name))
