"""What is written beside its place, under another name, and gets its own name when it is whole.

That other name begins with a dot and ends with `.part`. Whoever writes there holds a lock on it: so one without a lock was
left by a run that was killed, and the next run that writes into the folder takes it away."""
from __future__ import annotations

import contextlib
import errno
import fcntl
import os
import re
import shutil
import stat
import tempfile
from typing import BinaryIO, Callable, Iterator, List, Tuple, Union

FILE_MODE, FOLDER_MODE = 0o600, 0o700  # of what is new, whatever the umask
PART_NAME = re.compile(r'\..*\.deck-[a-z0-9_]{8}\.part', re.DOTALL)
PERMISSION_LIST = 'system.posix_acl_access'


@contextlib.contextmanager
def part_file(target: str) -> Iterator[Tuple[str, BinaryIO]]:
    """A new file in the target's folder, which is gone in the end where it was not given another name."""
    number, path = _locked(target, _made_file)
    try:
        with os.fdopen(number, 'wb') as file:
            yield path, file
    finally:
        with contextlib.suppress(FileNotFoundError):
            os.unlink(path)


@contextlib.contextmanager
def part_folder(target: str) -> Iterator[str]:
    """A new folder in the target's folder, which is gone in the end where it was not given another name."""
    number, path = _locked(target, _made_folder)
    try:
        yield path
    finally:
        shutil.rmtree(path, ignore_errors=True)
        os.close(number)


def _made_file(prefix: str, folder: str) -> Tuple[int, str]:
    return tempfile.mkstemp(prefix=prefix, suffix='.part', dir=folder)


def _made_folder(prefix: str, folder: str) -> Tuple[int, str]:
    while True:
        path = tempfile.mkdtemp(prefix=prefix, suffix='.part', dir=folder)
        with contextlib.suppress(FileNotFoundError):  # where another run took it away already
            os.chmod(path, FOLDER_MODE)
            return os.open(path, os.O_RDONLY | os.O_DIRECTORY), path


def _locked(target: str, make: Callable[[str, str], Tuple[int, str]]) -> Tuple[int, str]:
    folder, base = os.path.split(target)
    _take_away_left_parts(folder)
    while True:
        number, path = make(f'.{base[:40]}.deck-', folder)
        with contextlib.suppress(OSError):  # where there are no locks nothing is ever taken away
            fcntl.flock(number, fcntl.LOCK_EX)
        if _is_at(number, path):
            return number, path
        os.close(number)  # before it had its lock another run took it away


def _is_at(number: int, path: str) -> bool:
    with contextlib.suppress(FileNotFoundError):
        return os.path.samestat(os.fstat(number), os.lstat(path))
    return False


def _take_away_left_parts(folder: str) -> None:
    with contextlib.suppress(OSError):  # what cannot be taken away stays
        for name in filter(PART_NAME.fullmatch, os.listdir(folder)):
            with contextlib.suppress(OSError):
                _take_away(os.path.join(folder, name))


def _take_away(path: str) -> None:
    there = os.lstat(path)
    is_folder = stat.S_ISDIR(there.st_mode)
    if there.st_uid != os.geteuid() or not (is_folder or stat.S_ISREG(there.st_mode)):
        return
    number = os.open(path, (os.O_DIRECTORY if is_folder else os.O_RDWR) | os.O_NOFOLLOW | os.O_NONBLOCK)
    try:
        fcntl.flock(number, fcntl.LOCK_EX | fcntl.LOCK_NB)  # OSError where a run holds it
        if _is_at(number, path):
            shutil.rmtree(path) if is_folder else os.unlink(path)
    finally:
        os.close(number)


def take_after(new: Union[int, str], older: str) -> str:
    """Gives a new file the owner, group, mode and permission list of the one whose place it takes. What could not be kept, in
    words, or nothing.

    A setuid, setgid or sticky bit is not kept. Without its group or its list the mode would be for others than it was: then
    only the owner may use the file."""
    try:
        there = os.stat(older)
    except FileNotFoundError:
        os.chmod(new, FILE_MODE)
        return ''
    is_for_the_same = _is_done(_keep_owner, new, -1, there.st_gid)
    lost = [] if is_for_the_same else ['group']
    if not _is_done(_keep_owner, new, there.st_uid, -1):
        lost.append('owner')
    if is_for_the_same and not _is_done(_keep_list, new, older):
        lost.append('permission list')
        is_for_the_same = False
    os.chmod(new, stat.S_IMODE(there.st_mode) & (0o777 if is_for_the_same else 0o700))
    return _told_of(lost, is_for_the_same)


def _keep_owner(new: Union[int, str], owner: int, group: int) -> None:
    there = os.stat(new)
    if owner not in (-1, there.st_uid) or group not in (-1, there.st_gid):
        os.chown(new, owner, group)


def _keep_list(new: Union[int, str], older: str) -> None:
    """Where the older one has no list, the new one may still have one of its folder's, which goes."""
    if PERMISSION_LIST in os.listxattr(older):
        os.setxattr(new, PERMISSION_LIST, os.getxattr(older, PERMISSION_LIST))
    elif PERMISSION_LIST in os.listxattr(new):
        os.removexattr(new, PERMISSION_LIST)


def _is_done(act: Callable[..., None], *words: Union[int, str]) -> bool:
    try:
        act(*words)
    except OSError as error:
        return error.errno == errno.ENOTSUP  # a disk without lists has none to lose
    return True


def _told_of(lost: List[str], is_for_the_same: bool) -> str:
    if not lost:
        return ''
    told = f'its {" and its ".join(lost)} could not be kept'
    return told if is_for_the_same else f'{told}, so only its owner may use it now'
