"""Decks of submissions, each of which ends with a `$DRAIN` card, as those of a site's rounds do: `snomon-parts` cuts them, and puts together
what their parts write, byte for byte as the whole deck does. All other decks `split` and `join` cut and join, and all where it isn't there."""
from __future__ import annotations

import contextlib
import functools
import os
import subprocess
from typing import IO, BinaryIO, Iterator, List, Optional, Tuple

from .parts import CARDS_FILE
from .text import Fault, Refused

FIRST_LINE = b'snomon-parts 1\n'  # of the file that snomon-parts puts beside the decks that it makes
REFUSED = 1
PIECE = 1 << 20
ABOVE = os.path.realpath(os.path.join(os.path.dirname(os.path.realpath(__file__)), '..', '..'))


def program() -> Optional[str]:
    """The path of snomon-parts, if it is there: the one that SNOMON_PARTS names, that of this repository, or that which is installed with this.
    There is none where SNOMON_PARTS is empty."""
    named = os.environ.get('SNOMON_PARTS')
    return _program_here() if named is None else named or None


@functools.lru_cache(None)
def _program_here() -> Optional[str]:
    proved = os.path.join(ABOVE, 'tools', 'proved')
    if os.path.exists(proved):
        done = subprocess.run([proved, '--path', 'snomon_parts'], stdin=subprocess.DEVNULL, stdout=subprocess.PIPE, stderr=subprocess.DEVNULL)
        return os.fsdecode(done.stdout).rstrip('\n') or None
    installed = os.path.join(ABOVE, '..', 'bin', 'snomon-parts')
    return installed if os.path.exists(installed) else None


def split_deck(path: str, folder: str, most: int, tells_ties: bool) -> Optional[Tuple[List[str], List[str]]]:
    """The paths of the decks, and what there is to tell; None where snomon-parts makes no several of this one, and has done nothing."""
    cutting = program()
    if cutting is None or not os.path.isfile(path):
        return None
    words = [cutting, 'split', f'--to={folder}', f'--parts={most}', '--several', *(['--ties'] if tells_ties else []), '--', path]
    done = subprocess.run(words, stdin=subprocess.DEVNULL, stdout=subprocess.PIPE, stderr=subprocess.PIPE)
    if done.returncode == 0:
        return os.fsdecode(done.stdout).splitlines(), _said(done.stderr)
    if done.returncode == REFUSED:
        return None
    raise _fault(cutting, done.returncode, done.stderr)


def was_split(folder: str) -> bool:
    """Whether snomon-parts filled the folder."""
    try:
        with open(os.path.join(folder, CARDS_FILE), 'rb') as file:
            return file.read(len(FIRST_LINE)) == FIRST_LINE
    except OSError:
        return False


def join(folder: str, is_audit: bool, joined: BinaryIO) -> None:
    """One output of those of the decks in a folder that snomon-parts filled; or one audit."""
    joining = program()
    if joining is None:
        raise Fault(f'{folder}: snomon-parts has cut this deck, and is not here')
    with _running([joining, 'join', *(['--audit'] if is_audit else []), '--', folder]) as output:
        for piece in iter(lambda: output.read(PIECE), b''):
            joined.write(piece)


@contextlib.contextmanager
def _running(words: List[str]) -> Iterator[IO[bytes]]:
    """What a program writes to standard output. Its fault is told when it has ended."""
    with subprocess.Popen(words, stdin=subprocess.DEVNULL, stdout=subprocess.PIPE, stderr=subprocess.PIPE) as running:
        if running.stdout is None or running.stderr is None:
            raise Fault(f'{words[0]}: it has no output')
        yield running.stdout
        told = running.stderr.read()
        status = running.wait()
    if status != 0:
        raise _fault(words[0], status, told)


def _fault(name: str, status: int, told: bytes) -> Exception:
    said = _said(told) or [f'{name}: it ended with the status {status}']
    return (Refused if status == REFUSED else Fault)(said[-1])


def _said(told: bytes) -> List[str]:
    return [line.replace('snomon-parts: ', '', 1) for line in os.fsdecode(told).splitlines()]
