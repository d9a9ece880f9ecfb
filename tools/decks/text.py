"""Lines, words, names and counts, as decks have them; and where a text is refused."""
from __future__ import annotations

import itertools
import re
from typing import BinaryIO, List, Optional

CARD_LIMIT = 200
CATALOGUE_LIMIT = 5000
RECORD_LIMIT = 1024
PRINTABLE = bytes(range(32, 127))
PIECE = 2048  # how many lines are read at a time where there may be many
NAME = re.compile(rb'[A-Za-z][A-Za-z0-9._-]{0,30}')
COUNT = re.compile(rb'[0-9]{1,19}')


class Refused(Exception):
    """What was given is not understood. The message names the file, and the line where there is one."""


class CutOff(Refused):
    """What was given ends where more was due."""


class Fault(Exception):
    """A file could not be read or written. The message names it."""


def is_name(word: bytes) -> bool:
    return NAME.fullmatch(word) is not None


def is_count(word: bytes) -> bool:
    return COUNT.fullmatch(word) is not None


def shown(text: bytes) -> str:
    """A text of any bytes, as a message may have it."""
    return text.decode('ascii', 'backslashreplace')


def counted(number: int, what: str) -> str:
    return f'{number} {what}' if number == 1 else f'{number} {what}s'


def text_of(lines: List[bytes]) -> bytes:
    """The lines, each with its end."""
    return b'\n'.join(lines) + b'\n' if lines else b''


class Lines:
    """The lines of a deck or of a text file from front to back, each without its end, which is LF, or one CR and LF.

    `number` is that of the line that was read last, from 1. What follows the last LF is a line too, unless it is nothing."""

    def __init__(self, name: str, file: BinaryIO) -> None:
        self.name, self.file, self.number = name, file, 0

    def refused(self, text: str, number: Optional[int] = None) -> Refused:
        return Refused(f'{self.name}: line {self.number if number is None else number}: {text}')

    def cut_off(self, text: str, number: Optional[int] = None) -> CutOff:
        """The lines end where one more was due."""
        return CutOff(str(self.refused(text, self.number + 1 if number is None else number)))

    def next(self) -> Optional[bytes]:
        line = self._line()
        if not line:
            return None
        self.number += 1
        return line[:-1] if line[-1:] == b'\n' and line[-2:-1] != b'\r' else self.without_end(line)

    def take(self, most: int) -> List[bytes]:
        """So many lines, or those that are left."""
        raw = list(itertools.islice(iter(self._line, b''), most))
        text = b''.join(raw)
        if text.count(b'\n') == len(raw) and b'\r' not in text:
            self.number += len(raw)
            return [line[:-1] for line in raw]
        lines = []
        for line in raw:
            self.number += 1
            lines.append(self.without_end(line))
        return lines

    def _line(self) -> bytes:
        # A line that is longer than any may be comes in pieces, so that no file is read into memory as one line.
        try:
            return self.file.readline(CATALOGUE_LIMIT + 3)
        except OSError as error:
            raise Fault(f'{self.name}: {error.strerror}') from error

    def without_end(self, line: bytes) -> bytes:
        if line.endswith(b'\r\n'):
            return line[:-2]
        return line[:-1] if line.endswith(b'\n') else line

    def check(self, line: bytes, limit: int, allowed: bytes = PRINTABLE, number: Optional[int] = None) -> None:
        """Refuses a line that is too long, or has a character that may not stand there."""
        if len(line) > limit:
            raise self.refused(f'T4 LINE TOO LONG: more than {limit} characters', number)
        others = line.translate(None, allowed)
        if others:
            column = line.index(others[:1]) + 1
            raise self.refused(f'T3 BAD CHARACTER: byte {others[0]} in column {column}', number)

    def check_records(self, lines: List[bytes], limit: int) -> None:
        """Refuses the first of the lines read last that cannot be a record; `limit` is what any line there may have."""
        if all(len(line) <= RECORD_LIMIT for line in lines) and not b''.join(lines).translate(None, PRINTABLE):
            return
        for number, line in enumerate(lines, self.number - len(lines) + 1):
            self.check(line, limit, number=number)
            if len(line) > RECORD_LIMIT:
                raise self.refused(f'K5 BAD TEXT: a record has at most {RECORD_LIMIT} characters, and this {len(line)}', number)


class OutputLines(Lines):
    """The lines of a run's output. Each ends with LF alone: anything else was cut off, or changed on its way."""

    def without_end(self, line: bytes) -> bytes:
        if line.endswith(b'\r\n'):
            raise self.refused('the line ends with CR LF, and those of an output with LF alone: it was changed on its way')
        if line.endswith(b'\n'):
            return line[:-1]
        if len(line) > CATALOGUE_LIMIT:
            raise self.refused(f'T4 LINE TOO LONG: more than {CATALOGUE_LIMIT} characters')
        raise self.cut_off('the file ends within this line: it was cut off', self.number)
