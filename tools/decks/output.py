"""A run's output, read from front to back: its printouts, and then its catalogue."""
from __future__ import annotations

from typing import Iterator, List, Optional

from .catalogue import HEADINGS, Found, Sets
from .text import CATALOGUE_LIMIT, OutputLines, Refused, is_count, is_name, shown

# By the first word of a printout: how its last line may begin, and how those between may that show nothing stored.
LAST_WORDS = {b'JOB': (b'END', b'REFUSED'), b'CREATE': (b'DONE', b'REFUSED'), b'DELETE': (b'DONE', b'REFUSED', b'DENIED'),
              b'SETACL': (b'DONE', b'REFUSED', b'DENIED'), b'SHOWACL': (b'ENTRIES', b'REFUSED', b'DENIED'),
              b'LIST': (b'RECORDS', b'REFUSED', b'DENIED'), b'CATALOG': (b'NAMES', b'REFUSED')}
OTHER_WORDS = {b'JOB': (b'DENIED', b'FULL'), b'SHOWACL': (b'OWNER',)}
TITLE_WORDS = {b'JOB': 3, b'CATALOG': 2}  # of the others 3


class Output:
    """An output, and the line of it that is at hand, which is read when it is asked for."""

    def __init__(self, lines: OutputLines) -> None:
        self.lines = lines
        self._line: Optional[bytes] = None
        self._is_read = False

    @property
    def line(self) -> Optional[bytes]:
        """None where the output ends."""
        if not self._is_read:
            self._line, self._is_read = self.lines.next(), True
        return self._line

    def step(self) -> bytes:
        """Takes the line at hand."""
        line = self.line
        if line is None:
            raise self.refused_here('there is no more of the output')
        self._is_read = False
        return line

    def refused_here(self, text: str) -> Refused:
        return self.lines.cut_off(text) if self.line is None else self.lines.refused(text)

    def is_at_a_printout(self) -> bool:
        line = self.line
        return line is not None and line[:1] != b'$'

    def title(self) -> List[bytes]:
        """The words of the printout that begins with the line at hand."""
        line = self.line or b''
        words = line.split(b' ')
        wanted = TITLE_WORDS.get(words[0], 3)
        numbers = words[1:2] if words[0] == b'JOB' else []
        names = words[1 + len(numbers):]
        if words[0] not in LAST_WORDS or len(words) != wanted or not all(map(is_count, numbers)) or not all(map(is_name, names)):
            raise self.lines.refused(f'no printout begins with this line: {shown(line)}')
        return words

    def printout(self) -> Iterator[bytes]:
        """The lines of the printout that begins with the line at hand, to its last."""
        word = self.title()[0]
        begun = self.lines.number
        yield self.step()
        while True:
            line = self.line
            if line is None:
                raise self.refused_here(f'the printout that begins at line {begun} was cut off')
            first = line.split(b' ', 1)[0]
            is_last = first in LAST_WORDS[word]
            if not (is_last or line[:1] == b' ' or first in OTHER_WORDS.get(word, ())):
                raise self.lines.refused(f'this belongs to no printout like that of line {begun}: {shown(line)}')
            yield self.step()
            if is_last:
                return

    def skip_printouts(self) -> Iterator[bytes]:
        """The lines before the catalogue, as they stand."""
        while self.is_at_a_printout():
            yield self.step()

    def version(self) -> int:
        """The catalogue's, whose heading has to be the line at hand."""
        if self.line is None:
            raise self.refused_here('the output has no catalogue; a run has none that did not end with the status 0')
        version = HEADINGS.get(self.line)
        if version is not None:
            return version
        if self.is_at_a_printout():
            raise self.lines.refused(f'the catalogue is due, and there is {shown(self.line)}')
        raise self.lines.refused(f'no line of an output before its catalogue begins with $: {shown(self.line)}' +
                                 (', so this is a deck' if self.line == b'$ACCOUNTS' else ''))

    def data_sets(self) -> Iterator[Found]:
        """Those of the catalogue whose heading is the line at hand, to the end of the output."""
        sets = Sets(self.lines, self.version())
        while True:
            line = self.lines.next()
            if line is None:
                return
            self.lines.check(line, CATALOGUE_LIMIT)
            yield from sets.found(line)
