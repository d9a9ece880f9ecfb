"""What a run has printed before its catalogue: all, a job's, an account's, a file for each account; and what of it failed."""
from __future__ import annotations

import os
from dataclasses import dataclass, field
from typing import BinaryIO, Dict, Iterator, List, Optional, Set, Tuple

from .files import filled, made, opened
from .output import LAST_WORDS, OTHER_WORDS, Output
from .text import CutOff, OutputLines, Refused, counted, shown, text_of

GOOD_ENDS = (b'END NORMAL ', b'DONE', b'ENTRIES ', b'RECORDS ', b'NAMES ')
NOTES_SHOWN = 20  # of a job, those that differ; the others are counted, so that none of the next jobs is out of sight


def account_of(title: List[bytes]) -> bytes:
    return title[2] if title[0] == b'JOB' else title[1]


def printouts(output: str, job: Optional[int], account: Optional[bytes], listing: BinaryIO) -> None:
    """All printouts, or those of one job or account. An output that a refused deck left has printouts too, and no catalogue."""
    with opened(output) as file:
        is_there = job is None and account is None
        for title, lines in all_printouts(Output(OutputLines(output, file))):
            if job is not None:
                is_wanted = title[0] == b'JOB' and int(title[1]) == job
            else:
                is_wanted = account is None or account_of(title) == account
            is_there = is_there or is_wanted
            for line in lines:
                if is_wanted:
                    listing.write(text_of([line]))
        if not is_there:
            raise Refused(f'{output}: ' + (f'no job has the number {job}' if account is None else
                                           f'nothing was printed for {shown(account)}'))


def all_printouts(reading: Output) -> Iterator[Tuple[List[bytes], Iterator[bytes]]]:
    """Each with its title; its lines are to be read before the next. Behind them is the end, or a catalogue begins."""
    while reading.is_at_a_printout():
        yield reading.title(), reading.printout()
    if reading.line is not None:
        reading.version()


def printouts_of_each(output: str, folder: str) -> List[str]:
    """A file for each account, which is called as the account is and has all that was printed for it. Their paths."""
    with opened(output) as file, filled(folder) as room:
        accounts: Set[str] = set()
        for title, lines in all_printouts(Output(OutputLines(output, file))):
            account = os.fsdecode(account_of(title))
            accounts.add(account)
            with made(os.path.join(room, account)) as printed:
                for line in lines:
                    printed.write(text_of([line]))
    return [os.path.join(folder, account) for account in sorted(accounts)]


def failed(output: str, listing: BinaryIO) -> Tuple[bool, Optional[CutOff]]:
    """Writes the jobs that were denied something or did not end normally, and the commands that were refused or denied.
    Whether there are any; and where the output was cut off, what there is to tell of that."""
    is_any = False
    with opened(output) as file:
        reading = Output(OutputLines(output, file))
        try:
            while reading.is_at_a_printout():
                told = Told(reading.title())
                try:
                    for line in reading.printout():
                        told.take(line)
                finally:
                    listing.write(text_of(told.lines()))
                is_any = is_any or told.is_failure()
            for _ in reading.data_sets():
                pass
        except CutOff as cut:
            return is_any, cut
    return is_any, None


@dataclass
class Told:
    """What the monitor tells in a printout: a job's notes, each with how often it stands there, and the last line. A line that
    shows a record or a spooled text begins with a blank, and tells nothing, whatever it says."""
    title: List[bytes]
    notes: Dict[bytes, int] = field(default_factory=dict)
    others: int = 0  # notes that are not among these
    last: bytes = b''

    def take(self, line: bytes) -> None:
        if line[:1] == b' ':
            return
        if self.title[0] != b'JOB' or line.split(b' ', 1)[0] not in OTHER_WORDS[b'JOB']:
            self.last = line
        elif line in self.notes or len(self.notes) < NOTES_SHOWN:
            self.notes[line] = self.notes.get(line, 0) + 1
        else:
            self.others += 1

    def is_whole(self) -> bool:
        return self.last.split(b' ', 1)[0] in LAST_WORDS[self.title[0]]

    def is_failure(self) -> bool:
        return bool(self.notes) or not (self.is_whole() and self.last.startswith(GOOD_ENDS))

    def lines(self) -> List[bytes]:
        """None where nothing failed."""
        if not self.is_failure():
            return []
        lines = [note if times == 1 else b'%s (%d times)' % (note, times) for note, times in self.notes.items()]
        if self.others:
            lines.append(b'(and %s)' % counted(self.others, 'other note').encode())
        lines.append(self.last if self.is_whole() else b'(the output was cut off here)')
        return [b' '.join(self.title), *(b'    ' + line for line in lines)]
