"""Which submissions an account may hand in, what they ask for, and in which order a round takes them: written from the rules alone.

python3 intake.py ACCOUNT < text       prints the text's verdict

What a line of the stream says, and why a deck is refused at it, is asked of monitor.py, which reads decks."""
from __future__ import annotations

import sys
from typing import Callable, Dict, List, Mapping, NamedTuple, Optional, Sequence, Tuple, TypeVar, Union
from monitor import Deck, Entries, JobCards, Monitor, Refused, lines_of

One = TypeVar('One')

FOREIGN, STOPS, UNFINISHED = 'I1 FOREIGN ACCOUNT', 'I2 STOP CARD', 'I3 UNFINISHED'


class Noted(Monitor):
    """What cards ask for is noted, and nothing is done."""

    def __init__(self) -> None:
        super().__init__(0)
        self.loaded: List[JobCards] = []
        self.creates = 0

    def load(self, job: JobCards) -> None:
        self.loaded.append(job)

    def command(self, word: str, account: str, name: str, mode: str = '', read: Callable[[], Entries] = dict) -> None:
        self.creates += word == 'CREATE'

    def turn(self, s: int) -> None:
        pass

    def drain(self) -> None:
        pass


class Refusal(NamedTuple):
    line: int       # that settles it
    why: str


def examine(own: str, text: bytes) -> Union[Noted, Refusal]:
    """What is noted of the submission, where it is admitted."""
    noted = Noted()
    deck = Deck(noted)
    deck.section = deck.stream
    lines = lines_of(text)
    for number, line in enumerate(lines, 1):
        is_card = deck.job is None and deck.list is None
        try:
            deck.take(line)
        except Refused as code:
            return Refusal(number, str(code))
        except EOFError:
            return Refusal(number, STOPS)
        words = line.decode().split()
        if is_card and words and words[0] not in ('$TURN', '$DRAIN') and words[1] != own:
            return Refusal(number, FOREIGN)
    if deck.job is not None or deck.list is not None:
        return Refusal(len(lines) + 1, UNFINISHED)
    return noted


def tally(text: bytes, noted: Noted) -> Dict[str, int]:
    """Of a submission that is admitted. Its lines count as they stand in a round: each ends with LF alone."""
    statements = [job.statements for job in noted.loaded]
    work = [job.statements * job.steps for job in noted.loaded]
    return {'jobs': len(noted.loaded), 'statements': sum(statements), 'largest': max(work, default=0), 'work': sum(work),
            'creates': noted.creates, 'bytes': sum(len(line) + 1 for line in lines_of(text))}


def verdict(own: str, text: bytes) -> str:
    noted = examine(own, text)
    if isinstance(noted, Refusal):
        return 'REFUSED %d %s' % noted
    return 'ADMITTED ' + ' '.join('%s=%d' % one for one in tally(text, noted).items())


def first_broken(limits: Mapping[str, int], owned: Tuple[int, int], tallies: Sequence[Mapping[str, int]]) -> Optional[str]:
    """Which limit the submissions of an account break first, or None; owned are, when the round starts, its data sets and their bytes."""
    total = {name: sum(one[name] for one in tallies) for name in ('bytes', 'jobs', 'statements', 'work', 'creates')}
    there = {'texts': len(tallies), 'bytes': total['bytes'], 'jobs': total['jobs'], 'statements': total['statements'],
             'largest': max((one['largest'] for one in tallies), default=0), 'work': total['work'],
             'data sets': owned[0] + total['creates'], 'records': owned[1]}
    return next((name for name in there if there[name] > limits[name]), None)


def in_turns(number: int, queues: List[List[One]]) -> List[One]:
    """The first submission of each account, then the second of each, and so on. Each round begins with the next account."""
    first = number % len(queues) if queues else 0
    rotated = queues[first:] + queues[:first]
    return [queue[k] for k in range(max(map(len, queues), default=0)) for queue in rotated if k < len(queue)]


if __name__ == '__main__':
    print(verdict(sys.argv[1], sys.stdin.buffer.read()))
