"""Random rounds, run whole, and submission by submission over the data sets of the submission's part alone: the law of rounds in parts, tried by
runs of snomon. Each submission's printout and audit, each data set, and the order of these by the cards alone, have the same bytes."""
from __future__ import annotations

import os
import random
import re
import tempfile
import unittest
from dataclasses import dataclass, field
from typing import Dict, List, Tuple
from trying import SNOMON, run

ROUNDS = 40
ACCOUNTS = {'anna': 'admin', 'lisa': 'staff', 'hugo': 'audit', 'tom': 'staff'}
TABLE = 'anna admin\nlisa staff\nhugo audit staff\ntom staff\n'
MOST_SETS = 1000
STOPPED = 'RUN 0 .NONE STOPPED\n'

Sets = Dict[str, str]  # the text of each data set, by its name, in the catalogue's order


@dataclass
class Ran:
    """What a run printed, left, and told its audit, without the line of its end."""
    printed: str
    sets: Sets
    audit: str


@dataclass
class Text:
    part: int
    cards: str
    jobs: int


@dataclass
class Round:
    part_of: Dict[str, int]
    sets: Sets
    texts: List[Text] = field(default_factory=list)


def ran(sets: Sets, stream: str) -> Ran:
    deck = f'$ACCOUNTS\n{TABLE}$CATALOGUE 2\n{"".join(sets.values())}$STREAM\n{stream}$STOP\n'
    with tempfile.TemporaryDirectory() as room:
        audit = os.path.join(room, 'audit')
        done = run([SNOMON, '--audit', audit], deck.encode())
        if done.status != 0:
            raise AssertionError(f'{done.err}{deck}')
        with open(audit, encoding='utf-8') as file:
            told = file.read()
    printed, catalogue = re.split(r'(?m)^\$CATALOGUE 2\n', done.out.decode())
    if not told.endswith(STOPPED):
        raise AssertionError(told)
    return Ran(printed, sets_of(catalogue), told[:-len(STOPPED)])


def sets_of(catalogue: str) -> Sets:
    lines, sets = catalogue.splitlines(keepends=True), {}
    while lines:
        words = lines[0].split()
        length = 2 + int(words[5])
        sets[words[1]] = ''.join(lines[:length])
        del lines[:length]
    return sets


def owner(text: str) -> str:
    return text.split(' ')[2]


def names_behind(sets: Sets, texts: List[Text]) -> List[Tuple[str, str]]:
    """The names of the data sets behind the submissions, with their owners, by the `$CREATE` and `$DELETE` cards alone."""
    owners = {name: owner(text) for name, text in sets.items()}
    for text in texts:
        for word, account, name in re.findall(r'(?m)^\$(CREATE|DELETE) (\w+) (\w+)', text.cards):
            if word == 'CREATE' and name not in owners and len(owners) < MOST_SETS:
                owners[name] = account
            elif word == 'DELETE' and owners.get(name) == account:
                del owners[name]
    return list(owners.items())


def numbered(text: str, jobs: int) -> str:
    """With jobs that are numbered behind so many."""
    return re.sub(r'(?m)^JOB (\d+) ', lambda found: f'JOB {int(found[1]) + jobs} ', text)


class Writer:
    """Writes rounds by chance."""

    def __init__(self, seed: int) -> None:
        self.r = random.Random(seed)

    def round(self) -> Round:
        pools = [[f'P{part}N{i}' for i in range(self.r.randint(1, 4))] for part in range(self.r.randint(2, 4))]
        names = [name for pool in pools for name in pool]
        self.r.shuffle(names)
        made = Round({name: part for part, pool in enumerate(pools) for name in pool},
                     {name: self.data_set(name) for name in names if self.r.random() < .6})
        for _ in range(self.r.randint(2, 8)):
            part = self.r.randrange(len(pools))
            made.texts.append(self.text(part, self.r.choice(['anna', 'lisa']), pools[part]))
        return made

    def data_set(self, name: str) -> str:
        account, records = self.r.choice(list(ACCOUNTS)), self.r.randint(0, 3)
        return (f'$SET {name} {account} {ACCOUNTS[account]} {self.r.choice(["SEQ", "APPEND"])} {records}\n'
                f'user::rwx,group::r--,other::{self.r.choice(["---", "rw-", "r-x"])}\n'
                + ''.join(f'RECORD {i}\n' for i in range(records)))

    def text(self, part: int, account: str, names: List[str]) -> Text:
        cards, jobs = '', 0
        for _ in range(self.r.randint(1, 9)):
            if self.r.random() < .3:
                cards += self.job(account, names)
                jobs += 1
            else:
                cards += self.card(account, self.r.choice(names))
        return Text(part, cards, jobs)

    def card(self, account: str, name: str) -> str:
        r = self.r
        return r.choice([
            f'$DELETE {account} {name}\n$CREATE {account} {name}\n',
            f'$CREATE {account} {name}{r.choice(["", " APPEND", " SEQ"])}\n',
            f'$CREATE {account} {name}\n',
            f'$DELETE {account} {name}\n',
            f'$SETACL {account} {name} u::rwx,g::{r.choice(["", "r"])},o::{r.choice(["", "r", "rw", "x"])}\n',
            f'$SHOWACL {account} {name}\n',
            f'$LIST {account} {name}\n',
            '$DRAIN\n',
            f'$TURN {r.randint(1, 4)} {r.randint(1, 5)}\n',
        ])

    def job(self, account: str, names: List[str]) -> str:
        r = self.r
        units = list(enumerate(r.sample(names, min(len(names), r.randint(0, 3))), 8))
        cards = f'$JOB {account}{r.choice(["", "", " ST=%d" % r.randint(1, 40)])}\n'
        cards += ''.join(f'$UNIT {unit} {name}\n' for unit, name in units)
        for i in range(r.randint(1, 8)):
            unit = r.choice([unit for unit, _ in units] + [5, 6, 20])
            cards += r.choice([
                f"        INPUT('V{unit}',{unit}); OUTPUT = V{unit}\n",
                f"        OUTPUT('V{unit}',{unit}); V{unit} = 'LINE {r.randint(0, 99)} OF {account}'\n",
                f'        ENDFILE({unit})\n',
                f'        REWIND({unit})\n',
                f"        OUTPUT = 'SAYS {r.randint(0, 99)}'\n",
                f"        INPUT('V{unit}',{unit})\nL{i}      OUTPUT = V{unit}                       :S(L{i})\n",
            ])
        return cards + 'END\n' + r.choice(['', 'DATA ONE\nDATA TWO\n']) + '$EOJ\n'


class RoundsInParts(unittest.TestCase):
    def test_a_round_is_its_parts(self) -> None:
        texts = 0
        for seed in range(ROUNDS):
            with self.subTest(seed=seed):
                made = Writer(seed).round()
                self.is_its_parts(made)
                texts += len(made.texts)
        self.seen = f'{ROUNDS} rounds with {texts} submissions'

    def is_its_parts(self, made: Round) -> None:
        whole = ran(made.sets, ''.join(text.cards + '$DRAIN\n' for text in made.texts))
        left = {part: {name: text for name, text in made.sets.items() if made.part_of[name] == part} for part in made.part_of.values()}
        printed, audit, jobs = '', '', 0
        for text in made.texts:
            alone = ran(left[text.part], text.cards + '$DRAIN\n')
            left[text.part] = alone.sets
            printed += numbered(alone.printed, jobs)
            audit += numbered(alone.audit, jobs)
            jobs += text.jobs
        self.assertEqual(whole.printed, printed)
        self.assertEqual(whole.audit, audit)
        names = names_behind(made.sets, made.texts)
        self.assertEqual([(name, owner(text)) for name, text in whole.sets.items()], names)
        self.assertEqual(list(whole.sets.values()), [left[made.part_of[name]][name] for name, _ in names])

    def test_a_full_catalogue_is_what_submissions_share(self) -> None:
        """Why the law asks for room: with 999 data sets, two submissions that each make one differ from their parts."""
        def sets(count: int) -> Sets:
            return {f'S{i}': f'$SET S{i} anna admin SEQ 0\nuser::rwx,group::---,other::---\n' for i in range(count)}
        cards = '$CREATE lisa A\n$DRAIN\n$CREATE lisa B\n$DRAIN\n'
        self.assertIn('REFUSED K4', ran(sets(999), cards).printed)
        self.assertNotIn('REFUSED', ran(sets(998), cards).printed)
        self.assertNotIn('REFUSED', ran({}, '$CREATE lisa B\n$DRAIN\n').printed)
