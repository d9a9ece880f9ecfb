"""No crate that reads, takes in, reviews or reports decks stands on the machine that runs them, directly or through others (crates.txt)."""
from __future__ import annotations

import os
import unittest
from typing import Dict, List
from trying import TOP

READERS = ('deck_syntax', 'preflight', 'program_listing', 'deck_lint', 'listing')
# Where there are such crates.
PARTS_OF_READERS = ('deck_lines', 'access_report')
MACHINE = ('mon_guard', 'scheduler', 'sno_run')


def read_crates() -> Dict[str, List[str]]:
    crates = {}
    with open(os.path.join(TOP, 'crates.txt'), encoding='utf-8') as file:
        for line in file:
            name, colon, uses = line.split('#')[0].partition(':')
            if colon:
                crates[name.strip()] = uses.split()
    return crates


def ways_down(crates: Dict[str, List[str]], name: str) -> Dict[str, List[str]]:
    """For each crate under this one, a shortest way from this one to it."""
    ways, front = {name: [name]}, [name]
    for above in front:
        for use in crates.get(above, []):
            if use in crates and use not in ways:
                ways[use] = ways[above] + [use]
                front.append(use)
    return ways


class Layers(unittest.TestCase):
    def test_readers_of_decks_stand_on_no_machine(self) -> None:
        crates = read_crates()
        self.assertEqual([name for name in READERS + MACHINE if name not in crates], [], 'there is no such crate')
        wrong = []
        for name in READERS + tuple(name for name in PARTS_OF_READERS if name in crates):
            ways = ways_down(crates, name)
            wrong += [' -> '.join(ways[machine]) for machine in MACHINE if machine in ways]
        self.assertEqual(wrong, [])
