"""Programs as people bring them from other systems: what listing says of each, and what it comes to."""
from __future__ import annotations

import os
import re
from typing import Dict, Iterator, List, Optional, Tuple
from trying import TOP, Trying, deck, run, snomon

LISTING = os.path.abspath(os.environ.get('LISTING', os.path.join(TOP, 'bin', 'snomon-listing')))
PROGRAMS = os.path.join(TOP, 'tools', 'tests', 'data', 'programs_as_people_write_them.txt')
LANGUAGE = os.path.join(TOP, 'docs', 'reference', 'language.md')
THERE_IS_NONE = 'there is no code'


def programs() -> Iterator[Tuple[str, Dict[str, str]]]:
    """Each program's name and sections."""
    with open(PROGRAMS, encoding='ascii') as file:
        parts = re.split(r'^=== (.*)\n', file.read(), flags=re.M)[1:]
    for name, text in zip(parts[::2], parts[1::2]):
        sections = re.split(r'^--- (.*)\n', text, flags=re.M)
        yield name, {'program': sections[0], **dict(zip(sections[1::2], sections[2::2]))}


def index(heading: str) -> Iterator[Tuple[str, bool]]:
    """The names of a table of the language's index that are not here, each with whether something stands for it."""
    with open(LANGUAGE, encoding='utf-8') as file:
        table = file.read().split(f'| {heading} | |\n')[1].split('\n\n')[0]
    for row in table.splitlines()[1:]:
        names, instead = row.strip('| ').split(' | ')
        if not instead.startswith('here'):
            yield from ((name, instead != 'nothing') for name in names.split())


class Programs(Trying):
    def deck_of(self, program: str, data: Optional[str]) -> bytes:
        words = [self.write('program', program.encode())]
        if data is not None and re.search(r'^END', program, flags=re.M):
            words.append(self.write('data', data.encode()))
        return deck('try', *words).out

    def told(self, deck_text: bytes) -> List[str]:
        listed = run([LISTING], given=deck_text).out.decode()
        return re.findall(r'^LINE \d+ (?:STATEMENT \d+ )?(.*)\n', listed, flags=re.M)

    def test_there_are_29(self) -> None:
        self.assertEqual(len(list(programs())), 29)

    def test_each_runs_or_is_told_what_to_write_instead(self) -> None:
        for name, program in programs():
            with self.subTest(name):
                told = program.get('told', '').splitlines()
                self.assertEqual(self.told(self.deck_of(program['program'], program.get('data'))), told)
                self.assertEqual('told' in program, 'instead' in program or 'nothing' in program)
                if 'nothing' in program:
                    self.assertIn(THERE_IS_NONE, program['told'])
                    continue
                given = self.deck_of(program.get('instead', program['program']), program.get('data'))
                self.assertEqual(self.told(given), [])
                printed = snomon(given).out.decode().splitlines()
                self.assertEqual([line[1:] for line in printed if line.startswith(' ')], program['prints'].splitlines())
                self.assertRegex(printed[-2], r'\AEND NORMAL ')

    def test_listing_has_the_index_by_name(self) -> None:
        for heading, statement, told in (('Functions', ' X = %s(1)', 'NO FUNCTION '), ('Keywords', ' X = %s', 'NO KEYWORD ')):
            names = list(index(heading))
            self.assertGreater(len(names), 30)
            program = ''.join(statement % name + '\n' for name, _ in names) + 'END\n'
            said = self.told(self.deck_of(program, None))
            self.assertEqual([line.split(': ')[0] for line in said], [f'WARNING {told}{name}' for name, _ in names])
            for line, (name, stands) in zip(said, names):
                text = line.split(': ', 1)[1]
                self.assertNotIn(text, ('no literal of DEFINE has it', 'there is none of that name'), name)
                self.assertEqual(text != 'there is nothing like it here', stands, name)
