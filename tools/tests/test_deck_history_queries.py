"""The database of a ledger: each question of docs/reference/history.md has the answer that stands there; it is made anew, or carried on, whole or not
at all."""
from __future__ import annotations

import os
import re
import sqlite3
from typing import List
from trying import TOP, Trying, deck
import ledgers
from decks.audit import GRANTED, PERMISSION

ASKED = re.compile(r'^\*\*(\d+)\. (.*?)\*\*\n```sql\n(.*?)```\n```\n(.*?)```\n', re.M | re.S)


def page() -> str:
    with open(os.path.join(TOP, 'docs', 'reference', 'history.md'), encoding='utf-8') as file:
        return file.read()


class Queries(Trying):
    def made(self, site: str = 'site', base: str = 'base') -> None:
        done = deck('history', self.path(site), '--sqlite', self.path(base))
        self.assertEqual((done.status, done.out, done.err), (0, b'', ''))

    def answers(self, sql: str, base: str = 'base') -> str:
        """The rows, as sqlite3 prints them."""
        with sqlite3.connect(self.path(base)) as opened:
            return ''.join('|'.join('' if cell is None else str(cell) for cell in row) + '\n' for row in opened.execute(sql))

    def all_of(self, base: str) -> List[str]:
        with sqlite3.connect(self.path(base)) as opened:
            return list(opened.iterdump())

    def test_each_question_has_the_answer_that_the_page_says(self) -> None:
        ledgers.write_example(self.path('site'))
        self.made()
        asked = ASKED.findall(page())
        self.assertEqual([int(number) for number, _, _, _ in asked], list(range(1, 21)))
        self.assertEqual(page().count('```sql'), 21)
        for number, question, sql, answer in asked:
            self.assertEqual(self.answers(sql), answer, f'{number}. {question}')

    def test_the_page_has_the_tables(self) -> None:
        ledgers.write_example(self.path('site'), 1)
        self.made()
        made = ''.join(sql + ';\n' for sql, in sqlite3.connect(self.path('base')).execute('SELECT sql FROM sqlite_master WHERE sql IS NOT NULL'))
        self.assertIn(f'```sql\n{made}```\n', page())
        for words in (PERMISSION, GRANTED):  # which `used` lists
            self.assertTrue(all(f"'{word}'" in made for word in words))

    def test_it_is_carried_on_from_any_commit(self) -> None:
        ledgers.write_example(self.path('site'))
        self.made()
        for commits in (1, 5, 13, 20, 26):
            site, base = f'site{commits}', f'base{commits}'
            writer = ledgers.write_example(self.path(site), commits)
            self.made(site, base)
            for records in ledgers.COMMITS[commits:]:
                writer.put(*records)
            self.made(site, base)
            self.assertEqual(self.all_of(base), self.all_of('base'), commits)
        before = self.read('base')
        self.made()
        self.assertEqual(self.read('base'), before)

    def test_records_that_stay_are_kept_once(self) -> None:
        ledgers.write_example(self.path('site'))
        self.made()
        self.assertEqual(self.answers("SELECT count(*) FROM records WHERE data_set = 'PAYROLL'"), '6\n')  # 3, 2 raised, 1 added
        self.assertEqual(self.answers("SELECT count(*) FROM changes WHERE data_set = 'PAYROLL'"), '6\n')

    def test_only_its_owner_may_read_it(self) -> None:
        ledgers.write_example(self.path('site'))
        self.made()
        self.assertEqual(os.stat(self.path('base')).st_mode & 0o777, 0o600)

    def test_a_database_of_another_ledger_is_refused(self) -> None:
        ledgers.write_example(self.path('site'), 20)
        self.made()
        before = self.read('base')
        short = ledgers.write_example(self.path('short'), 19)
        self.is_refused(deck('history', self.path('short'), '--sqlite', self.path('base')), '/short/keep/ledger/00000019: this commit is missing, and ')
        short.put(ledgers.record('EDIT', ledgers.TIDIES, b'root', b'another'))
        self.is_refused(deck('history', self.path('short'), '--sqlite', self.path('base')), '/short/keep/ledger/00000019: it is another commit than ')
        self.assertEqual(self.read('base'), before)

    def test_a_broken_ledger_changes_nothing(self) -> None:
        writer = ledgers.write_example(self.path('site'), 20)
        self.made()
        before = self.read('base')
        writer.digest = b'0' * 64
        writer.put(ledgers.record('EDIT', ledgers.TIDIES, b'root', b'behind another'))
        self.is_refused(deck('history', self.path('site'), '--sqlite', self.path('base')), '/keep/ledger/00000020: it names 0000')
        self.is_refused(deck('history', self.path('site'), '--sqlite', self.path('new')), '/keep/ledger/00000020: it names 0000')
        self.assertEqual((self.read('base'), self.names()), (before, ['base', 'site']))

    def test_what_is_no_such_database_stays(self) -> None:
        ledgers.write_example(self.path('site'))
        self.write('text', b'no database, but a text that is longer than the beginning of one has to be\n' * 20)
        with sqlite3.connect(self.path('other')) as other:
            other.execute('CREATE TABLE submissions (number)')
        with sqlite3.connect(self.path('older')) as older:
            older.execute('CREATE TABLE commits (number)')
            older.execute('PRAGMA application_id = %d' % 0x536E6F48)
        for name, message in (('text', 'file is not a database'), ('other', 'it is a database of something else'),
                              ('older', 'its tables are those of another version')):
            before = self.read(name)
            self.is_refused(deck('history', self.path('site'), '--sqlite', self.path(name)), message)
            self.assertEqual(self.read(name), before)
        self.is_refused(deck('history', self.path('site'), '--sqlite', self.path('gone/base')), 'No such file or directory', 3)
        self.write('empty', b'')
        self.made(base='empty')

    def test_no_other_option_is_allowed_with_it(self) -> None:
        ledgers.write_example(self.path('site'))
        for words in (['--since', '2026-10-01'], ['--denied'], ['--set', 'PAYROLL'], ['-o', self.path('list')], ['--csv']):
            done = deck('history', self.path('site'), '--sqlite', self.path('base'), *words)
            self.assertEqual((done.status, done.out), (2, b''))
            self.assertIn('not allowed with', done.err)
        self.assertEqual(self.names(), ['site'])
