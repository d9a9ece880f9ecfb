"""What a site's ledger tells: `history` as a table, as CSV and as JSON; and which ledgers are refused."""
from __future__ import annotations

import csv
import hashlib
import io
import json
import os
import shutil
import time
from typing import Callable, List, Tuple
from trying import MOST_MEMORY, Trying, deck
import ledgers
from decks.course import Course, Known
from decks.ledger import Ledger
from ledgers import MONDAY, OWN, Writer, audit, change, data_set, record, tables, text_of

TITLE = 'commit,time,submission,account,operator,event,set,job,statement,answer,times,more'
PAID, SEEN = ledgers.PAID.decode(), ledgers.SEEN.decode()
# What each row of the example has behind its time, by its commit: submission, account, operator, event, set, job, statement, answer, times, more.
ROWS = {
    0: ['||root|EDIT||||||init', f'||root|NEW|PAYROLL|||||anna admin SEQ {PAID} 3 records',
        '||root|NEW|JOURNAL|||||anna staff APPEND user::rw-,group::-w-,other::--- 1 record', f'||root|NEW|OLD|||||anna admin SEQ {OWN.decode()} 1 record'],
    1: [*(f'|{line.split()[0]}||ACCOUNTS||||NEW||{line}' for line in ('anna admin', 'lisa staff', 'hugo ops')),
        *(f'|{line.split()[1]}||USERS||||NEW||{line}' for line in ('1001 anna', '1002 lisa', '1004 hugo')),
        '|||LIMITS||||NEW||texts 10', '|||LIMITS||||NEW||bytes 65536'],
    2: ['1|lisa||TOOK||||||raise.job of uid 1002 with 18 bytes'],
    3: ['2|hugo||TOOK||||||look.cards of uid 1004 with 19 bytes'],
    4: ['3|hugo||REFUSED||||||as-anna.cards of uid 1004: LINE 1: I1 FOREIGN ACCOUNT'],
    5: ['1|lisa||RAN||||||raise.job printed 31 bytes', '1|lisa||LOADED||1|||1|', '1|lisa||READ|PAYROLL|1|5|GOT|3|BY user:lisa:',
        '1|lisa||READ|PAYROLL|1|5|EOF|1|BY user:lisa:', '1|lisa||WRITE|PAYROLL|1|10|DONE|3|BY user:lisa:', '1|lisa||WRITE|JOURNAL|1|11|DONE|1|BY group::',
        '1|lisa||ENDED||1|||1|NORMAL AFTER 25', '1|lisa||CHANGED|PAYROLL|||||records 3 to 3 with the first 1 as before',
        '1|lisa||CHANGED|JOURNAL|||||records 1 to 2 with the first 1 as before'],
    6: ['2|hugo||RAN||||||look.cards printed 36 bytes', '2|hugo||LIST|PAYROLL|0||DENIED|1|BY other::'],
    7: ['|||GAVE||||||answers 1 to 3'],
    8: ['4|anna||TOOK||||||lists.cards of uid 1001 with 24 bytes'],
    9: ['4|anna||RAN||||||lists.cards printed 48 bytes', f'4|anna||SETACL|PAYROLL|0||DONE|1|{SEEN} BY owner', '4|anna||CREATE|NOTES|0||DONE|1|SEQ',
        f'4|anna||CHANGED|PAYROLL|||||list {PAID} to {SEEN}; records 3 to 3', f'4|anna||NEW|NOTES|||||anna admin SEQ {OWN.decode()} 0 records'],
    10: ['5|hugo||TOOK||||||audit.job of uid 1004 with 18 bytes'],
    11: ['6|lisa||TOOK||||||slow.job of uid 1002 with 18 bytes'],
    12: ['5|hugo||RAN||||||audit.job printed 30 bytes', '5|hugo||LOADED||2|||1|', '5|hugo||READ|PAYROLL|2|2|GOT|3|BY group:ops:',
         '5|hugo||WRITE|.SPOOL|2|2|DONE|3|', '5|hugo||READ|PAYROLL|2|2|EOF|1|BY group:ops:', '5|hugo||ENDED||2|||1|NORMAL AFTER 5'],
    13: ['6|lisa||DROPPED||||||slow.job: LATE'],
    14: ['|||GAVE||||||answers 4 to 6'],
    15: ['||root|EDIT||||||adduser tom 1003 staff', '|tom|root|ACCOUNTS||||NEW||tom staff', '|tom|root|USERS||||NEW||1003 tom'],
    16: ['|||LIMITS||||GONE||texts 10', '|||LIMITS||||NEW||texts 20'],
    17: ['7|anna||TOOK||||||pay.job of uid 1001 with 18 bytes'],
    18: ['7|anna||RAN||||||pay.job printed 30 bytes', '7|anna||LOADED||3|||1|', '7|anna||READ|PAYROLL|3|3|GOT|1|BY user::',
         '7|anna||WRITE|PAYROLL|3|4|DONE|1|BY user::', '7|anna||ENDED||3|||1|NORMAL AFTER 9', '7|anna||CHANGED|PAYROLL|||||records 3 to 4 with the first 3 as before'],
    19: ['8|anna||TOOK||||||tidy.cards of uid 1001 with 24 bytes'],
    20: ['8|anna||RAN||||||tidy.cards printed 2 bytes', f'8|anna||SETACL|PAYROLL|0||DONE|1|{PAID} BY owner', '8|anna||DELETE|NOTES|0||DONE|1|BY owner',
         f'8|anna||CHANGED|PAYROLL|||||list {SEEN} to {PAID}; records 4 to 4', f'8|anna||GONE|NOTES|||||anna admin SEQ {OWN.decode()} 0 records'],
    21: ['||root|EDIT||||||restore PAYROLL --at 9', f'||root|CHANGED|PAYROLL|||||list {PAID} to {SEEN}; records 4 to 3'],
    22: ['9|tom||REFUSED||||||as-lisa.cards of uid 1003: LINE 1: I1 FOREIGN ACCOUNT'],
    23: ['10|tom||TOOK||||||peek.job of uid 1003 with 17 bytes'],
    24: ['10|tom||RAN||||||peek.job printed 81 bytes', '10|tom||LOADED||4|||1|', '10|tom||READ|PAYROLL|4|2|DENIED|1|BY other::',
         '10|tom||READ|JOURNAL|4|3|DENIED|1|BY group::', '10|tom||READ|JOURNAL|4|4|DENIED|1|BY group::', '10|tom||ENDED||4|||1|FAULT TYPE AT 5 AFTER 5',
         '10|tom||REFUSED||5|||1|U1 UNIT 8'],
    25: [f'|||CHECKED||||||25 commits {"c" * 64}'],
    26: ['11|lisa||TOOK||||||later.job of uid 1002 with 18 bytes'],
}


class Told(Trying):
    def rows(self, *words: str, site: str = 'site') -> List[List[str]]:
        done = deck('history', self.path(site), '--csv', *words)
        self.assertEqual((done.status, done.err), (0, ''))
        self.assertEqual(done.out.decode().splitlines()[0], TITLE)
        return list(csv.reader(io.StringIO(done.out.decode())))[1:]

    def test_rows_have_what_the_records_say(self) -> None:
        ledgers.write_example(self.path('site'))
        rows = self.rows()
        self.assertEqual([(int(row[0]), '|'.join(row[2:])) for row in rows], [(commit, row) for commit, wanted in ROWS.items() for row in wanted])
        self.assertEqual({row[1] for row in rows if row[0] in '05'}, {'2026-10-01T06:00:00Z', '2026-10-05T08:00:02Z'})

    def test_each_question_has_its_rows(self) -> None:
        ledgers.write_example(self.path('site'))
        every = self.rows()
        asked: List[Tuple[List[str], Callable[[List[str]], bool]]] = [
            (['--since', '2026-11-10'], lambda row: int(row[0]) >= 21), (['--since', '2026-11-10T12:00:01'], lambda row: int(row[0]) >= 22),
            (['--since', '2026-11-10T12:00Z', '--until', '2026-11-11T23:30'], lambda row: 21 <= int(row[0]) <= 24),
            (['--until', '2026-10-05T08:00:02Z'], lambda row: int(row[0]) <= 4), (['--account', 'tom'], lambda row: row[3] == 'tom'),
            (['--set', 'PAYROLL'], lambda row: row[6] == 'PAYROLL'), (['--set', 'NONE'], lambda row: False),
            (['--denied'], lambda row: row[9] == 'DENIED' or row[0] in ('4', '13', '22')),
            (['--denied', '--account', 'tom', '--set', 'JOURNAL'], lambda row: row[0] == '24' and row[6] == 'JOURNAL')]
        for words, wants in asked:
            self.assertEqual(self.rows(*words), [row for row in every if wants(row)], words)

    def test_the_forms_say_the_same(self) -> None:
        ledgers.write_example(self.path('site'))
        names = TITLE.split(',')
        rows = [dict(zip(names, row)) for row in self.rows()]
        found = json.loads(deck('history', self.path('site'), '--json').out)
        self.assertEqual([{name: str(cell) for name, cell in row.items()} for row in found], [{name: cell for name, cell in row.items() if cell} for row in rows])
        self.assertTrue(all(isinstance(row['commit'], int) for row in found))
        table = deck('history', self.path('site'), '--denied', '-o', self.path('list'))
        self.assertEqual((table.status, table.out, table.err), (0, b'', ''))
        self.assertEqual(self.read('list').decode().splitlines()[:3], [
            'commit  time                  submission  account  operator  event    set      job  statement  answer  times  more',
            '     4  2026-10-05T08:00:00Z           3  hugo               REFUSED                                          as-anna.cards of uid 1004: LINE 1: I1 FOREIGN ACCOUNT',
            '     6  2026-10-05T08:00:02Z           2  hugo               LIST     PAYROLL    0             DENIED      1  BY other::'])

    def test_time_and_submission_are_those_of_the_commit(self) -> None:
        writer = Writer(self.path('site'))
        listed = b'user::rw-,group::---,other::---'
        writer.put(record('EDIT', MONDAY, b'root', b'init'), data_set(b'LOG lisa staff SEQ', listed), tables(0, b'lisa staff\n', b'', b''))
        writer.put(record('TOOK', '2026-10-06 08:00:00', 7, b'lisa', 1002, b'a.job', b'text'))
        writer.put(record('RAN', '2026-10-06 08:00:05', 7, b'out'), audit(1, b'JOB 1 lisa LOADED\n'), change('KEEP', b'LOG', 0, b'A\n'))
        self.assertEqual({row[0]: row[1] for row in self.rows()}, {
            '0': '2026-10-05T08:00:00Z', '1': '2026-10-06T08:00:00Z', '2': '2026-10-06T08:00:05Z'})
        self.assertEqual([row[2:6] for row in self.rows() if row[0] == '2'], [['7', 'lisa', '', event] for event in ('RAN', 'LOADED', 'CHANGED')])
        self.assertEqual([row[2:6] for row in self.rows() if row[5] == 'ACCOUNTS'], [['', 'lisa', 'root', 'ACCOUNTS']])

    def test_a_ledger_without_commits_has_no_rows(self) -> None:
        Writer(self.path('site'))
        self.assertEqual(self.rows(), [])

    def test_words_that_are_no_times_are_refused(self) -> None:
        for word in ('2026-13-01', '2026-11-31', '2026-11', 'monday', '2026-11-01T25:00', '2026-11-01 08:00', '2026-11-01T08:00:00+01:00'):
            done = deck('history', self.room, '--since', word)
            self.assertEqual((done.status, done.out), (2, b''))
            self.assertIn(f'{word!r} is no time', done.err)

    def test_a_site_that_keeps_rounds_is_told_what_is_for_it(self) -> None:
        os.makedirs(self.path('site/rounds'))
        self.is_refused(deck('history', self.path('site')), 'it has no ledger, keep/ledger; of rounds, snomon-deck audit tells who did what')
        self.is_refused(deck('history', self.path('gone')), 'No such file or directory', 3)

    def test_what_a_terminal_could_take_for_a_command_is_shown(self) -> None:
        writer = Writer(self.path('site'))
        writer.put(record('TOOK', MONDAY, 1, b'lisa', 1002, 'sch\u00f6n\x1b[2J\n\xff,"x"'.encode() + b'\xff', b''))
        done = deck('history', self.path('site'), '--csv')
        self.assertEqual(done.out.decode().splitlines()[1:], [
            '0,2026-10-05T08:00:00Z,1,lisa,,TOOK,,,,,,"sch\u00f6n\\x1b[2J\\n\u00ff,""x""\\xff of uid 1002 with 0 bytes"'])


class Broken(Trying):
    """Each ledger is told by the file that is wrong; nothing is listed."""

    def refused(self, number: int, message: str) -> None:
        done = deck('history', self.path('site'), '-o', self.path('list'))
        self.is_refused(done, self.path(f'site/keep/ledger/{number:08}') + ': ' + message)
        self.assertEqual(self.names(), ['site'])

    def test_any_byte_that_is_changed_is_found(self) -> None:
        writer = ledgers.write_example(self.path('site'), 6)
        for number in range(5):
            with open(writer.path(number), 'rb') as file:
                text = file.read()
            for place in range(0, len(text), 37):
                for other in (text[:place] + bytes([text[place] ^ 1]) + text[place + 1:], text[:place], text[:place] + b'x' + text[place:]):
                    with open(writer.path(number), 'wb') as file:
                        file.write(other)
                    done = deck('history', self.path('site'))
                    self.assertEqual((done.status, done.out), (1, b''), (number, place))
                    self.assertRegex(done.err, f'/keep/ledger/0000000({number}|{number + 1}): ')
            with open(writer.path(number), 'wb') as file:
                file.write(text)
        self.assertEqual(deck('history', self.path('site')).status, 0)

    def test_a_commit_names_the_one_before_it(self) -> None:
        writer = ledgers.write_example(self.path('site'), 3)
        with open(writer.path(1), 'rb') as file:
            named = hashlib.sha256(file.read()).hexdigest()
        writer.digest = b'f' * 64
        writer.put(record('GAVE', MONDAY, 1, 1))
        self.refused(3, f'it names {"f" * 64} as the SHA-256 of the commit before it, and that is ')
        os.unlink(writer.path(3))
        with open(writer.path(2), 'rb') as file:
            self.assertIn(named.encode(), file.read())
        with open(writer.path(0), 'wb') as file:
            file.write(text_of([b'e' * 64, record('EDIT', MONDAY, b'root', b'init'), b'']))
        self.refused(0, f'it names {"e" * 64} as the SHA-256 of the commit before it, and that is none')

    def test_numbers_go_from_0_on_and_nothing_else_is_there(self) -> None:
        writer = ledgers.write_example(self.path('site'), 5)
        os.rename(writer.path(2), self.path('aside'))
        self.is_refused(deck('history', self.path('site')), '/keep/ledger/00000002: this commit is missing')
        os.rename(self.path('aside'), writer.path(2))
        os.unlink(writer.path(0))
        self.refused(0, 'this commit is missing')
        ledgers.write_example(self.path('other'), 5)
        for name in ('5', '0000005', '000000005', 'draft', '.00000005', '00000005.part'):
            path = self.write(f'other/keep/ledger/{name}', b'')
            self.is_refused(deck('history', self.path('other')), f'/keep/ledger/{name}: no commit is called so')
            os.unlink(path)

    def test_what_is_no_commit_is_refused(self) -> None:
        edit = record('EDIT', MONDAY, b'root', b'init')
        for text, message in ((b'', 'it is no commit'), (b'3\n', 'it is no commit'), (text_of([b'', edit]), 'it is no commit'),
                              (text_of([b'', edit, b'', b'']), 'it is no commit'), (text_of([b'', edit, b'x']), 'what it changed is no text of records'),
                              (text_of([b'', edit, b'']).replace(b'3\n', b'3 \n', 1), 'it is no commit'), (text_of([b'', edit, b'']) + b'\n', 'it is no commit'),
                              (text_of([b'', text_of([b'EDIT', b'1', b'root']), b'']), 'no record is so'), (text_of([b'', text_of([]), b'']), 'no record is so'),
                              (text_of([b'', text_of([b'EDIT', b'x', b'root', b'']), b'']), 'no record is so'), (text_of([b'', b'', b'']), 'no record is so'),
                              (text_of([b'', text_of([b'EDITS', b'1', b'root', b'']), b'']), 'no record is so'),
                              (text_of([b'', change('GONE', b'LOG'), b'']), 'no record is so'),
                              (text_of([b'', edit, text_of([edit])]), 'no change is so'), (text_of([b'', edit, text_of([b''])]), 'no change is so'),
                              (text_of([b'', record('EDIT', 2 ** 60, b'root', b'init'), b'']), 'its time is behind the year 9999')):
            os.makedirs(self.path('site/keep/ledger'), exist_ok=True)
            self.write('site/keep/ledger/00000000', text)
            self.refused(0, message)

    def test_records_that_do_not_follow_on_those_before_are_refused(self) -> None:
        log = data_set(b'LOG anna admin SEQ', OWN, b'A', b'B')
        took = record('TOOK', MONDAY, 4, b'lisa', 1002, b'a.job', b'')
        edit = record('EDIT', MONDAY, b'root', b'put')
        for commits, message in (
                ([[took], [took]], 'its number, 4, is not beyond those before it'),
                ([[took], [record('REFUSED', MONDAY, 3, b'lisa', 1002, b'b.job', b'')]], 'its number, 3, is not beyond those before it'),
                ([[edit, change('KEEP', b'LOG', 0, b'')]], 'there is no data set LOG then'),
                ([[edit, change('GONE', b'LOG')]], 'there is no data set LOG then'),
                ([[edit, log], [edit, change('KEEP', b'LOG', 3, b'')]], 'it keeps 3 records of a data set that has 2'),
                ([[edit, log], [edit, change('GONE', b'LOG')], [edit, change('KEEP', b'LOG', 0, b'')]], 'there is no data set LOG then'),
                ([[edit, change('SET', b'LOG', b'LOG anna admin SEQ 0\n' + OWN + b'\n', b'')]], 'its text: line 1: K5 BAD TEXT'),
                ([[edit, change('SET', b'LOG', b'$SET LOG anna admin SEQ 2\n' + OWN + b'\n', b'A\n')]], 'its text: line 4: E4 TRUNCATED'),
                ([[edit, change('SET', b'LOG', b'$SET LOG anna admin SEQ 0\n' + OWN + b'\n', b'A\n')]], 'its head is not that of LOG'),
                ([[edit, change('SET', b'LOG', b'$SET GOL anna admin SEQ 0\n' + OWN + b'\n', b'')]], 'its head is not that of LOG'),
                ([[edit, log], [edit, change('KEEP', b'LOG', 2, b'A\x07\n')]], 'its records: line 1: T3 BAD CHARACTER'),
                ([[edit, log], [edit, change('KEEP', b'LOG', 2, b'A')]], 'its records: line 1: the file ends within this line'),
                ([[edit, audit(1, b'JOB 1 lisa LOADED\n')]], 'it has an audit, and no submission ran'),
                ([[edit, record('TABLES', 0, b'anna admin\n')]], 'its tables are not 3'),
                ([[record('TABLES', MONDAY, b'anna admin\n')]], 'its tables are not 3'), ([[record('TABLES', MONDAY, text_of([b'', b'']))]], 'its tables are not 3'),
                ([[took], [record('RAN', MONDAY, 4, b''), audit(1, b'JOB 1 lisa LOADED\nJOB 1 lisa SLEPT\n')]],
                 'its audit: line 2: an audit has no such line: JOB 1 lisa SLEPT'),
                ([[took], [record('RAN', MONDAY, 4, b''), audit(1, b'JOB 1 lisa LOADED')]], 'its audit: line 1: the file ends within')):
            writer = Writer(self.path('site'))
            for records in commits:
                writer.put(*records)
            self.refused(len(commits) - 1, message)
            shutil.rmtree(self.path('site'))


class Large(Trying):
    def test_a_long_ledger_takes_little_memory(self) -> None:
        ledgers.write_large(self.path('site'), 3000)
        begun = time.monotonic()
        memory = max(self.memory_of(['history', self.path('site'), *words]) for words in (['-o', self.path('list')], ['--csv', '-o', self.path('csv')],
                                                                                         ['--sqlite', self.path('base')]))
        self.seen = f'3,000 commits took {memory // 1024} MiB and {time.monotonic() - begun:.1f} s three times'
        self.assertLess(memory, MOST_MEMORY)
        self.assertEqual(self.read('csv').count(b',TOOK,'), 1000)

    def test_what_is_kept_does_not_grow(self) -> None:
        ledgers.write_large(self.path('site'), 301)
        course = Course(Known())
        for commit in Ledger(self.path('site')).commits():
            self.assertTrue(list(course.told(commit)))
            self.assertLess(len(course.known.waiting), 2)
        self.assertEqual(len(course.known.heads), 50)
