"""Who did what: `audit` of one run, as a table and as CSV."""
from __future__ import annotations

import csv
import io
import os
import time
from typing import List
from trying import MOST_MEMORY, NO_WORDS, TOP, Trying, deck

AUDIT = b'''JOB 1 lisa LOADED
JOB 2 eve REFUSED M2 NO ACCOUNT
JOB 1 lisa ASKED 2 READ 5 .DATA 0 GOT
JOB 1 lisa ASKED 3 READ 8 PAYROLL 0 GOT BY user:lisa:
JOB 1 lisa ASKED 4 WRITE 8 PAYROLL 1 DENIED BY mask::
COMMAND 0 anna SETACL PAYROLL DONE user::rwx,group::---,other::--- BY owner
JOB 3 hugo LOADED
JOB 1 lisa ASKED 5 READ 8 PAYROLL 1 DENIED BY other::
JOB 3 hugo ASKED 2 WRITE 9 LOG 7 DONE BY group:ops:
JOB 3 hugo ASKED 2 WRITE 9 LOG 8 FULL BY group:ops:
JOB 1 lisa ASKED 6 REWIND 8 PAYROLL 1 DONE
JOB 1 lisa ASKED 7 ENDFILE 8 GONE 0 DENIED NO DATA SET
JOB 1 lisa ASKED 8 WRITE 6 .SPOOL 0 DONE
JOB 1 lisa ASKED 9 READ 7 .NONE 0 DENIED NO UNIT
JOB 1 lisa ENDED NORMAL AFTER 9
COMMAND 0 hugo LIST PAYROLL DENIED BY other::
COMMAND 0 anna LIST PAYROLL RECORDS 3 BY user::
COMMAND 0 anna SETACL PAYROLL REFUSED A4 MISSING group::
COMMAND 0 anna CREATE NOTES DONE APPEND
COMMAND 0 eve CATALOG REFUSED M2 NO ACCOUNT
JOB 3 hugo ENDED FAULT TYPE AT 3 AFTER 3
JOB 4 hugo REFUSED P3 CARD 1 COLUMN 8
COMMAND 0 anna DELETE LOG DENIED NOT OWNER
COMMAND 0 anna CATALOG NAMES 2
COMMAND 0 anna CATALOG SHOWN PAYROLL BY user::
COMMAND 0 anna CATALOG SHOWN NOTES BY group:ops:
'''
TABLE = b'''line  job  account  event    set      statement  unit  place  answer  more
   4    1  lisa     READ     PAYROLL          3     8      0  GOT     BY user:lisa:
   5    1  lisa     WRITE    PAYROLL          4     8      1  DENIED  BY mask::
   8    1  lisa     READ     PAYROLL          5     8      1  DENIED  BY other::
  11    1  lisa     REWIND   PAYROLL          6     8      1  DONE
'''.replace(b'event    set', b'event   set').replace(b'READ     ', b'READ    ').replace(b'WRITE    ', b'WRITE   ').replace(b'REWIND   ', b'REWIND  ')
TITLE = b'run,line,job,account,event,set,statement,unit,place,answer,more\n'


class Asked(Trying):
    def audit(self, *words: str, text: bytes = AUDIT) -> bytes:
        done = deck('audit', self.write('audit', text), *words)
        self.assertEqual((done.status, done.err), (0, ''))
        return done.out

    def lines(self, *words: str, text: bytes = AUDIT) -> List[int]:
        """The numbers of the lines that answer the question, as both forms have them."""
        table = [int(row.split()[0]) for row in self.audit(*words, text=text).splitlines()[1:]]
        rows = list(csv.DictReader(io.StringIO(self.audit(*words, '--csv', text=text).decode())))
        self.assertEqual([int(row['line']) for row in rows], table)
        return table

    def test_the_table_is_as_wide_as_what_it_tells(self) -> None:
        self.assertEqual(self.audit('--set', 'PAYROLL', '--account', 'lisa'), TABLE)
        long = AUDIT.replace(b'lisa', b'l' * 31).replace(b'ASKED 4 ', b'ASKED 18446744073709551615 ')
        rows = self.audit('--set', 'PAYROLL', text=long).splitlines()
        self.assertEqual({row.index(b'  BY ') for row in rows if b'  BY ' in row}, {rows[0].index(b'  more')})

    def test_without_a_question_each_line_is_a_row(self) -> None:
        self.assertEqual(self.lines(), list(range(1, AUDIT.count(b'\n') + 1)))
        self.assertEqual(self.audit('--csv', text=b''), TITLE)
        self.assertEqual(self.audit(text=b''), TITLE.replace(b'run,', b'').replace(b',', b'  '))

    def test_rows_have_what_the_lines_say(self) -> None:
        rows = {int(row['line']): list(row.values())[2:] for row in csv.DictReader(io.StringIO(self.audit('--csv').decode()))}
        for line, row in ((1, '1|lisa|LOADED||||||'), (2, '2|eve|REFUSED||||||M2 NO ACCOUNT'), (3, '1|lisa|READ|.DATA|2|5|0|GOT|'),
                          (6, '0|anna|SETACL|PAYROLL||||DONE|user::rwx,group::---,other::--- BY owner'), (10, '3|hugo|WRITE|LOG|2|9|8|FULL|BY group:ops:'),
                          (12, '1|lisa|ENDFILE|GONE|7|8|0|DENIED|NO DATA SET'), (15, '1|lisa|ENDED||||||NORMAL AFTER 9'),
                          (17, '0|anna|LIST|PAYROLL||||RECORDS|3 BY user::'), (18, '0|anna|SETACL|PAYROLL||||REFUSED|A4 MISSING group::'),
                          (19, '0|anna|CREATE|NOTES||||DONE|APPEND'), (20, '0|eve|CATALOG|||||REFUSED|M2 NO ACCOUNT'),
                          (21, '3|hugo|ENDED||||||FAULT TYPE AT 3 AFTER 3'), (24, '0|anna|CATALOG|||||NAMES|2'), (26, '0|anna|CATALOG|NOTES||||SHOWN|BY group:ops:')):
            self.assertEqual(rows[line], row.split('|'))

    def test_each_question_has_its_lines(self) -> None:
        for words, lines in ((['--set', 'PAYROLL'], [4, 5, 6, 8, 11, 16, 17, 18, 25]), (['--set', 'NONE'], []), (['--account', 'eve'], [2, 20]),
                             (['--denied'], [5, 8, 12, 14, 16, 23]), (['--denied', '--set', 'PAYROLL'], [5, 8, 16]),
                             (['--denied', '--set', 'PAYROLL', '--account', 'lisa'], [5, 8]), (['--lists'], [6, 19]),
                             (['--lists', '--account', 'hugo'], []), (['--from', '3'], list(range(7, 27))), (['--to', '1'], list(range(1, 16))),
                             (['--from', '3', '--to', '3'], list(range(7, 22))), (['--from', '2', '--to', '2'], [2]),
                             (['--from', '1', '--to', '2'], [1, 2]), (['--from', '4'], list(range(22, 27))), (['--from', '3', '--denied'], [8, 12, 14, 16, 23])):
            self.assertEqual(self.lines(*words), lines, words)

    def test_the_last_line_says_how_the_run_came_to_its_end(self) -> None:
        for line, event, more in ((b'RUN 0 .NONE STOPPED\n', 'STOPPED', ''), (b'RUN 0 .NONE REFUSED LINE 17 E4 TRUNCATED\n', 'REFUSED', 'LINE 17 E4 TRUNCATED')):
            row = self.audit('--csv', text=AUDIT + line).decode().splitlines()[-1]
            self.assertEqual(row, f'audit,27,0,.NONE,{event},,,,,,{more}')
            self.assertEqual(self.lines('--denied', '--from', '4', text=AUDIT + line), [23])

    def test_a_job_that_has_not_ended_is_followed_to_the_end(self) -> None:
        self.assertEqual(self.lines('--from', '1', '--to', '3', text=b''.join(AUDIT.splitlines(True)[:12])), list(range(1, 13)))

    def test_jobs_that_are_not_there_and_words_that_ask_for_nothing_are_refused(self) -> None:
        for words in (['--from', '5'], ['--to', '9'], ['--from', '1', '--to', '5'], ['--from', '1', '--to', '5', '--csv']):
            done = deck('audit', self.write('audit', AUDIT), *words)
            self.is_refused(done, f'{self.path("audit")}: no job has the number {words[1 if len(words) == 2 else 3]}')
        for words, message in ((['--from', '3', '--to', '1'], '--to is an earlier job than --from'), (['--from', 'x'], "'x' is no number of a job"),
                               (['--set', '.DATA'], "'.DATA' is no name"), (NO_WORDS, 'AUDIT')):
            done = deck('audit', *([self.path('audit')] if words else []), *words)
            self.assertEqual((done.status, done.out), (2, b''))
            self.assertIn(message, done.err)

    def test_lines_that_no_audit_has_are_refused(self) -> None:
        for old, new, line, message in (
                (b'JOB 1 lisa LOADED', b'JOB 1 lisa LOADED ', 1, 'an audit has no such line: JOB 1 lisa LOADED '),
                (b'JOB 1 lisa LOADED', b'JOB x lisa LOADED', 1, 'an audit has no such line'),
                (b'JOB 1 lisa LOADED', b'JOB 1 1isa LOADED', 1, 'an audit has no such line'),
                (b'JOB 1 lisa LOADED', b'JOB 1 lisa CREATE X DONE SEQ', 1, 'an audit has no such line'),
                (b'JOB 1 lisa LOADED', b'COMMAND 0 lisa LOADED', 1, 'an audit has no such line'),
                (b'JOB 1 lisa LOADED', b'COMMAND 1 lisa CATALOG NAMES 1', 1, 'an audit has no such line'),
                (b'JOB 1 lisa LOADED', b'COMMAND 0 lisa CATALOG X NAMES 1', 1, 'an audit has no such line'),
                (b'JOB 1 lisa LOADED', b'COMMAND 0 lisa LIST RECORDS 1', 1, 'an audit has no such line'),
                (b'JOB 1 lisa LOADED', b'', 1, 'an audit has no such line: \n'), (b'JOB 1 lisa LOADED', b'JOB 1 lisa', 1, 'an audit has no such line'),
                (b'JOB 1 lisa LOADED', b'RUN 0 .NONE REFUSED', 1, 'an audit has no such line'),
                (b'JOB 1 lisa LOADED', b'RUN 1 lisa STOPPED', 1, 'an audit has no such line'),
                (b'CATALOG SHOWN NOTES', b'LIST LOG SHOWN NOTES', 26, 'an audit has no such line'), (b'NOTES BY group:ops:', b'NOTES', 26, 'an audit has no such line'),
                (b'--- BY owner', b'--- BY user', 6, 'an audit has no such line'), (b'RECORDS 3 BY', b'RECORDS 3 FOR', 17, 'an audit has no such line'),
                (b'.DATA 0 GOT', b'.TAPE 0 GOT', 3, 'an audit has no such line'), (b'.DATA 0 GOT', b'.DATA 0 LOST', 3, 'an audit has no such line'),
                (b'DONE APPEND', b'DONE <b>', 19, 'an audit has no such line'), (b'DONE user::rwx,', b'DONE user::rwx,<b>,', 6, 'an audit has no such line'),
                (b'BY mask::', b'BY mask', 5, 'an audit has no such line'), (b'DENIED BY mask::', b'DENIED', 5, 'an audit has no such line'),
                (b'BY mask::', b'BY \xc3\xa4::', 5, 'an audit has no such line'), (b'PAYROLL 0 GOT', b'p' * 6000 + b' 0 GOT', 4, 'T4 LINE TOO LONG'),
                (b'LOADED\n', b'LOADED\r\n', 1, 'the line ends with CR LF')):
            for words in (NO_WORDS, ['--csv', '--denied']):
                done = deck('audit', self.write('audit', AUDIT.replace(old, new, 1)), *words, '-o', self.path('list'))
                self.is_refused_at(done, 'audit', line, message)
                self.assertEqual(self.names(), ['audit'])
        self.is_refused_at(deck('audit', self.write('audit', AUDIT[:-4])), 'audit', AUDIT.count(b'\n'), 'the file ends within this line')
        self.is_refused(deck('audit', self.path('gone')), 'gone: No such file or directory', 3)

    def test_every_stored_audit_is_read(self) -> None:
        cases = os.path.join(TOP, 'crates', 'rows', 'data', 'cases')
        count = 0
        for case in sorted(os.listdir(cases)):
            path = os.path.join(cases, case, 'audit')
            if os.path.exists(path):
                with open(path, 'rb') as audit:
                    text = audit.read()
                for row, line in zip(csv.reader(io.StringIO(self.audit('--csv', text=text).decode())), [TITLE, *text.splitlines()]):
                    if line is not TITLE:  # its words are those of the row, in another order
                        words = line.decode().split(' ')
                        self.assertEqual(sorted(' '.join(row[2:]).split()), sorted(word for word in words[1:] if word != 'ASKED'))
                count += 1
        self.assertEqual(count, 30)

    def test_a_long_audit_takes_little_memory(self) -> None:
        with open(self.path('audit'), 'wb') as audit:
            audit.write(b'JOB 1 lisa LOADED\n')
            for number in range(200_000):
                audit.write(b'JOB 1 lisa ASKED %d READ 8 S%d %d GOT BY user:lisa:\n' % (number, number % 1000, number // 1000))
        begun = time.monotonic()
        memory = max(self.memory_of([*words, self.path('audit'), '-o', self.path('made')]) for words in (['audit'], ['audit', '--csv'], ['page']))
        self.seen = f'200,000 lines took {memory // 1024} MiB and {time.monotonic() - begun:.1f} s three times'
        self.assertLess(memory, MOST_MEMORY)
