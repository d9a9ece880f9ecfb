"""Who did what in several runs: folders of audits, JSON, what nobody used, who could and did not, and how long a large audit takes."""
from __future__ import annotations

import csv
import io
import json
import os
import time
from typing import List
from trying import NO_WORDS, TOP, Trying, deck, run
from test_deck_audit import AUDIT

FIRST = b'''JOB 1 lisa LOADED
JOB 1 lisa ASKED 3 READ 8 PAYROLL 0 GOT BY user:lisa:
JOB 1 lisa ASKED 4 WRITE 8 LOG 1 DENIED BY mask::
JOB 1 lisa ENDED NORMAL AFTER 9
RUN 0 .NONE STOPPED
'''
SECOND = b'''COMMAND 0 anna LIST LOG RECORDS 3 BY user::
COMMAND 0 hugo CATALOG NAMES 1
COMMAND 0 hugo CATALOG SHOWN PAYROLL BY other::
COMMAND 0 hugo SHOWACL EMPTY DENIED BY other::
RUN 0 .NONE STOPPED
'''
CATALOGUE = b'''$CATALOGUE 2
$SET PAYROLL anna admin SEQ 1
user::rw-,user:lisa:rw-,group::---,mask::rw-,other::--x
ADA 100
$SET EMPTY anna admin SEQ 0
user::rwx,group::---,other::---
$SET LOG anna admin APPEND 2
user::rwx,group::---,other::---
A
B
'''
ACCOUNTS = b'anna admin\nlisa staff\nhugo ops\n'
LARGE = 10_000_000  # bytes; of a larger audit 40 MB are asked in a second where the machine does nothing else


class Several(Trying):
    def asked(self, *words: str, status: int = 0) -> bytes:
        done = deck('audit', *words)
        self.assertEqual((done.status, done.err), (status, ''))
        return done.out

    def rounds(self) -> str:
        os.mkdir(self.path('rounds'))
        for name, text in (('10.audit', SECOND), ('2.audit', FIRST), ('2.plan', b'no audit'), ('.3.audit.part', b'none either')):
            self.write(f'rounds/{name}', text)
        return self.path('rounds')

    def test_a_folder_has_its_audits_in_the_order_of_their_numbers(self) -> None:
        rows = [line.split(',') for line in self.asked(self.rounds(), '--csv').decode().splitlines()[1:]]
        self.assertEqual([row[:2] for row in rows], [['2', str(line)] for line in range(1, 6)] + [['10', str(line)] for line in range(1, 6)])
        self.assertEqual(self.asked(self.path('rounds/2.audit'), self.path('rounds/10.audit'), '--csv'), self.asked(self.path('rounds'), '--csv'))

    def test_packed_audits_are_passed_over_and_told(self) -> None:
        folder = self.rounds()
        self.write('rounds/1.audit.gz', b'packed')
        done = deck('audit', folder, '--csv')
        self.assertEqual((done.status, done.err), (0, f'snomon-deck: {folder}: 1 of its files end in .audit.gz, and are not asked: unpack them\n'))
        self.assertEqual(done.out, self.asked(self.path('rounds/2.audit'), self.path('rounds/10.audit'), '--csv'))

    def test_a_table_of_several_runs_names_them(self) -> None:
        self.assertEqual(self.asked(self.rounds(), '--denied').decode().splitlines(), [
            'run  line  job  account  event    set    statement  unit  place  answer  more',
            '2       3    1  lisa     WRITE    LOG            4     8      1  DENIED  BY mask::',
            '10      4    0  hugo     SHOWACL  EMPTY                          DENIED  BY other::'])
        self.assertTrue(self.asked(self.path('rounds/2.audit')).startswith(b'line  job'))

    def test_runs_that_would_be_called_the_same_are_called_by_their_paths(self) -> None:
        for folder in ('a', 'b, "c"'):
            os.mkdir(self.path(folder))
            self.write(f'{folder}/1.audit', FIRST)
        rows = list(csv.reader(io.StringIO(self.asked(self.path('a'), self.path('b, "c"'), '--denied', '--csv').decode())))[1:]
        self.assertEqual([row[0] for row in rows], [self.path('a/1'), self.path('b, "c"/1')])
        self.assertEqual([row['run'] for row in json.loads(self.asked(self.path('a'), self.path('b, "c"'), '--denied', '--json'))],
                         [row[0] for row in rows])

    def test_json_says_what_csv_does(self) -> None:
        text = self.write('audit', AUDIT)
        rows = json.loads(self.asked(text, '--json'))
        self.assertEqual(rows[0], {'run': 'audit', 'line': 1, 'job': 1, 'account': 'lisa', 'event': 'LOADED'})
        self.assertEqual(rows[3], {'run': 'audit', 'line': 4, 'job': 1, 'account': 'lisa', 'event': 'READ', 'set': 'PAYROLL', 'statement': 3,
                                   'unit': 8, 'place': 0, 'answer': 'GOT', 'more': 'BY user:lisa:'})
        in_csv = csv.DictReader(io.StringIO(self.asked(text, '--csv').decode()))
        self.assertEqual([{name: str(cell) for name, cell in row.items()} for row in rows],
                         [{name: cell for name, cell in row.items() if cell} for row in in_csv])
        self.assertEqual(self.asked(self.write('empty', b''), '--json'), b'[]\n')
        self.assertEqual(self.asked(text, '--json', '--set', 'NONE'), b'[]\n')

    def test_a_fault_names_its_file_and_line_there(self) -> None:
        self.rounds()
        self.write('rounds/10.audit', SECOND + b'x\n')
        for words in (NO_WORDS, ['--csv'], ['--json', '--denied']):
            done = deck('audit', self.path('rounds'), *words, '-o', self.path('list'))
            self.is_refused_at(done, 'rounds/10.audit', 6, 'an audit has no such line: x')
        os.mkdir(self.path('none'))
        self.is_refused(deck('audit', self.path('none')), f'{self.path("none")}: it has no file NAME.audit')
        self.is_refused(deck('audit', self.path('gone'), self.path('none')), 'it has no file NAME.audit')

    def test_jobs_are_of_one_run(self) -> None:
        done = deck('audit', self.rounds(), '--from', '1')
        self.assertEqual((done.status, done.out), (2, b''))
        self.assertIn('--from and --to are jobs of one run', done.err)

    def test_an_audit_on_a_pipe_is_read_as_a_file_is(self) -> None:
        text = self.write('audit', AUDIT)
        for words in ('', '--csv', '--from 3'):
            piped = run(['bash', '-c', f'"$0" audit <(cat "$1") {words}', os.path.join(TOP, 'tools', 'deck'), text])
            self.assertEqual((piped.status, piped.out.split(b'\n')[2].split(b',')[1:]), (0, self.asked(text, *words.split()).split(b'\n')[2].split(b',')[1:]))


class Used(Trying):
    def asked(self, *words: str) -> List[str]:
        self.write('2.audit', FIRST)
        self.write('3.audit', SECOND)
        done = deck('audit', self.path('2.audit'), self.path('3.audit'), *words)
        self.assertEqual((done.status, done.err), (0, ''))
        return done.out.decode().splitlines()

    def test_data_sets_that_nobody_used(self) -> None:
        catalogue = self.write('catalogue', CATALOGUE)
        self.assertEqual(self.asked('--unused', catalogue), ['set    owner  group  records  denied', 'EMPTY  anna   admin        0       1'])
        self.assertEqual(self.asked('--unused', catalogue, '--account', 'lisa', '--csv'),
                         ['set,owner,group,records,denied', 'EMPTY,anna,admin,0,0', 'LOG,anna,admin,2,1'])
        self.assertEqual(json.loads('\n'.join(self.asked('--unused', catalogue, '--json', '--set', 'EMPTY'))),
                         [{'set': 'EMPTY', 'owner': 'anna', 'group': 'admin', 'records': 0, 'denied': 1}])
        self.is_refused_at(deck('audit', self.path('2.audit'), '--unused', self.write('cut', CATALOGUE[:-5])), 'cut', 8, 'the file ends within this line')

    def test_who_could_and_did_not(self) -> None:
        report = b'account,set,permission,answer,entry\n'
        for data_set, rights in ((b'PAYROLL', {b'anna': b'rw', b'lisa': b'rw', b'hugo': b'x'}), (b'LOG', {b'anna': b'r', b'lisa': b'', b'hugo': b'r'})):
            for account, letters in rights.items():
                report += b''.join(b'%b,%b,%b,%b\n' % (account, data_set, letter, b'granted,' if letter in letters else b'denied,other::')
                                   for letter in (b'r', b'w', b'x'))
        path = self.write('report', report)
        rows = ['account,set,could,did', 'anna,PAYROLL,rw-,---', 'lisa,PAYROLL,rw-,r--', 'hugo,LOG,r--,---']
        self.assertEqual(self.asked('--could', path, '--csv'), rows)
        self.assertEqual(self.asked('--could', path, '--csv', '--account', 'lisa'), [rows[0], rows[2]])
        self.assertEqual(self.asked('--could', path, '--csv', '--set', 'LOG'), [rows[0], rows[3]])
        self.is_refused_at(deck('audit', self.path('2.audit'), '--could', self.write('cut', report[:-9])), 'cut', 19, 'the file ends within this line')

    def test_a_report_of_listing_is_taken(self) -> None:
        if 'LISTING' not in os.environ:
            self.skipTest('LISTING names no program')
        report = run([os.environ['LISTING'], '--access', '--csv'], given=b'$ACCOUNTS\n' + ACCOUNTS + CATALOGUE + b'$STREAM\n$STOP\n')
        self.assertEqual(report.status, 0)
        rows = self.asked('--could', self.write('report', report.out), '--csv')
        self.assertEqual(rows, ['account,set,could,did', 'anna,PAYROLL,rw-,---', 'lisa,PAYROLL,rw-,r--', 'anna,EMPTY,rwx,---', 'anna,LOG,rwx,r--'])

    def test_questions_about_lines_are_not_allowed_beside(self) -> None:
        for words in (['--unused', 'x', '--denied'], ['--could', 'x', '--from', '1'], ['--could', 'x', '--lists'], ['--could', 'x', '--unused', 'y']):
            done = deck('audit', self.write('audit', AUDIT), *words)
            self.assertEqual((done.status, done.out), (2, b''))


class Large(Trying):
    def test_a_large_audit_is_asked_in_a_second_or_two(self) -> None:
        """The time is told; only forty times as much fails, three times over, since others may work beside."""
        line = b'JOB 1 acct%d ASKED 3 READ 8 SET%d %d GOT BY user:acct%d:\n'
        text = b''.join(line % (number % 50, number % 997, number, number % 50) for number in range(50_000))
        with open(self.path('audit'), 'wb') as audit:
            for _ in range(LARGE // len(text)):
                audit.write(text)
        size = os.path.getsize(self.path('audit'))
        told = []
        for words in (['audit', '--denied'], ['audit', '--set', 'SET7', '--csv'], ['page']):
            tries = [self.taken(words)]
            while min(tries) > size / 1e6 and len(tries) < 3:
                tries.append(self.taken(words))
            told.append(f'{" ".join(words)} {size / 1e6 / min(tries):.0f} MB/s')
            self.assertLessEqual(min(tries), size / 1e6, words)
        self.seen = ', '.join(told)

    def taken(self, words: List[str]) -> float:
        """The seconds of processors that a question takes."""
        begun = os.times()
        self.assertEqual(deck(*words, self.path('audit'), '-o', self.path('made')).status, 0)
        ended = os.times()
        return ended.children_user + ended.children_system - begun.children_user - begun.children_system
