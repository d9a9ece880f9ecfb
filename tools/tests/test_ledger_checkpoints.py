"""A site is opened from its last checkpoint, or, where that can't be used, from its first commit: what it says is the same."""
from __future__ import annotations

import os
import subprocess
import sys
import unittest
from typing import Callable, Dict, List
from test_ledger_program import ACCOUNTS, CATALOGUE, LIMITS, LedgerTrying
from trying import SITE, Trying, deck

MANY = 500  # submissions, of which each is a commit when it is claimed and one when it ran
BEGINS = """import resource, subprocess, sys
subprocess.run(sys.argv[1:], stdout=subprocess.DEVNULL, check=True)
print(resource.getrusage(resource.RUSAGE_CHILDREN).ru_maxrss)"""
APPENDS = b"$JOB anna ST=100 MATCH=1000\n$UNIT 1 LOG\n OUTPUT(.X,1,'(80A1)')\n X = '%d'\nEND\n$EOJ\n"


@unittest.skipUnless(os.path.exists(SITE), 'there is no site')
class LedgerCheckpoints(LedgerTrying):
    def setUp(self) -> None:
        Trying.setUp(self)
        self.folder = self.path('site')
        limits = LIMITS.replace(b'texts 100\n', b'texts %d\n' % MANY).replace(b'jobs 100\n', b'jobs %d\n' % MANY) + b'seconds 60\noutput 100000\n'
        for name, text in (('accounts', ACCOUNTS), ('limits', limits), ('catalogue', CATALOGUE)):
            self.write(name, text)
        self.done('init', self.folder, '--accounts', self.path('accounts'), '--limits', self.path('limits'), '--catalogue', self.path('catalogue'),
                  '--demonstration')
        self.check = self.folder + '/keep/check'
        self.runs_many()

    def runs_many(self) -> None:
        self.drop([('anna', '%d.job' % number, APPENDS % number) for number in range(MANY)])
        self.assertEqual(self.done('run', self.folder), b'%d run, 0 refused\n' % MANY)

    def commits(self) -> int:
        return len(os.listdir(self.folder + '/keep/ledger'))

    def numbers(self) -> List[int]:
        """Behind how many commits there are checkpoints, each of two files."""
        names = os.listdir(self.check)
        numbers = sorted(int(name) for name in names if name.isdigit())
        self.assertEqual(sorted(names), sorted(name for number in numbers for name in ('%d' % number, '%d.pieces' % number)))
        return numbers

    def flip(self, path: str, place: int) -> None:
        content = bytearray(self.read(path))
        content[place] ^= 1
        self.write(path, bytes(content))

    def test_commits_before_the_checkpoint_are_not_read(self) -> None:
        self.assertEqual(self.numbers(), [self.commits() - 1])
        before = self.done('catalogue', self.folder)
        self.assertEqual(before.count(b'\n'), CATALOGUE.count(b'\n') + MANY)
        self.flip(self.folder + '/keep/ledger/00000009', 100)
        self.assertEqual(self.done('catalogue', self.folder), before)
        self.drop([('anna', 'more', APPENDS % 7)])
        self.assertEqual(self.done('run', self.folder), b'1 run, 0 refused\n')
        self.assertEqual(self.done('catalogue', self.folder), before.replace(b' APPEND %d\n' % (MANY + 1), b' APPEND %d\n' % (MANY + 2)) + b'7\n')
        self.assertEqual(self.ledger('verify', self.folder).status, 1)

    def test_one_that_is_damaged_is_passed_over(self) -> None:
        number, = self.numbers()
        index, pieces = '%s/%d' % (self.check, number), '%s/%d.pieces' % (self.check, number)
        kept: Dict[str, bytes] = {path: self.read(path) for path in (index, pieces)}
        before = self.done('catalogue', self.folder)
        cuts: List[Callable[[], object]] = [
            lambda: os.remove(index), lambda: os.remove(pieces), lambda: self.write(index, b''), lambda: self.write(pieces, b''),
            lambda: self.write(index, kept[pieces]), lambda: self.write(pieces, kept[index]), lambda: self.write(index, kept[index] + b'\n'),
            lambda: os.rename(index, '%s/%d' % (self.check, number - 1)), lambda: os.rename(index, '%s/%d' % (self.check, number + 1)),
            lambda: self.write('%s/%d' % (self.check, number + 1), kept[index]), lambda: self.write('%s/x' % self.check, b'')]
        cuts += [lambda path=path, place=place: self.flip(path, place)  # type: ignore[misc]
                 for path, content in kept.items() for place in range(0, len(content), len(content) // 7)]
        for cut in cuts:
            cut()
            self.assertEqual(self.done('catalogue', self.folder), before)
            self.assertEqual(self.ledger('status', self.folder).status, 0)
            for name in os.listdir(self.check):
                os.remove('%s/%s' % (self.check, name))
            for path, content in kept.items():
                self.write(path, content)
        self.assertRegex(self.done('verify', self.folder), rb'whole')

    def test_the_last_two_stay_and_what_an_ended_run_left_of_others_goes(self) -> None:
        first, = self.numbers()
        for left in ('17', '18.pieces'):
            self.write('%s/%s' % (self.check, left), b'left')
        self.runs_many()
        second = self.commits() - 1
        self.assertEqual(self.numbers(), [first, second])
        self.write('%s/%d' % (self.check, second + 1), b'left')  # so the next run reads the whole ledger, and writes one
        self.runs_many()
        self.assertEqual(self.numbers(), [self.commits() - 1])
        self.assertRegex(self.done('verify', self.folder), rb'whole')
        self.assertEqual(self.done('catalogue', self.folder), self.done('catalogue', self.folder, '--at', '%d' % (3 * MANY)))


    def archived(self) -> List[str]:
        return sorted(os.listdir(self.folder + '/keep/archive'))

    def test_what_is_archived_is_read_by_those_alone_who_ask_for_what_was(self) -> None:
        asked = [('catalogue', self.folder), ('catalogue', self.folder, '--at', '3'), ('deck', self.folder, '7'), ('verify', self.folder)]
        before = [self.done(*words) for words in asked] + [deck('history', self.folder).out]
        commits, checked = self.commits(), self.numbers()[-1]
        self.assertEqual(self.done('archive', self.folder), b'%d commits archived\n' % (commits - 1000))
        self.assertEqual(self.done('archive', self.folder), b'0 commits archived\n')
        self.assertEqual((self.archived()[-1], self.commits()), ('%08d' % (commits - 1001), 1000))
        self.assertEqual(self.done('archive', self.folder, '--keep', '0'), b'%d commits archived\n' % (checked - commits + 1000))
        self.assertEqual(self.archived(), ['%08d' % number for number in range(checked)])
        self.assertEqual([self.done(*words) for words in asked] + [deck('history', self.folder).out], before)
        self.drop([('anna', 'more', APPENDS % 7)])
        self.assertEqual(self.done('run', self.folder), b'1 run, 0 refused\n')
        self.assertRegex(self.done('status', self.folder), rb'commits: %d\n' % (commits + 3))
        os.rename(self.folder + '/keep/archive', self.path('elsewhere'))
        self.assertEqual(self.done('catalogue', self.folder).count(b'\n'), before[0].count(b'\n') + 1)
        for words in asked[1:]:
            done = self.ledger(*words)
            self.assertEqual((done.status, done.err), (3, 'snomon-site: %s/keep/archive: lacks a commit\n' % self.folder))
        self.done('run', self.folder)

    def test_archiving_that_is_broken_off_goes_on(self) -> None:
        before = self.done('verify', self.folder)
        os.mkdir(self.folder + '/keep/archive', 0o700)
        for number in (0, 1, 7, 40):
            os.rename('%s/keep/ledger/%08d' % (self.folder, number), '%s/keep/archive/%08d' % (self.folder, number))
        self.assertEqual(self.done('verify', self.folder), before)
        self.done('archive', self.folder, '--keep', '0')
        self.assertEqual(self.archived(), ['%08d' % number for number in range(self.numbers()[-1])])
        self.assertEqual(self.done('verify', self.folder), before)
        os.remove(self.folder + '/keep/archive/00000007')
        self.assertEqual(self.ledger('verify', self.folder).status, 3)

    def test_none_is_archived_that_is_behind_the_checkpoint_or_that_is_missed(self) -> None:
        self.write('%s/x' % self.check, b'')
        for name in os.listdir(self.check):
            os.remove('%s/%s' % (self.check, name))
        self.assertEqual(self.done('archive', self.folder, '--keep', '0'), b'0 commits archived\n')
        os.remove(self.folder + '/keep/ledger/00000007')
        self.assertEqual(self.ledger('status', self.folder).err, 'snomon-site: %s/keep/ledger: lacks a commit\n' % self.folder)


@unittest.skipUnless(os.path.exists(SITE), 'there is no site')
class LargeDataSets(LedgerTrying):
    """Where a commit has many bytes, a checkpoint stands behind it at once; and a run takes little more memory than the data sets."""
    SETS, RECORDS = 8, 20_000
    LINE = b'x' * 79 + b'\n'

    def setUp(self) -> None:
        Trying.setUp(self)
        self.folder = self.path('site')
        self.check = self.folder + '/keep/check'

    def catalogue(self, line: bytes) -> bytes:
        return CATALOGUE + b''.join(b'$SET BULK%d anna staff APPEND %d\nuser::rw-,group::---,other::---\n' % (number, self.RECORDS)
                                    + line * self.RECORDS for number in range(self.SETS))

    def makes(self) -> None:
        limits = LIMITS.replace(b'records 10000\n', b'records 100000000\n') + b'seconds 60\noutput 100000\n'
        for name, text in (('accounts', ACCOUNTS), ('limits', limits), ('catalogue', self.catalogue(self.LINE))):
            self.write(name, text)
        self.done('init', self.folder, '--accounts', self.path('accounts'), '--limits', self.path('limits'), '--catalogue', self.path('catalogue'),
                  '--demonstration')

    def test_a_checkpoint_stands_right_behind_them(self) -> None:
        self.makes()
        self.assertEqual(sorted(os.listdir(self.check)), ['2', '2.pieces'])
        self.write('other', self.catalogue(b'y' * 79 + b'\n'))
        self.done('put', self.folder, self.path('other'))
        self.assertEqual(sorted(os.listdir(self.check)), ['2', '2.pieces', '4', '4.pieces'])
        self.assertEqual(self.done('catalogue', self.folder).count(b'y' * 79), self.SETS * self.RECORDS)
        self.assertRegex(self.done('verify', self.folder), rb'whole')

    def test_a_run_takes_little_more_memory_than_the_data_sets(self) -> None:
        self.makes()
        self.drop([('anna', 'one.job', APPENDS % 1)])
        held = self.peak('run', self.folder)
        data = len(self.catalogue(self.LINE))
        self.assertLess(held, 1.4 * data + 8e6)

    def peak(self, *words: str) -> int:
        """So many bytes a run of the program has held in memory at most. It is begun by a small one, since it counts what its parent held."""
        run = subprocess.run([sys.executable, '-c', BEGINS, SITE, *words], stdout=subprocess.PIPE, check=True)
        return int(run.stdout) * 1024


if __name__ == '__main__':
    unittest.main()
