"""What a site keeps, by days and by bytes: commits that are archived, answers that are removed, by a command or by the limit `days`, the sizes
that `status` tells, and how many submissions data sets tie together."""
from __future__ import annotations

import hashlib
import os
import shutil
import signal
import subprocess
import time
import unittest
from typing import Callable, List, Tuple
from ledgers import text_of
from test_ledger_limits import Limited
from test_ledger_program import CATALOGUE
from test_ledger_progress import SLOW
from trying import SITE
from decks.ledger import fields_of

DAY = 86400
LARGE = CATALOGUE + b'$SET LARGE anna admin SEQ 100000\nuser::rwx,group::---,other::---\n' + (b'A' * 50 + b'\n') * 100000 # a checkpoint is due behind it
LIST = b'$LIST %s LOG\n'


class Aged(Limited):
    def at(self, place: str) -> str:
        return '%s/%s' % (self.folder, place)

    def age(self, place: str, days: float) -> None:
        """As if the file had been written so many days ago."""
        then = time.time() - days * DAY
        os.utime(self.at(place), (then, then), follow_symlinks=False)

    def give(self, *names: str) -> None:
        """An answer for each of these, which are `account/name`."""
        for one in names:
            account, name = one.split('/')
            self.drop([(account, name, LIST % account.encode())])
            self.done('run', self.folder)

    def given(self) -> List[str]:
        return sorted('%s/%s' % (account, name) for account in os.listdir(self.at('out')) for name in os.listdir(self.at('out/' + account)))


@unittest.skipUnless(os.path.exists(SITE), 'there is no site')
class Commits(Aged):
    def setUp(self) -> None:
        super().setUp()
        self.give('anna/a', 'lisa/b', 'anna/c')

    def commits(self, place: str = 'keep/ledger') -> List[int]:
        return sorted(map(int, os.listdir(self.at(place)))) if os.path.exists(self.at(place)) else []

    def move(self, days_of: Callable[[int], float]) -> None:
        """Each commit as if it had been made so many days ago, by its number; the next checkpoint is written of these."""
        now, before = int(time.time()), b''
        for number in self.commits():
            path = self.at('keep/ledger/%08d' % number)
            _, head, change = [bytes(field) for field in fields_of(memoryview(self.read(path))) or []]
            said = [bytes(field) for field in fields_of(memoryview(head)) or []]
            said[1] = b'%d' % (now - days_of(number) * DAY)
            text = text_of([before, text_of(said), change])
            self.write(path, text)
            before = hashlib.sha256(text).hexdigest().encode()
        shutil.rmtree(self.at('keep/check'), ignore_errors=True)
        self.write('large', LARGE)
        self.done('put', self.folder, self.path('large'))

    def archived_by(self, *words: str) -> int:
        said = self.done('archive', self.folder, *words)
        self.assertRegex(said, rb'\A\d+ commits archived\n\Z')
        return int(said.split()[0])

    def test_those_of_the_last_days_stay(self) -> None:
        many = len(self.commits())
        self.assertGreater(many, 9)
        self.move(lambda number: 10 * (many - number) + 1) # the last one 11 days ago, the one before it 21
        self.assertEqual(self.archived_by('--days', '36500'), 0)
        for days, left in (('100', 9), ('35', 3), ('35', 3), ('10', 0)):
            before = len(self.commits('keep/archive'))
            self.assertEqual(self.archived_by('--days', days), many - left - before)
            self.assertEqual(self.commits('keep/archive'), list(range(many - left)))
        self.assertRegex(self.done('verify', self.folder), rb'whole')
        self.give('anna/d')

    def test_what_follows_one_of_them_stays_though_the_clock_was_wrong(self) -> None:
        many = len(self.commits())
        self.move(lambda number: 5 if number == 4 else 90)
        self.assertEqual(self.archived_by('--days', '30'), 4)
        self.assertEqual(self.archived_by('--days', '3'), many - 4)

    def test_what_was_broken_off_is_carried_on(self) -> None:
        self.move(lambda number: 90 if number < 7 else 5)
        os.mkdir(self.at('keep/archive'), 0o700)
        for number in (1, 2, 5):
            os.rename(self.at('keep/ledger/%08d' % number), self.at('keep/archive/%08d' % number))
        self.assertEqual(self.archived_by('--days', '30'), 4)
        self.assertEqual(self.commits('keep/archive'), list(range(7)))
        self.assertRegex(self.done('verify', self.folder), rb'whole')

    def test_those_behind_the_checkpoint_stay(self) -> None:
        shutil.rmtree(self.at('keep/check'), ignore_errors=True)
        self.assertEqual(self.archived_by('--days', '1'), 0)


@unittest.skipUnless(os.path.exists(SITE), 'there is no site')
class Answers(Aged):
    def pruned_by(self, days: int) -> int:
        said = self.done('prune', self.folder, '--days', str(days))
        self.assertRegex(said, rb'\A\d+ answers removed\n\Z')
        return int(said.split()[0])

    def test_those_of_the_last_days_stay(self) -> None:
        self.give('anna/a', 'anna/b', 'lisa/c')
        for place, days in (('out/anna/0.a.out', 40), ('out/anna/1.b.out', 20), ('out/lisa/2.c.out', 10.5)):
            self.age(place, days)
        self.assertEqual([self.pruned_by(days) for days in (41, 39, 39, 11)], [0, 1, 0, 1])
        self.assertEqual(self.given(), ['lisa/2.c.out'])
        self.assertEqual(self.pruned_by(10), 1)
        self.assertEqual(self.given(), [])
        self.assertEqual(self.done('run', self.folder), b'0 run, 0 refused\n') # none of them comes back
        self.assertEqual(self.given(), [])
        self.assertRegex(self.done('verify', self.folder), rb'whole')

    def test_replies_are_answers(self) -> None:
        self.drop([('anna', 'a', b'$LIST lisa LOG\n')])
        self.done('run', self.folder, status=1)
        self.age('out/anna/0.a.out', 3)
        self.assertEqual((self.pruned_by(2), self.given()), (1, []))

    def test_those_of_an_account_without_a_user_go_too(self) -> None:
        self.give('lisa/a')
        self.done('deluser', self.folder, 'lisa')
        self.age('out/lisa/0.a.out', 3)
        self.assertEqual((self.pruned_by(2), self.given()), (1, []))

    def test_nothing_else_is_removed(self) -> None:
        self.give('anna/a')
        left = ['anna/' + name for name in ('1.later.out', '0.out', '0..out', 'x.a.out', '-1.a.out', '.0.a.out', '0.a.outs', '0.a', '0', 'a.out')]
        for one in left:
            self.write(self.at('out/' + one), b'')
            self.age('out/' + one, 100)
        os.mkdir(self.at('out/anna/0.folder.out'))
        os.symlink('0.a.out', self.at('out/anna/0.link.out'))
        os.mkfifo(self.at('out/anna/0.pipe.out'))
        for name in ('0.folder.out', '0.link.out', '0.pipe.out'):
            self.age('out/anna/' + name, 100)
        self.write(self.at('out/0.a.out'), b'')
        self.age('out/0.a.out', 100)
        before = sorted(os.listdir(self.at('out/anna')))
        self.assertEqual(self.pruned_by(1), 0)
        self.age('out/anna/0.a.out', 100)
        self.assertEqual(self.pruned_by(1), 1)
        self.assertEqual(sorted(os.listdir(self.at('out/anna'))), sorted(set(before) - {'0.a.out'}))
        self.assertTrue(os.path.exists(self.at('out/0.a.out')))

    def test_a_folder_that_others_may_write_to_is_passed_over(self) -> None:
        self.give('anna/a', 'lisa/b')
        for place in ('out/anna/0.a.out', 'out/lisa/1.b.out'):
            self.age(place, 3)
        os.chmod(self.at('out/anna'), 0o2770)
        os.rename(self.at('out/lisa'), self.path('elsewhere'))
        os.symlink(self.path('elsewhere'), self.at('out/lisa'))
        self.assertEqual(self.pruned_by(1), 0)
        os.remove(self.at('out/lisa'))
        os.rename(self.path('elsewhere'), self.at('out/lisa'))
        os.chmod(self.at('out/anna'), 0o2750)
        self.assertEqual(self.pruned_by(1), 2)

    def test_a_run_removes_what_is_older_than_the_limits_say(self) -> None:
        self.give('anna/a', 'lisa/b')
        for place in ('out/anna/0.a.out', 'out/lisa/1.b.out'):
            self.age(place, 40)
        self.assertEqual(self.done('run', self.folder), b'0 run, 0 refused\n')
        self.assertEqual(len(self.given()), 2) # no limit says it
        self.with_limits(days=41)
        self.give('anna/c')
        self.assertEqual(len(self.given()), 3)
        self.assertIn(b'\ndays 41\n', self.done('limits', self.folder))
        self.with_limits(days=30)
        self.assertEqual(len(self.given()), 3)
        self.give('anna/d')
        self.assertEqual(self.given(), ['anna/2.c.out', 'anna/3.d.out'])
        self.assertRegex(self.done('verify', self.folder), rb'whole')

    def test_a_site_can_be_made_with_that_limit(self) -> None:
        self.write('more', self.read('limits') + b'days 36500\n')
        self.done('init', self.path('other'), '--accounts', self.path('accounts'), '--limits', self.path('more'), '--demonstration')
        self.assertIn(b'\ndays 36500\ndemonstration\n', self.done('limits', self.path('other')))


@unittest.skipUnless(os.path.exists(SITE), 'there is no site')
class Words(Aged):
    def test_other_days_are_refused(self) -> None:
        for command in ('archive', 'prune'):
            for word in ('0', '36501', '-1', '1.5', 'x', '', '9' * 30):
                done = self.ledger(command, self.folder, '--days=' + word)
                self.assertEqual(done.status, 2, done.out)
                self.assertIn('a number of days is wanted, 1 to 36,500', done.err)
            for word in ('1', '36500'):
                self.done(command, self.folder, '--days', word)

    def test_one_of_two_is_refused_and_none_is_wanted(self) -> None:
        done = self.ledger('archive', self.folder, '--keep', '3', '--days', '3')
        self.assertEqual(done.status, 2)
        self.assertIn('one of --keep and --days is wanted, and not both', done.err)
        self.assertEqual(self.ledger('prune', self.folder).status, 2)
        self.assertEqual(self.ledger('prune', self.folder, '--keep', '3').status, 2)

    def test_limits_with_other_days_are_refused(self) -> None:
        before = self.done('limits', self.folder)
        for lines, why in (('days 0', 'line 12: days are 1 to 36,500'), ('days 36501', 'line 12: days are 1 to 36,500'),
                           ('days 9223372036854775808', 'line 12: '), ('days', 'line 12: not a limit and a number'),
                           ('days x', 'line 12: not a limit and a number'), ('days 3\ndays 3', 'line 13: a line before says this')):
            self.write('said', before + lines.encode() + b'\n')
            done = self.ledger('limits', self.folder, self.path('said'))
            self.assertEqual((done.status, done.out), (3, b''))
            self.assertIn('snomon-site: limits: ' + why, done.err)
        self.assertEqual(self.done('limits', self.folder), before)


@unittest.skipUnless(os.path.exists(SITE), 'there is no site')
class Sizes(Aged):
    def sizes(self) -> List[Tuple[str, int]]:
        lines = [line.split(': ') for line in self.done('status', self.folder, '--sizes').decode().splitlines()]
        return [(name, int(size)) for name, size in lines if name.startswith('bytes of')]

    def size(self, *places: str) -> int:
        return sum(os.lstat(os.path.join(self.at(place), name)).st_size for place in places if os.path.exists(self.at(place))
                   for name in os.listdir(self.at(place)))

    def test_sizes_are_those_of_the_files(self) -> None:
        self.give('anna/a', 'lisa/b')
        self.assertEqual([size for _, size in self.sizes()], [self.size('keep/ledger'), 0, 0, self.size('out/anna', 'out/lisa')])
        self.write('large', LARGE)
        self.done('put', self.folder, self.path('large'))
        self.done('archive', self.folder, '--keep', '2')
        sizes = self.sizes()
        self.assertEqual(sizes, [('bytes of commits', self.size('keep/ledger')), ('bytes of archived commits', self.size('keep/archive')),
                                 ('bytes of checkpoints', self.size('keep/check')), ('bytes of answers', self.size('out/anna', 'out/lisa'))])
        self.assertTrue(all(size > 0 for _, size in sizes))
        self.assertGreater(sizes[2][1], len(LARGE) // 2)
        self.assertNotIn(b'bytes', self.done('status', self.folder))


@unittest.skipUnless(os.path.exists(SITE), 'there is no site')
class Ties(Aged):
    def ended_with(self, *texts: bytes) -> None:
        """A run of these and one before them, with LOG, that is killed while that one is at work: so all wait in the ledger."""
        self.with_limits(statements=1000000000, data_sets=100)
        self.drop([('anna', 'a', (SLOW % (b'anna', 120)).replace(b'000\n', b'000\n$UNIT 1 LOG\n', 1)), *[('anna', 'b%d' % place, text) for place, text in enumerate(texts)]])
        child = subprocess.Popen([SITE, 'run', self.folder], stdout=subprocess.DEVNULL, stderr=subprocess.DEVNULL)
        most = time.monotonic() + 60
        while not os.path.exists(self.at('keep/attempt')) and time.monotonic() < most:
            time.sleep(0.02)
        child.send_signal(signal.SIGKILL)
        child.wait()

    def tied(self) -> Tuple[int, int]:
        said = dict(line.split(': ') for line in self.done('status', self.folder).decode().splitlines())
        return int(said['submissions that wait in the ledger']), int(said['submissions that data sets tie together'])

    def test_the_most_that_are_tied_together_are_told(self) -> None:
        self.assertEqual(self.tied(), (0, 0))
        make = b'$CREATE anna %s\n'
        self.ended_with(make % b'A', make % b'B' + make % b'C', LIST % b'anna', make % b'C' + make % b'D', make % b'D', make % b'E')
        self.assertEqual(self.tied(), (7, 3)) # by C and D; LOG ties two

    def test_one_that_asks_for_all_ties_all(self) -> None:
        self.ended_with(b'$CREATE anna A\n', b'$CATALOG anna\n')
        self.assertEqual(self.tied(), (3, 3))

    def test_the_answers_of_those_that_wait_stay(self) -> None:
        self.ended_with(LIST % b'anna')
        for name in ('0.a.out', '1.b0.out'): # as if the answer stood there already
            self.write(self.at('out/anna/' + name), b'')
            self.age('out/anna/' + name, 100)
        self.assertEqual(self.done('prune', self.folder, '--days', '1'), b'0 answers removed\n')
        self.assertEqual(len(self.given()), 2)
