"""What a site keeps that keeps all in one ledger was edited by hand: that is refused, and nothing changes."""
from __future__ import annotations

import os
import random
import shutil
import stat
import unittest
from typing import Callable, Dict
from ledger_attacking import Attacking, LIST, NOBODY, WRITES


class LedgersEdited(Attacking):
    """The operator is root."""

    def setUp(self) -> None:
        super().setUp()
        for number in range(4):
            for account in self.users:
                self.drop(account, '%d' % number, WRITES % (account.encode(), b'text %d' % number))
            self.runs(0)
        self.ledgers = self.folder + '/keep/ledger/'
        self.drop('anna', 'waits', LIST % b'anna')

    def standing(self) -> Dict[str, bytes]:
        """What stands there, but for what is written before it gets its name."""
        found = {}
        for place, _, files in os.walk(self.folder):
            for name in files:
                path = os.path.relpath(os.path.join(place, name), self.folder)
                if os.path.isfile(os.path.join(place, name)) and not path.startswith('keep/draft/') and path not in ('keep/lock', 'keep/attempt'):
                    found[path] = self.read(os.path.join(place, name))
        return found

    def refuses(self, what: str, *commands: str) -> None:
        """Each of these is refused, and changes nothing."""
        before = self.standing()
        for command in commands or ('run', 'status', 'catalogue', 'verify'):
            done = self.ledger(command, self.folder)
            self.assertIn(done.status, (1, 3) if command == 'verify' else (3,), '%s: %s: %s%s' % (what, command, done.out.decode(), done.err))
            self.assertTrue(done.err, what)
        self.assertEqual({key for key in before.keys() | self.standing().keys() if before.get(key) != self.standing().get(key)}, set(), what)

    def mended(self, act: Callable[[], None], what: str, *commands: str) -> None:
        """That is refused; then the ledger is put back."""
        kept = self.path('kept')
        shutil.copytree(self.ledgers, kept)
        try:
            act()
            self.refuses(what, *commands)
        finally:
            shutil.rmtree(self.ledgers)
            shutil.move(kept, self.ledgers)
            os.chmod(self.ledgers, 0o700)

    def put(self, number: int, content: bytes) -> None:
        self.write('%s%08d' % (self.ledgers, number), content)

    def put_each(self, contents: Dict[int, bytes]) -> None:
        for number, content in contents.items():
            self.put(number, content)

    def commit(self, number: int) -> bytes:
        return self.read('%s%08d' % (self.ledgers, number))

    def test_a_commit_that_was_cut_or_made_longer_is_refused(self) -> None:
        chance, count = random.Random(1), len(self.commits())
        for number in [0, 1, count - 1] + chance.sample(range(count), 4):
            text = self.commit(number)
            for cut in {0, 1, len(text) - 1, chance.randrange(len(text))}:
                self.mended(lambda: self.put(number, text[:cut]), 'commit %d cut at %d of %d' % (number, cut, len(text)))
            self.mended(lambda: self.put(number, text + b'\n'), 'commit %d with a line more' % number)

    def test_a_commit_in_which_a_byte_was_changed_is_refused(self) -> None:
        chance, count = random.Random(2), len(self.commits())
        for _ in range(25):
            number = chance.randrange(count - 1)  # nothing names the last one
            text = bytearray(self.commit(number))
            text[chance.randrange(len(text))] ^= 1 << chance.randrange(8)
            self.mended(lambda: self.put(number, bytes(text)), 'commit %d changed' % number)

    def test_commits_that_changed_places_or_stand_twice_are_refused(self) -> None:
        count = len(self.commits())
        for one, other in [(0, 1), (1, 2), (count - 2, count - 1), (3, 7)]:
            first, second = self.commit(one), self.commit(other)
            self.mended(lambda: self.put_each({one: second, other: first}), '%d and %d changed places' % (one, other))
            self.mended(lambda: self.put(other, first), '%d stands in the place of %d' % (one, other))
        for number in (0, 5, count - 1):
            text = self.commit(number)
            self.mended(lambda: self.put(count, text), '%d stands behind the last one' % number)

    def test_a_commit_that_was_taken_away_is_noticed(self) -> None:
        count = len(self.commits())
        for number in (0, 1, 2, 9, count - 2):
            with self.subTest(number):
                self.mended(lambda: self.is_told_lacking(number), '%d was taken away of %d' % (number, count))

    def is_told_lacking(self, number: int) -> None:
        os.remove('%s%08d' % (self.ledgers, number))
        for command in ('run', 'status', 'verify'):
            place = 'archive' if number == 0 and command == 'verify' else 'ledger'  # where the first ones may have been put
            self.assertEqual(self.ledger(command, self.folder).err, 'snomon-site: %s/keep/%s: lacks a commit\n' % (self.folder, place))

    def test_a_commit_that_is_no_file_is_refused(self) -> None:
        def folder() -> None:
            os.remove('%s%08d' % (self.ledgers, 5))
            os.mkdir('%s%08d' % (self.ledgers, 5))

        def link() -> None:
            os.remove('%s%08d' % (self.ledgers, 5))
            os.symlink('%08d' % 5, '%s%08d' % (self.ledgers, 5))
        self.mended(folder, 'a folder')
        self.mended(link, 'a link to itself')

    def test_a_commit_of_another_site_is_refused(self) -> None:
        folder, self.folder = self.folder, self.path('other')
        self.make(self.folder, texts=9)
        self.drop('anna', 'other', LIST % b'anna')
        self.runs(0)
        others = [self.read('%s/keep/ledger/%s' % (self.folder, name)) for name in self.commits()]
        self.folder = folder
        for number in range(1, len(others)):
            self.mended(lambda: self.put(number, others[number]), 'commit %d of another site' % number)
        self.mended(lambda: self.put(len(self.commits()), others[-1]), 'one of another site behind the last')

    def test_what_stands_among_claimed_files_by_hand_is_answered_or_refused(self) -> None:
        taken = self.folder + '/keep/taken/'
        self.runs(0)
        for name in ('x', '1', '00000001', '1:anna', 'x:anna:it', '-1:anna:it', '99999999999999999999:anna:it', '7:nobody:it', '7::',
                     '18446744073709551615:anna:it'):
            with self.subTest(name):
                self.write(taken + name, LIST % b'anna')
                os.chown(taken + name, NOBODY, -1)
                self.refuses(name, 'run', 'status')
                os.remove(taken + name)
        for name in ('100:anna:it', '100:lisa:it'):
            self.write(taken + name, LIST % b'anna')
        self.refuses('two files of one number', 'run', 'status')
        for name in os.listdir(taken):
            os.remove(taken + name)
        before = len(self.answers('anna'))
        for name in ('100:anna:it', '101:anna:it'):
            self.write(taken + name, LIST % b'anna')
            os.chown(taken + name, NOBODY, -1)
        self.write(taken + '3:anna:old', LIST % b'anna')
        self.runs(0)
        self.assertEqual((len(self.last('anna', before)), os.listdir(taken)), (2, []))
        self.is_whole()

    def test_a_folder_that_is_too_open_or_of_another_is_refused(self) -> None:
        for name, mode in [('', 0o775), ('', 0o757), ('in', 0o777), ('out', 0o775), ('keep', 0o750), ('keep/ledger', 0o701), ('keep/taken', 0o770),
                           ('keep/draft', 0o740)]:
            with self.subTest(name):
                path = os.path.join(self.folder, name) if name else self.folder
                own = stat.S_IMODE(os.stat(path).st_mode)
                os.chmod(path, mode)
                self.refuses(name, 'run', 'status')
                os.chmod(path, own)
                os.chown(path, NOBODY, -1)
                self.refuses(name, 'run', 'status')
                os.chown(path, 0, -1)
        self.runs(0)

    def test_a_folder_that_is_missing_or_none_is_refused(self) -> None:
        for name in ('in', 'out', 'keep', 'keep/ledger', 'keep/draft', 'keep/taken'):
            path, away = os.path.join(self.folder, name), self.path('away')
            for what in ('missing', 'a file', 'a link'):
                with self.subTest(name + ' is ' + what):
                    os.rename(path, away)
                    if what == 'a file':
                        self.write(path, b'')
                    elif what == 'a link':
                        os.symlink(away, path)
                    self.refuses(name, 'run', 'status')
                    if what != 'missing':
                        os.remove(path)
                    elif os.path.isdir(path):
                        os.rmdir(path)
                    os.rename(away, path)
        self.runs(0)
        self.is_whole()

    def test_a_lock_that_is_no_file_is_refused(self) -> None:
        lock = self.folder + '/keep/lock'
        os.remove(lock)
        os.mkdir(lock)
        self.refuses('a folder', 'run', 'status')
        os.rmdir(lock)
        os.symlink('/nowhere/at/all', lock)
        self.refuses('a link', 'run', 'status')
        os.remove(lock)
        self.runs(0)


if __name__ == '__main__':
    unittest.main()
