"""Whatever a user puts into a box of a site that keeps all in one ledger is answered, or told, or stays there; and the others are answered."""
from __future__ import annotations

import os
import shutil
import socket
import stat
import unittest
from typing import List
from ledger_attacking import Attacking, LIST, LISTED, NOBODY, Name, ODD, OTHER, OfAnOperator, make_closed


def keep_writing(path: bytes) -> None:
    """Makes a file longer and shorter, as fast as it goes."""
    with open(path, 'r+b', buffering=0) as file:
        while True:
            for length in (0, 15, 9000, 20000):
                file.truncate(length)
                file.seek(0)
                file.write(LIST % b'anna')


class Box:
    """What stands in a box and is no text of its user, by what it is: each made at a path, for a user and beside a room of others' files."""

    @staticmethod
    def folder(path: bytes, uid: int, room: str) -> None:
        make_closed(path)

    @staticmethod
    def fifo(path: bytes, uid: int, room: str) -> None:
        os.mkfifo(path)

    @staticmethod
    def device(path: bytes, uid: int, room: str) -> None:
        os.mknod(path, stat.S_IFCHR | 0o666, os.makedev(1, 5))

    @staticmethod
    def block_device(path: bytes, uid: int, room: str) -> None:
        os.mknod(path, stat.S_IFBLK | 0o666, os.makedev(7, 0))

    @staticmethod
    def socket(path: bytes, uid: int, room: str) -> None:
        with socket.socket(socket.AF_UNIX) as it:
            os.chdir(os.path.dirname(path))
            it.bind(os.path.basename(path))
            os.chdir('/')

    @staticmethod
    def link_to_a_secret(path: bytes, uid: int, room: str) -> None:
        os.symlink('/etc/shadow', path)

    @staticmethod
    def link_to_anothers(path: bytes, uid: int, room: str) -> None:
        os.symlink('../lisa/hers', path)

    @staticmethod
    def link_to_itself(path: bytes, uid: int, room: str) -> None:
        os.symlink(os.path.basename(path), path)

    @staticmethod
    def link_to_nothing(path: bytes, uid: int, room: str) -> None:
        os.symlink('nowhere', path)

    @staticmethod
    def link_to_a_folder(path: bytes, uid: int, room: str) -> None:
        os.symlink('/', path)

    @staticmethod
    def link_to_what_is_kept(path: bytes, uid: int, room: str) -> None:
        os.symlink('../../keep/ledger/00000000', path)

    @staticmethod
    def anothers_file(path: bytes, uid: int, room: str) -> None:
        with open(path, 'wb') as file:
            file.write(LIST % b'anna')
        os.chown(path, OTHER, -1)

    @staticmethod
    def second_name_of_anothers(path: bytes, uid: int, room: str) -> None:
        with open(room + '/hers', 'wb') as file:
            file.write(LIST % b'anna')
        os.chown(room + '/hers', OTHER, -1)
        os.link(room + '/hers', path)

    @staticmethod
    def second_name_of_ones_own(path: bytes, uid: int, room: str) -> None:
        with open(room + '/mine', 'wb') as file:
            file.write(LIST % b'anna')
        os.chown(room + '/mine', uid, -1)
        os.link(room + '/mine', path)

    @staticmethod
    def ten_gigabytes(path: bytes, uid: int, room: str) -> None:
        with open(path, 'wb') as file:
            file.truncate(10**10)


class LedgerBoxes(Attacking):
    """The operator is root."""

    def test_what_is_no_text_of_its_user_is_told_and_never_opened(self) -> None:
        for what, made in vars(Box).items():
            if what.startswith('_'):
                continue
            with self.subTest(what):
                before, path = len(self.answers('anna')), self.box('anna', 'it')
                made.__func__(path, NOBODY, self.room)
                if what not in ('anothers_file', 'second_name_of_anothers'):
                    os.chown(path, NOBODY, self.operator or NOBODY, follow_symlinks=False)
                self.drop('lisa', 'hers', LIST % b'lisa')
                self.serves_it_beside('lisa', 2)
                told = self.last('anna', before)
                if self.waiting('anna'):
                    self.assertEqual(told, [])
                    shutil.rmtree(path) if what == 'folder' else os.remove(path)
                else:
                    self.assertIn(told, ([b'REFUSED it\nNOT A FILE OF anna\n'], [b'REFUSED it\nTOO LONG\n']))
                for name in ('hers', 'mine'):
                    if os.path.exists(self.path(name)):
                        os.remove(self.path(name))
        self.is_as_ever()

    def test_a_folder_that_is_hidden_or_full_stays_where_it_is(self) -> None:
        for name in ('.hidden', 'folder', 'folder.job'):
            make_closed(self.box('anna', name))
        self.drop('anna', '.draft', LIST % b'anna')
        self.drop('anna', 'kept~', LIST % b'anna')
        self.serves_lisa(0)
        self.assertEqual((self.answers('anna'), self.waiting('anna')), ({}, ['.draft', '.hidden', 'folder', 'folder.job', 'kept~']))
        self.is_as_ever()

    def test_odd_names_are_answered_and_told_plainly(self) -> None:
        names: List[Name] = [ODD, 'two words', 'x' * 64, 'x' * 65, 'x' * 240, '-rf', '--help', '-', 'a:b:c', ':', '%n%s', 'a\\b', '"\'', '\xe4',
                             'a\tb', '1:anna:x', 'a;b', '\u202e', '$(id)', '*']
        self.write('more', self.limits(texts=100))
        self.assertEqual(self.ledger('limits', self.folder, self.path('more')).status, 0)
        for name in names:
            self.drop('anna', name, LIST % b'anna')
        self.serves_lisa(0)
        self.assertEqual(self.waiting('anna'), [])
        self.assertEqual(list(self.answers('anna').values()), [LISTED % b'anna'] * len(names))
        self.is_as_ever()

    def test_names_that_cannot_be_claimed_stop_nobody_and_are_told_plainly(self) -> None:
        names: List[Name] = ['x' * 255, 'x' * 250, ODD + '\n' * (254 - len(ODD.encode())), b'\xe4\xff', b'\xff' * 255]
        for name in names:
            self.drop('anna', name, LIST % b'anna')
        for command in ('run', 'status', 'run'):
            self.drop('lisa', command + str(len(self.answers('lisa'))), LIST % b'lisa')
            self.assertEqual(self.ledger(command, self.folder).status, 0)
        self.runs(0)
        self.assertEqual(list(self.answers('lisa').values()), [LISTED % b'lisa'] * 3)
        self.is_as_ever()

    def test_a_name_that_is_too_long_to_be_claimed_is_told(self) -> None:
        self.drop('anna', 'x' * 255, LIST % b'anna')
        self.assertIn('in/anna/%s: the system lets the operator not claim it: it stays there\n' % ('x' * 255), self.serves_lisa(0).err)
        self.assertEqual((self.answers('anna'), self.waiting('anna')), ({}, ['x' * 255]))

    def test_names_that_are_no_text_and_files_of_two_names_stay_where_they_are(self) -> None:
        self.drop('anna', b'\xe4\xff', LIST % b'anna')
        os.link(self.drop('anna', 'a', LIST % b'anna'), self.box('anna', 'b'))
        for _ in range(2):
            told = self.serves_lisa(0).err
            for words in ('in/anna: has a name that is no text: what has it stays there\n', 'in/anna/a: stands under two names: it stays there\n',
                          'in/anna/b: stands under two names: it stays there\n'):
                self.assertIn(words, told)
            self.assertEqual((self.answers('anna'), self.waiting('anna')), ({}, ['a', 'b', '\udce4\udcff']))
        os.remove(self.box('anna', 'b'))
        self.serves_lisa(0)
        self.assertEqual((list(self.answers('anna').values()), self.waiting('anna')), ([LISTED % b'anna'], ['\udce4\udcff']))
        self.is_as_ever()

    def test_a_file_that_is_too_long_or_grows_is_refused_alone(self) -> None:
        self.drop('anna', 'long', b'\n' * 10001)
        self.begins_as_anna(keep_writing, self.drop('anna', 'growing', b''))
        self.serves_lisa(1)
        answers = list(self.answers('anna').values())
        self.assertEqual((len(answers), b'REFUSED long\nTOO LONG\n' in answers), (2, True), answers)
        self.is_as_ever()

    def test_many_files_and_folders_in_a_box_do_not_hold_the_others(self) -> None:
        for number in range(2000):
            self.drop('anna', '%05d' % number, LIST % b'anna')
            os.mkdir(self.box('anna', 'folder%d' % number))
        self.serves_lisa(1)
        self.assertLessEqual(len(self.answers('anna')), 20)
        self.assertEqual(len([name for name in self.waiting('anna') if not name.startswith('folder')]), 2000 - len(self.answers('anna')))
        self.serves_lisa(1)
        self.assertEqual(len([name for name in self.waiting('anna') if not name.startswith('folder')]), 2000 - len(self.answers('anna')))
        self.is_as_ever()

    def test_many_names_that_cannot_be_claimed_do_not_hold_the_others(self) -> None:
        self.write('more', self.limits(texts=300, jobs=300))
        self.assertEqual(self.ledger('limits', self.folder, self.path('more')).status, 0)
        for number in range(600):
            self.drop('anna', 'A%0254d' % number, LIST % b'anna')
        for number in range(299):
            self.drop('lisa', '%05d' % number, LIST % b'lisa')
        self.serves_it_beside('lisa', 300)


class LedgerBoxesOfAnOperator(OfAnOperator, LedgerBoxes):
    """The operator is not root."""

    def test_a_file_that_the_operator_may_not_write_stays_and_is_told(self) -> None:
        """The system lets nobody else claim it, where it protects files from that."""
        with open('/proc/sys/fs/protected_hardlinks') as file:
            if file.read().strip() != '1':
                self.skipTest('the system protects no file from it')
        for mode in (0o600, 0o640, 0o644):
            with self.subTest('%o' % mode):
                path = self.drop('anna', '%o' % mode, LIST % b'anna')
                os.chmod(path, mode)
                self.assertIn('in/anna/%o: the system lets the operator not claim it: it stays there\n' % mode, self.serves_lisa(0).err)
                self.assertEqual((self.answers('anna'), self.waiting('anna')), ({}, ['%o' % mode]))
                queue = self.ledger('queue', self.folder, '--account', 'anna', user=NOBODY, group=NOBODY)
                self.assertEqual(queue.out, b'%o MAY STAY: chmod g+rw lets the operator claim it\n' % mode)
                os.remove(path)
        self.drop('anna', 'it', LIST % b'anna')
        self.assertEqual(self.ledger('queue', self.folder, '--account', 'anna', user=NOBODY, group=NOBODY).out, b'it\n')
        self.serves_lisa(0)
        self.assertEqual(list(self.answers('anna').values()), [LISTED % b'anna'])


if __name__ == '__main__':
    unittest.main()
