"""Whatever a user does to a box of a site that keeps all in one ledger, before a run or while it is at work, it costs that user alone."""
from __future__ import annotations

import ctypes
import fcntl
import os
import random
import re
import shutil
import signal
import subprocess
import time
import unittest
from typing import Callable, Iterable, List, Tuple
from ledger_attacking import Attacking, EXCHANGE, LIST, LISTED, NOBODY, OTHER, OfAnOperator, SLOW, WRITES, make_closed, make_text


def change_places(box: bytes, begun: Iterable[bytes]) -> None:
    """Exchanges two files and two folders, as fast as it goes, for as long as this process lives."""
    system, pairs = ctypes.CDLL(None), [(box + b'%c it' % k, box + b'%c other' % k) for k in begun]
    while True:
        for it, other in pairs:
            if system.renameat2(-100, it, -100, other, EXCHANGE):
                make_anew(it, other)


def make_anew(it: bytes, other: bytes) -> None:
    """Makes what is missing of the two, one of which is a file, and one a folder."""
    try:
        if not os.path.lexists(it):
            it, other = other, it
        if not os.path.lexists(it):
            make_closed(it)
        make_text(other) if os.path.isdir(it) else make_closed(other)
    except OSError:
        pass  # the run was quicker


def storm(box: bytes, seed: int) -> None:
    """Does whatever one can do in a box, at random, for as long as this process lives."""
    r, system, names = random.Random(seed), ctypes.CDLL(None), [box + b'%d' % k for k in range(6)]
    acts: List[Callable[[bytes], object]] = [
        make_text, make_text, make_text, make_closed, os.mkdir, os.mkfifo, os.unlink, shutil.rmtree,
        lambda path: os.symlink(r.choice([b'/etc/shadow', box + b'../lisa/it', b'nowhere']), path), lambda path: os.chmod(path, r.choice([0o660, 0])),
        lambda path: os.link(r.choice(names), path), lambda path: os.rename(r.choice(names), path),
        lambda path: system.renameat2(-100, r.choice(names), -100, path, EXCHANGE),
        lambda path: os.chmod(box, 0o2770 if r.random() < 0.98 else r.choice([0o3770, 0o2700, 0o2750, 0o2330, 0]))]
    while True:
        try:
            r.choice(acts)(r.choice(names))
        except OSError:
            pass


def open_and_close(box: bytes) -> None:
    """Lets nobody into the box, and again whom it is for, as fast as it goes, for as long as this process lives."""
    while True:
        os.chmod(box, 0)
        os.chmod(box, 0o2770)


def close_when_taken(box: bytes, first: bytes, mode: int) -> None:
    """Gives the box this mode as soon as its first file has left it, and puts it there again."""
    while os.path.lexists(box + first):
        pass
    make_text(box + first)
    os.chmod(box + first, 0o660)
    os.chmod(box, mode)


def hold(paths: List[bytes]) -> None:
    """Takes a lease on each of these files, and gives none back."""
    signal.signal(signal.SIGIO, signal.SIG_IGN)
    files = [open(path, 'rb+') for path in paths]
    for file in files:
        fcntl.fcntl(file, fcntl.F_SETLEASE, fcntl.F_WRLCK)
    time.sleep(600)


class LedgerBoxesChanged(Attacking):
    """The operator is root."""

    def test_a_box_that_is_not_as_it_must_be_costs_its_user_alone(self) -> None:
        box, away = self.folder + '/in/anna', self.path('away')

        def moved(then: Callable[[], object]) -> None:
            os.rename(box, away)
            then()

        acts: List[Tuple[str, Callable[[], object]]] = [
            ('others may write', lambda: os.chmod(box, 0o2777)), ('others may write', lambda: os.chmod(box, 0o2772)),
            ('sticky', lambda: os.chmod(box, 0o3770)), ('of lisa', lambda: os.chown(box, OTHER, -1)),
            ('missing', lambda: os.rename(box, away)),
            ('a link', lambda: moved(lambda: os.symlink('lisa', box))), ('a link to itself', lambda: moved(lambda: os.symlink('anna', box))),
            ('a file', lambda: moved(lambda: shutil.copy('/etc/hostname', box))), ('a fifo', lambda: moved(lambda: os.mkfifo(box)))]
        for what, act in acts:
            with self.subTest(what):
                self.drop('anna', 'it', LIST % b'anna')
                before = len(self.answers('anna'))
                act()
                done = self.serves_lisa(0)
                self.assertIn('in/anna', done.err)
                self.assertEqual(self.last('anna', before), [])
                self.assertEqual(self.ledger('status', self.folder).status, 3)
                if os.path.exists(away):
                    if os.path.lexists(box):
                        os.remove(box)
                    os.rename(away, box)
                os.chown(box, self.operator or self.users['anna'], -1)
                os.chmod(box, 0o2770)
                self.runs(0)
                self.assertEqual(self.last('anna', before), [LISTED % b'anna'])
        self.is_as_ever()

    def test_a_folder_that_changes_places_with_a_file_all_the_time_stops_nobody(self) -> None:
        self.serves_lisa_while(20, [(change_places, self.box('anna', ''), begun) for begun in (b'ab', b'cd')])
        self.is_as_ever()

    def test_a_box_that_is_opened_and_closed_all_the_time_stops_nobody(self) -> None:
        self.serves_lisa_while(20, [(open_and_close, self.folder + '/in/anna')])
        self.is_as_ever()

    def test_whatever_a_user_does_in_a_box_the_others_are_served(self) -> None:
        self.serves_lisa_while(20, [(storm, self.box('anna', ''), seed) for seed in (1, 2)])
        told = rb'REFUSED [^\n]*\n(NOT A FILE OF anna|NOT READABLE|LIMIT texts: \d+ of 10)\n|' + LISTED % b'anna'
        self.assertEqual([text for text in self.answers('anna').values() if text and not re.fullmatch(told, text)], [])
        self.is_as_ever()

    def test_a_box_that_is_closed_when_files_are_taken_out_of_it_stops_nobody(self) -> None:
        for name in range(9):
            self.drop('anna', '%d' % name, LIST % b'anna')
        self.begins_as_anna(close_when_taken, self.box('anna', ''), b'0', 0o2330)
        time.sleep(0.3)
        self.serves_lisa()
        for _ in range(3):
            self.serves_lisa()
        self.is_as_ever()

    def test_a_box_that_the_system_shows_nobody_else_costs_its_user_alone(self) -> None:
        """A user may put a file system of one's own there, of which the system tells nobody else, nor root."""
        box = self.folder + '/in/anna'
        try:
            device = os.open('/dev/fuse', os.O_RDWR)
        except OSError:
            self.skipTest('there is no such device')
        options = 'fd=%d,rootmode=40000,user_id=%d,group_id=%d' % (device, NOBODY, NOBODY)
        system = ctypes.CDLL(None, use_errno=True)
        failed = system.mount(b'none', box.encode(), b'fuse', 6, options.encode())
        if failed:
            os.close(device)
            self.skipTest('nothing can be mounted')
        try:
            self.serves_lisa()
            os.close(device)
            self.serves_lisa()
        finally:
            subprocess.run(['umount', '-l', box], check=True)
        self.is_as_ever()

    def test_a_file_that_takes_the_place_of_a_claimed_one_is_not_lost(self) -> None:
        """Whoever puts another file under the name of one that a run has just claimed, gets two answers."""
        if not shutil.which('strace'):
            self.skipTest('there is no strace')
        first = self.drop('anna', 'it', WRITES % (b'anna', b'first text'))
        log = self.write('log', b'')
        os.chmod(log, 0o666)
        words = ['strace', '-f', '-qq', '-o', log, '-e', 'trace=link,linkat', '-e', 'inject=link,linkat:delay_exit=1500000:when=1',
                 self.program, 'run', self.folder]
        begun = subprocess.Popen(words, stdout=subprocess.DEVNULL, stderr=subprocess.DEVNULL, **self.as_operator())
        for _ in range(1000):
            if os.listdir(self.folder + '/keep/taken'):
                break
            time.sleep(0.01)
        os.rename(self.drop('anna', '.second', WRITES % (b'anna', b'second text')), first)
        self.assertIn(begun.wait(), (0, 1))
        self.runs(0)
        catalogue = self.ledger('catalogue', self.folder).out
        self.assertEqual((len(self.answers('anna')), [word in catalogue for word in (b'first text', b'second text')]), (2, [True, True]))


class LedgerBoxesChangedOfAnOperator(OfAnOperator, LedgerBoxesChanged):
    """The operator is not root."""

    def test_a_box_of_the_operator_cannot_be_closed_by_its_user(self) -> None:
        for script in ('chmod 0 "$1"', 'chown 1 "$1"', 'chmod o+rwx "$1"', 'mv "$1" "$1.away"', 'rmdir "$1"', 'chmod +t "$1"'):
            self.assertNotEqual(self.as_user('anna', script, self.folder + '/in/anna'), 0, script)
        self.is_as_ever()

    def test_a_box_of_its_user_is_passed_over_alone_whatever_its_mode_is(self) -> None:
        """Its user could close it while a run is at work."""
        box = self.folder + '/in/anna'
        for mode in (0o2770, 0, 0o2700, 0o2330, 0o2550, 0o2440):
            with self.subTest('%o' % mode):
                before = len(self.answers('anna'))
                self.drop('anna', 'it', LIST % b'anna')
                os.chown(box, self.users['anna'], -1)
                os.chmod(box, mode)
                self.assertIn('in/anna: is not the operator\'s', self.serves_lisa().err)
                os.chown(box, self.operator, -1)
                os.chmod(box, 0o2770)
                self.runs(0, 1)
                self.assertEqual(self.last('anna', before), [LISTED % b'anna'])
        self.is_as_ever()


class LedgerLeases(Attacking):
    def test_files_that_their_user_holds_back_hold_a_run_once(self) -> None:
        """Whoever opens such a file waits until the system takes the lease away."""
        with open('/proc/sys/fs/leases-enable') as enabled, open('/proc/sys/fs/lease-break-time') as file:
            most = int(file.read())
            if enabled.read().strip() != '1' or most > 60:
                self.skipTest('there are no leases, or they last')
        self.begins_as_anna(hold, [self.drop('anna', name, LIST % b'anna') for name in 'abc'])
        time.sleep(1)
        self.drop('lisa', 'it', LIST % b'lisa')
        begun = time.monotonic()
        self.assertEqual(self.ledger('run', self.folder).status, 1)
        self.assertLess(time.monotonic() - begun, most + SLOW)
        self.assertEqual(list(self.answers('lisa').values()), [LISTED % b'lisa'])
        self.assertEqual(list(self.answers('anna').values()), [LISTED % b'anna'] + [b'REFUSED %c\nNOT READABLE\n' % name for name in b'bc'])


if __name__ == '__main__':
    unittest.main()
