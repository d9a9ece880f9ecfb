"""Files that are written whole or not at all: full disks, closed pipes, signals; devices and pipes; and files that are long."""
from __future__ import annotations

import os
import resource
import shutil
import signal
import stat
import struct
import subprocess
import sys
import time
from typing import BinaryIO, List, Tuple
from trying import ACCOUNTS, BOTH, DECK, MOST_MEMORY, NO_WORDS, Trying, deck, run

LONG = 300_000_000
LIST = b'user::rwx,group::---,other::---\n'


def write_a_long_output(file: BinaryIO, bytes_in_all: int, width: int) -> int:
    """Data sets of 100,000 records; how many of them."""
    records, count = (b'$CATALOGUE' * 200)[:width] + b'\n', 0
    file.write(b'$CATALOGUE\n')
    while file.tell() < bytes_in_all:
        count += 1
        file.write(b'$SET S%d anna admin 100000\n' % count + LIST)
        for _ in range(100):
            file.write(records * 1000)
    return count


class Whole(Trying):
    def setUp(self) -> None:
        super().setUp()
        self.write('output', BOTH[1])
        self.words = ['put', self.path('output'), 'LOG', self.write('long', (b'B' * 1000 + b'\n') * 300)]

    def test_a_limit_of_file_size_leaves_the_old_file(self) -> None:
        self.write('old', b'old')
        limit = lambda: resource.setrlimit(resource.RLIMIT_FSIZE, (100_000, 100_000))  # noqa: E731
        done = deck(*self.words, '-o', self.path('old'), preexec_fn=limit)
        self.is_refused(done, 'File too large', 3)
        self.assertEqual((self.read('old'), self.names()), (b'old', ['long', 'old', 'output']))

    def test_a_full_disk_leaves_the_old_file(self) -> None:
        self.in_a_small_disk(self.words + ['-o', 'DISK/old'], 'old: No space left on device')

    def test_a_full_disk_leaves_no_folder(self) -> None:
        self.write('deck', b'$ACCOUNTS\n' + ACCOUNTS + b'$CATALOGUE\n$SET A anna admin 300\n' + LIST + (b'B' * 1000 + b'\n') * 300 + b'$STREAM\n$STOP\n')
        self.in_a_small_disk(['split', self.path('deck'), 'DISK/parts'], 'parts: No space left on device')

    def test_a_full_folder_for_temporary_files_is_told(self) -> None:
        self.in_a_small_disk(self.words, 'DISK: No space left on device', TMPDIR='DISK')

    def in_a_small_disk(self, words: List[str], message: str, **environment: str) -> None:
        disk = self.path('disk')
        os.mkdir(disk)
        script = ('mount -t tmpfs -o size=128k small "$1" || exit 99; disk=$1; shift; echo old >"$disk/old"; "$@"; status=$?; '
                  'test "$(ls -A "$disk")" = old && test "$(cat "$disk/old")" = old || exit 98; exit $status')
        # The disk is mounted in a world of its own, which goes with the command.
        begin = ['unshare', '--mount'] + ([] if os.geteuid() == 0 else ['--map-root-user']) + ['sh', '-c', script, 'sh', disk]
        if not shutil.which('unshare') or run(begin + ['true']).status != 0:
            self.skipTest('there is no right to mount a small disk')
        environment = {key: value.replace('DISK', disk) for key, value in environment.items()}
        done = run(begin + [sys.executable, DECK] + [word.replace('DISK', disk) for word in words], env={**os.environ, **environment})
        self.is_refused(done, message.replace('DISK', disk), 3)

    def test_a_full_device_and_a_closed_pipe_are_told(self) -> None:
        with open('/dev/full', 'wb') as full:
            done = subprocess.run([sys.executable, DECK, *self.words], stdout=full, stderr=subprocess.PIPE, timeout=60)
        self.assertEqual((done.returncode, done.stderr), (3, b'snomon-deck: standard output: No space left on device\n'))
        self.is_refused(deck(*self.words, '-o', '/dev/full'), '/dev/full: No space left on device', 3)
        self.assertFalse(os.path.isfile('/dev/full'))
        for words in (self.words, ['names', self.path('output')], ['printouts', self.path('output')]):
            reading, writing = os.pipe()
            os.close(reading)
            done = subprocess.run([sys.executable, DECK, *words], stdout=writing, stderr=subprocess.PIPE, timeout=60)
            os.close(writing)
            self.assertEqual((done.returncode, done.stderr), (3, b'snomon-deck: standard output: Broken pipe\n'))

    def test_a_closed_pipe_for_the_help_gives_no_traceback(self) -> None:
        for words in (['--help'], ['next', '--help']):
            for unbuffered in ('', '1'):  # where it is not buffered, some versions of Python do not tell of it
                reading, writing = os.pipe()
                os.close(reading)
                done = subprocess.run([sys.executable, DECK, *words], stdout=writing, stderr=subprocess.PIPE, timeout=60,
                                      env={**os.environ, 'PYTHONUNBUFFERED': unbuffered})
                os.close(writing)
                self.assertIn(done.stderr, (b'snomon-deck: standard output: Broken pipe\n', b'') if unbuffered else (b'snomon-deck: standard output: Broken pipe\n',))

    def test_closed_standard_streams_are_told(self) -> None:
        done = run(['sh', '-c', '"$@" >&-', 'sh', sys.executable, DECK, *self.words])
        self.is_refused(done, 'standard output: it is closed', 3)
        done = run(['sh', '-c', '"$@" 2>&-', 'sh', sys.executable, DECK, 'get', self.path('output'), 'GONE'])
        self.assertEqual((done.status, done.out, done.err), (1, b'', ''))

    def test_a_signal_leaves_nothing(self) -> None:
        os.mkfifo(self.path('slow'))
        for number in (signal.SIGTERM, signal.SIGHUP, signal.SIGINT):
            words = ['next', self.path('slow'), '--accounts', self.write('accounts', ACCOUNTS), '--stream', self.write('stream', b''), '-o', self.path('new')]
            running = subprocess.Popen([sys.executable, DECK, *words], stderr=subprocess.PIPE,
                                       preexec_fn=lambda: signal.signal(number, signal.SIG_DFL))  # which who runs this may ignore
            with open(self.path('slow'), 'wb') as slow:
                slow.write(BOTH[1])
                slow.flush()
                while not any(name.endswith('.part') for name in self.names()):
                    time.sleep(0.01)
                running.send_signal(number)
                said = running.communicate(timeout=60)[1]
            self.assertEqual((running.returncode, said), (128 + number, b''))
            self.assertEqual(self.names(), ['accounts', 'long', 'output', 'slow', 'stream'])

    def test_the_mode_of_a_file_and_a_link_to_it_stay(self) -> None:
        os.chmod(self.write('old', b'old'), 0o640)
        os.symlink('old', self.path('link'))
        self.assertEqual(deck('names', self.path('output'), '-o', self.path('link')).status, 0)
        self.assertEqual((self.read('old'), os.stat(self.path('old')).st_mode & 0o777), (b'PAYROLL\nEMPTY\nLOG\n', 0o640))
        self.assertTrue(os.path.islink(self.path('link')))

    def test_files_that_cannot_be_read_are_told(self) -> None:
        os.mkdir(self.path('folder'))
        self.is_refused(deck('names', self.path('folder')), 'folder: Is a directory', 3)
        self.is_refused(deck('names', self.path('gone')), 'gone: No such file or directory', 3)
        self.is_refused(deck('names', self.path('output'), '-o', self.path('gone/new')), 'gone/new: No such file or directory', 3)
        self.is_refused(deck('names', self.path('output'), '-o', self.path('folder')), 'folder: Is a directory', 3)

    def test_words_that_are_none_and_help_write_no_file(self) -> None:
        for words in (NO_WORDS, ['bogus'], ['next', 'x'], ['failed'], ['get', 'x'], ['printouts', 'x', '--job', '-1'], ['split', 'x', 'y', '--slots', '9'],
                      ['split', 'x', 'y', '--parts', '0'], ['join'], ['names', 'x', 'y'], ['page']):
            done = deck(*words)
            self.assertEqual((done.status, done.out), (2, b''))
            self.assertIn('usage: snomon-deck', done.err)

    def test_the_help_of_each_command_says_what_becomes_of_its_file(self) -> None:
        written = {'next': 'the deck', 'failed': 'the list', 'get': 'the records', 'put': 'the whole output with that change', 'names': 'the names',
                   'printouts': 'the printouts', 'new': 'the catalogue', 'join': 'the output', 'page': 'the page', 'split': None,
                   'acl': 'the catalogue', 'audit': 'the list'}
        for words in (NO_WORDS, *([command] for command in written)):
            done = deck(*words, '--help')
            self.assertEqual((done.status, done.err), (0, ''))
            self.assertTrue(done.out.startswith(b'usage: snomon-deck'))
            told = ' '.join(done.out.decode().split())
            self.assertIn('The status is 0', told)
            if not words:
                self.assertLessEqual(set(written), set(told.split()))
            elif written[words[0]] is not None:
                self.assertIn(f'--output FILE write {written[words[0]]} to this file, whole or not at all, and not to standard output', told)


class Kept(Trying):
    """What a file that is replaced leaves to the new one, and what nobody else may use."""

    def setUp(self) -> None:
        super().setUp()
        self.write('output', BOTH[1])

    def of(self, name: str) -> Tuple[int, int, int]:
        there = os.stat(self.path(name))
        return there.st_uid, there.st_gid, stat.S_IMODE(there.st_mode)

    def test_new_files_are_for_their_owner_alone_whatever_the_umask(self) -> None:
        for umask in (0, 0o022, 0o777):
            done = deck('names', self.path('output'), '-o', self.path('new'), preexec_fn=lambda: os.umask(umask))
            self.assertEqual((done.status, self.of('new')[2]), (0, 0o600))
            os.remove(self.path('new'))

    def test_what_is_written_is_on_the_disk_with_its_name_before_the_end(self) -> None:
        from decks import files
        waited = []

        def fsync(number: int) -> None:
            there = os.fstat(number)
            waited.append((there.st_size if stat.S_ISREG(there.st_mode) else there.st_ino, 'new' in self.names()))

        self.addCleanup(setattr, os, 'fsync', os.fsync)
        setattr(os, 'fsync', fsync)
        with files.written(self.path('new')) as file:
            file.write(b'12345')
        self.assertEqual(waited, [(5, False), (os.stat(self.room).st_ino, True)])

    def test_no_setuid_or_setgid_bit_is_taken_along(self) -> None:
        for mode in (0o4755, 0o2750, 0o1644):
            os.chmod(self.write('old', b'#!/bin/sh\n'), mode)
            self.assertEqual(deck('names', self.path('output'), '-o', self.path('old')).status, 0)
            self.assertEqual(self.of('old')[2], mode & 0o777)

    def test_owner_and_group_stay(self) -> None:
        if os.geteuid() != 0:
            self.skipTest('only root can give a file away')
        os.chmod(self.write('old', b'old'), 0o6750)
        os.chown(self.path('old'), 12345, 23456)
        done = deck('names', self.path('output'), '-o', self.path('old'))
        self.assertEqual((done.status, done.err, self.of('old')), (0, '', (12345, 23456, 0o750)))

    def test_without_its_group_a_file_is_for_its_owner_alone_and_it_is_said(self) -> None:
        for owner, said in ((54321, 'its group could not be kept, so only its owner may use it now'),
                            (12345, 'its group and its owner could not be kept, so only its owner may use it now')):
            os.chmod(self.write('old', b'old'), 0o664)
            self.assertEqual(self.as_another(54321, owner, 23456), (0, f'snomon-deck: {self.path("old")}: {said}\n'))
            self.assertEqual((self.of('old'), self.read('old')), ((54321, 54321, 0o600), b'PAYROLL\nEMPTY\nLOG\n'))

    def test_without_its_owner_a_file_is_still_for_its_group_and_it_is_said(self) -> None:
        os.chmod(self.write('old', b'old'), 0o660)
        self.assertEqual(self.as_another(54321, 12345, 54321), (0, f'snomon-deck: {self.path("old")}: its owner could not be kept\n'))
        self.assertEqual(self.of('old'), (54321, 54321, 0o660))

    def as_another(self, user: int, owner: int, group: int) -> Tuple[int, str]:
        """Status and message of a run by this user over a file of that owner and group. Python may lie where only root comes."""
        if os.geteuid() != 0:
            self.skipTest('only root can give a file away')
        import locale  # noqa: F401, which the command asks for
        from decks import command
        os.chown(self.path('old'), owner, group)
        os.chmod(self.room, 0o777)
        with open(self.path('said'), 'w') as said:
            child = os.fork()
            if child == 0:
                try:
                    os.setgroups([])
                    os.setresgid(user, user, user)
                    os.setresuid(user, user, user)
                    sys.stderr = said
                    status = command.main(['names', self.path('output'), '-o', self.path('old')])
                    said.flush()
                    os._exit(status)
                finally:
                    os._exit(99)
        return os.WEXITSTATUS(os.waitpid(child, 0)[1]), self.read('said').decode()

    def test_a_permission_list_stays_and_one_of_the_folder_is_not_taken_over(self) -> None:
        entries = ((1, 6, -1), (2, 6, 12345), (4, 0, -1), (16, 6, -1), (32, 0, -1))  # owner, a user, the group, mask, others
        wanted = struct.pack('<I', 2) + b''.join(struct.pack('<HHi', *entry) for entry in entries)
        os.chmod(self.write('old', b'old'), 0o600)
        try:
            os.setxattr(self.path('old'), 'system.posix_acl_access', wanted)
        except OSError:
            self.skipTest('this disk has no permission lists')
        self.assertEqual(deck('names', self.path('output'), '-o', self.path('old')).err, '')
        self.assertEqual((os.getxattr(self.path('old'), 'system.posix_acl_access'), self.of('old')[2]), (wanted, 0o660))
        os.chmod(self.write('other', b'other'), 0o640)
        os.setxattr(self.room, 'system.posix_acl_default', wanted)
        self.assertEqual(deck('names', self.path('output'), '-o', self.path('other')).err, '')
        self.assertEqual((os.listxattr(self.path('other')), self.of('other')[2]), ([], 0o640))

    def test_what_a_killed_run_left_is_taken_away_and_what_another_one_writes_is_not(self) -> None:
        self.write('.old.deck-notes.part', b'of somebody')
        accounts, stream = self.write('accounts', ACCOUNTS), self.write('stream', b'')
        running = []
        for name in ('killed', 'going'):
            os.mkfifo(self.path(name))
            words = ['next', self.path(name), '--accounts', accounts, '--stream', stream, '-o', self.path(name + '.new')]
            running.append(subprocess.Popen([sys.executable, DECK, *words]))
            self.addCleanup(running[-1].kill)
            while not self.parts(name):
                time.sleep(0.01)
        with open(self.path('killed'), 'wb'):
            running[0].kill()
            running[0].wait()
        left, going = self.parts('killed'), self.parts('going')
        self.assertEqual((len(left), len(going)), (1, 1))
        self.assertEqual(deck('names', self.path('output'), '-o', self.path('new')).status, 0)
        self.assertEqual((self.parts('killed'), self.parts('going')), ([], going))
        with open(self.path('going'), 'wb') as slow:
            slow.write(BOTH[1])
        self.assertEqual(running[1].wait(), 0)
        self.assertTrue(self.read('going.new').startswith(b'$ACCOUNTS\n'))
        self.assertEqual(self.names(), ['.old.deck-notes.part', 'accounts', 'going', 'going.new', 'killed', 'new', 'output', 'stream'])

    def parts(self, name: str) -> List[str]:
        return [part for part in self.names() if part.startswith(f'.{name}.') and part.endswith('.part')]

    def test_runs_that_write_into_one_folder_leave_each_other_alone(self) -> None:
        from decks import files
        children = []
        for number in range(6):
            children.append(os.fork())
            if children[-1] == 0:
                try:
                    for round in range(60):
                        with files.written(self.path(f'file{number}')) as file:
                            file.write(b'%d' % round)
                        with files.filled(self.path(f'folder{number}')) as room, files.made(os.path.join(room, f'in{round}')) as file:
                            file.write(b'%d' % round)
                    os._exit(0)
                finally:
                    os._exit(1)
        self.assertEqual([os.waitpid(child, 0)[1] for child in children], [0] * 6)
        self.assertEqual(self.names(), sorted(['output'] + [f'{what}{number}' for what in ('file', 'folder') for number in range(6)]))
        for number in range(6):
            self.assertEqual((self.read(f'file{number}'), len(os.listdir(self.path(f'folder{number}')))), (b'59', 60))

    def test_a_folder_that_a_killed_run_left_is_taken_away(self) -> None:
        from decks import beside
        with beside.part_folder(self.path('parts')) as room:
            left = room + '.deck-abcdefgh.part'  # the same without a lock
            shutil.copytree(room, left)
            with open(os.path.join(left, '1.deck'), 'wb') as part:
                part.write(b'$ACCOUNTS\n')
            self.assertEqual(deck('names', self.path('output'), '-o', self.path('new')).status, 0)
            self.assertEqual((os.path.exists(room), os.path.exists(left)), (True, False))


class Into(Trying):
    """Devices, pipes and descriptors, which nothing takes the place of."""

    def setUp(self) -> None:
        super().setUp()
        self.write('output', BOTH[1])
        self.words = [sys.executable, DECK, 'names', self.path('output')]

    def test_a_descriptor_is_written_into_and_its_file_keeps_what_it_had(self) -> None:
        os.symlink('/dev/stdout', self.path('link'))
        for target in ('/dev/stdout', '/dev/fd/1', '/proc/self/fd/1', '/dev/fd/3', self.path('link')):
            for how in ('>', '>>'):
                self.write('log', b'')
                done = run(['sh', '-c', '{ echo before; "$@"; echo after; } %s"$0" 3>&1' % how, self.path('log'), *self.words, '-o', target])
                self.assertEqual((done.status, done.out, done.err), (0, b'', ''), target)
                self.assertEqual(self.read('log'), b'before\nPAYROLL\nEMPTY\nLOG\nafter\n', (target, how))
        self.assertEqual(self.names(), ['link', 'log', 'output'])

    def test_a_descriptor_of_another_process_is_written_into_at_its_end(self) -> None:
        with open(self.write('log', b'before\n'), 'ab') as log:
            done = run([*self.words, '-o', f'/proc/{os.getpid()}/fd/{log.fileno()}'])
            self.assertEqual((done.status, done.err), (0, ''))
        self.assertEqual(self.read('log'), b'before\nPAYROLL\nEMPTY\nLOG\n')

    def test_nothing_is_written_into_a_descriptor_where_a_file_is_refused(self) -> None:
        self.write('output', BOTH[1][:-1])
        done = run(['sh', '-c', 'echo before >"$0"; "$@" >>"$0"', self.path('log'), *self.words, '-o', '/dev/stdout'])
        self.assertEqual((done.status, self.read('log')), (1, b'before\n'))
        self.is_refused(run([*self.words, '-o', '/dev/fd/9']), '/dev/fd/9: it is closed', 3)
        self.is_refused(run(['sh', '-c', '"$@" 3</dev/null', 'sh', *self.words, '-o', '/dev/fd/3']), 'output: line ')

    def test_devices_and_pipes_with_names_stay(self) -> None:
        self.assertEqual(run([*self.words, '-o', '/dev/null']).status, 0)
        self.assertTrue(stat.S_ISCHR(os.stat('/dev/null').st_mode))
        os.mkfifo(self.path('pipe'))
        os.symlink('pipe', self.path('link'))
        for name in ('pipe', 'link'):
            with subprocess.Popen(['cat', self.path('pipe')], stdout=subprocess.PIPE) as reading:
                self.assertEqual(run([*self.words, '-o', self.path(name)]).status, 0)
                self.assertEqual(reading.communicate(timeout=60)[0], b'PAYROLL\nEMPTY\nLOG\n')
        self.assertTrue(stat.S_ISFIFO(os.stat(self.path('pipe')).st_mode))
        self.assertEqual(self.names(), ['link', 'output', 'pipe'])

    def test_links_that_lead_nowhere_are_told(self) -> None:
        os.symlink('loop', self.path('loop'))
        self.is_refused(run([*self.words, '-o', self.path('loop')]), 'loop: Too many levels of symbolic links', 3)
        os.symlink('new', self.path('link'))
        self.assertEqual(run([*self.words, '-o', self.path('link')]).status, 0)
        self.assertEqual(self.read('new'), b'PAYROLL\nEMPTY\nLOG\n')

    def test_a_pipe_that_does_not_block_is_waited_for(self) -> None:
        records = (b'B' * 99 + b'\n') * 20_000
        words = ['put', self.path('output'), 'LOG', self.write('long', records)]
        wanted = BOTH[1].replace(b'staff 1', b'staff 20000')[:-2] + records
        for target in (NO_WORDS, ['-o', '/dev/stdout']):
            reading, writing = os.pipe()
            os.set_blocking(writing, False)
            running = subprocess.Popen([sys.executable, DECK, *words, *target], stdout=writing, stderr=subprocess.PIPE)
            os.close(writing)
            time.sleep(0.3)  # in which the pipe is full
            with open(reading, 'rb') as pipe:
                self.assertEqual(pipe.read(), wanted)
            self.assertEqual((running.communicate(timeout=60)[1], running.returncode), (b'', 0))

    def test_an_input_that_does_not_block_is_waited_for(self) -> None:
        reading, writing = os.pipe()
        os.set_blocking(reading, False)
        running = subprocess.Popen([sys.executable, DECK, 'names', '/dev/stdin'], stdin=reading, stdout=subprocess.PIPE, stderr=subprocess.PIPE)
        with open(writing, 'wb', buffering=0) as pipe:
            for begin in range(0, len(BOTH[1]), 100):
                pipe.write(BOTH[1][begin:begin + 100])
                time.sleep(0.02)
        os.close(reading)
        self.assertEqual((*running.communicate(timeout=60), running.returncode), (b'PAYROLL\nEMPTY\nLOG\n', b'', 0))


class Long(Trying):
    def test_an_output_of_300_MB_goes_through_next_and_get(self) -> None:
        with open(self.path('output'), 'wb') as file:
            count = write_a_long_output(file, LONG, 1000)
        accounts, stream = self.write('accounts', ACCOUNTS), self.write('stream', b'')
        next_words = ['next', self.path('output'), '--accounts', accounts, '--stream', stream, '-o', self.path('deck')]
        seen = []
        for words in (next_words, ['get', self.path('output'), 'S%d' % count, '-o', self.path('records')]):
            begun = time.monotonic()
            memory = self.memory_of(words)
            seen.append(f'{words[0]} took {memory // 1024} MiB and {time.monotonic() - begun:.1f} s')
            self.assertLess(memory, MOST_MEMORY)
        self.seen = ', '.join(seen)
        self.assertEqual(os.path.getsize(self.path('records')), 1001 * 100_000)
        self.assertEqual(os.path.getsize(self.path('deck')),
                         os.path.getsize(self.path('output')) + len(b'$ACCOUNTS\n' + ACCOUNTS + b'$STREAM\n$STOP\n'))

    def test_a_line_of_100_MB_is_refused_in_little_memory(self) -> None:
        with open(self.path('output'), 'wb') as file:
            file.write(b'$CATALOGUE\n')
            file.truncate(100_000_000)
        self.assertLess(self.memory_of(['names', self.path('output')], 1), MOST_MEMORY)
