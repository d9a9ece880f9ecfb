"""What the tests have in common that attack a site which keeps all in one ledger: its operator is root, or is not."""
from __future__ import annotations

import functools
import os
import pwd
import re
import shutil
import signal
import struct
import subprocess
import tempfile
import time
import unittest
from typing import Any, Callable, Dict, Iterable, List, Tuple, Union
from trying import Done, SITE, Trying, run

ROOM = '/dev/shm' if os.access('/dev/shm', os.W_OK) else None
NOBODY = 65534
OTHER = next((user.pw_uid for user in pwd.getpwall() if user.pw_uid not in (0, NOBODY)), 1)
EXCHANGE = 2  # the kernel's RENAME_EXCHANGE
SLOW = 30  # seconds that no run of these sites takes, also where the machine is busy; the system takes a lease away after 45
LIMITS = {'texts': 10, 'bytes': 10000, 'jobs': 10, 'statements': 100000, 'largest': 10**11, 'work': 10**11, 'data_sets': 10, 'records': 10000,
          'seconds': 60, 'output': 100000}
CATALOGUE = (b'$CATALOGUE 2\n$SET LOG anna admin APPEND 1\nuser::rwx,group::---,other::rw-\nfirst\n'
             b'$SET SECRET lisa staff SEQ 3\nuser::rwx,group::---,other::---\nthe secret 1\nthe secret 2\nthe secret 3\n')
LIST = b'$LIST %s LOG\n'
LISTED = b'LIST %s LOG\n first\nRECORDS 1\n'
WRITES = b"$JOB %s\n$UNIT 1 LOG\n OUTPUT(.X,1,'(80A1)')\n X = '%s'\nEND\n$EOJ\n"
ODD = 'x\n\x1b[2J\x1b]0;owned\x07\x9b2J\x7fsnomon-site: DISK FAILURE'
Name = Union[str, bytes]  # of a file


def make_text(path: bytes) -> None:
    with open(path, 'xb') as file:
        file.write(LIST % b'anna')


def make_closed(path: bytes) -> None:
    """A folder with a folder inside that its owner alone can open."""
    os.mkdir(path, 0o770)
    os.mkdir(path + b'/closed', 0o700)
    with open(path + b'/closed/file', 'wb'):
        pass


def set_entry(command: str) -> None:
    """What `setfacl -m [d:]u:UID:rwx FOLDER` does to a folder that has no other entry."""
    setfacl, option, entry, folder = command.split(' ', 3)
    assert (setfacl, option) == ('setfacl', '-m'), command
    kind, uid, may = entry.rsplit(':', 2)
    mode, bits = os.stat(folder).st_mode, sum({'r': 4, 'w': 2, 'x': 1}[letter] for letter in may)
    owner, group, other = mode >> 6 & 7, mode >> 3 & 7, mode & 7
    entries = [(1, owner, -1), (2, bits, int(uid)), (4, group, -1), (16, group | bits, -1), (32, other, -1)]
    of = {'u': 'system.posix_acl_access', 'd:u': 'system.posix_acl_default'}[kind]
    os.setxattr(folder, of, struct.pack('<I', 2) + b''.join(struct.pack('<HHi', *one) for one in entries))


@functools.lru_cache(maxsize=None)
def reachable() -> Tuple[str, 'tempfile.TemporaryDirectory[str]']:
    """The program where any user reaches it, and the folder of it, which goes with this process."""
    room = tempfile.TemporaryDirectory(dir=ROOM)
    os.chmod(room.name, 0o755)
    shutil.copy(SITE, room.name + '/program')
    os.chmod(room.name + '/program', 0o755)
    return room.name + '/program', room


@unittest.skipUnless(os.path.exists(SITE), 'there is no site')
@unittest.skipUnless(os.geteuid() == 0, 'an operator and two users can only be tried as root')
class Attacking(Trying):
    """A site of two users, anna and lisa, of whom anna means ill. The operator is root."""

    operator = 0
    users = {'anna': NOBODY, 'lisa': OTHER}

    def setUp(self) -> None:
        room = tempfile.TemporaryDirectory(dir=ROOM)
        self.addCleanup(room.cleanup)
        self.room = os.path.realpath(room.name)
        os.chmod(self.room, 0o755)
        self.program, self.folder = reachable()[0], self.path('site')
        self.write('the-accounts', b'anna admin\nlisa staff\n')
        self.write('the-users', b''.join(b'%d %s\n' % (uid, account.encode()) for account, uid in self.users.items()))
        self.write('the-catalogue', CATALOGUE)
        self.make(self.folder)

    def make(self, folder: str, **limits: int) -> None:
        self.write('the-limits', self.limits(**limits))
        done = run([self.program, 'init', folder, '--accounts', self.path('the-accounts'), '--users', self.path('the-users'),
                    '--limits', self.path('the-limits'), '--catalogue', self.path('the-catalogue')], **self.as_operator())
        self.assertEqual(done.status, 0, done.err)
        self.follow(done.out)

    def limits(self, **limits: int) -> bytes:
        return ''.join('%s %d\n' % one for one in {**LIMITS, **limits}.items()).encode()

    def follow(self, told: bytes) -> None:
        """What `init` and `adduser` tell the operator to do."""
        self.assertEqual(told, b'')

    def as_operator(self) -> Dict[str, Any]:
        """How a process of the operator's begins."""
        return {}

    def ledger(self, *words: str, **more: Any) -> Done:
        given: Dict[str, Any] = {'cwd': '/', **self.as_operator(), **more}
        done = run([self.program, *words], **given)
        self.is_told_plainly(done)
        return done

    def is_told_plainly(self, done: Done) -> None:
        """Nothing of what it said can move a terminal's cursor, or be taken for a line of its own; and no check of memory failed."""
        self.assertFalse([line for line in done.err.split('\n')[:-1] if not re.match('snomon-site: (?!DISK)', line)], done.err)
        self.assertFalse([c for c in done.err if c != '\n' and not ' ' <= c <= '~'], done.err)

    def runs(self, *statuses: int, **more: Any) -> Done:
        begun = time.monotonic()
        done = self.ledger('run', self.folder, **more)
        self.assertIn(done.status, statuses or (0,), done.err)
        self.assertLess(time.monotonic() - begun, SLOW, 'seconds of a run')
        return done

    def box(self, account: str, name: Name) -> bytes:
        return os.fsencode('%s/in/%s/' % (self.folder, account)) + os.fsencode(name)

    def drop(self, account: str, name: Name, content: bytes) -> bytes:
        """Puts a file there as its user would."""
        path, beside, uid = self.box(account, name), self.box(account, '.beside'), self.users[account]
        with open(beside, 'xb') as file:
            file.write(content)
            os.fchown(file.fileno(), uid, self.operator if self.operator else uid)
            os.fchmod(file.fileno(), 0o660)
        os.rename(beside, path)
        return path

    def as_user(self, account: str, script: str, *words: Name) -> int:
        uid = self.users[account]
        command: List[Name] = ['/bin/sh', '-c', script, 'sh', *words]
        return subprocess.run(command, user=uid, group=uid, extra_groups=[], cwd='/', capture_output=True, timeout=300).returncode

    def begins_as_anna(self, act: Callable[..., None], *arguments: object) -> int:
        """A process of anna's, which does that until the test is over."""
        child = os.fork()
        if child == 0:
            try:
                os.setgroups([])
                os.setgid(self.users['anna'])
                os.setuid(self.users['anna'])
                os.umask(0o007)
                act(*arguments)
                os._exit(0)
            finally:
                os._exit(1)
        self.addCleanup(os.waitpid, child, 0)
        self.addCleanup(os.kill, child, signal.SIGKILL)
        return child

    def answers(self, account: str) -> Dict[int, bytes]:
        """What the account got, by number; each number once."""
        found: Dict[int, bytes] = {}
        for name in os.listdir('%s/out/%s' % (self.folder, account)):
            number = re.fullmatch(r'(\d+)\.[A-Za-z0-9._-]+\.out', name)
            assert number and int(number[1]) not in found, name
            found[int(number[1])] = self.read('%s/out/%s/%s' % (self.folder, account, name))
        return dict(sorted(found.items()))

    def last(self, account: str, before: int) -> List[bytes]:
        """Of what it got, all but so many."""
        return list(self.answers(account).values())[before:]

    def waiting(self, account: str) -> List[str]:
        return sorted(os.listdir('%s/in/%s' % (self.folder, account)))

    def commits(self) -> List[str]:
        return sorted(os.listdir(self.folder + '/keep/ledger'))

    def is_whole(self) -> None:
        done = self.ledger('verify', self.folder)
        self.assertEqual((done.status, done.out), (0, b'%d commits, whole\n' % len(self.commits())), done.err)

    def serves_lisa(self, *statuses: int) -> Done:
        before = len(self.answers('lisa'))
        self.drop('lisa', 'it', LIST % b'lisa')
        done = self.runs(*(statuses or (0, 1)))
        self.assertEqual(self.last('lisa', before), [LISTED % b'lisa'], done.err)
        return done

    def serves_it_beside(self, account: str, count: int) -> None:
        """With what waits there already, so many are answered as ever."""
        before = len(self.answers(account))
        self.drop(account, 'it', LIST % account.encode())
        self.runs(0, 1)
        self.assertEqual(self.last(account, before), [LISTED % account.encode()] * count)

    def serves_lisa_while(self, rounds: int, acts: Iterable[Tuple[Any, ...]]) -> None:
        children = [self.begins_as_anna(*act) for act in acts]
        for k in range(rounds):
            before = len(self.answers('lisa'))
            try:
                self.drop('anna', 'file %d' % k, LIST % b'anna')
            except OSError:
                pass
            self.drop('lisa', 'it', LIST % b'lisa')
            self.runs(0, 1)
            self.assertEqual(self.last('lisa', before), [LISTED % b'lisa'])
        for child in children:
            os.kill(child, signal.SIGSTOP)

    def is_as_ever(self) -> None:
        """Without the attack one more run serves all, and the ledger is whole."""
        os.chmod(self.folder + '/in/anna', 0o2770)
        for name in os.listdir(os.fsencode(self.folder) + b'/in/anna'):
            path = self.box('anna', name)
            shutil.rmtree(path) if os.path.isdir(path) and not os.path.islink(path) else os.remove(path)
        self.runs(0, 1)
        before = [len(self.answers(account)) for account in self.users]
        for account in self.users:
            self.drop(account, 'at-last', LIST % account.encode())
        self.assertEqual(self.runs(0).err, '')
        for account, count in zip(self.users, before):
            self.assertEqual(self.last(account, count), [LISTED % account.encode()])
        self.assertEqual(os.listdir(self.folder + '/keep/taken'), [])
        done = self.ledger('status', self.folder)
        self.assertEqual((done.status, done.err), (0, ''))
        self.is_whole()


class OfAnOperator(Attacking):
    """The same, and the operator is not root."""

    operator = 64010

    def make(self, folder: str, **limits: int) -> None:
        os.mkdir(folder)
        os.chown(folder, self.operator, self.operator)
        super().make(folder, **limits)

    def follow(self, told: bytes) -> None:
        commands = told.decode().splitlines()
        self.assertNotEqual(commands, [])
        for command in commands:
            try:
                set_entry(command)
            except OSError as error:
                self.skipTest('there are no permission lists: %s' % error.strerror)

    def as_operator(self) -> Dict[str, Any]:
        return {'user': self.operator, 'group': self.operator, 'extra_groups': [], 'umask': 0o027}
