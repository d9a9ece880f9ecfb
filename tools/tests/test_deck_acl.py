"""Permission lists of real files as those of data sets, and back: `acl`, and `new --acl`."""
from __future__ import annotations

import os
import random
import shutil
import subprocess
import unittest
from typing import Iterable, List, Tuple
from trying import Done, Trying, deck, run

GETFACL = b'''# file: payroll
# owner: root
# group: root
user::rwx
group::r-x
other::r-x
default:user::rwx
default:group::r-x
default:other::---

# file: payroll/PAY
# owner: anna
# group: 1007
# flags: -s-
user::rw-
user:1001:rwx\t\t#effective:r--
group::r--
group:_ssh:r--
mask::r--
other::---

# file: payroll/b\\040c/LOG
# owner: anna
# group: admin
user::rw-
group::---
other::r--

'''
MAP = b'''# a map
user 1001 lisa
group 1007 staff
group _ssh ssh
file b\\040c/LOG LOG
'''
MAP_OF_NAMES = MAP.replace(b'\\040', b' ').replace(b'file b c/LOG LOG', b'')
PAY = b'$SET PAY anna staff 0\nuser::rw-,user:lisa:rwx,group::r--,group:ssh:r--,mask::r--,other::---\n'
LOG = b'$SET LOG anna admin 0\nuser::rw-,group::---,other::r--\n'
PEOPLE = range(45_001, 45_007)  # numbers of users that nobody has
GROUPS = range(46_001, 46_005)
HAS_TOOLS = all(map(shutil.which, ('getfacl', 'setfacl')))


def has_lists(folder: str) -> bool:
    """Whether a file there can have a list."""
    path = os.path.join(folder, 'file')
    with open(path, 'wb'):
        done = subprocess.run(['setfacl', '-m', 'u:1:r', path], capture_output=True)
    os.remove(path)
    return done.returncode == 0


class Read(Trying):
    """What getfacl has written."""

    def imported(self, text: bytes = GETFACL, words: Iterable[str] = (), mapping: bytes = MAP_OF_NAMES) -> Done:
        return deck('acl', '--import', self.write('lists', text), '--map', self.write('map', mapping), *words)

    def test_lists_are_read_as_getfacl_writes_them(self) -> None:
        done = self.imported(GETFACL.replace(b'b\\040c/LOG', b'LOG'))
        self.assertEqual((done.status, done.out), (0, b'$CATALOGUE\n' + PAY + LOG))
        self.assertEqual(done.err, f'snomon-deck: {self.path("lists")}: line 1: payroll: its default: entries are passed over\n')

    def test_what_has_no_name_here_is_refused_and_told(self) -> None:
        for old, new, line, message in ((b'user 1001 lisa\n', b'', 11, 'user 1001 is no name here; a line "user 1001 NAME" of --map gives it one'),
                                        (b'group 1007 staff\n', b'', 11, 'group 1007 is no name here'), (b'group _ssh ssh\n', b'', 11, 'group _ssh is no name here')):
            done = self.imported(mapping=MAP.replace(old, new))
            self.assertEqual((done.status, done.out), (1, b''))
            self.assertIn(f'{self.path("lists")}: line {line}: payroll/PAY: {message}', done.err)
        done = self.imported()
        self.assertIn('line 22: payroll/b c/LOG: file b c/LOG is no name here; a line "file b\\040c/LOG NAME" of --map', done.err)
        self.assertEqual(self.imported(mapping=MAP).out, b'$CATALOGUE\n' + PAY + LOG)

    def test_a_file_can_have_another_name_or_be_passed_over(self) -> None:
        text = GETFACL.replace(b'b\\040c', b'b')
        for name, out in ((b'LOG.2', b'$CATALOGUE\n' + PAY + LOG.replace(b'LOG', b'LOG.2')), (b'-', b'$CATALOGUE\n' + PAY)):
            self.assertEqual(self.imported(text, mapping=MAP.replace(b'file b\\040c/LOG LOG', b'file b/LOG ' + name)).out, out)
        done = self.imported(text, mapping=MAP.replace(b'file b\\040c/LOG LOG', b'file b/LOG PAY'))
        self.assertEqual((done.status, done.out), (1, b''))
        self.assertIn('a file before this one is called PAY too', done.err)

    def test_a_list_with_which_linux_grants_more_is_told(self) -> None:
        text = b'# file: A\n# owner: anna\n# group: admin\nuser::rw-\nuser:lisa:r--\ngroup::---\nmask::---\nother::%s\n'
        self.assertIn('line 1: A: its mask is ---: Linux then gives', self.imported(text % b'r--').err)
        self.assertEqual(self.imported(text % b'---').err, '')

    def test_other_lines_are_refused(self) -> None:
        for old, new, line, message in ((b'group::r--', b'group:r--', 17, 'getfacl writes no such line: group:r--'), (b'# group: 1007\n', b'', 11, 'the line "# group: .." is due'),
                                        (b'mask::r--\n', b'', 11, 'payroll/PAY: its list: A6 NO MASK'), (b'mask::r--', b'mask::rx', 11, '')):
            done = self.imported(GETFACL.replace(old, new))
            self.assertEqual((done.status, done.out), (1, b''), new)
            self.assertIn(f'{self.path("lists")}: line {line}: {message}' if message else 'is no name here', done.err)
        for mapping, line, message in ((b'user 1 lisa\nuser 1 tom\n', 2, 'user 1 has a name already'), (b'user 1 -\n', 1, 'a map has lines'), (b'user 1\n', 1, 'a map has lines'),
                                       (b'host 1 a\n', 1, 'a map has lines'), (b'user 1 1\n', 1, 'a map has lines')):
            self.is_refused_at(self.imported(mapping=mapping), 'map', line, message)

    def test_one_of_the_two_is_asked_for(self) -> None:
        for words in (['acl'], ['acl', '--import', 'a', '--export', 'b'], ['new', self.room], ['new', self.room, '--acl', '--owner', 'anna'],
                      ['new', self.room, '--owner', 'anna'], ['new', self.room, '--owner', 'anna', '--group', 'g', '--map', 'x']):
            done = deck(*words)
            self.assertEqual((done.status, done.out), (2, b''), words)

    def test_what_is_given_back_is_what_getfacl_would_write(self) -> None:
        self.imported(GETFACL.replace(b'b\\040c/LOG', b'LOG'), ['-o', self.path('catalogue')])
        done = deck('acl', '--export', self.path('catalogue'), '--map', self.path('map'))
        wanted = GETFACL.split(b'\n\n', 1)[1].replace(b'payroll/', b'').replace(b'b\\040c/', b'').replace(b'# flags: -s-\n', b'').replace(b'\t\t#effective:r--', b'')
        self.assertEqual((done.status, done.out, done.err), (0, wanted, ''))


class Real(Trying):
    """Files of a disk that keeps lists, of other users."""

    def setUp(self) -> None:
        super().setUp()
        if not HAS_TOOLS or os.geteuid() != 0 or not has_lists(self.room):
            self.skipTest('there is no getfacl or setfacl, no right to give files away, or no disk with lists')
        os.chmod(self.room, 0o755)
        os.mkdir(self.path('files'))
        self.write('map', b''.join([b'user %d p%d\n' % (number, number) for number in PEOPLE] + [b'group %d g%d\n' % (number, number) for number in GROUPS]))

    def make(self, count: int, r: random.Random) -> None:
        """Files with random owners, groups and lists."""
        for number in range(count):
            path = self.write(f'files/F{number}', b'a record\n')
            os.chown(path, r.choice(PEOPLE), r.choice(GROUPS))
            words = [f'{tag}:{name}:{self.letters(r)}' for tag, some in (('u', PEOPLE), ('g', GROUPS)) for name in r.sample(some, r.choice((0, 0, 1, 2, 3)))]
            words += [f'{tag}::{self.letters(r)}' for tag in ('u', 'g', 'o')] + ([f'm::{self.letters(r)}'] if words else [])
            subprocess.run(['setfacl', '--set', ','.join(words), path], check=True)

    @staticmethod
    def letters(r: random.Random) -> str:
        return ''.join(r.choice((letter, '-')) for letter in 'rwx')

    def getfacl(self) -> bytes:
        """What it writes, its files by their names: it goes by the order of the file system, which may change."""
        done = subprocess.run(['getfacl', '-R', '-n', 'files'], cwd=self.room, capture_output=True, check=True)
        return b''.join(block + b'\n\n' for block in sorted(done.stdout.strip().split(b'\n\n')))

    def imported(self, source: str) -> bytes:
        done = deck('acl', '--import', source, '--map', self.path('map'), '-o', self.path('catalogue'))
        self.assertEqual(done.status, 0, done.err)
        return self.read('catalogue')

    def test_200_lists_there_and_back(self) -> None:
        self.make(200, random.Random(4))
        before = self.getfacl()
        catalogue = self.imported(self.path('files'))
        self.assertEqual(catalogue.count(b'$SET '), 200)
        by_text = sorted(self.imported(self.write('lists', before)).split(b'$SET '))
        self.assertEqual(by_text, sorted(catalogue.split(b'$SET ')))
        done = deck('new', self.path('files'), '--acl', '--map', self.path('map'))
        self.assertEqual(done.out.replace(b' 1\nuser:', b' 0\nuser:').replace(b'a record\n', b''), catalogue)
        self.write('catalogue', catalogue)
        restored = deck('acl', '--export', self.path('catalogue'), '--map', self.path('map'))
        self.assertEqual((restored.status, restored.err), (0, ''))
        for name in os.listdir(self.path('files')):
            os.remove(self.path(f'files/{name}'))
            self.write(f'files/{name}', b'')
        subprocess.run(['setfacl', '--restore=-'], input=restored.out, cwd=self.path('files'), check=True)
        self.assertEqual(self.getfacl(), before)

    @unittest.skipUnless('LISTING' in os.environ, 'LISTING names no program')
    def test_the_kernel_grants_what_listing_says_but_for_an_empty_mask(self) -> None:
        r = random.Random(9)
        self.make(200, r)
        groups = {person: r.sample(GROUPS, r.randint(1, 3)) for person in PEOPLE}
        accounts = ''.join(f'p{person} {" ".join(f"g{group}" for group in some)}\n' for person, some in groups.items()).encode()
        catalogue = self.imported(self.path('files'))
        empty = {lines.split(b' ')[0].decode() for lines in catalogue.split(b'$SET ')[1:] if b'mask::---' in lines}
        report = run([os.environ['LISTING'], '--access', '--csv'], given=b'$ACCOUNTS\n' + accounts + catalogue + b'$STREAM\n$STOP\n')
        self.assertEqual((report.status, report.err), (0, ''))
        differing = []
        rows = [row.split(',') for row in report.out.decode().splitlines()[1:]]
        for person in PEOPLE:
            asked = [(row[1], row[2]) for row in rows if row[0] == f'p{person}']
            granted = [row[3] == 'granted' for row in rows if row[0] == f'p{person}']
            self.assertEqual(len(asked), 600)
            differing += [(name, by_kernel) for (name, _), by_kernel, here in zip(asked, self.access(person, groups[person], asked), granted) if by_kernel != here]
        self.seen = f'3,600 questions; {len(differing)} differ, all of lists with mask::---'
        self.assertEqual([name for name, by_kernel in differing if name not in empty or not by_kernel], [])

    def access(self, user: int, groups: List[int], asked: List[Tuple[str, str]]) -> List[bool]:
        """What the kernel says to this user, in a process of its own."""
        reading, writing = os.pipe()
        if os.fork() == 0:
            os.setgroups(list(groups))
            os.setgid(groups[0])
            os.setuid(user)
            modes = {'r': os.R_OK, 'w': os.W_OK, 'x': os.X_OK}
            os.write(writing, bytes(os.access(self.path(f'files/{name}'), modes[letter]) for name, letter in asked))
            os._exit(0)
        os.close(writing)
        with os.fdopen(reading, 'rb') as answers:
            found = answers.read()
        os.wait()
        return list(map(bool, found))

    def test_folders_within_and_other_things_are_told(self) -> None:
        os.makedirs(self.path('files/within'))
        subprocess.run(['setfacl', '-d', '-m', f'u:{PEOPLE[0]}:r', self.path('files/within')], check=True)
        self.make(1, random.Random(1))
        self.write('files/within/OTHER', b'')
        os.symlink('F0', self.path('files/link'))
        with open(self.path('map'), 'ab') as file:
            file.write(b'file within/OTHER OTHER\n')
        done = deck('acl', '--import', self.path('files'), '--map', self.path('map'))
        self.assertEqual((done.status, [line.split(b' ')[1] for line in done.out.split(b'\n') if line.startswith(b'$SET')]), (0, [b'F0', b'OTHER']))
        self.assertIn(f'{self.path("files/within")}: its default: entries are passed over', done.err)
        self.assertIn(f'{self.path("files/link")}: it is neither a file nor a folder, and is passed over', done.err)
