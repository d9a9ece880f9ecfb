"""The unit of a site: how little it leaves open, and that the calls of a run are those that it allows."""
from __future__ import annotations

import ctypes
import errno
import functools
import os
import re
import shutil
import unittest
from typing import Any, Dict, Iterable, List, Set, Tuple
from ledger_attacking import LIST, OfAnOperator
from trying import Done, TOP, Trying, run

UNIT = os.path.join(TOP, 'examples', 'site', 'snomon-site.service')
MOST_EXPOSED = 1.0  # of 10
LINE = re.compile(r'^\d+ +([a-z]\w*)\(', re.M)
ALLOW, REFUSE = 0x7fff0000, 0x00050000 | errno.EPERM  # as <seccomp.h> has them


def text_of(path: str) -> str:
    with open(path, encoding='utf-8') as file:
        return file.read()


CALLS = set(text_of(os.path.join(TOP, 'packaging', 'snomon-site.calls')).split())
ASKS_FOR_A_TERMINAL = 'ioctl'  # where it is refused, standard error is none


def analyzed(*words: str) -> Done:
    return run(['systemd-analyze', '--no-pager', *words])


@functools.lru_cache(None)
def allowed() -> Set[str]:
    """The calls that the unit allows, its groups by what systemd says of them."""
    groups: Dict[str, List[str]] = {}
    group: List[str] = []
    for line in analyzed('syscall-filter').out.decode().splitlines():
        if line[:1] == '@':
            group = groups.setdefault(line.strip(), [])
        elif line.strip() and not line.strip().startswith('#'):
            group.append(line.strip())

    def of(word: str) -> Set[str]:
        return {call for part in groups[word] for call in of(part)} if word[0] == '@' else {word}
    return {call for line in re.findall('^SystemCallFilter=(.*)', text_of(UNIT), re.M) for word in line.split() for call in of(word)}


@unittest.skipUnless(shutil.which('systemd-analyze'), 'there is no systemd-analyze')
class Unit(Trying):
    def exposed(self, path: str) -> Tuple[float, Set[str]]:
        """How much systemd finds the unit exposed, and by what."""
        found = analyzed('security', '--offline=true', path).out.decode()
        whole = re.search(r'Overall exposure level for \S+: ([\d.]+)', found)
        if not whole:
            self.skipTest('this systemd-analyze looks at no unit that is not installed')
        return float(whole[1]), set(re.findall('^✗ ([A-Za-z]+)=', found, re.M))

    def test_it_is_hardly_exposed_and_says_by_what(self) -> None:
        level, rows = self.exposed(UNIT)
        self.assertLess(level, MOST_EXPOSED)
        self.assertEqual({row for row in rows if f'\n# {row}=' not in text_of(UNIT)}, set())

    def test_nor_is_it_where_the_operator_may_link(self) -> None:
        linking = re.sub('^CapabilityBoundingSet=$', 'CapabilityBoundingSet=CAP_FOWNER\nAmbientCapabilities=CAP_FOWNER', text_of(UNIT), flags=re.M)
        self.assertNotEqual(linking, text_of(UNIT))
        self.assertLess(self.exposed(self.write('linking.service', linking.encode()))[0], MOST_EXPOSED)

    def test_the_calls_of_a_run_are_allowed(self) -> None:
        self.assertEqual(sorted(CALLS - allowed()), [])

    def test_no_call_that_needs_a_privilege_is_allowed(self) -> None:
        self.assertEqual(allowed() & {'chown', 'lchown', 'setuid', 'mount', 'ptrace', 'socket', 'connect', 'kill', 'clone', 'fork', 'bpf'}, set())


class Run(OfAnOperator):
    """As the unit has it: of an operator who is not root, and under the unit's mask."""

    def setUp(self) -> None:
        super().setUp()
        self.drop('anna', 'a.job', b"$JOB anna\n  OUTPUT = 'hello'\nEND\n$EOJ\n" + LIST % b'anna')
        self.drop('lisa', 'refused', b'$STOP\n')

    def ran(self, words: Iterable[str] = (), **more: Any) -> None:
        """Both users read what they got, and nobody else does."""
        given: Dict[str, Any] = {**self.as_operator(), 'umask': 0o077, **more}
        done = run([*words, self.program, 'run', self.folder], cwd='/', **given)
        self.assertEqual((done.status, done.out), (1, b'1 run, 1 refused\n'), done.err)
        for account in self.users:
            name, = os.listdir(f'{self.folder}/out/{account}')
            path = f'{self.folder}/out/{account}/{name}'
            self.assertEqual([self.as_user(name, 'cat "$1"', path) == 0 for name in ('anna', 'lisa')], [account == name for name in ('anna', 'lisa')])

    def test_its_calls_are_those_that_are_listed(self) -> None:
        traced = self.path('traced')
        os.mkdir(traced)
        os.chmod(traced, 0o777)
        strace = ['strace', '-f', '-qq', '-o', traced + '/calls']
        if not shutil.which('strace') or run([*strace, 'true']).status:
            self.skipTest('there is no strace, or no right to trace')
        os.remove(traced + '/calls')
        self.ran(strace)
        made = set(LINE.findall(text_of(traced + '/calls')))
        self.assertIn('fsync', made)
        self.assertEqual(sorted(made - CALLS - {ASKS_FOR_A_TERMINAL}), [])

    @unittest.skipUnless(shutil.which('systemd-analyze'), 'there is no systemd-analyze')
    def test_it_comes_to_its_end_where_no_other_call_is_allowed(self) -> None:
        try:
            library = ctypes.CDLL('libseccomp.so.2')
        except OSError:
            self.skipTest('there is no libseccomp')
        library.seccomp_init.restype = ctypes.c_void_p
        rules = ctypes.c_void_p(library.seccomp_init(ctypes.c_uint32(REFUSE)))
        for call in sorted(allowed()):
            number = library.seccomp_syscall_resolve_name(call.encode())
            if number >= 0:
                library.seccomp_rule_add(rules, ctypes.c_uint32(ALLOW), number, 0)

        def confined() -> None:
            if library.seccomp_load(rules) != 0:
                os._exit(99)
        self.ran(preexec_fn=confined)
        self.assertNotEqual(run(['/bin/sh', '-c', 'kill -0 $$'], preexec_fn=confined).status, 0)
