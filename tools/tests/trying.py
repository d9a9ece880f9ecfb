"""What the tests have in common: a room of their own, the command, and a built snomon."""
from __future__ import annotations

import os
import subprocess
import sys
import tempfile
import traceback
import unittest
from typing import Any, Callable, Iterable, List, Union

TOOLS = os.path.join(os.path.dirname(os.path.realpath(__file__)), '..')
TOP = os.path.realpath(os.path.join(TOOLS, '..'))
DECK = os.path.join(TOP, 'tools', 'deck')
sys.path[:0] = [TOOLS]
from decks import command  # noqa: E402


def proved(name: str) -> str:
    """The path of that program of this repository; nothing where it isn't there."""
    script = os.path.join(TOP, 'tools', 'proved')
    return subprocess.run([script, '--path', name], capture_output=True).stdout.decode().strip() if os.path.exists(script) else ''


PARTS = os.environ.get('SNOMON_PARTS') or proved('snomon_parts')
os.environ['SNOMON_PARTS'] = ''  # what snomon-deck does by itself is tried, but where a test names the program
SNOMON = os.path.abspath(os.environ.get('SNOMON', os.path.join(TOP, 'run')))
# The program of a site itself, which other users can run a copy of; nothing where it isn't there.
SITE = os.environ.get('SITE') or proved('ledger_program')
SITE = SITE and os.path.abspath(SITE)
MEASURED = ('import resource, subprocess, sys; status = subprocess.call(sys.argv[1:]); '
            'print(resource.getrusage(resource.RUSAGE_CHILDREN).ru_maxrss, status)')
NO_WORDS: List[str] = []
MOST_MEMORY = 64 * 1024  # that deck may take, however long a file is, in KiB

# An output of each version, whose records look like what stands between data sets.
PRINTOUTS = b'''LIST anna PAYROLL
 $CATALOGUE
 
RECORDS 2
JOB 2 lisa
 $SET X anna admin 0
 END NORMAL AFTER 1
DENIED STATEMENT 4 WRITE PAYROLL BY mask::
END NORMAL AFTER 8
JOB 1 hugo
REFUSED P3 CARD 1 COLUMN 8
SHOWACL anna PAYROLL
OWNER anna GROUP admin
 user::rwx
 user:lisa:rw-\t#effective:r--
ENTRIES 2
CATALOG anna
NAMES 0
SETACL lisa PAYROLL
DENIED NOT OWNER
'''
CATALOGUE_1 = b'''$CATALOGUE
$SET PAYROLL anna admin 6
user::rwx,user:lisa:rw-,group::r--,mask::r--,other::---
$CATALOGUE
$SET LOG anna admin 0
user::rwx,group::r--,other::---

$STOP
 ADA 100 
$SET EMPTY anna admin 0
user::rwx,group::---,other::---
$SET LOG lisa staff 1
user::rwx,group::---,other::---
A
'''
CATALOGUE_2 = (CATALOGUE_1.replace(b'$CATALOGUE\n', b'$CATALOGUE 2\n', 1).replace(b'PAYROLL anna admin 6', b'PAYROLL anna admin SEQ 6')
               .replace(b'EMPTY anna admin 0', b'EMPTY anna admin SEQ 0').replace(b'LOG lisa staff 1', b'LOG lisa staff APPEND 1'))
RECORDS = b'$CATALOGUE\n$SET LOG anna admin 0\nuser::rwx,group::r--,other::---\n\n$STOP\n ADA 100 \n'
BOTH = {1: PRINTOUTS + CATALOGUE_1, 2: PRINTOUTS + CATALOGUE_2}
ACCOUNTS = b'anna admin\nlisa staff\nhugo ops staff\n'


class Done:
    """How a command ended: its status, its output, and what it said."""

    def __init__(self, status: int, out: bytes, err: bytes) -> None:
        self.status, self.out, self.err = status, out, err.decode()


def run(words: Iterable[str], given: bytes = b'', **more: Any) -> Done:
    """`more` is what subprocess.run knows."""
    done = subprocess.run([os.fspath(word) for word in words], input=given, capture_output=True, timeout=300, **more)
    return Done(done.returncode, done.stdout, done.stderr)


def deck(*words: str, preexec_fn: Callable[[], object] = lambda: None) -> Done:
    """Runs the command in a copy of this process, since Python takes longer to begin than most commands do. `DECK` is what
    tests run that are about how it begins or ends, and about its streams."""
    with tempfile.TemporaryFile() as given, tempfile.TemporaryFile() as out, tempfile.TemporaryFile() as err:
        child = os.fork()
        if child == 0:
            status: Union[int, str, None] = 99
            try:
                for number, file in enumerate((given, out, err)):
                    os.dup2(file.fileno(), number)
                sys.stdout, sys.stderr = open(1, 'w', closefd=False), open(2, 'w', closefd=False)
                preexec_fn()
                status = command.main([os.fspath(word) for word in words])
            except SystemExit as leaving:
                status = leaving.code
            except BaseException:
                traceback.print_exc()
            finally:
                sys.stdout.flush()
                sys.stderr.flush()
                os._exit(status if isinstance(status, int) else 1)
        ended = os.waitpid(child, 0)[1]
        for file in (out, err):
            file.seek(0)
        return Done(os.WEXITSTATUS(ended) if os.WIFEXITED(ended) else -os.WTERMSIG(ended), out.read(), err.read())


class Trying(unittest.TestCase):
    """Each test has an empty folder as its room."""

    seen = ''  # what is told of a test that passed

    def setUp(self) -> None:
        room = tempfile.TemporaryDirectory()
        self.addCleanup(room.cleanup)
        self.room = room.name

    def path(self, name: str) -> str:
        return os.path.join(self.room, name)

    def write(self, name: str, content: bytes) -> str:
        with open(self.path(name), 'wb') as file:
            file.write(content)
        return self.path(name)

    def read(self, name: str) -> bytes:
        with open(self.path(name), 'rb') as file:
            return file.read()

    def names(self) -> List[str]:
        return sorted(os.listdir(self.room))

    def is_refused(self, done: Done, message: str, status: int = 1) -> None:
        """It ended with that status, one line that fits the message, and nothing on standard output."""
        self.assertEqual((done.status, done.out), (status, b''), done.err)
        self.assertRegex(done.err, r'\Asnomon-deck: [^\n]*\n\Z')
        self.assertIn(message, done.err)

    def is_refused_at(self, done: Done, name: str, line: int, message: str) -> None:
        self.is_refused(done, f'{self.path(name)}: line {line}: {message}')

    def memory_of(self, words: Iterable[str], status: int = 0) -> int:
        """The most that a run of deck took, in KiB. A small process starts it, since what a process begins as counts too."""
        done = run([sys.executable, '-c', MEASURED, sys.executable, DECK, *words])
        memory, ended = map(int, done.out.split())
        self.assertEqual(ended, status, done.err)
        return memory


def snomon(deck_text: bytes, *words: str) -> Done:
    return run([SNOMON, *words], given=deck_text)
