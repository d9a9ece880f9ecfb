#!/usr/bin/env python3
"""The pages that a reader follows from top to bottom in one empty folder: docs/tutorial and docs/howto.

    examples/guides.py PROGRAM PAGE..     follows these pages alone; the status is 1 where one is not so

Each block of code there has a mark. `file NAME` is put into the folder under that name, which the text before it has to say;
`sh` is run there, with snomon and the other programs in the path, and has to end with status 0; `output` is all that
the commands before it print. Commands without an `output` behind them print nothing.

Blocks marked `root` are run as `sh` is, by root: a page with one is followed in a place of its own, where /etc is a copy, and /home
and /srv are empty. Where that cannot be made, or such a page calls setfacl and that is not there, it is left out."""
from __future__ import annotations

import contextlib
import os
import re
import shutil
import subprocess
import sys
import tempfile
from typing import Iterator, List

TOP = os.path.realpath(os.path.join(os.path.dirname(os.path.realpath(__file__)), '..'))
BLOCK = re.compile(r'^```([^\n]*)\n(.*?)^```\n', re.M | re.S)
# Mounts that nobody else sees: users are made, and a site stands, in copies and in memory. The mark in /srv is asked for before each block.
PLACE = '''
mkdir "$1" && cp -a /etc/. "$1"
mount --bind "$1" /etc
for folder in /srv /home /var/mail /var/log; do mount -t tmpfs -o mode=755 place "$folder"; done
touch /srv/.place
echo ready
read -r _ || true
'''


def is_guide(name: str) -> bool:
    return os.path.dirname(name) in ('docs/tutorial', 'docs/howto')


def is_for_root(text: str) -> bool:
    return any(mark == 'root' for mark, _ in BLOCK.findall(text))


def has_places() -> bool:
    """Whether root, and such a place, are to be had here."""
    return os.geteuid() == 0 and all(map(shutil.which, ('unshare', 'nsenter', 'useradd', 'runuser'))) and subprocess.run(
        ['unshare', '--mount', '--propagation', 'private', 'mount', '-t', 'tmpfs', 'place', '/srv'],
        stdout=subprocess.DEVNULL, stderr=subprocess.DEVNULL).returncode == 0


@contextlib.contextmanager
def place_for_root(room: str) -> Iterator[List[str]]:
    """A place of its own for commands of root, as long as it is entered: the words by which a command gets there."""
    words = ['unshare', '--mount', '--propagation', 'private', 'bash', '-euc', PLACE, 'place', os.path.join(room, 'etc')]
    with subprocess.Popen(words, stdin=subprocess.PIPE, stdout=subprocess.PIPE) as held:
        if not held.stdout or held.stdout.readline() != b'ready\n':
            raise OSError('there is no place for root')
        yield ['nsenter', f'--mount=/proc/{held.pid}/ns/mnt', 'sh', '-c', 'test -e /srv/.place && cd "$0" && exec "$@"', os.path.join(room, 'folder')]


def printed(there: List[str], folder: str, path: str, commands: str) -> str:
    """What the commands print in the folder, standard error among it, as a terminal shows it; and where they fail, their status."""
    done = subprocess.run([*there, 'timeout', '60', 'bash', '-euo', 'pipefail', '-c', commands], cwd=folder, stdin=subprocess.DEVNULL,
                          stdout=subprocess.PIPE, stderr=subprocess.STDOUT, env={**os.environ, 'LC_ALL': 'C', 'PATH': path})
    return done.stdout.decode() + (f'status {done.returncode}\n' if done.returncode else '')


def site() -> str:
    """The program snomon-site itself: each user can run a copy of it, wherever this repository is."""
    return os.environ.get('SITE') or subprocess.run([os.path.join(TOP, 'tools', 'proved'), '--path', 'ledger_program'], check=True,
                                                    stdout=subprocess.PIPE).stdout.decode().strip()


def lacks_parts(text: str) -> bool:
    """Whether a page speaks of snomon-parts, and that program is not there."""
    proved = [os.path.join(TOP, 'tools', 'proved'), '--path', 'snomon_parts']
    return 'snomon-parts' in text and not os.environ.get('SNOMON_PARTS') and subprocess.run(
        proved, stdout=subprocess.DEVNULL, stderr=subprocess.DEVNULL).returncode != 0


def lacks_setfacl(text: str) -> bool:
    """Whether root of a page lets users in by setfacl, and that program is not there."""
    return is_for_root(text) and 'setfacl -m' in text and not shutil.which('setfacl')


def linked(programs: str, program: str, text: str) -> str:
    """A folder for the path of commands that has the programs of this repository."""
    os.mkdir(programs)
    for name, path in (('snomon', program), ('snomon-deck', os.path.join(TOP, 'bin', 'snomon-deck')),
                       ('snomon-listing', os.environ.get('LISTING') or os.path.join(TOP, 'bin', 'snomon-listing')),
                       ('snomon-parts', os.environ.get('SNOMON_PARTS') or os.path.join(TOP, 'bin', 'snomon-parts'))):
        os.symlink(os.path.abspath(path), os.path.join(programs, name))
    if 'snomon-site' in text:
        shutil.copy(site(), os.path.join(programs, 'snomon-site'))
    return programs + os.pathsep + os.environ['PATH']


def followed(program: str, text: str) -> Iterator[str]:
    """What is not as the page says, block by block."""
    parts = BLOCK.split(text)
    steps = list(zip(parts[0::3], parts[1::3], parts[2::3]))
    with tempfile.TemporaryDirectory() as room:
        folder, path = os.path.join(room, 'folder'), linked(os.path.join(room, 'programs'), program, text)
        os.mkdir(folder)
        for place in (room, os.path.join(room, 'programs'), folder):
            os.chmod(place, 0o755)  # other users look into them, whatever the umask is
        here: List[str] = []
        with place_for_root(room) if is_for_root(text) else contextlib.nullcontext(here) as there:
            for number, (before, mark, block) in enumerate(steps):
                kind, _, name = mark.partition(' ')
                if kind == 'file' and name and f'`{name}`' in before:
                    with open(os.path.join(folder, name), 'w', encoding='utf-8') as file:
                        file.write(block)
                    os.chmod(file.name, 0o644)
                elif mark in ('sh', 'root'):
                    wanted = steps[number + 1][2] if steps[number + 1:] and steps[number + 1][1] == 'output' else ''
                    given = printed(there, folder, path, block)
                    if given != wanted:
                        yield f'block {number + 1}:\n{block}prints\n{given}'
                elif mark != 'output' or number == 0 or steps[number - 1][1] not in ('sh', 'root'):
                    yield f'block {number + 1} is marked {mark!r}, and is no file that the text before it names, no command and no output'


def main(program: str, pages: List[str]) -> int:
    failed = 0
    for page in pages:
        with open(page, encoding='utf-8') as file:
            text = file.read()
        if is_for_root(text) and not has_places():
            print(f'left out {page}: root alone can follow it')
            continue
        if lacks_parts(text):
            print(f'left out {page}: there is no snomon-parts')
            continue
        if lacks_setfacl(text):
            print(f'left out {page}: there is no setfacl')
            continue
        for fault in followed(program, text):
            failed = 1
            print(f'{page}: {fault}')
    return failed


if __name__ == '__main__':
    sys.exit(main(sys.argv[1], sys.argv[2:]))
