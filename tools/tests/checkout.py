"""A small repository of its own, with the scripts of this one, beside an rt that takes a script for a program."""
from __future__ import annotations

import hashlib
import os
import shutil
from typing import Dict
from trying import Done, TOP, Trying, run

# A toolchain whose programs say their words and then their deck.
RT = '''#!/bin/sh
if [ "$1" = version ]; then cat "$ROOM/version"; exit; fi
echo built >>"$ROOM/said"
echo "fn mon_low::f: proved" >&2
echo "fn mon_low::g: proved" >&2
echo "fn snomon::main: proved" >&2
if [ -e "$ROOM/refuse" ]; then exit 1; fi
if [ -e "$ROOM/slow" ]; then sleep 300 & echo $! >"$ROOM/child"; wait; fi
mkdir -p out
printf '#!/bin/sh\\necho "$@"; cat\\n' >out/snomon
chmod +x out/snomon
'''
PROGRAM = 'crates/snomon/out/snomon'
PROGRAMS = ('snomon', 'listing', 'ledger_program', 'snomon_parts')
BY_HAND = b'#!/bin/sh\necho by hand\n'
OF_THE_GATE = b'#!/bin/sh\necho of the gate "$@"\n'
RELEASED = b'#!/bin/sh\necho released "$@"\n'


def sha256(content: bytes) -> str:
    return hashlib.sha256(content).hexdigest()


def without_rt() -> Dict[str, str]:
    """The environment of a machine that has no toolchain."""
    folders = os.environ['PATH'].split(os.pathsep)
    return {**os.environ, 'PATH': os.pathsep.join(folder for folder in folders if not os.path.exists(os.path.join(folder, 'rt')))}


class Checkout(Trying):
    def setUp(self) -> None:
        super().setUp()
        for name in ('tools', 'examples', 'bin', 'crates/snomon/src', 'crates/listing/src', 'crates/ledger_program/src', 'crates/snomon_parts/src',
                     'crates/mon_low/specs', 'crates/other/src'):
            os.makedirs(self.path(name))
        for name in ('run', 'bin/snomon-listing', 'bin/snomon-site', 'bin/snomon-parts', 'bin/snomon-deck', 'install', 'tools/proved',
                     'tools/release', 'tools/deck', 'tools/package', 'examples/payroll.deck', 'LICENSE', 'CHANGELOG.md', 'SECURITY.md'):
            shutil.copy(os.path.join(TOP, name), self.path(name))
        for name in ('tools/decks', 'docs/man', 'examples/site', 'packaging'):
            shutil.copytree(os.path.join(TOP, name), self.path(name))
        self.write('crates.txt', b'# crates\nmon_low: thiserror\nsnomon: mon_low clap\nlisting: mon_low\nledger_program: mon_low\n'
                   b'snomon_parts: mon_low\nother: mon_low\n')
        self.write('HANDLES', b'Handles allowed: none.\n')
        for name in ('crates/snomon/src/main.rt', 'crates/listing/src/main.rt', 'crates/ledger_program/src/main.rt',
                     'crates/snomon_parts/src/main.rt', 'crates/mon_low/specs/Low.antt', 'crates/other/src/lib.rt'):
            self.write(name, b'one\n')
        self.write('version', b'kit 1\n')
        self.script('bin/rt', RT.encode())

    def script(self, name: str, content: bytes) -> None:
        os.makedirs(os.path.dirname(self.path(name)), exist_ok=True)
        self.write(name, content)
        os.chmod(self.path(name), 0o755)

    def environment(self, with_rt: bool = True) -> Dict[str, str]:
        bare = without_rt()
        return {**bare, 'ROOM': self.room, 'PATH': os.pathsep.join([self.path('bin')] * with_rt + [bare['PATH']])}

    def ran(self, *words: str, with_rt: bool = True) -> Done:
        return run([self.path('run'), *words], given=b'deck\n', env=self.environment(with_rt), cwd='/')

    def proved(self, *words: str) -> Done:
        return run([self.path('tools/proved'), *words], given=b'', cwd='/', env=self.environment())

    def sum(self, name: str = 'snomon') -> str:
        return self.proved('--sum', name, 'kit 1').out.decode().strip('\n')

    def builds(self) -> int:
        return self.read('said').count(b'built') if 'said' in self.names() else 0

    def release(self) -> None:
        for name in PROGRAMS:
            self.script(f'release/{name}', RELEASED)
        self.write('release/SHA256SUMS', ''.join(f'{sha256(RELEASED)}  {name}\n' for name in PROGRAMS).encode())
        self.write('release/SOURCES', ('commit 1234\ntoolchain kit 1\n' + ''.join(f'{name} {self.sum(name)}\n' for name in PROGRAMS)).encode())

    def stamp(self, name: str, content: bytes) -> None:
        """As the gate does with a program that it has built."""
        self.script(f'crates/{name}/out/{name}', content)
        self.proved('--stamp', name, self.sum(name), 'kit 1')
