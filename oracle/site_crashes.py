"""A run of a site that keeps all in one ledger, with twelve submissions: it breaks off, at each call on files or at some moment, and is made again.

python3 site_crashes.py calls SITE SNOMON          (needs a C compiler)
python3 site_crashes.py moments COUNT SEED SITE SNOMON
python3 site_crashes.py growths COUNT SITE SNOMON

Each n-th call on files fails, and all behind it; and each ends the run as a power cut does. `moments` kills the run at random moments;
`growths` refuses a growth of memory, so many of them in even steps: the run ends for want of memory, or the submission that met that is
tried again. Behind it runs go on until nothing waits, and each submission is answered once, as site_ledger.py has it."""
from __future__ import annotations

import concurrent.futures
import os
import shutil
import subprocess
import sys
import tempfile
import time
from random import Random
from typing import Dict, List, Optional, Tuple
import random_decks
import random_site
import refused_memory
from failing_files import Shim, made_library
from site_ledger import ROOM, Dropped, Site

ADDS = '$JOB %s\n$UNIT 9 LOG\n  OUTPUT(\'W\',9)\n  W = \'%s\'\n  OUTPUT = \'%s was here\'\nEND\n$EOJ\n$DRAIN\n$LIST %s LOG\n'
LOG = b'$CATALOGUE 2\n$SET LOG anna admin APPEND 0\nuser::rwx,group::---,other::rw-\n'


def texts() -> List[Tuple[str, str]]:
    """(account, text) of twelve submissions: eight that are run, and each adds to one data set; a list; three that are refused."""
    found = [(account, ADDS % (account, account + str(k), account, account)) for account in sorted(random_decks.ACCOUNTS) for k in (1, 2)]
    return found + [('anna', '$SETACL anna LOG\nuser::rwx\ngroup::---\nother::rw-\n$ENDACL\n'), ('eve', '$LIST hugo LOG\n'), ('hugo', '$STOP\n'),
                    ('lisa', '$JOB lisa\nEND\n')]


class Crashes:
    """A site behind its first run, in which twelve submissions wait."""

    def __init__(self, room: str, site: str, snomon: str) -> None:
        self.template = Site(room + '/template', site, snomon)
        self.template.make(random_site.TABLE, LOG)
        self.dropped = self.drop(texts()[:3])
        self.wrong = self.template.run() or self.template.wrong(self.dropped)
        self.dropped += self.drop(texts())
        whole = self.copy('whole')
        begun = time.monotonic()
        self.wrong = self.wrong or self.goes_on(whole)
        self.takes = time.monotonic() - begun

    def drop(self, found: List[Tuple[str, str]]) -> List[Dropped]:
        dropped = [Dropped(account, 'text%d' % k, text.encode()) for k, (account, text) in enumerate(found)]
        for one in dropped:
            self.template.drop(one)
        return dropped

    def copy(self, name: str) -> Site:
        return self.template.at('%s/%s' % (os.path.dirname(self.template.folder), name))

    def goes_on(self, site: Site) -> Optional[str]:
        """What is wrong behind a run that broke off, and the runs that go on."""
        wrong = site.run() or site.wrong(self.dropped)
        shutil.rmtree(site.folder)
        return wrong

    def at_call(self, shim: Shim, call: int, kills: bool) -> Tuple[bool, Optional[str]]:
        """(whether the run came to that call, what is wrong)"""
        site = self.copy('%d.%d' % (call, kills))
        done, came = shim.run([site.site, 'run', site.folder], site.folder, call, kills)
        if came and done.returncode not in ((-9,) if kills else (0, 1, 3)):
            return came, 'status %d: %s' % (done.returncode, done.stderr.decode()[-200:])
        return came, self.goes_on(site)

    def at_moment(self, k: int, seconds: float) -> Tuple[bool, Optional[str]]:
        site = self.copy('moment.%d' % k)
        running = subprocess.Popen([site.site, 'run', site.folder], stdout=subprocess.DEVNULL, stderr=subprocess.DEVNULL)
        try:
            running.wait(timeout=seconds)
        except subprocess.TimeoutExpired:
            running.kill()
            running.wait()
        return running.returncode == -9, self.goes_on(site)

    def at_growth(self, library: str, growth: int) -> Tuple[bool, str, Optional[str]]:
        """(whether the run came to that growth, what came of it, what is wrong)"""
        site = self.copy('growth.%d' % growth)
        mark = site.folder + '.refused'
        done = subprocess.run([site.site, 'run', site.folder], capture_output=True, timeout=120,
                              env={**os.environ, 'LD_PRELOAD': library, 'REFUSE': str(growth), 'REFUSED': mark})
        came = os.path.islink(mark)
        kind = 'ended the run' if done.returncode == 3 else 'not seen'
        if came and (done.returncode not in (0, 1, 3) or done.returncode == 3 and done.stderr != b'snomon-site: out of memory\n'):
            return came, kind, 'status %d: %s' % (done.returncode, done.stderr.decode()[-200:])
        return came, kind, self.goes_on(site)


def growths(crashes: Crashes, count: int) -> Tuple[str, List[str]]:
    kinds: Dict[str, int] = {}
    wrong: List[str] = []
    with tempfile.TemporaryDirectory() as room, concurrent.futures.ThreadPoolExecutor(2) as pool:
        library = made_library(room, refused_memory.SHIM)
        last = 1
        while crashes.at_growth(library, last)[0]:
            last *= 2
        tried = sorted({1 + k * last // count for k in range(count)})
        for growth, (came, kind, bad) in zip(tried, pool.map(lambda n: crashes.at_growth(library, n), tried)):
            if came:
                kinds[kind] = kinds.get(kind, 0) + 1
            if bad:
                wrong.append('growth %d: %s' % (growth, bad))
    return 'growths refused: ' + ', '.join('%d %s' % (kinds[kind], kind) for kind in sorted(kinds)), wrong if kinds else ['none']


def calls(crashes: Crashes) -> Tuple[str, List[str]]:
    wrong: List[str] = []
    most, first = 0, 1
    with Shim() as shim, concurrent.futures.ThreadPoolExecutor(2) as pool:
        while most == first - 1:
            tried = [(call, kills) for call in range(first, first + 100) for kills in (False, True)]
            for (call, kills), (came, bad) in zip(tried, pool.map(lambda one: crashes.at_call(shim, *one), tried)):
                most = max(most, call if came else 0)
                if bad:
                    wrong.append('call %d %s: %s' % (call, 'ends the run' if kills else 'fails', bad))
            first += 100
    return '%d calls on files, each failing and each ending the run' % most, wrong or ([] if most else ['no call failed'])


def moments(crashes: Crashes, count: int, seed: int) -> Tuple[str, List[str]]:
    r = Random(seed)
    with concurrent.futures.ThreadPoolExecutor(2) as pool:
        tried = list(pool.map(lambda k: crashes.at_moment(k, r.uniform(0, 1.5 * crashes.takes)), range(count)))
    wrong = ['moment %d: %s' % (k, bad) for k, (_, bad) in enumerate(tried) if bad]
    return '%d runs killed, %d before their end' % (count, sum(came for came, _ in tried)), wrong


def main() -> bool:
    kind, *rest = sys.argv[1:]
    site, snomon = (os.path.abspath(path) for path in rest[-2:])
    with tempfile.TemporaryDirectory(dir=ROOM) as room:
        crashes = Crashes(os.path.realpath(room), site, snomon)
        if kind == 'calls':
            said, wrong = calls(crashes)
        elif kind == 'moments':
            said, wrong = moments(crashes, int(rest[0]), int(rest[1]))
        else:
            said, wrong = growths(crashes, int(rest[0]))
    if crashes.wrong:
        wrong = ['without a crash: ' + crashes.wrong] + wrong
    print('\n'.join(wrong[:20] + ['%s; wrong: %d' % (said, len(wrong))]))
    return bool(wrong)


if __name__ == '__main__':
    sys.exit(main())
