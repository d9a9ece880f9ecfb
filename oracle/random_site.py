"""Random submissions at a site that keeps all in one ledger, with runs in between that break off, beside site_ledger.py.

python3 random_site.py COUNT SEED SITE SNOMON      (needs a C compiler)

Each site has some rounds. Before each, files are dropped: texts, texts with faults, and what is no text: links, FIFOs, folders, files of
two names, of another owner, of a name that is none. A third of the rounds begins with a run that breaks off at some call on files, for ever
or as by a power cut. Then runs go on until nothing waits, and each submission is answered as site_ledger.py has it."""
from __future__ import annotations

import concurrent.futures
import os
import shutil
import sys
import tempfile
from random import Random
from typing import List, Optional, Tuple
import random_decks
import random_intake
from failing_files import Shim
from site_ledger import ROOM, Dropped, Site

TABLE = random_intake.TABLE.split('\n', 1)[1].encode()
ROUNDS = 5  # of each site
NAMES = ['report.job', 'a', 'B', 'z_9', '.hidden', 'kept~', 'two words', 'x' * 64, 'x' * 65, '\xe4', 'a\nb', '-', '-rf', 'END', 'job;1', '1:anna:a']


def catalogue_of(r: Random) -> bytes:
    lines = random_decks.catalogue(r)
    while lines[0] != '$CATALOGUE 2':
        lines = random_decks.catalogue(r)
    return ''.join(line + '\n' for line in lines).encode()


def text_of(r: Random, own: str) -> bytes:
    return (random_intake.admitted if r.random() < 0.6 else random_intake.text_of)(r, own).encode()


def drop_odd(r: Random, folder: str, path: bytes) -> None:
    """Something that is no file of the box's owner alone."""
    kind = r.randrange(6)
    if kind == 0:
        os.symlink(os.fsencode(r.choice([folder + '/keep/ledger/00000000', '/etc/passwd', 'nowhere'])), path)
    elif kind == 1:
        os.mkfifo(path)
    elif kind == 2:
        os.mkdir(path)
    elif kind == 3:
        with open(folder + '.mine', 'wb') as file:
            file.write(b'$CATALOG anna\n')
        os.link(folder + '.mine', path)
    else:
        with open(path if kind == 4 and os.geteuid() == 0 else path + b'\xff', 'wb') as file:
            file.write(b'$CATALOG anna\n')
            if kind == 4 and os.geteuid() == 0:
                os.fchown(file.fileno(), 65534, -1)


def drop(r: Random, site: Site) -> List[Dropped]:
    """Those that are claimed some time, or may be."""
    dropped = []
    for account in random_decks.ACCOUNTS:
        for name in r.sample(NAMES, r.choice([0, 0, 1, 2, 3, 5])):
            path = site.box(account) + name.encode()
            if os.path.lexists(path):
                continue
            is_odd = r.random() < 0.12
            one = Dropped(account, name, None if is_odd else text_of(r, account))
            if is_odd:
                drop_odd(r, site.folder, path)
            else:
                site.drop(one)
            if not name.startswith('.') and not name.endswith('~'):
                dropped.append(one)
    return dropped


class Tried:
    def __init__(self, site: str, snomon: str, shim: Shim) -> None:
        self.site, self.snomon, self.shim = site, snomon, shim

    def crash(self, r: Random, site: Site) -> Tuple[bool, Optional[str]]:
        """Whether the run came to the call at which it broke off; what is wrong."""
        done, came = self.shim.run([self.site, 'run', site.folder], site.folder, r.randint(1, r.choice([60, 200, 500])), r.random() < 0.5)
        wrong = came and done.returncode not in (0, 1, 3, -9)
        return came, 'status %d behind a crash' % done.returncode if wrong else None

    def rounds(self, seed: int) -> Tuple[int, int, Optional[str]]:
        """(how many rounds, how many crashes, what is wrong)"""
        r, crashes = Random(seed), 0
        with tempfile.TemporaryDirectory(dir=ROOM) as room:
            site = Site(os.path.realpath(room) + '/site', self.site, self.snomon)
            site.make(TABLE, catalogue_of(r))
            dropped: List[Dropped] = []
            for k in range(ROUNDS):
                dropped += drop(r, site)
                came, wrong = self.crash(r, site) if r.random() < 0.34 else (False, None)
                crashes += came
                wrong = wrong or site.run() or site.wrong(dropped)
                if wrong:
                    if os.environ.get('KEEP'):
                        shutil.copytree(site.folder, '%s/%d' % (os.environ['KEEP'], seed), symlinks=True)
                    return k + 1, crashes, 'site %d, round %d: %s' % (seed, k + 1, wrong)
        return ROUNDS, crashes, None


def main() -> bool:
    count, seed = int(sys.argv[1]), int(sys.argv[2])
    site, snomon = (os.path.abspath(path) for path in sys.argv[3:5])
    with Shim() as shim, concurrent.futures.ThreadPoolExecutor(2) as pool:
        tried = Tried(site, snomon, shim)
        made = list(pool.map(tried.rounds, range(seed, seed + count // ROUNDS)))
    wrong = [one[2] for one in made if one[2]]
    print('\n'.join(wrong + ['%d rounds with %d crashes before, %d different' % (
        sum(one[0] for one in made), sum(one[1] for one in made), len(wrong))]))
    return bool(wrong) or not made


if __name__ == '__main__':
    sys.exit(main())
