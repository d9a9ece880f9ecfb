"""A site that keeps all in one ledger, beside a second opinion: what was dropped, and what became of it.

Whether a submission is admitted is asked of intake.py. Those that ran, in the order in which the ledger has them (tools/decks/ledger.py reads
it), are one deck, each with a `$DRAIN` behind it: SNOMON prints of it what all of them were answered, and the catalogue."""
from __future__ import annotations

import os
import re
import subprocess
import sys
from collections import Counter
from typing import Dict, List, NamedTuple, Optional, Tuple, Union
from intake import Refusal, examine
from monitor import lines_of

sys.path[:0] = [os.path.join(os.path.dirname(os.path.realpath(__file__)), '..', 'tools')]
from decks.ledger import Ledger  # noqa: E402

ROOM = '/dev/shm' if os.access('/dev/shm', os.W_OK) else None
LIMITS = dict.fromkeys(['texts', 'bytes', 'jobs', 'statements', 'largest', 'work', 'data_sets', 'records', 'output'], 10**15)
LIMITS['seconds'] = 600
PLAIN_NAME = re.compile(r'[A-Za-z0-9._-]{1,64}\Z')
Became = Tuple[str, str, Union[str, bytes]]  # of a submission: its account, its name as it is shown, and its lines where it ran, or why it did not


class Dropped(NamedTuple):
    """A file in a box; without a text it is no file of its user's alone, which is refused or stays."""
    account: str
    name: str
    text: Optional[bytes]


def shown(name: str) -> str:
    return name if PLAIN_NAME.match(name) else '-'


def ended(text: bytes) -> bytes:
    """As it stands in a deck: each line ends with LF alone."""
    return b''.join(line + b'\n' for line in lines_of(text))


def wanted(dropped: Dropped) -> Became:
    if dropped.text is None:
        return dropped.account, shown(dropped.name), 'NOT A FILE OF ' + dropped.account
    found = examine(dropped.account, dropped.text)
    return dropped.account, shown(dropped.name), 'LINE %d: %s' % found if isinstance(found, Refusal) else ended(dropped.text)


class Site:
    """The folder of a site in which all accounts are the caller's, and the programs SITE and SNOMON."""

    def __init__(self, folder: str, site: str, snomon: str) -> None:
        self.folder, self.site, self.snomon = folder, site, snomon

    def make(self, table: bytes, catalogue: bytes) -> None:
        """Over these accounts and data sets, by a catalogue of the second version."""
        self.write('accounts', table)
        self.write('limits', ''.join('%s %d\n' % one for one in LIMITS.items()).encode())
        self.write('catalogue', self.plain(catalogue, b''))
        words = [word for name in ('accounts', 'limits', 'catalogue') for word in ('--' + name, '%s.%s' % (self.folder, name))]
        subprocess.run([self.site, 'init', self.folder, *words, '--demonstration'], check=True, stdout=subprocess.DEVNULL)

    def plain(self, catalogue: bytes, texts: bytes) -> bytes:
        """What a plain run prints of these texts over a catalogue."""
        return subprocess.run([self.snomon], input=self.deck(catalogue, texts), check=True, stdout=subprocess.PIPE, timeout=300).stdout

    def deck(self, catalogue: bytes, texts: bytes) -> bytes:
        return b'$ACCOUNTS\n' + ended(self.read('accounts')) + catalogue + b'$STREAM\n' + texts + b'$STOP\n'

    def at(self, folder: str) -> Site:
        """A copy of it."""
        subprocess.run(['cp', '-a', self.folder, folder], check=True)
        for name in ('accounts', 'catalogue'):
            subprocess.run(['cp', '%s.%s' % (self.folder, name), '%s.%s' % (folder, name)], check=True)
        return Site(folder, self.site, self.snomon)

    def box(self, account: str) -> bytes:
        return os.fsencode('%s/in/%s/' % (self.folder, account))

    def drop(self, dropped: Dropped) -> None:
        with open(self.box(dropped.account) + dropped.name.encode(), 'wb') as file:
            file.write(dropped.text or b'')

    def ran(self, *words: str) -> subprocess.CompletedProcess[bytes]:
        return subprocess.run([self.site, *words[:1], self.folder, *words[1:]], capture_output=True, timeout=300)

    def run(self) -> Optional[str]:
        """Runs until nothing waits; what is wrong with that."""
        for _ in range(4):
            done = self.ran('run')
            if done.returncode not in (0, 1):
                return 'status %d: %s' % (done.returncode, done.stderr.decode()[-200:])
            if done.stdout == b'0 run, 0 refused\n':
                return None
        return 'a run has always more to do'

    def read(self, name: str) -> bytes:
        """Of a file that it was made of."""
        with open('%s.%s' % (self.folder, name), 'rb') as file:
            return file.read()

    def write(self, name: str, content: bytes) -> None:
        with open('%s.%s' % (self.folder, name), 'wb') as file:
            file.write(content)

    def answers(self) -> Dict[Tuple[str, int], bytes]:
        found = {}
        for account in os.listdir(self.folder + '/out'):
            for name in os.listdir('%s/out/%s' % (self.folder, account)):
                with open('%s/out/%s/%s' % (self.folder, account, name), 'rb') as file:
                    found[account, int(name.split('.')[0])] = file.read()
        return found

    def wrong(self, dropped: List[Dropped]) -> Optional[str]:
        """What is wrong, where all that was dropped since the site was made is this, and nothing of it waits."""
        taken: Dict[int, Tuple[str, str, bytes]] = {}
        order: List[int] = []
        became: Dict[int, Became] = {}
        for commit in Ledger(self.folder).commits():
            head = commit.head
            if head.kind == 'TOOK':
                lines = head.text('text').partition(b'\n')[2]  # behind the account
                taken[head.number('number')] = (head.text('account').decode(), head.text('name').decode(), lines)
            elif head.kind == 'RAN':
                order.append(head.number('number'))
                became[order[-1]] = taken[order[-1]]
            elif head.kind == 'REFUSED':
                reply = head.text('reply').decode(errors='replace').split('\n')
                became[head.number('number')] = (head.text('account').decode(), head.text('name').decode(), reply[1])
            elif head.kind == 'DROPPED':
                account, name, _ = taken[head.number('number')]
                became[head.number('number')] = (account, name, head.text('reply').decode().split('\n')[1])
        return self.differing(dropped, became) or self.unlike_a_plain_run(order, taken, became) or self.unsound()

    def differing(self, dropped: List[Dropped], became: Dict[int, Became]) -> Optional[str]:
        """What became of another submission than of one that was dropped, or of none."""
        texts = Counter(wanted(one) for one in dropped if one.text is not None)
        odd = Counter(wanted(one) for one in dropped if one.text is None)
        found = Counter(became.values())
        wrong = list((texts - found) + (found - texts - odd))
        return 'of what was dropped, or became of it: %s' % wrong[:3] if wrong else None

    def unlike_a_plain_run(self, order: List[int], taken: Dict[int, Tuple[str, str, bytes]], became: Dict[int, Became]) -> Optional[str]:
        answers = self.answers()
        if set(answers) != {(one[0], number) for number, one in became.items()}:
            return 'other answers than submissions'
        texts = b''.join(taken[number][2] + b'$DRAIN\n' for number in order)
        if order and self.ran('deck', str(order[0])).stdout != self.deck(self.read('catalogue'), texts):
            return 'snomon-site deck prints another deck'
        printed = b''.join(answers[taken[number][0], number] for number in order) + self.ran('catalogue').stdout
        return None if self.plain(self.read('catalogue'), texts) == printed else 'a plain run prints something else'

    def unsound(self) -> Optional[str]:
        done = self.ran('verify')
        return None if done.returncode == 0 else 'verify: ' + done.stderr.decode()[-200:]
