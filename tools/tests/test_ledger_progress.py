"""How far a run of a site is that keeps all in one ledger: what `status` says of it meanwhile, and what a terminal is told."""
from __future__ import annotations

import os
import pty
import re
import signal
import subprocess
import time
import unittest
from typing import List, Match, Tuple
from test_ledger_program import LedgerTrying
from trying import SITE, run

# Seconds of statements that match.
SLOW = (b"$JOB %s ST=2000 MATCH=1000000\n        S = DUPL('A',300)\nLOOP    N = LT(N,%d) N + 1             :F(END)\n"
        b"        S POS(0) ARB $ X ARB $ Y ANY('B')    :F(LOOP)\nEND\n$EOJ\n")
AT_WORK = re.compile(rb'^at work: submission (\d) of 3, since (\d\d):(\d\d):(\d\d) UTC, for (\d+) s$', flags=re.M)


@unittest.skipUnless(os.path.exists(SITE), 'there is no site')
class LedgerProgress(LedgerTrying):
    def setUp(self) -> None:
        super().setUp()
        self.drop([('anna', 'a.job', SLOW % (b'anna', 120)), ('anna', 'b.job', SLOW % (b'anna', 120)), ('lisa', 'a.job', SLOW % (b'lisa', 120))])

    def begun(self) -> subprocess.Popen[bytes]:
        child = subprocess.Popen([SITE, 'run', self.folder], cwd=self.room, stdin=subprocess.DEVNULL, stdout=subprocess.PIPE, stderr=subprocess.PIPE)
        self.addCleanup(child.wait)
        self.addCleanup(child.kill)
        return child

    def seen_until(self, child: subprocess.Popen[bytes], last: bytes) -> List[Match[bytes]]:
        """What `status` said of the run, until it is at that submission."""
        seen: List[Match[bytes]] = []
        most = time.monotonic() + 120
        while child.poll() is None and not (seen and seen[-1].group(1) == last) and time.monotonic() < most:
            done = self.ledger('status', self.folder)
            self.assertEqual((done.status, done.err), (0, ''))
            seen += [found for found in [AT_WORK.search(done.out)] if found]
            time.sleep(0.05)
        return seen

    def test_status_tells_how_far_a_run_is_and_since_when(self) -> None:
        self.assertNotIn(b'work', self.done('status', self.folder))
        begun = time.time()
        child = self.begun()
        seen = self.seen_until(child, b'none')
        out, err = child.communicate()
        self.assertEqual((out, err), (b'3 run, 0 refused\n', b''))
        submissions = [int(found.group(1)) for found in seen]
        self.assertEqual((sorted(submissions), set(submissions)), (submissions, {1, 2, 3}))
        since = {tuple(part.decode() for part in found.group(2, 3, 4)) for found in seen}
        self.assertIn(since, [{tuple(time.strftime('%H %M %S', time.gmtime(begun + k)).split())} for k in range(4)])
        for found in seen:
            self.assertLessEqual(int(found.group(5)), time.time() - begun + 1) # both clocks are of whole seconds
        self.assertNotIn(b'work', self.done('status', self.folder))

    def test_a_run_that_was_killed_is_carried_on(self) -> None:
        child = self.begun()
        self.assertTrue(self.seen_until(child, b'2'))
        child.send_signal(signal.SIGKILL)
        child.communicate()
        self.assertIn(b'submissions that wait in the ledger: ', self.done('status', self.folder))
        self.done('run', self.folder)
        self.assertEqual(len(self.answers()), 3)

    def test_what_the_file_says_ends_nothing(self) -> None:
        for content in (b'', b'x\n', b'1 2\n', b'9' * 40 + b' 1 1 1 1\n', b'1 1 1 1 1 1\n', b'1 1 9 1 1\n'):
            self.write(self.folder + '/keep/attempt', content)
            self.done('status', self.folder)
        held = run(['flock', self.folder + '/keep/lock', SITE, 'status', self.folder])
        self.assertEqual(held.status, 0, held.err)
        self.assertTrue(held.out.startswith(b'at work: submission 9 of 1, since '), held.out)
        os.remove(self.folder + '/keep/attempt')
        held = run(['flock', self.folder + '/keep/lock', SITE, 'status', self.folder])
        self.assertEqual((held.status, held.out), (0, b'at work: the lock is held\n'), held.err)
        self.assertEqual(run(['flock', self.folder + '/keep/lock', SITE, 'catalogue', self.folder]).status, 4)

    def on_a_terminal(self, *words: str) -> Tuple[str, int, float]:
        """What a terminal is told, the status, and how long it took."""
        mine, its = pty.openpty()
        begun = time.monotonic()
        child = subprocess.Popen([SITE, *words], cwd=self.room, stdin=subprocess.DEVNULL, stdout=subprocess.DEVNULL, stderr=its)
        os.close(its)
        said = b''
        while True:
            try:
                piece = os.read(mine, 1000)
            except OSError: # the other end is closed
                break
            said += piece
        os.close(mine)
        return said.decode().replace('\r', ''), child.wait(), time.monotonic() - begun

    def test_a_terminal_is_told_which_submission_is_at_work(self) -> None:
        said, status, took = self.on_a_terminal('run', self.folder)
        self.assertEqual(status, 0)
        lines = said.splitlines()
        submissions = re.findall(r'^snomon-site: submission (\d) of 3$', said, flags=re.M)
        self.assertEqual((len(submissions), submissions[0]), (len(lines), '1'), said)
        self.assertLessEqual(len(lines), took + 1)
        self.assertEqual(sorted(submissions), submissions)


if __name__ == '__main__':
    unittest.main()
