"""What a command that takes long tells on a terminal, and that it tells nothing elsewhere."""
from __future__ import annotations

import os
import pty
import subprocess
import threading
import time
from typing import Callable, Tuple, TypeVar
from trying import DECK, Trying, run
from test_deck_audit import AUDIT

Result = TypeVar('Result')


class Slow(Trying):
    """One audit of several comes slowly, through a pipe."""

    def setUp(self) -> None:
        super().setUp()
        os.mkfifo(self.path('2.audit'))
        for name in ('1.audit', '3.audit'):
            self.write(name, AUDIT)
        self.words = [DECK, 'audit', *(self.path(f'{number}.audit') for number in (1, 2, 3)), '--denied', '-o', self.path('out')]

    def feed(self) -> None:
        with open(self.path('2.audit'), 'wb') as file:
            file.write(AUDIT[:AUDIT.index(b'\n') + 1])
            file.flush()
            time.sleep(3.5)
            file.write(AUDIT[AUDIT.index(b'\n') + 1:])

    def fed(self, act: Callable[[], Result]) -> Result:
        feeding = threading.Thread(target=self.feed)
        feeding.start()
        try:
            return act()
        finally:
            feeding.join()

    def on_a_terminal(self) -> Tuple[str, int]:
        """What standard error says, and the status."""
        mine, its = pty.openpty()
        child = subprocess.Popen(self.words, stdin=subprocess.DEVNULL, stdout=subprocess.DEVNULL, stderr=its)
        os.close(its)
        said = b''
        while True:
            try:
                piece = os.read(mine, 1000)
            except OSError:  # the other end is closed
                break
            if not piece:
                break
            said += piece
        os.close(mine)
        return said.decode(), child.wait()

    def test_a_terminal_is_told_which_file_is_read_and_the_line_is_taken_away(self) -> None:
        said, status = self.fed(self.on_a_terminal)
        self.assertEqual(status, 0)
        self.assertIn('2.audit (2 of 3)', said)
        self.assertTrue(said.endswith('\r\x1b[K'))
        self.assertEqual(said.count('\n'), 0)

    def test_nothing_else_is_told(self) -> None:
        done = self.fed(lambda: run(self.words))
        self.assertEqual((done.status, done.err), (0, ''))
