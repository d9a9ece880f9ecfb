"""Users of a site that keeps all in one ledger come, go and hand in."""
from __future__ import annotations

import os
import shutil
import signal
import stat
import unittest
from ledger_attacking import Attacking, LIST, LISTED, NOBODY, OfAnOperator
from trying import run


class LedgerUsers(Attacking):
    """The operator is root."""

    def test_a_user_who_left_comes_again(self) -> None:
        self.assertEqual(self.ledger('deluser', self.folder, 'anna').status, 0)
        done = self.ledger('adduser', self.folder, 'anna', str(NOBODY))
        self.assertEqual(done.status, 0, done.err)

    def test_a_user_whose_coming_was_killed_comes_again(self) -> None:
        if not shutil.which('strace'):
            self.skipTest('there is no strace')
        words = [self.program, 'adduser', self.folder, 'hugo', '2', '--groups', 'staff']
        killed = run(['strace', '-f', '-qq', '-o', '/dev/null', '-e', 'inject=rename:signal=KILL:when=1', *words])
        self.assertIn(killed.status, (137, -signal.SIGKILL))
        done = self.ledger(*words[1:])
        self.assertEqual(done.status, 0, done.err)

    def test_groups_of_a_new_account_name_no_other_account(self) -> None:
        done = self.ledger('adduser', self.folder, 'hugo', '2', '--groups', 'staff\nmallory admin')
        self.assertEqual((done.status, done.err), (3, 'snomon-site: %s/accounts: a group has a line end\n' % self.folder))
        self.assertEqual((os.path.exists(self.folder + '/in/hugo'), self.ledger('status', self.folder).out.count(b'in/')), (False, 2))


class LedgerUsersHandIn(Attacking):
    """Users hand in themselves. The operator is root."""

    def test_what_a_user_submits_is_answered(self) -> None:
        os.chmod(self.write('it.cards', LIST % b'anna'), 0o644)
        for mask in ('000', '022', '077'):
            before = len(self.answers('anna'))
            script = 'umask %s; exec "$1" submit "$2" --account anna "$3"' % mask
            self.assertEqual(self.as_user('anna', script, self.program, self.folder, self.path('it.cards')), 0)
            self.assertEqual(stat.S_IMODE(os.stat(self.box('anna', 'it.cards')).st_mode), 0o660)
            self.assertEqual(self.runs(0).err, '')
            self.assertEqual(self.last('anna', before), [LISTED % b'anna'])
        self.assertEqual(self.waiting('anna'), [])


class LedgerUsersHandInToAnOperator(OfAnOperator, LedgerUsersHandIn):
    """The operator is not root."""


if __name__ == '__main__':
    unittest.main()
