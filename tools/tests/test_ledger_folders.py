"""The folder of a site that keeps all in one ledger: how it is made, whose its files are, and what it is not made of."""
from __future__ import annotations

import os
import pwd
import stat
import unittest
from typing import Any, Dict, List
from ledger_attacking import Attacking, CATALOGUE, LIST, LISTED, NOBODY, OTHER
from test_ledger_program import ACCOUNTS, NEW_LIMITS, LedgerTrying
from trying import Done, SITE, run

MODES = {'.': 0o755, 'in': 0o755, 'in/anna': 0o2770, 'in/lisa': 0o2770, 'out': 0o755, 'out/anna': 0o2750, 'out/lisa': 0o2750,
         'keep': 0o700, 'keep/ledger': 0o700, 'keep/draft': 0o700, 'keep/taken': 0o700}
STRANGER = 64001  # no user of the system
THIRD = next((user.pw_uid for user in pwd.getpwall() if user.pw_uid not in (0, NOBODY, OTHER)), 2)


@unittest.skipUnless(os.path.exists(SITE), 'there is no site')
class LedgerFolders(LedgerTrying):
    def made(self, **more: Any) -> Done:
        """A site anew, of the files that stand there."""
        words = [word for name in ('accounts', 'limits', 'catalogue', 'users') if os.path.exists(self.path(name))
                 for word in ('--' + name, self.path(name))]
        return self.ledger('init', self.folder, *words, *['--demonstration'] * ('--users' not in words), **more)

    def modes(self) -> Dict[str, int]:
        return {os.path.relpath(place, self.folder): stat.S_IMODE(os.stat(place).st_mode) for place, _, _ in os.walk(self.folder)}

    def test_modes_do_not_depend_on_the_umask(self) -> None:
        for umask in (0, 0o022, 0o077):
            self.folder = self.path('site-%o' % umask)
            done = self.made(umask=umask)
            self.assertEqual((done.status, done.out, done.err), (0, b'', ''))
            self.drop([('anna', 'it', LIST % b'anna')])
            self.assertEqual(self.ledger('run', self.folder, umask=umask).status, 0)
            self.assertEqual(self.modes(), MODES)
            self.assertEqual({stat.S_IMODE(os.stat(os.path.join(place, name)).st_mode) for place, _, names in os.walk(self.folder + '/keep')
                              for name in names}, {0o600})

    def test_what_is_there_already_is_left_as_it_is(self) -> None:
        before = self.done('catalogue', self.folder)
        done = self.made()
        self.assertEqual(done.status, 3)
        self.assertIn('is there already, and is not empty\n', done.err)
        self.assertEqual(self.done('catalogue', self.folder), before)
        os.mkdir(self.path('empty'))
        self.folder = self.path('empty')
        self.assertEqual(self.made().status, 0)

    def test_no_site_is_made_of_a_file_that_is_wrong(self) -> None:
        wrong: Dict[str, List[bytes]] = {
            'accounts': [b'anna\n', b'anna a\nanna b\n', b'$STREAM\n', b'', b'\n', ACCOUNTS + b'lisa again'],
            'limits': [b'texts 1\n', b'', b'texts x\n', NEW_LIMITS + b'texts 1\n', NEW_LIMITS.replace(b'seconds 60\n', b'')],
            'users': [b'anna 1\n', b'1 anna\n1 lisa\n2 anna\n', b'1 anna\n1 lisa\n', b'4294967296 anna\n', b'-1 anna\n', b'1 nobody\n', b'', b'# none\n\n'],
            'catalogue': [b'', b'$CATALOGUE 2\n$SET A\n', b'$CATALOGUE 2\n$SET A anna admin SEQ 1\nuser::rwx,group::---,other::---\n', CATALOGUE[:-1]]}
        self.folder = self.path('new')
        for name, contents in wrong.items():
            before = self.read(name) if os.path.exists(self.path(name)) else None
            for content in contents:
                self.write(name, content)
                done = self.made()
                self.assertEqual((done.status, done.out), (3, b''), (name, content))
                self.assertRegex(done.err, r'\Asnomon-site: \S*%s: [^\n]*\n\Z' % name)
                self.assertFalse(os.path.exists(self.folder))
            if before is None:
                os.remove(self.path(name))
            else:
                self.write(name, before)
        self.assertEqual(self.made().status, 0)

    def test_the_last_account_may_have_no_line_end(self) -> None:
        decks = set()
        for number, ending in enumerate((b'\n', b'', b'\r\n')):
            self.folder = self.path('site-%d' % number)
            self.write('accounts', ACCOUNTS[:-1] + ending)
            self.assertEqual(self.made().status, 0)
            self.drop([('lisa', 'it', LIST % b'lisa')])
            self.done('run', self.folder)
            decks.add(self.done('deck', self.folder, '0'))
        self.assertEqual(len(decks), 1)

    def test_one_user_has_several_accounts_in_a_demonstration_alone(self) -> None:
        before = self.done('limits', self.folder)
        self.write('said', before.replace(b'demonstration\n', b''))
        done = self.ledger('limits', self.folder, self.path('said'))
        self.assertEqual(done.status, 3)
        self.assertIn('users: line 2', done.err)
        self.assertEqual(self.done('limits', self.folder), before)

    @unittest.skipUnless(os.geteuid() == 0, 'another user can only be tried as root')
    def test_a_site_of_a_user_who_is_not_root_is_all_of_that_user(self) -> None:
        os.chmod(self.room, 0o755)
        os.mkdir(self.path('own'))
        os.chown(self.path('own'), NOBODY, NOBODY)
        self.folder = self.path('own/site')
        program = self.path('program')
        with open(SITE, 'rb') as file:
            self.write('program', file.read())
        os.chmod(program, 0o755)
        for name in ('accounts', 'limits', 'catalogue'):
            os.chmod(self.path(name), 0o644)
        words = [word for name in ('accounts', 'limits', 'catalogue') for word in ('--' + name, self.path(name))]
        done = self.as_nobody(program, 'init', self.folder, *words, '--demonstration')
        self.assertEqual((done.status, done.out, done.err), (0, b'', ''))
        self.assertEqual({os.stat(os.path.join(place, name)).st_uid for place, _, names in os.walk(self.folder) for name in ['', *names]}, {NOBODY})
        self.assertEqual(self.modes(), MODES)

    def as_nobody(self, *words: str) -> Done:
        return run(list(words), cwd='/', user=NOBODY, group=NOBODY, extra_groups=[])


class LedgerFoldersOfUsers(Attacking):
    """Of two users of the system, who are not the operator, who is root."""

    def test_boxes_and_answers_are_their_users_own(self) -> None:
        for account, uid in self.users.items():
            self.drop(account, 'it', LIST % account.encode())
            self.assertEqual(os.stat('%s/in/%s' % (self.folder, account)).st_uid, uid)
            self.assertEqual(os.stat('%s/out/%s' % (self.folder, account)).st_uid, 0)
        self.runs(0)
        for account, uid in self.users.items():
            name, = os.listdir('%s/out/%s' % (self.folder, account))
            seen = os.stat('%s/out/%s/%s' % (self.folder, account, name))
            self.assertEqual((seen.st_uid, stat.S_IMODE(seen.st_mode)), (uid, 0o600))

    def test_none_is_made_where_the_system_has_no_such_user(self) -> None:
        self.write('the-users', b'%d anna\n%d lisa\n' % (NOBODY, STRANGER))
        words = ['init', self.path('new'), '--accounts', self.path('the-accounts'), '--users', self.path('the-users')]
        done = self.ledger(*words)
        self.assertEqual((done.status, done.err), (3, 'snomon-site: /etc/passwd: there is no user %d\n' % STRANGER))
        self.assertFalse(os.path.exists(self.path('new')))
        os.mkdir(self.path('new'))  # the caller's own folder stays
        self.assertEqual(self.ledger(*words).status, 3)
        self.assertEqual(os.listdir(self.path('new')), [])

    def test_an_account_without_a_user_has_no_box(self) -> None:
        self.write('the-users', b'# number account\n%d anna\n\n' % NOBODY)
        self.folder = self.path('new')
        done = self.ledger('init', self.folder, '--accounts', self.path('the-accounts'), '--users', self.path('the-users'))
        self.assertEqual((done.status, os.listdir(self.folder + '/in'), os.listdir(self.folder + '/out')), (0, ['anna'], ['anna']), done.err)
        os.mkdir(self.folder + '/in/lisa')
        os.chown(self.folder + '/in/lisa', OTHER, -1)
        self.write('new/in/lisa/it', b'$CATALOG lisa\n')
        os.chown(self.folder + '/in/lisa/it', OTHER, -1)
        self.drop('anna', 'it', b'$CATALOG anna\n')
        self.assertEqual(self.runs(0).out, b'1 run, 0 refused\n')
        self.assertEqual(os.listdir(self.folder + '/in/lisa'), ['it'])

    def test_an_account_that_changed_hands_leaves_its_answers_to_its_former_user(self) -> None:
        self.drop('anna', 'it', LIST % b'anna')
        self.runs(0)
        self.assertEqual(self.ledger('deluser', self.folder, 'anna').status, 0)
        self.assertEqual(self.ledger('adduser', self.folder, 'anna', str(THIRD)).status, 0)
        before, = os.listdir(self.folder + '/out/anna')
        self.users = {**self.users, 'anna': THIRD}
        self.drop('anna', 'it', LIST % b'anna')
        self.runs(0)
        after, = set(os.listdir(self.folder + '/out/anna')) - {before}
        self.assertEqual([os.stat('%s/out/anna/%s' % (self.folder, name)).st_uid for name in (before, after)], [NOBODY, THIRD])
        self.assertEqual(self.last('anna', 1), [LISTED % b'anna'])


if __name__ == '__main__':
    unittest.main()
