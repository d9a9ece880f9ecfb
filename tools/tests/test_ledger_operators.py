"""What an operator does at a site that keeps all in one ledger, also while others do something, leaves it whole, or changes nothing."""
from __future__ import annotations

import os
import re
import shutil
import subprocess
import unittest
from typing import Dict, Tuple
from ledger_attacking import Attacking, CATALOGUE, LIST, LISTED, OfAnOperator, WRITES
from trying import run


class LedgerOperators(Attacking):
    """The operator is root."""

    def test_two_runs_at_once_answer_each_submission_once(self) -> None:
        dropped = 0
        for _ in range(10):
            for account in self.users:
                dropped += 1
                self.drop(account, '%d' % dropped, WRITES % (account.encode(), b'text %d' % dropped))
            words = [['run'], ['run'], ['status'], ['verify'], ['run'], ['catalogue']]
            begun = [subprocess.Popen([self.program, *word, self.folder], stdout=subprocess.PIPE, stderr=subprocess.PIPE, **self.as_operator())
                     for word in words]
            for word, process in zip(words, begun):
                err = process.communicate(timeout=300)[1]
                self.assertIn(process.returncode, (0,) if word == ['verify'] else (0, 4), (word, err))
        self.runs(0)
        self.assertEqual(len(self.answers('anna')) + len(self.answers('lisa')), dropped)
        wrote = re.findall(rb'^text (\d+)$', self.ledger('catalogue', self.folder).out, re.M)
        self.assertEqual(sorted(map(int, wrote)), list(range(1, dropped + 1)))
        self.is_whole()

    def test_acts_at_once_on_a_site_of_which_the_lock_is_not_made_yet(self) -> None:
        for _ in range(20):
            if os.path.exists(self.folder + '/keep/lock'):
                os.remove(self.folder + '/keep/lock')
            begun = [subprocess.Popen([self.program, word, self.folder], stdout=subprocess.PIPE, stderr=subprocess.PIPE, **self.as_operator())
                     for word in ('status', 'catalogue', 'status', 'run', 'limits', 'status')]
            told = [process.communicate(timeout=300)[1] for process in begun]
            self.assertEqual([process.returncode for process in begun], [0] * len(begun), told)

    def test_acts_beside_one_another_disturb_none(self) -> None:
        words = [self.program, 'verify', self.folder]
        for _ in range(40):
            beside = [subprocess.Popen(words, stdout=subprocess.PIPE, stderr=subprocess.PIPE, **self.as_operator()) for _ in range(4)]
            self.runs(0)
            told = [process.communicate(timeout=300)[1] for process in beside]
            self.assertEqual([process.returncode for process in beside], [0] * 4, told)

    def standing(self) -> Dict[str, Tuple[int, int, int]]:
        """What stands in the site: whose it is, how long a file is, and when it was changed."""
        found = {}
        for place, folders, files in os.walk(self.folder):
            for path in [place] + [os.path.join(place, name) for name in files]:
                seen = os.lstat(path)
                found[os.path.relpath(path, self.folder)] = (seen.st_uid, seen.st_size, seen.st_mtime_ns)
        return found

    def test_who_verifies_makes_and_changes_nothing(self) -> None:
        self.drop('anna', 'it', WRITES % (b'anna', b'text'))
        self.runs(0)
        self.write('site/keep/draft/commit', b'left')
        before = self.standing()
        for user in {0, self.operator}:
            done = self.ledger('verify', self.folder, user=user, group=user)
            self.assertEqual((done.status, done.out, done.err), (0, b'%d commits, whole\n' % len(self.commits()), ''))
            self.assertEqual(self.standing(), before)

    def test_what_an_ended_run_was_writing_is_gone_when_a_site_was_opened(self) -> None:
        for command in ('run', 'status'):
            for name in ('commit', 'answer'):
                self.write('site/keep/draft/' + name, b'left')
            self.assertEqual(self.ledger(command, self.folder).status, 0)
            self.assertEqual(os.listdir(self.folder + '/keep/draft'), [])
        self.is_whole()

    def test_bytes_that_are_no_ascii_are_printed_or_refused(self) -> None:
        self.write('new', CATALOGUE.replace(b'first', b'caf\xe9'))
        done = self.ledger('put', self.folder, self.path('new'))
        told = self.ledger('catalogue', self.folder)
        self.assertEqual((done.status, told.out), (0, self.read('new')) if done.status == 0 else (3, CATALOGUE))

    def test_a_catalogue_that_is_not_whole_is_not_put(self) -> None:
        """One that was cut off is refused, or says all that it has: never is what stands behind it taken for records."""
        lines = CATALOGUE.splitlines(keepends=True)
        for text in [b''.join(lines[:count]) for count in range(len(lines))] + [CATALOGUE[:-1], CATALOGUE + b'$STREAM\n$LIST lisa SECRET\n$STOP\n']:
            self.write('cut', text)
            before = self.ledger('catalogue', self.folder).out
            status = self.ledger('put', self.folder, self.path('cut')).status
            after = self.ledger('catalogue', self.folder).out
            self.assertEqual(after, text if status == 0 else before)
            made = run([self.program, 'init', self.path('cut-site'), '--accounts', self.path('the-accounts'), '--users', self.path('the-users'),
                        '--catalogue', self.path('cut')])
            self.assertEqual(made.status, status, made.err)
            shutil.rmtree(self.path('cut-site'), ignore_errors=True)
        self.serves_it_beside('lisa', 1) if status == 0 else None


class LedgerOperatorsWhoAreNotRoot(OfAnOperator, LedgerOperators):
    """The operator is not root."""

    def test_root_is_refused_at_the_site_of_another_operator(self) -> None:
        self.runs(0)  # the lock is made
        self.drop('anna', 'it', LIST % b'anna')
        before = {path: seen[:2] for path, seen in self.standing().items()}
        for words in (['run'], ['status'], ['catalogue'], ['limits'], ['put', 'the-catalogue'], ['limits', 'the-limits'], ['deluser', 'anna'],
                      ['accounts'], ['groups', 'anna', 'staff'], ['adduser', 'hugo', '2', '--groups', 'staff'], ['restore', 'LOG', '--at', '0'],
                      ['deck', '0']):
            files = [self.path(word) if word.startswith('the-') else word for word in words[1:]]
            done = self.ledger(words[0], self.folder, *files, user=0, group=0)
            self.assertEqual((done.status, done.out), (3, b'0 run, 0 refused\n' if words == ['run'] else b''), words)
            self.assertEqual(done.err, 'snomon-site: %s/keep: its owner is user %d, and not 0\n' % (self.folder, self.operator), words)
        self.assertEqual({path: seen[:2] for path, seen in self.standing().items()}, before)
        self.runs(0)
        self.assertEqual(list(self.answers('anna').values()), [LISTED % b'anna'])


if __name__ == '__main__':
    unittest.main()
