"""The answers of a site that keeps all in one ledger are their user's alone, and none is lost, whatever becomes of the folders they stand in."""
from __future__ import annotations

import os
import subprocess
import unittest
from ledger_attacking import Attacking, LIST, LISTED, NOBODY, OfAnOperator


class LedgerAnswers(Attacking):
    """The operator is root."""

    def test_the_answers_of_a_user_are_that_users_alone(self) -> None:
        self.drop('anna', 'it', LIST % b'anna')
        self.drop('lisa', 'it', b'$LIST lisa SECRET\n')
        self.runs(0)
        hers, = ['%s/out/lisa/%s' % (self.folder, name) for name in os.listdir(self.folder + '/out/lisa')]
        mine, = ['%s/out/anna/%s' % (self.folder, name) for name in os.listdir(self.folder + '/out/anna')]
        self.assertEqual([self.as_user('anna', 'cat "$1"', mine), self.as_user('lisa', 'cat "$1"', hers)], [0, 0])
        self.assertNotEqual(self.as_user('anna', 'cat "$1"', hers), 0)
        for script in ('ls "$1/out/lisa"', 'ls "$1/in/lisa"', 'ls "$1/keep"', 'cat "$1/keep/ledger/00000000"', 'rm "$2"', 'echo >"$1/out/anna/x"',
                       'mkdir "$1/out/anna/x"', 'mv "$1/in/anna" "$1/in/away"', 'mv "$1/out/anna" "$1/out/away"', 'flock -n -x "$1/keep/lock" true',
                       'echo >"$1/in/lisa/x"', 'mkdir "$1/in/x"', 'ls "$1/keep/taken"'):
            self.assertNotEqual(self.as_user('anna', script, self.folder, mine), 0, script)

    def test_a_user_who_changes_an_answer_stops_nobody(self) -> None:
        self.drop('anna', 'it', LIST % b'anna')
        self.runs(0)
        self.as_user('anna', 'echo mine >"$1"; chmod 0 "$1"', '%s/out/anna/%s' % (self.folder, os.listdir(self.folder + '/out/anna')[0]))
        self.serves_lisa(0)
        self.is_as_ever()

    def test_a_folder_of_answers_that_cannot_be_written_loses_nothing(self) -> None:
        out, away = self.folder + '/out/anna', self.path('away')
        for what in ('missing', 'a file', 'a link'):
            with self.subTest(what):
                before = len(self.answers('anna'))
                self.drop('anna', 'it', LIST % b'anna')
                os.rename(out, away)
                if what == 'a file':
                    self.write('site/out/anna', b'')
                elif what == 'a link':
                    os.symlink('../in/anna', out)
                try:
                    self.assertIn('out/anna', self.serves_lisa(0, 1).err)
                finally:
                    if os.path.lexists(out):
                        os.remove(out)
                    os.rename(away, out)
                    self.runs(0)
                    self.assertEqual(self.last('anna', before), [LISTED % b'anna'])
        self.is_as_ever()

    def test_a_folder_of_answers_that_is_not_the_operators_is_passed_over(self) -> None:
        """Its owner could make a folder there under the name of an answer, and none could be put any more."""
        out = self.folder + '/out/anna'
        os.chown(out, NOBODY, -1)
        os.chmod(out, 0o2750)
        os.makedirs(out + '/0.it.out/x')
        self.drop('anna', 'it', LIST % b'anna')
        self.serves_lisa()

    def test_a_run_whose_output_nobody_takes_answers_all_the_same(self) -> None:
        self.drop('anna', 'it', LIST % b'anna')
        with open('/dev/full', 'wb') as full:
            ended = subprocess.run([self.program, 'run', self.folder], stdout=full, stderr=full, **self.as_operator())
        self.assertEqual((ended.returncode, list(self.answers('anna').values())), (3, [LISTED % b'anna']))
        self.drop('anna', 'it', LIST % b'anna')
        ended = subprocess.run(['/bin/sh', '-c', 'exec "$1" run "$2" >&- 2>&- <&-', 'sh', self.program, self.folder], **self.as_operator())
        self.assertEqual(list(self.answers('anna').values()), [LISTED % b'anna'] * 2)
        self.is_as_ever()


class LedgerAnswersOfAnOperator(OfAnOperator, LedgerAnswers):
    """The operator is not root."""


if __name__ == '__main__':
    unittest.main()
