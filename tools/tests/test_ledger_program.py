"""A site that keeps all in one ledger: two users and ten submissions, answered as a plain run of the composed deck does it; what exceeds a
limit is refused and nothing else; the operator's acts and the users'; and a run that is killed anywhere is carried on by the next."""
from __future__ import annotations

import os
import random
import re
import shutil
import signal
import subprocess
import time
import unittest
from typing import Any, Dict, List, Tuple
from trying import Done, SITE, SNOMON, Trying, run

ACCOUNTS = b'anna admin\nlisa staff\n'
LIMITS = b'texts 100\nbytes 100000\njobs 100\nstatements 10000000\nlargest 100000000000\nwork 100000000000000\ndata_sets 10\nrecords 10000\n'
NEW_LIMITS = LIMITS + b'seconds 60\noutput 100000\n'
WIDE = LIMITS.replace(b'statements 10000000', b'statements 1000000000').replace(b'largest 100000000000', b'largest 10000000000000').replace(
    b'work 100000000000000', b'work 10000000000000000')
CATALOGUE = (b'$CATALOGUE 2\n$SET PAYROLL anna admin SEQ 2\nuser::rwx,user:lisa:r--,group::r--,mask::r--,other::---\nADA 100\nBOB 200\n'
             b'$SET LOG anna admin APPEND 1\nuser::rwx,group::---,other::rw-\nfirst\n')
WRITES = b"$JOB %s\n$UNIT 1 LOG\n OUTPUT(.X,1,'(80A1)')\n X = '%s'\nEND\n$EOJ\n"
SLOW = b'$JOB anna ST=10000000\nLOOP I = I + 1 :(LOOP)\nEND\n$EOJ\n'
# Hours in a job, in its function's matches; none takes more than a million steps.
ENDLESS = (b"$JOB anna ST=10000000 MATCH=1000000\n S = DUPL('A',24)\n DEFINE('F()') :(G)\nF S POS(0) ARBNO('A' | 'AA') 'B' :(F)\nG X = F()\nEND\n"
           b'$EOJ\n')
TEXTS: List[Tuple[str, str, bytes]] = [
    ('anna', 'a.job', WRITES % (b'anna', b'one')),
    ('anna', 'b.cards', b'$LIST anna LOG\n'),
    ('anna', 'c.cards', b'$CREATE anna NOTES\n$CATALOG anna\n'),
    ('anna', 'd.job', b"$JOB anna\n OUTPUT = 'hello'\nEND\n$EOJ\n$LIST anna NOTES\n"),
    ('anna', 'e.cards', b'$DELETE anna NOTES\n'),
    ('lisa', 'a.cards', b'$LIST lisa PAYROLL\n'),
    ('lisa', 'b.job', WRITES % (b'lisa', b'two')),
    ('lisa', 'c.cards', b'$LIST anna PAYROLL\n'),
    ('lisa', 'd.cards', b'$LIST lisa NONE\n$LIST lisa LOG\n'),
    ('lisa', 'e.job', b"$JOB lisa\n$UNIT 1 PAYROLL\n INPUT(.P,1)\nLOOP OUTPUT = P :S(LOOP)\nEND\n$EOJ\n")]
Answers = Dict[Tuple[str, int], bytes]  # by account and number


class LedgerTrying(Trying):
    """A site of two accounts, both of the caller's."""

    def setUp(self) -> None:
        super().setUp()
        self.folder = self.path('site')
        for name, text in (('accounts', ACCOUNTS), ('limits', NEW_LIMITS), ('catalogue', CATALOGUE)):
            self.write(name, text)
        self.done('init', self.folder, '--accounts', self.path('accounts'), '--limits', self.path('limits'), '--catalogue', self.path('catalogue'),
                  '--demonstration')

    def ledger(self, *words: str, **more: Any) -> Done:
        return run([SITE, *words], cwd=self.room, **more)

    def done(self, *words: str, status: int = 0) -> bytes:
        done = self.ledger(*words)
        self.assertEqual(done.status, status, done.err)
        return done.out

    def drop(self, texts: List[Tuple[str, str, bytes]]) -> None:
        for account, name, text in texts:
            self.write('%s/in/%s/%s' % (self.folder, account, name), text)

    def answers(self) -> Answers:
        found: Answers = {}
        for account in ('anna', 'lisa'):
            place = '%s/out/%s' % (self.folder, account)
            for name in os.listdir(place):
                number = re.fullmatch(r'(\d+)\.[A-Za-z0-9._-]+\.out', name)
                assert number, name
                found[account, int(number.group(1))] = self.read('%s/%s' % (place, name))
        return found


@unittest.skipUnless(os.path.exists(SITE), 'there is no site')
class LedgerProgram(LedgerTrying):
    def test_ten_submissions_are_answered_as_by_a_plain_run(self) -> None:
        self.drop(TEXTS)
        self.assertEqual(self.done('run', self.folder, status=1), b'9 run, 1 refused\n')
        answers = self.answers()
        self.assertEqual(len(answers), 10)
        self.assertEqual([text for text in answers.values() if text.startswith(b'REFUSED')],
                         [b'REFUSED c.cards\nLINE 1: I1 FOREIGN ACCOUNT\n $LIST anna PAYROLL\n       ^\n'])
        deck = self.done('deck', self.folder, '0')
        plain = run([SNOMON], given=deck)
        self.assertEqual(plain.status, 0, plain.err)
        printed = b''.join(answers[key] for key in sorted(answers, key=lambda key: key[1]) if not answers[key].startswith(b'REFUSED'))
        self.assertEqual(plain.out, printed + self.done('catalogue', self.folder))
        self.assertRegex(self.done('verify', self.folder), rb'\A\d+ commits, whole\n\Z')
        self.assertEqual([os.listdir('%s/in/%s' % (self.folder, account)) for account in ('anna', 'lisa')], [[], []])
        self.assertEqual(self.done('run', self.folder), b'0 run, 0 refused\n')
        self.assertEqual(self.answers(), answers)

    def test_what_stands_is_told(self) -> None:
        self.drop(TEXTS[:3])
        self.assertIn(b'in/anna: 3\nin/lisa: 0\n', self.done('status', self.folder))
        shutil.rmtree(self.folder + '/in/lisa')
        self.assertEqual(self.ledger('status', self.folder).status, 3)
        done = self.ledger('run', self.folder)
        self.assertEqual((done.status, done.out), (0, b'3 run, 0 refused\n'))
        self.assertIn('in/lisa: is missing', done.err)
        self.assertEqual(len(self.answers()), 3)

    def test_a_data_set_is_put_and_put_back(self) -> None:
        self.drop(TEXTS[:1])
        self.done('run', self.folder)
        after = self.done('catalogue', self.folder)
        self.assertIn(b'first\none\n', after)
        self.write('new', CATALOGUE.replace(b'ADA 100', b'ADA 999').replace(b'first', b'other'))
        self.done('put', self.folder, self.path('new'), '--set', 'PAYROLL')
        self.assertEqual(self.done('catalogue', self.folder), after.replace(b'ADA 100', b'ADA 999'))
        self.done('restore', self.folder, 'PAYROLL', '--at', '0')
        self.assertEqual(self.done('catalogue', self.folder), after.replace(b'ADA 100', b'ADA 999'))
        self.done('put', self.folder, self.path('new'))
        self.assertEqual(self.done('catalogue', self.folder), self.read('new'))
        self.assertRegex(self.done('verify', self.folder), rb'whole')

    def test_a_data_set_is_put_back_as_it_was_at_a_time(self) -> None:
        before = self.done('catalogue', self.folder)
        moment = time.gmtime()
        time.sleep(1.5)
        self.write('new', CATALOGUE.replace(b'ADA 100', b'ADA 999'))
        self.done('put', self.folder, self.path('new'))
        after = self.done('catalogue', self.folder)
        self.assertNotEqual(after, before)
        for word in (time.strftime('%Y-%m-%dT%H:%M:%S', moment), time.strftime('%Y-%m-%dT%H:%M:%SZ', time.gmtime())):
            self.assertEqual(self.done('catalogue', self.folder, '--at', word), before)
            self.done('restore', self.folder, 'PAYROLL', '--at', word)
            self.assertEqual(self.done('catalogue', self.folder), before)
        for word in ('yesterday', '2026-13-01', '2026-11-28T25:00', '', '-1'):
            self.assertEqual(self.ledger('restore', self.folder, 'PAYROLL', '--at=' + word).status, 2, word)
        for word in ('2999-01-01', '1970-01-01'): # not yet, and there was none then
            self.assertEqual(self.ledger('restore', self.folder, 'PAYROLL', '--at', word).status, 3, word)
        self.assertEqual(self.ledger('catalogue', self.folder, '--at', '2999-01-01').status, 3)
        self.assertEqual(self.done('catalogue', self.folder), before)

    def test_a_user_comes_and_goes(self) -> None:
        self.done('adduser', self.folder, 'hugo', str(os.geteuid()), '--groups', 'ops staff')
        self.drop([('hugo', 'a.cards', b'$LIST hugo LOG\n')])
        self.done('run', self.folder)
        self.assertEqual(os.listdir(self.folder + '/out/hugo'), ['0.a.cards.out'])
        self.done('deluser', self.folder, 'hugo')
        self.assertNotIn(b'hugo', self.done('status', self.folder))

    def test_what_stood_behind_each_submission_is_shown(self) -> None:
        shown = []
        for text in TEXTS[:4]:
            self.drop([text])
            self.done('run', self.folder)
            shown.append(self.done('catalogue', self.folder))
        self.assertEqual([shown[0] == shown[1], shown[1] == shown[2], shown[2] == shown[3]], [True, False, True])
        for number, before in enumerate(shown):
            self.assertEqual(self.done('catalogue', self.folder, '--at', str(number)), before)

    def test_an_account_gets_other_groups(self) -> None:
        self.assertEqual(self.done('accounts', self.folder), ACCOUNTS)
        card = b'$LIST lisa LOG\n'  # which others may read, and its group may not
        self.drop([('lisa', 'before', card)])
        self.done('run', self.folder)
        self.done('groups', self.folder, 'lisa', 'admin  other')
        lines = ACCOUNTS.splitlines(True)
        place, = [place for place, line in enumerate(lines) if line.split()[0] == b'lisa']
        lines[place] = b'lisa admin  other\n'
        self.assertEqual(self.done('accounts', self.folder), b''.join(lines))
        self.drop([('lisa', 'after', card)])
        self.done('run', self.folder)
        before, after = [self.read('%s/out/lisa/%d.%s.out' % (self.folder, number, name)) for number, name in enumerate(('before', 'after'))]
        self.assertNotIn(b'DENIED', before)
        self.assertIn(b'DENIED', after)
        for words, told in ((('nobody', 'staff'), 'accounts: has no such account'), (('lisa', 'a\nroot ops'), 'accounts: a group has a line end'),
                            (('lisa', ''), 'accounts'), (('lisa', '9'), 'accounts')):
            done = self.ledger('groups', self.folder, *words)
            self.assertEqual((done.status, done.out), (3, b''), words)
            self.assertIn(told, done.err)
        self.assertEqual(self.done('accounts', self.folder), b''.join(lines))
        self.assertRegex(self.done('verify', self.folder), rb'whole')

    def test_one_run_at_a_time(self) -> None:
        with open(self.folder + '/keep/lock', 'w') as file:
            held = subprocess.Popen(['flock', '-x', file.name, 'sleep', '5'])
            time.sleep(0.5)
            self.assertEqual(self.ledger('run', self.folder).status, 4)
            held.kill()
            held.wait()

    def test_killed_runs_are_carried_on(self) -> None:
        """Submissions are dropped, and runs are killed, at random: each is answered once, and ran once, or was refused since two runs ended in it."""
        chance, dropped, killed = random.Random(1), 0, 0
        for _ in range(40):
            for _ in range(chance.randrange(4)):
                account, dropped = chance.choice(['anna', 'lisa']), dropped + 1
                self.drop([(account, '%d.job' % dropped, WRITES % (account.encode(), b'text %d' % dropped))])
            begun = subprocess.Popen([SITE, 'run', self.folder], stdout=subprocess.DEVNULL, stderr=subprocess.DEVNULL)
            time.sleep(chance.random() / 10)
            begun.send_signal(signal.SIGKILL)
            killed += begun.wait() == -signal.SIGKILL
        self.assertGreater(killed, 0)
        self.done('run', self.folder)
        self.assertEqual(self.done('run', self.folder), b'0 run, 0 refused\n')
        answers = {name.split('.')[1]: self.read('%s/out/%s/%s' % (self.folder, account, name))
                   for account in ('anna', 'lisa') for name in os.listdir('%s/out/%s' % (self.folder, account))}
        self.assertEqual(sorted(answers, key=int), [str(number) for number in range(1, dropped + 1)])
        ran = sorted(int(number) for number, answer in answers.items() if b'ENDED TWICE' not in answer)
        self.assertGreaterEqual(len(ran), dropped - 3)
        wrote = re.findall(rb'^text (\d+)$', self.done('catalogue', self.folder), re.M)
        self.assertEqual(sorted(map(int, wrote)), ran)
        self.assertRegex(self.done('verify', self.folder), rb'whole')

    def test_what_takes_too_long_or_prints_too_much_is_refused_and_nothing_else(self) -> None:
        small = WIDE + b'seconds 1\noutput 300\ndemonstration\n'
        self.write('small', small)
        self.done('limits', self.folder, self.path('small'))
        self.assertEqual(self.done('limits', self.folder), small)
        self.drop([('anna', 'a.job', ENDLESS), ('anna', 'b.job', WRITES % (b'anna', b'one')), ('lisa', 'a.cards', b'$LIST lisa LOG\n' * 20),
                   ('lisa', 'b.job', WRITES % (b'lisa', b'two'))])
        begun = time.monotonic()
        self.assertEqual(self.done('run', self.folder, status=1), b'2 run, 2 refused\n')
        self.assertLess(time.monotonic() - begun, 30) # it is tried twice, two seconds each
        answers = {key[0] + str(key[1]): text for key, text in self.answers().items()}
        self.assertEqual(sorted(text for text in answers.values() if text.startswith(b'REFUSED')),
                         [b'REFUSED a.cards\nLIMIT output: more than 300\n', b'REFUSED a.job\nLIMIT seconds: more than 1\n'])
        self.assertRegex(self.done('catalogue', self.folder), rb'first\n(one\ntwo|two\none)\n')
        self.assertRegex(self.done('verify', self.folder), rb'whole')

    def test_a_submission_in_which_two_runs_ended_is_refused(self) -> None:
        self.drop(TEXTS[:1])
        commits = int(re.search(rb'commits: (\d+)', self.done('status', self.folder)).group(1))  # type: ignore[union-attr]
        for times in (1, 2):
            site = self.path('copy%d' % times)
            shutil.copytree(self.folder, site)
            self.write(site + '/keep/attempt', b'%d %d\n' % (commits, times))
            self.assertEqual(self.done('run', site), b'1 run, 0 refused\n')  # nothing waited in the ledger when it was opened
        self.write('more', WIDE + b'seconds 600\noutput 100000\ndemonstration\n')
        self.done('limits', self.folder, self.path('more'))
        self.drop([('lisa', 'b.cards', b'$LIST lisa LOG\n'), ('anna', 'slow.job', SLOW * 90)])
        for _ in range(2):
            begun = subprocess.Popen([SITE, 'run', self.folder], stdout=subprocess.DEVNULL, stderr=subprocess.DEVNULL)
            for _ in range(200):
                time.sleep(0.05)
                if os.path.exists(self.folder + '/keep/attempt'):
                    break
            time.sleep(0.5)
            begun.send_signal(signal.SIGKILL)
            begun.wait()
        self.assertIn(self.done('run', self.folder, status=1), (b'0 run, 1 refused\n', b'1 run, 1 refused\n'))
        self.assertIn(b'REFUSED slow.job\nTHE PROGRAM ENDED TWICE WHILE IT RAN\n', list(self.answers().values()))

    def test_users_check_hand_in_and_look(self) -> None:
        self.write('good.cards', b'$LIST anna LOG\n')
        self.write('bad.cards', b'$LIST lisa LOG\n')
        self.assertEqual(self.done('check', '--account', 'anna', self.path('good.cards')), b'ADMITTED\nMISTAKES 0 WARNINGS 0\n')
        self.assertTrue(self.done('check', '--account', 'anna', self.path('bad.cards'), status=1).startswith(b'REFUSED bad.cards\nLINE 1:'))
        self.assertTrue(self.done('submit', self.folder, '--account', 'anna', self.path('bad.cards'), status=1).startswith(b'REFUSED'))
        self.assertEqual(self.done('queue', self.folder, '--account', 'anna'), b'')
        self.assertIn(b'out/anna/NUMBER.good.cards.out', self.done('submit', self.folder, '--account', 'anna', self.path('good.cards')))
        self.assertEqual(self.ledger('submit', self.folder, '--account', 'anna', self.path('good.cards')).status, 3)
        self.assertEqual(self.done('queue', self.folder, '--account', 'anna'), b'good.cards\n')
        self.assertEqual(self.done('run', self.folder), b'1 run, 0 refused\n')
        self.assertEqual(os.listdir(self.folder + '/out/anna'), ['0.good.cards.out'])

    def test_a_site_of_rounds_is_taken_over(self) -> None:
        """As an older release left it: its files, with which it begins anew, and its rounds, which stay where they are."""
        for name in ('in/anna', 'in/lisa', 'out/anna', 'out/lisa', 'rounds', 'taken'):
            os.makedirs(self.path('old/' + name))
        limits = LIMITS + b'demonstration\n'
        users = b''.join(b'%d %s\n' % (os.geteuid(), account) for account in (b'anna', b'lisa'))
        for name, text in (('accounts', ACCOUNTS), ('users', users), ('limits', limits), ('catalogue', CATALOGUE), ('rounds/1.done', b'')):
            self.write('old/' + name, text)
        self.folder = self.path('new')
        self.done('init', self.folder, '--rounds', self.path('old'))
        self.assertEqual(self.done('catalogue', self.folder), CATALOGUE)
        self.assertEqual(self.done('limits', self.folder), limits + b'\nseconds 60\noutput 10000000\n')
        self.drop(TEXTS[:1])
        self.assertEqual(self.done('run', self.folder), b'1 run, 0 refused\n')
        self.assertEqual((sorted(os.listdir(self.path('old'))), self.read('old/catalogue')),
                         (['accounts', 'catalogue', 'in', 'limits', 'out', 'rounds', 'taken', 'users'], CATALOGUE))


if __name__ == '__main__':
    unittest.main()
