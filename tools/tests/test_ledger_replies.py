"""What users of a site that keeps all in one ledger are told of their submissions, and what the ledger tells of these."""
from __future__ import annotations

import json
import os
import unittest
from typing import Dict, List, Union
from test_ledger_program import CATALOGUE, LedgerTrying
from trying import SITE, deck, proved, run

LISTING = os.environ.get('LISTING') or proved('listing')
LIST = b'$LIST %s LOG\n'
HELLO = b"$JOB %s\n  OUTPUT = 'hello'\nEND\n$EOJ\n"
REFUSALS = {
    b'$LIST anna LOG\n$LIST anna 9X\n': 'LINE 2: T1 BAD NAME\n $LIST anna 9X\n ^\n',
    b'$LIST\tanna LOG\n': 'LINE 1: T3 BAD CHARACTER\n $LIST?anna LOG\n      ^\n',
    b'$SETACL anna LOG\n\tuser::rwx\t# \xe4\n$ENDACL\n': 'LINE 2: T3 BAD CHARACTER\n ?user::rwx?# ?\n              ^\n',
    b'$JOB anna\n' + b'X' * 250 + b'\nEND\n$EOJ\n': 'LINE 2: T4 LINE TOO LONG\n %s\n %s^\n' % ('X' * 200, ' ' * 200),
    b'$JOB anna\nEND\n': 'LINE 3: I3 UNFINISHED\n \n ^\n',
    b'$JOB anna\n\n  * b\n$LIST anna LOG\n': 'LINE 4: E3 OUT OF PLACE\n $LIST anna LOG\n ^\n',
    b'   hello\r\n': 'LINE 1: E1 UNKNOWN CARD\n    hello\n    ^\n',
    b'$STOP\n': 'LINE 1: I2 STOP CARD\n $STOP\n ^\n',
    b'$LIST anna LOG\n  $LIST lisa LOG\n': 'LINE 2: I1 FOREIGN ACCOUNT\n   $LIST lisa LOG\n         ^\n',
}
Row = Dict[str, Union[str, int]]


@unittest.skipUnless(os.path.exists(SITE), 'there is no site')
class LedgerReplies(LedgerTrying):
    def of(self, account: str) -> List[str]:
        """What the account got, by the order of the numbers."""
        return [text.decode() for (own, _), text in sorted(self.answers().items(), key=lambda one: one[0][1]) if own == account]

    def test_each_is_given_what_is_theirs(self) -> None:
        self.drop([('anna', 'a', HELLO % b'anna' + b'$DRAIN\n' + LIST % b'anna'), ('lisa', 'b', HELLO % b'lisa'), ('lisa', 'c', LIST % b'lisa')])
        self.assertEqual(self.done('run', self.folder), b'3 run, 0 refused\n')
        told = self.of('anna') + self.of('lisa')
        self.assertEqual([text.replace('JOB 2', 'JOB 1') for text in told], [
            'JOB 1 anna\n hello\nEND NORMAL AFTER 1\nLIST anna LOG\n first\nRECORDS 1\n', 'JOB 1 lisa\n hello\nEND NORMAL AFTER 1\n',
            'LIST lisa LOG\n first\nRECORDS 1\n'])
        self.assertEqual(self.done('catalogue', self.folder), CATALOGUE)

    def test_what_a_run_leaves_is_there_for_the_next(self) -> None:
        self.drop([('anna', '1', b"$CREATE anna NEW\n$JOB anna\n$UNIT 8 NEW\n  OUTPUT('W',8)\n  W = 'mine'\nEND\n$EOJ\n")])
        self.done('run', self.folder)
        self.drop([('anna', '1', b'$LIST anna NEW\n')])
        self.done('run', self.folder)
        self.assertEqual(self.of('anna')[1], 'LIST anna NEW\n mine\nRECORDS 1\n')

    def test_a_refusal_shows_the_line_and_the_place(self) -> None:
        self.drop([('anna', 'text-%d' % k, text) for k, text in enumerate(REFUSALS)] + [('lisa', 'it', LIST % b'lisa')])
        self.assertEqual(self.done('run', self.folder, status=1), b'1 run, %d refused\n' % len(REFUSALS))
        self.assertEqual(self.of('anna'), ['REFUSED text-%d\n%s' % one for one in enumerate(REFUSALS.values())])
        self.assertEqual(self.of('lisa'), ['LIST lisa LOG\n first\nRECORDS 1\n'])

    def test_a_user_can_ask_before_handing_in(self) -> None:
        for k, (text, wanted) in enumerate(REFUSALS.items()):
            reply = 'REFUSED text-%d\n%s' % (k, wanted)
            self.assertEqual(self.done('check', self.write('text-%d' % k, text), '--account', 'anna', status=1).decode()[:len(reply)], reply)
        good = self.write('good', HELLO % b'anna')
        self.assertEqual(self.done('check', good, '--account', 'anna'), b'ADMITTED\nJOB 1 anna LINE 1 LOADS\nMISTAKES 0 WARNINGS 0\n')
        self.done('check', good, '--account', 'lisa', status=1)
        self.assertIn('none', self.ledger('check', self.path('none'), '--account', 'anna').err)
        self.done('check', self.path('none'), '--account', 'anna', status=3)

    def test_and_is_told_what_is_wrong_with_each_program(self) -> None:
        text = (b'$LIST anna LOG\n' + HELLO % b'anna'
                + b"$JOB anna\n        T = TABLE()\n        X = T[1]\n        OUTPUT = RPAD(X,9)\nEND\n$EOJ\n")
        told = self.done('check', self.write('wrong', text), '--account', 'anna', status=1).decode()
        self.assertEqual(told, 'ADMITTED\nJOB 1 anna LINE 2 LOADS\nJOB 2 anna LINE 6 DOES NOT LOAD\n'
                         'LINE 8 STATEMENT 2 P3 UNEXPECTED: there are no square brackets: an item is T<E>\n'
                         '            X = T[1]\n                 ^\n'
                         'LINE 9 STATEMENT 3 WARNING NO FUNCTION RPAD: write S DUPL(\' \',N - SIZE(S)), which fails if S is longer\n'
                         '            OUTPUT = RPAD(X,9)\n                     ^\n'
                         'MISTAKES 1 WARNINGS 1\n')
        if os.path.exists(LISTING):
            listed = run([LISTING, '--quiet', '--text', '--account', 'anna'], given=text)
            self.assertEqual(listed.out.decode(), ''.join(told.splitlines(keepends=True)[3:6]))
        self.drop([('anna', 'wrong', text)])
        self.done('run', self.folder)
        self.assertIn('REFUSED P3 CARD 2 COLUMN 14\n', self.of('anna')[0])

    def test_a_reply_repeats_a_plain_name_alone(self) -> None:
        self.drop([('lisa', name, b'$STOP\n') for name in ('x' * 64, 'x' * 65, 'two words', 'a\nb', '\xe4', 'a.-B_9', "'")])
        self.done('run', self.folder, status=1)
        told = sorted(text.split('\n')[0] for text in self.of('lisa'))
        self.assertEqual(told, ['REFUSED -'] * 5 + ['REFUSED a.-B_9', 'REFUSED ' + 'x' * 64])
        self.assertEqual(sorted(name.split('.', 1)[1] for name in os.listdir(self.folder + '/out/lisa')),
                         ['-.out'] * 5 + ['a.-B_9.out', 'x' * 64 + '.out'])

    def test_the_history_tells_who_asked_for_what(self) -> None:
        """snomon-deck reads the ledger that snomon-site wrote."""
        self.drop([('anna', 'a.cards', LIST % b'anna'), ('lisa', 'b.job', HELLO % b'lisa'), ('lisa', 'c.cards', b'$STOP\n')])
        self.done('run', self.folder, status=1)
        done = deck('history', self.folder, '--json')
        self.assertEqual((done.status, done.err), (0, ''))
        rows: List[Row] = json.loads(done.out)
        seen = {(row.get('account'), row['event'], row.get('set')) for row in rows}
        self.assertLessEqual({('anna', 'TOOK', None), ('anna', 'LIST', 'LOG'), ('lisa', 'LOADED', None), ('lisa', 'ENDED', None)}, seen)
        self.assertIn('c.cards of uid %d: LINE 1: I2 STOP CARD' % os.geteuid(), [row.get('more') for row in rows if row['event'] == 'REFUSED'])


if __name__ == '__main__':
    unittest.main()
