"""Whatever a text of a user says that is handed in at a site which keeps all in one ledger: it speaks for nobody else, and is answered once."""
from __future__ import annotations

import os
import subprocess
import unittest
from ledger_attacking import Attacking, LIST, LISTED, OfAnOperator


class LedgerTexts(Attacking):
    """The operator is root."""

    def test_a_text_that_speaks_for_another_is_refused(self) -> None:
        texts = [b'$LIST lisa SECRET\n', b'$JOB lisa\nEND\n$EOJ\n', b'$LIST anna LOG\n$LIST lisa SECRET\n', b'$STREAM\n$LIST lisa SECRET\n$STOP\n',
                 b'$JOB anna\nEND\n$EOJ\n$STOP\n', b'$CATALOGUE 2\n$SET SECRET anna admin SEQ 1\nuser::rwx,group::---,other::---\nx\n',
                 b'$ACCOUNTS\nanna admin\n', b' $LIST lisa SECRET\n', b'$JOB anna\nEND\n $EOJ\n$LIST lisa SECRET\n$EOJ\n',
                 b'lisa\n$LIST lisa SECRET\n', b'$list lisa SECRET\n', b'$LIST\tlisa SECRET\n', b'$LIST lisa SECRET',
                 b'$LIST anna LOG\r$LIST lisa SECRET\n', b'$SETACL lisa SECRET u::rwx\n']
        self.write('more', self.limits(texts=100, jobs=100))
        self.assertEqual(self.ledger('limits', self.folder, self.path('more')).status, 0)
        before = self.ledger('catalogue', self.folder).out
        for number, text in enumerate(texts):
            self.drop('anna', '%02d' % number, text)
        self.serves_lisa(1)
        told = list(self.answers('anna').values())
        self.assertEqual(len(told), len(texts))
        self.assertEqual([text for text, answer in zip(texts, told) if not answer.startswith(b'REFUSED ') or b'the secret' in answer], [])
        self.assertEqual(self.ledger('catalogue', self.folder).out, before)
        self.is_as_ever()

    def test_texts_that_are_no_text_are_answered_once(self) -> None:
        texts = [b'', b'\n', b'$LIST anna LOG', b'$LIST anna LOG\r\n', b'$LIST anna LOG\n\0', b'\0', b'\0' * 9000, b'\r',
                 b'\xef\xbb\xbf$LIST anna LOG\n', b'\xff\xfe', b'$JOB anna\n OUTPUT = \'\xe4\'\nEND\n$EOJ\n', b'$', b'$\n', b'$JOB anna\n',
                 b'$JOB anna\n' + b'(' * 9000 + b'\nEND\n$EOJ\n', b'$JOB anna\n X = ' + b'(' * 70 + b'\nEND\n$EOJ\n', b'x' * 9999, b'\n' * 9999,
                 b'$LIST anna ' + b'X' * 900 + b'\n', b'\x1a', b'\x0c$LIST anna LOG\n']
        self.write('more', self.limits(texts=100, jobs=100, bytes=10**6))
        self.assertEqual(self.ledger('limits', self.folder, self.path('more')).status, 0)
        for number, text in enumerate(texts):
            self.drop('anna', '%02d' % number, text)
        self.serves_lisa(0, 1)
        self.assertEqual(len(self.answers('anna')), len(texts))
        deck = self.ledger('deck', self.folder, next(iter(self.answers('lisa'))).__str__())
        self.assertEqual(deck.status, 0, deck.err)
        self.assertIn(b'$STREAM\n', deck.out)
        self.is_as_ever()

    def test_each_limit_refuses_what_breaks_it_alone(self) -> None:
        small = b'$JOB anna ST=10\nEND\n$EOJ\n'
        breaks = [('texts', 2, LIST % b'anna', 3), ('bytes', 20, LIST % b'anna', 2), ('jobs', 1, small, 2), ('statements', 15, small, 2),
                  ('largest', 10, small, 1), ('work', 10, small, 1), ('data_sets', 1, b'$CREATE anna A\n', 1), ('records', 0, small, 1)]
        for limit, most, text, count in breaks:
            with self.subTest(limit):
                self.folder = self.path(limit)
                self.make(self.folder, **{limit: most})
                for number in range(count):
                    self.drop('anna', '%d' % number, text)
                self.serves_lisa(1)
                told = list(self.answers('anna').values())
                self.assertEqual(len(told), count)
                self.assertIn(b'REFUSED %d\nLIMIT %s: ' % (count - 1, limit.encode()), told[-1])
                self.assertEqual([answer for answer in told[:-1] if answer.startswith(b'REFUSED')], [])
                self.is_whole()

    def test_a_disk_that_one_user_fills_serves_the_others(self) -> None:
        """What a text changes does not fit on the disk: it alone is refused."""
        disk = self.path('disk')
        os.mkdir(disk)
        if subprocess.run(['mount', '-t', 'tmpfs', '-o', 'size=3m,mode=755', 'tmpfs', disk], capture_output=True).returncode:
            self.skipTest('no disk can be mounted')
        try:
            self.folder = disk + '/site'
            self.make(self.folder, records=10**6, statements=10**7, largest=10**13, work=10**14, output=10**7)
            fills = (b"$CREATE anna BIG\n$JOB anna ST=1000000\n$UNIT 1 BIG\n OUTPUT(.X,1,'(80A1)')\n"
                     b"L X = DUPL('x',80)\n I = LT(I,60000) I + 1 :S(L)\nEND\n$EOJ\n")
            self.drop('anna', 'it', fills)
            self.drop('lisa', 'first', LIST % b'lisa')
            self.runs(1)
            self.assertEqual(list(self.answers('anna').values()), [b'REFUSED it\nNO ROOM ON THE DISK\n'])
            self.assertEqual(list(self.answers('lisa').values()), [LISTED % b'lisa'])
            for _ in range(3):
                self.serves_lisa(0)
            self.assertEqual(os.listdir(self.folder + '/keep/draft'), [])
            self.is_whole()
        finally:
            subprocess.run(['umount', '-l', disk], check=True)


class LedgerTextsOfAnOperator(OfAnOperator, LedgerTexts):
    """The operator is not root."""


if __name__ == '__main__':
    unittest.main()
