"""Where jobs failed: an output, or a site's answer, beside what listing wrote of the deck."""
from __future__ import annotations

import os
import unittest
from trying import Done, Trying, deck, run, snomon

# A listing as listing writes it, of three jobs; the last has statements on one line, a continuation and a comment between.
LISTING = b'''JOB 1 anna LINE 4 STATEMENTS 9 STEPS 100
   LINE  CARD  STATEMENT
      5     1          1  L       X = LPAD(X,1)         :(L)
      6     2             END
DATA 1
LINE 5 WARNING NO FUNCTION LPAD: write DUPL(' ',N - SIZE(S)) S, which fails if S is longer
    L       X = LPAD(X,1)         :(L)
                ^
JOB 2 lisa LINE 9 STATEMENTS 50000 STEPS 1000000
$UNIT 8 PAYROLL
   LINE  CARD  STATEMENT
     11     1          1          X = 3.5
     12     2             END
LINE 11 P2 BLANK MISSING: there are no reals: count in integers of a smaller unit, as cents
            X = 3.5
                 ^
JOB 3 anna LINE 14 STATEMENTS 50000 STEPS 1000000
$UNIT 8 PAYROLL
   LINE  CARD  STATEMENT
     16     1             * reads
     17     2        1-3  A = 1; B = A /
     18     3             -LIST
     19     4             +   0; C = 3
     20     5          4  C = 4
     21     6             END
MISTAKES 1 WARNINGS 1
'''
AFTER_SEVEN = b'''JOB 7 anna
 spooled
END %s
JOB 9 anna
DENIED STATEMENT 4 READ PAYROLL BY other::
FULL STATEMENT 9 WRITE PAYROLL
END NORMAL AFTER 4
JOB 8 lisa
REFUSED P2 CARD 1 COLUMN 14
'''
REST = b'''JOB 8 lisa
    REFUSED P2 CARD 1 COLUMN 14
    LINE 11 P2 BLANK MISSING: there are no reals: count in integers of a smaller unit, as cents
                X = 3.5
                     ^
JOB 9 anna
    DENIED STATEMENT 4 READ PAYROLL BY other::
    LINE 20 CARD 5 STATEMENT 4
        C = 4
    FULL STATEMENT 9 WRITE PAYROLL
    END NORMAL AFTER 4
'''
FIRST = b'''JOB 7 anna
    END %s
    %s
'''
PLACE = b'LINE 5 CARD 1 STATEMENT 1\n        L       X = LPAD(X,1)         :(L)\n    '


class Faults(Trying):
    def told(self, output: bytes, listing: bytes = LISTING) -> Done:
        return deck('faults', self.write('output', output), self.write('listing', listing))

    def test_the_line_the_text_and_the_name_are_told(self) -> None:
        ends = {b'FAULT FUNCTION AT 1 AFTER 1': PLACE + b"NO FUNCTION LPAD: write DUPL(' ',N - SIZE(S)) S, which fails if S is longer",
                b'FAULT TYPE AT 1 AFTER 1': PLACE + b'ask INTEGER(V) or DATATYPE(V) before',
                b'MATCH LIMIT AT 1 AFTER 1': PLACE + b'a match takes more than 100 steps: take BREAK or SPAN for ARB, begin with POS(0), or '
                                                     b'write a larger MATCH=',
                b'STATEMENT LIMIT AFTER 9': b'LINE 4 lets 9 statements begin: look for a loop without an end, or write a larger ST= there'}
        for end, told in ends.items():
            done = self.told(AFTER_SEVEN % end)
            self.assertEqual((done.status, done.out.decode()), (1, (FIRST % (end, told) + REST).decode()))

    def test_a_statement_may_share_its_line_and_go_on(self) -> None:
        text = AFTER_SEVEN.replace(b'DENIED STATEMENT 4', b'DENIED STATEMENT 3') % b'NORMAL AFTER 1'
        self.assertIn(b'    LINE 17 CARD 2 STATEMENT 3, number 3 of 3 that begin there\n        A = 1; B = A /\n        +   0; C = 3\n    FULL',
                      self.told(text).out)

    def test_nothing_failed(self) -> None:
        done = self.told(b'JOB 1 anna\nEND NORMAL AFTER 1\nJOB 2 lisa\nEND NORMAL AFTER 1\nJOB 3 anna\nEND NORMAL AFTER 1\n$CATALOGUE 2\n')
        self.assertEqual((done.status, done.out), (0, b''))

    def test_another_deck_is_refused(self) -> None:
        self.is_refused(self.told(b'JOB 1 anna\nEND NORMAL AFTER 1\n'), 'it has 3 jobs, and the output 1', 2)
        other = AFTER_SEVEN.replace(b'JOB 9 anna', b'JOB 9 hugo') % b'NORMAL AFTER 1'
        self.is_refused(self.told(other), 'job 3 is of anna, and that of the output of hugo', 2)
        self.is_refused(self.told(AFTER_SEVEN, b'MISTAKES 0 WARNINGS 0\n'), 'no job is listed here', 2)
        self.is_refused(self.told(AFTER_SEVEN, LISTING.replace(b'      5     1          1', b'      5     1         1?')), 'no line of a program', 2)
        self.is_refused(self.told(b'report\n'), 'no printout begins with this line', 2)
        self.is_refused(deck('faults', self.path('none'), self.write('listing', LISTING)), 'none: No such file', 2)

    @unittest.skipUnless('LISTING' in os.environ, 'LISTING names no program')
    def test_a_run_and_its_listing(self) -> None:
        program = b"        INPUT('R',8)\nLOOP    R 'X' =   :S(LOOP)\n        A = 1 ; B = A / (A - 1)\nEND\n"
        given = deck('try', self.write('program', program), '--unit', '8=' + self.write('unit', b'AXX\n')).out
        done = self.told(snomon(given).out, run([os.environ['LISTING']], given=given).out)
        self.assertEqual(done.out, b'JOB 1 me\n    END FAULT ARITH AT 4 AFTER 5\n    LINE 12 CARD 3 STATEMENT 4, number 2 of 2 that begin there\n'
                                   b'                A = 1 ; B = A / (A - 1)\n    test the operands, as NE(N,0)\n')

    @unittest.skipUnless('LISTING' in os.environ, 'LISTING names no program')
    def test_a_fault_of_which_the_listing_warns(self) -> None:
        faults = {b'&STLIMIT = -1': (b'KEYWORD', b'OUT OF RANGE &STLIMIT: '), b"'AB' LEN(*N)": (b'TYPE', b'TOO LATE LEN: '),
                  b"INPUT('R',8,'r.txt')": (b'FORMAT', b'NO FILE r.txt: '), b"OUTPUT('R',8,'r.txt')": (b'FORMAT', b'NO FILE r.txt: ')}
        for statement, (fault, told) in faults.items():
            given = deck('try', self.write('program', b'        %s\nEND\n' % statement)).out
            said = self.told(snomon(given).out, run([os.environ['LISTING']], given=given).out).out
            self.assertIn(b'    END FAULT %s AT 1 AFTER 1\n' % fault, said)
            self.assertIn(b'    ' + told, said)
