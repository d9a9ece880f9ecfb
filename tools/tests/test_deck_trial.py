"""A program by itself, to try it."""
from __future__ import annotations

from trying import Trying, deck, snomon

PROGRAM = b"* tabs\r\n\tOUTPUT = INPUT\t:F(E)\n$X\t= 1\nEND\nfirst\n"


class OfOneProgram(Trying):
    def test_a_program_becomes_a_deck_that_runs(self) -> None:
        done = deck('try', self.write('p', b"LOOP\tOUTPUT = INPUT\t:S(LOOP)\nEND\n"), self.write('d', b'$A\n\tB\nC'))
        self.assertEqual((done.status, done.err), (0, ''))
        ran = snomon(done.out)
        self.assertEqual(ran.out, b'JOB 1 me\n $A\n         B\n C\nEND NORMAL AFTER 4\n$CATALOGUE 2\n')

    def test_tabs_become_blanks_and_dollars_are_doubled(self) -> None:
        done = deck('try', self.write('p', PROGRAM), self.write('d', b'$\n$$\n'))
        self.assertEqual(done.out.split(b'$JOB me\n')[1], b"* tabs\n        OUTPUT = INPUT  :F(E)\n$$X      = 1\nEND\nfirst\n$$\n$$$\n$EOJ\n$STOP\n")

    def test_a_file_gets_it(self) -> None:
        self.assertEqual(deck('try', self.write('p', b'END\n'), '-o', self.path('deck')).out, b'')
        self.assertEqual(self.read('deck'), b'$ACCOUNTS\nme users\n$CATALOGUE 2\n$STREAM\n$JOB me\nEND\n$EOJ\n$STOP\n')

    def test_a_unit_has_the_lines_of_a_file(self) -> None:
        program = self.write('p', b"        INPUT('R',8); OUTPUT('W',9)\nLOOP    W = R ' !'   :S(LOOP)\nEND\n")
        words = ('--unit', '8=' + self.write('in', b'$A\r\n B\n'), '--unit', '9=' + self.write('out', b''))
        done = deck('try', program, *words)
        self.assertEqual(done.out.split(b'$JOB me\n')[1].split(b'  ')[0], b'$UNIT 8 UNIT8\n$UNIT 9 UNIT9\n')
        catalogue = snomon(done.out).out.split(b'$CATALOGUE 2\n')[1]
        self.assertEqual(catalogue, b'$SET UNIT8 me users SEQ 2\nuser::rwx,group::---,other::---\n$A\n B\n'
                                    b'$SET UNIT9 me users SEQ 2\nuser::rwx,group::---,other::---\n$A !\n B !\n')

    def test_units_are_named_once_with_a_file(self) -> None:
        program = self.write('p', b'END\n')
        self.is_refused_at(deck('try', program, '--unit', '8=' + self.write('u', b'\t\n')), 'u', 1, 'T3 BAD CHARACTER')
        for words in (['8'], ['8='], ['0=p'], ['100=p'], ['x=p'], ['8=p', '--unit', '8=p']):
            self.assertEqual(deck('try', program, '--unit', *words).status, 2)

    def test_data_need_an_end_line(self) -> None:
        for program in (b' OUTPUT = 1\n', b'end\n', b'ENDX\n', b' END\n', b''):
            self.is_refused(deck('try', self.write('p', program), self.write('d', b'1\n')), 'no line has END')
        self.assertEqual(deck('try', self.write('p', b'END;\n'), self.path('d')).status, 0)

    def test_a_line_that_cannot_stand_in_a_deck_is_told(self) -> None:
        self.is_refused_at(deck('try', self.write('p', b'END\n' + b'$' * 200 + b'\n')), 'p', 2, 'T4 LINE TOO LONG')
        self.is_refused_at(deck('try', self.write('p', b'\n\xc3\xa4\n')), 'p', 2, 'T3 BAD CHARACTER: byte 195 in column 1')
        self.is_refused(deck('try', self.path('missing')), 'missing: No such file', 3)
