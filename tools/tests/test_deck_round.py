"""The daily round: next, get, put, names, printouts, new."""
from __future__ import annotations

import os
import unittest
from typing import List, Optional, Tuple
from trying import ACCOUNTS, BOTH, CATALOGUE_1, CATALOGUE_2, Done, PRINTOUTS, RECORDS, Trying, deck, snomon
from decks import text

STREAM = b'$LIST anna PAYROLL\n$JOB lisa ST=10\n$UNIT 8 LOG\n\n  X = 1\nEND\n$$JOB\n\n$EOJ\n'


class Next(Trying):
    def next(self, output: bytes, accounts: bytes = ACCOUNTS, stream: bytes = STREAM, *more: str) -> Done:
        self.write('output', output)
        self.write('accounts', accounts)
        self.write('stream', stream)
        return deck('next', self.path('output'), '--accounts', self.path('accounts'), '--stream', self.path('stream'), *more)

    def test_next_is_the_deck_of_three_files(self) -> None:
        for version, output in BOTH.items():
            catalogue = (CATALOGUE_1, CATALOGUE_2)[version - 1]
            done = self.next(output)
            self.assertEqual((done.status, done.err), (0, ''))
            self.assertEqual(done.out, b'$ACCOUNTS\n' + ACCOUNTS + catalogue + b'$STREAM\n' + STREAM + b'$STOP\n')

    def test_snomon_runs_the_next_deck_and_the_one_after_it(self) -> None:
        output = PRINTOUTS + CATALOGUE_1
        for _ in range(2):
            done = snomon(self.next(output, stream=b'$LIST anna PAYROLL\n').out)
            self.assertEqual((done.status, done.err), (0, ''))
            listed = b'LIST anna PAYROLL\n' + b''.join(b' ' + line + b'\n' for line in RECORDS.split(b'\n')[:-1]) + b'RECORDS 6\n'
            self.assertTrue(done.out.startswith(listed + b'$CATALOGUE'))
            output = done.out

    def test_next_takes_crlf_and_last_lines_without_end_from_files_that_people_write(self) -> None:
        wanted = self.next(BOTH[1]).out
        self.assertEqual(self.next(BOTH[1], ACCOUNTS.replace(b'\n', b'\r\n'), STREAM.replace(b'\n', b'\r\n')).out, wanted)
        self.assertEqual(self.next(BOTH[1], ACCOUNTS[:-1], STREAM + b'\n$STOP').out, wanted)

    def test_an_output_cut_anywhere_is_refused_but_behind_a_whole_data_set(self) -> None:
        self.write('accounts', ACCOUNTS)
        self.write('stream', STREAM)
        for version, output in BOTH.items():
            heading = (b'$CATALOGUE\n', b'$CATALOGUE 2\n')[version - 1]
            whole = {len(PRINTOUTS + heading), len(output)}
            for card in (b'$SET EMPTY', b'$SET LOG lisa'):
                whole.add(output.index(card))
            seen = set()
            for end in range(len(PRINTOUTS) - 10, len(output) + 1):
                done = self.cut(output[:end])
                if done is None:
                    seen.add(end)
            # A heading of version 2 may be cut into one of version 1 only together with its line's end.
            self.assertEqual(seen, whole)

    def cut(self, output: bytes) -> Optional[text.Refused]:
        """What is refused of this output, by the library, since the command takes a while to begin."""
        import io
        from decks import rounds
        try:
            rounds.next_deck(self.write('output', output), self.path('accounts'), self.path('stream'), io.BytesIO())
        except text.Refused as refusal:
            self.assertIn(f'{self.path("output")}: line ', str(refusal))
            return refusal
        return None

    def test_a_cut_output_is_refused_and_leaves_nothing(self) -> None:
        self.write('next', b'the old deck')
        done = self.next(BOTH[1][:-2], ACCOUNTS, STREAM, '-o', self.path('next'))
        self.is_refused_at(done, 'output', BOTH[1].count(b'\n'), 'E4 TRUNCATED: LOG has 0 records, and line ')
        done = self.next(BOTH[1][:-1], ACCOUNTS, STREAM, '-o', self.path('next'))
        self.is_refused_at(done, 'output', BOTH[1].count(b'\n'), 'the file ends within this line')
        self.assertEqual((self.names(), self.read('next')), (['accounts', 'next', 'output', 'stream'], b'the old deck'))

    def test_counts_that_lie_are_refused(self) -> None:
        first = PRINTOUTS.count(b'\n') + 2
        for count, line, message in ((b'5', first + 7, 'K5 BAD TEXT: a card "$SET name owner group count" is due'),
                                     (b'7', first + 9, 'K5 BAD TEXT: a card "$SET name'), (b'9', first + 11, 'K5 BAD TEXT: a card'),
                                     (b'0', first + 2, 'K5 BAD TEXT'), (b'1000', first + 13, 'E4 TRUNCATED: PAYROLL has 11 records'),
                                     (b'100001', first, 'K3 SET FULL'), (b'six', first, 'K5 BAD TEXT: six is no count'),
                                     (b'-1', first, 'K5 BAD TEXT'), (b'6 6', first, 'K5 BAD TEXT')):
            done = self.next(BOTH[1].replace(b'admin 6', b'admin ' + count, 1))
            self.is_refused_at(done, 'output', line, message)

    def test_what_no_run_writes_is_refused_by_line(self) -> None:
        first = PRINTOUTS.count(b'\n') + 1
        for old, new, line, message in (
                (b'\n', b'\r\n', 1, 'the line ends with CR LF'), (b'$CATALOGUE\n$SET P', b'$CATALOGUE 3\n$SET P', first, 'no line of an'),
                (b'JOB 2', b'$JOB 2', 5, 'no line of an output before its catalogue begins with $'),
                (b' ADA 100 ', b'ADA\x07', first + 8, 'T3 BAD CHARACTER: byte 7 in column 4'),
                (b' ADA 100 ', b'A' * 1025, first + 8, 'K5 BAD TEXT: a record has at most 1024'),
                (b' ADA 100 ', b'A' * 5001, first + 8, 'T4 LINE TOO LONG'), (b' ADA 100 ', b'A' * 9999, first + 8, 'T4 LINE TOO LONG'),
                (b'mask::r--,', b'', first + 2, 'K5 BAD TEXT: the list of PAYROLL: A6 NO MASK'),
                (b'$SET EMPTY', b'$SET PAYROLL', first + 9, 'K1 NAME TAKEN'), (b'$SET EMPTY', b'$SET 1', first + 9, 'K5 BAD TEXT: 1 is'),
                (b'$SET EMPTY', b'\n$SET EMPTY', first + 9, 'K5 BAD TEXT'), (b'$SET EMPTY', b'$STREAM', first + 9, 'K5 BAD TEXT')):
            self.is_refused_at(self.next(BOTH[1].replace(old, new)), 'output', line, message)
        self.is_refused_at(self.next(PRINTOUTS), 'output', first, 'the output has no catalogue')
        self.is_refused_at(self.next(b''), 'output', 1, 'the output has no catalogue')
        mode = BOTH[2].replace(b'APPEND', b'LIFO')
        self.is_refused_at(self.next(mode), 'output', first + 11, 'K5 BAD TEXT: LIFO is neither SEQ nor APPEND')
        self.is_refused_at(self.next(BOTH[2].replace(b' SEQ', b'')), 'output', first + 1, 'K5 BAD TEXT: a card "$SET name owner group SEQ')

    def test_bad_accounts_are_refused_by_line(self) -> None:
        for accounts, line, message in ((b'anna admin\n\n2hugo ops\n', 3, 'T1 BAD NAME: 2hugo'), (b'anna\n', 1, 'E2 BAD CARD'),
                                        (b'anna a\nanna b\n', 2, 'C1 ACCOUNT TWICE: anna'), (b'anna' + b' g' * 18, 1, 'C2 TOO MANY'),
                                        (b'$ACCOUNTS\nanna a\n', 1, 'a file of accounts has accounts alone'),
                                        (b'anna\tadmin\n', 1, 'T3 BAD CHARACTER: byte 9 in column 5'), (b'a' * 201, 1, 'T4 LINE')):
            self.is_refused_at(self.next(BOTH[1], accounts), 'accounts', line, message)

    def test_bad_streams_are_refused_by_line(self) -> None:
        for stream, line, message in ((b'$FOO\n', 1, 'E1 UNKNOWN CARD: $FOO'), (b'$STREAM\n', 1, 'E3 OUT OF PLACE: $STREAM'),
                                      (b'$LIST anna\n', 1, 'E2 BAD CARD'), (b'$TURN 9 1\n', 1, 'E2 BAD CARD'),
                                      (b'$JOB a\nEND\n', 3, 'E4 TRUNCATED: the job that begins at line 1 has no $EOJ'),
                                      (b'$SETACL a b\nu::r\n', 3, 'E4 TRUNCATED: the list that begins at line 1 has no'),
                                      (b'$STOP\n\n$LIST anna LOG\n', 3, 'nothing stands behind $STOP'),
                                      (b'$JOB a\nEND\n$JOB b\nEND\n$EOJ\n', 3, 'E3 OUT OF PLACE: $JOB in the job that begins at line 1')):
            self.is_refused_at(self.next(BOTH[1], stream=stream), 'stream', line, message)


    def test_owners_and_named_users_that_are_no_accounts_are_told(self) -> None:
        first = PRINTOUTS.count(b'\n') + 2
        nothing: List[Tuple[int, str]] = []
        for accounts, told in ((ACCOUNTS, nothing), (ACCOUNTS.replace(b'lisa staff\n', b''), [
                (first + 1, 'the list of PAYROLL has user:lisa:rw-'), (first + 10, 'LOG belongs to lisa')]),
                (b'lisa staff\n', [(first, 'PAYROLL belongs to anna'), (first + 8, 'EMPTY belongs to anna')])):
            for output in BOTH.values():
                wanted = [f'snomon-deck: {self.path("output")}: line {line}: {what}, and {self.path("accounts")} has no such account' for line, what in told]
                done = self.next(output, accounts)
                self.assertEqual((done.status, done.err.splitlines()), (0, wanted))
                self.assertTrue(done.out.startswith(b'$ACCOUNTS\n' + accounts + b'$CATALOGUE'))
                done = self.next(output, accounts, STREAM, '--strict', '-o', self.path('next'))
                if told:
                    missing = f'snomon-deck: {self.path("accounts")}: accounts are missing, so there is no next deck (--strict)'
                    self.assertEqual((done.status, done.out, done.err.splitlines()), (1, b'', [*wanted, missing]))
                    self.assertNotIn('next', self.names())
                else:
                    self.assertEqual((done.status, done.err), (0, ''))
                    os.remove(self.path('next'))

    def test_a_record_that_looks_like_a_card_names_nobody(self) -> None:
        output = BOTH[2].replace(b'$SET LOG anna admin 0\nuser::rwx,', b'$SET LOG eve admin 0\nuser::rwx,user:eve:r--,')
        self.assertNotEqual(output, BOTH[2])
        self.assertEqual(self.next(output, ACCOUNTS, STREAM, '--strict').err, '')


class Sets(Trying):
    def test_get_writes_the_records_and_put_gives_them_back(self) -> None:
        for output in BOTH.values():
            self.write('output', output)
            done = deck('get', self.path('output'), 'PAYROLL', '-o', self.path('records'))
            self.assertEqual((done.status, done.err, self.read('records')), (0, '', RECORDS))
            done = deck('put', self.path('output'), 'PAYROLL', self.path('records'))
            self.assertEqual((done.status, done.out), (0, output))
            self.assertEqual(deck('get', self.path('output'), 'EMPTY').out, b'')

    def test_put_changes_one_data_set_and_its_count_also_in_place(self) -> None:
        for output in BOTH.values():
            self.write('output', output)
            self.write('new', b'$SET A b c 1\r\n\n')
            done = deck('put', self.path('output'), 'PAYROLL', self.path('new'), '-o', self.path('output'))
            self.assertEqual((done.status, done.out, done.err), (0, b'', ''))
            wanted = output.replace(RECORDS, b'$SET A b c 1\n\n', 1).replace(b'admin 6', b'admin 2').replace(b'SEQ 6', b'SEQ 2')
            self.assertEqual(self.read('output'), wanted)

    def test_put_tells_by_line_what_cannot_be_a_record(self) -> None:
        self.write('output', BOTH[1])
        for text, line, message in ((b'A\nB\tC\n', 2, 'T3 BAD CHARACTER: byte 9 in column 2'), (b'\xc3\xa4\n', 1, 'T3 BAD CHARACTER: byte 195'),
                                    (b'\n' * 3000 + b'\x00', 3001, 'T3 BAD CHARACTER: byte 0'), (b'A\rB\n', 1, 'T3 BAD CHARACTER: byte 13'),
                                    (b'A' * 1025 + b'\n', 1, 'K5 BAD TEXT: a record has at most 1024'), (b'B\n' + b'A' * 6000, 2, 'T4 LINE'),
                                    (b'\n' * 100001, 100001, 'a data set has at most 100,000 records')):
            self.write('new', text)
            done = deck('put', self.path('output'), 'LOG', self.path('new'), '-o', self.path('output'))
            self.is_refused_at(done, 'new', line, message)
            self.assertEqual((self.read('output'), self.names()), (BOTH[1], ['new', 'output']))

    def test_a_full_data_set_is_put_and_got(self) -> None:
        records = b'A\n' * 99999 + b'B' * 1024 + b'\n'
        self.write('output', BOTH[2])
        self.write('new', records)
        changed = self.write('changed', deck('put', self.path('output'), 'LOG', self.path('new')).out)
        self.assertEqual(deck('get', changed, 'LOG').out, records)

    def test_names_that_are_not_there_are_refused(self) -> None:
        self.write('output', BOTH[1])
        self.write('new', b'')
        self.is_refused(deck('get', self.path('output'), 'GONE'), 'output: no data set is called GONE')
        self.assertEqual(deck('get', self.path('output'), 'X' * 32).status, 2)
        self.is_refused(deck('names', self.path('no\nfile')), 'no\\nfile: No such file or directory', 3)
        self.is_refused(deck('put', self.path('output'), 'GONE', self.path('new')), 'output: no data set is called GONE')
        self.is_refused(deck('printouts', self.path('output'), '--job', '3'), 'output: no job has the number 3')

    def test_names_are_written_in_order(self) -> None:
        for version, output in BOTH.items():
            self.write('output', output)
            self.assertEqual(deck('names', self.path('output')).out, b'PAYROLL\nEMPTY\nLOG\n')
            seq, append = (b'', b'') if version == 1 else (b'SEQ ', b'APPEND ')
            self.assertEqual(deck('names', '--long', self.path('output')).out, b'PAYROLL anna admin %s6\nEMPTY anna admin %s0\n'
                             b'LOG lisa staff %s1\n' % (seq, seq, append))


class Printouts(Trying):
    def test_printouts_are_all_or_those_of_one_job(self) -> None:
        for output in (*BOTH.values(), PRINTOUTS):
            self.write('output', output)
            self.assertEqual(deck('printouts', self.path('output')).out, PRINTOUTS)
            one = PRINTOUTS[PRINTOUTS.index(b'JOB 2'):PRINTOUTS.index(b'JOB 1')]
            self.assertEqual(deck('printouts', self.path('output'), '--job', '2').out, one)
            self.assertEqual(deck('printouts', self.path('output'), '--job', '1').out, b'JOB 1 hugo\nREFUSED P3 CARD 1 COLUMN 8\n')

    def test_printouts_that_no_run_prints_are_refused_by_line(self) -> None:
        for text, line, message in ((b'JOB 1 lisa\n A\n', 3, 'the printout that begins at line 1 was cut off'),
                                    (b'JOB 1 lisa\n A\nEND NOR', 3, 'the file ends within this line'),
                                    (b'JOB 1 lisa\nDONE\n', 2, 'this belongs to no printout like that of line 1: DONE'),
                                    (b'LIST a B\nREADY\n', 2, 'this belongs to no'), (b'LIST a B\n\n', 2, 'this belongs to no'),
                                    (b'LIST a\nRECORDS 0\n', 1, 'no printout begins with this line: LIST a'), (b'DONE\n', 1, 'no printout begins'),
                                    (b'\n', 1, 'no printout begins'), (b'JOB one lisa\nEND NORMAL AFTER 1\n', 1, 'no printout begins'),
                                    (b'LIST a B\n A\n$CATALOGUE\n', 3, 'this belongs to no printout')):
            self.write('output', text)
            self.is_refused_at(deck('printouts', self.path('output')), 'output', line, message)


class New(Trying):
    def new(self, *more: str) -> Done:
        return deck('new', self.path('folder'), '--owner', 'anna', '--group', 'admin', *more)

    def test_new_makes_a_data_set_of_each_file(self) -> None:
        os.mkdir(self.path('folder'))
        self.write('folder/b', b'ADA\r\n\n$SET')
        self.write('folder/B.1', b'')
        wanted = (b'$CATALOGUE\n$SET B.1 anna admin 0\nuser::rwx,group::---,other::---\n'
                  b'$SET b anna admin 3\nuser::rwx,group::---,other::---\nADA\n\n$SET\n')
        self.assertEqual(self.new().out, wanted)
        self.assertEqual(deck('names', self.write('made', wanted)).out, b'B.1\nb\n')
        with_list = self.new('--list', 'o::,g::r,u::wr,m::x,u:lisa:r', '--mode', 'APPEND').out
        listed = b'user::rw-,user:lisa:r--,group::r--,mask::--x,other::---'
        self.assertEqual(with_list, wanted.replace(b'$CATALOGUE', b'$CATALOGUE 2').replace(b'user::rwx,group::---,other::---', listed)
                         .replace(b'admin ', b'admin APPEND '))
        run = snomon(b'$ACCOUNTS\nanna admin\n' + wanted + b'$STREAM\n$STOP\n')
        self.assertEqual((run.status, run.err), (0, ''))

    def test_new_refuses_what_is_no_data_set(self) -> None:
        os.mkdir(self.path('folder'))
        self.write('folder/a', b'A\n\xff\n')
        self.is_refused_at(self.new(), 'folder/a', 2, 'T3 BAD CHARACTER: byte 255 in column 1')
        self.write('folder/a', b'A')
        self.write('folder/a b', b'A')
        self.is_refused(self.new(), "folder/a b: what the file is called can be no name")
        os.rename(self.path('folder/a b'), self.path('folder/.b'))
        self.is_refused(self.new(), "folder/.b: what the file is called can be no name")
        os.remove(self.path('folder/.b'))
        os.mkdir(self.path('folder/c'))
        self.is_refused(self.new(), "folder/c: Is a directory", 3)
        os.rmdir(self.path('folder/c'))
        for number in range(1000):
            self.write('folder/x%d' % number, b'')
        self.is_refused(self.new(), 'folder: it has 1001 files, and there are at most 1,000 data sets')
        for words in (['--list', 'u::r'], ['--owner', '1'], ['--mode', 'LIFO'], ['--group', '']):
            self.assertEqual(self.new(*words).status, 2)


class Lists(unittest.TestCase):
    def test_lists_are_read_as_the_second_opinion_reads_them(self) -> None:
        import random
        import monitor
        import random_decks
        from decks import lists
        r = random.Random(1)
        for _ in range(3000):
            text = ','.join(random_decks.acl(r))
            for _ in range(r.choice([0, 0, 1, 2])):
                at = r.randint(0, len(text))
                text = text[:at] + r.choice([',', ':', 'r', 'x', ' ', 'u', '', '-', '1']) + text[at + r.randint(0, 2):]
            try:
                entries = monitor.read_short(text)
                wanted = ','.join('%s:%s:%s' % (t, q, monitor.shown(entries[t, q])) for t, q in monitor.canonical(entries))
            except monitor.BadList as fault:
                wanted = str(fault)
            try:
                got = lists.canonical(text.encode()).decode()
            except lists.BadList as fault:
                got = str(fault)
            self.assertEqual(got, wanted, text)
