"""What a run has printed: failed, and printouts of a job, an account, each account."""
from __future__ import annotations

import io
import os
import re
import resource
import stat
from trying import BOTH, CATALOGUE_1, Done, MOST_MEMORY, PRINTOUTS, TOP, Trying, deck, run, snomon
from test_deck_split import HEAD, OPEN, sets

CLOSED = b'user::rwx,group::---,other::---\n'
SETS = (sets(b'A') + b'$SET P anna admin 1\n' + CLOSED + b'secret\n$SET R anna admin 4\n' + OPEN
        + b'DENIED NOT OWNER\nJOB 9 lisa\nREFUSED M2 NO ACCOUNT\nEND FAULT TYPE AT 1 AFTER 1\n')


def job(account: bytes, *lines: bytes, card: bytes = b'', after: bytes = b'$DRAIN\n') -> bytes:
    return b'$JOB %s%s\n' % (account, card) + b''.join(line + b'\n' for line in lines) + b'END\n$EOJ\n' + after


# A job that was denied something and ended normally, a fault, a limit, a bad unit, an unknown account; and one that only says so.
STREAM = (b'$LIST eve A\n$LIST lisa A\n$CREATE lisa A\n$DELETE lisa A\n$SHOWACL lisa P\n$SETACL anna A u::rwx\n$LIST anna R\n'
          + job(b'lisa', b'$UNIT 8 P', b"  INPUT('X',8); OUTPUT = X") + job(b'hugo', b"  OUTPUT = 'DENIED BY me'; X = 1 / 0")
          + job(b'lisa', b'L  :(L)', card=b' ST=1') + job(b'hugo', b'$UNIT 100 A') + job(b'eve', b'  X = 1')
          + job(b'anna', b"  OUTPUT = 'DENIED STATEMENT 1 READ P BY other::'; OUTPUT = 'END FAULT TYPE AT 1 AFTER 1'")
          + b'$CREATE anna N\n$CATALOG anna\n')
FAILURES = b'''LIST eve A
    REFUSED M2 NO ACCOUNT
CREATE lisa A
    REFUSED K1 NAME TAKEN
DELETE lisa A
    DENIED NOT OWNER
SHOWACL lisa P
    DENIED BY other::
SETACL anna A
    REFUSED A4 MISSING group::
JOB 1 lisa
    DENIED STATEMENT 2 READ P BY other::
    END NORMAL AFTER 2
JOB 2 hugo
    END FAULT ARITH AT 2 AFTER 2
JOB 3 lisa
    END STATEMENT LIMIT AFTER 1
JOB 4 hugo
    REFUSED U2 UNIT 100
JOB 5 eve
    REFUSED M2 NO ACCOUNT
'''
PAYROLL_RUN = b'''JOB 3 hugo
    DENIED STATEMENT 2 READ PAY BY other::
    END NORMAL AFTER 2
LIST lisa PAY
    DENIED BY user:lisa:
'''


class Failed(Trying):
    def failed(self, output: bytes, *more: str) -> Done:
        return deck('failed', self.write('output', output), *more)

    def test_failed_lists_each_job_and_command_that_failed(self) -> None:
        ran = snomon(HEAD + SETS + b'$STREAM\n' + STREAM + b'$STOP\n')
        self.assertEqual((ran.status, ran.err), (0, ''))
        done = self.failed(ran.out)
        self.assertEqual((done.status, done.out, done.err), (1, FAILURES, ''))
        done = self.failed(ran.out, '-o', self.path('list'))
        self.assertEqual((done.status, done.out, self.read('list')), (1, b'', FAILURES))

    def test_nothing_is_listed_where_nothing_failed(self) -> None:
        stream = b'$LIST anna R\n$SHOWACL anna A\n$CREATE lisa B\n' + STREAM[STREAM.index(b'$JOB anna'):] + b'$DELETE lisa B\n'
        ran = snomon(HEAD + SETS + b'$STREAM\n' + stream + b'$STOP\n')
        self.assertIn(b'\n DENIED NOT OWNER\n', ran.out)
        self.assertIn(b'\n DENIED STATEMENT 1 READ P BY other::\n END FAULT', ran.out)
        done = self.failed(ran.out)
        self.assertEqual((done.status, done.out, done.err), (0, b'', ''))
        self.assertEqual(self.failed(CATALOGUE_1).status, 0)

    def test_the_documents_find_the_job_of_the_example_that_was_denied_a_record(self) -> None:
        with open(os.path.join(TOP, 'examples', 'payroll-run.out'), 'rb') as output:
            self.write('monday.out', output.read())
        path = os.path.join(TOP, 'bin') + os.pathsep + os.environ['PATH']
        for page in ('reference/site.md', 'man/snomon.1'):
            with open(os.path.join(TOP, 'docs', page)) as text:
                command = re.findall(r'^snomon-deck failed .*$', text.read(), re.M)[0]
            done = run(['sh', '-c', command], cwd=self.room, env={**os.environ, 'PATH': path})
            self.assertEqual((done.status, done.out, done.err), (1, PAYROLL_RUN, ''), page)

    def test_a_full_data_set_and_many_notes_are_told_in_a_few_lines(self) -> None:
        notes = b'DENIED STATEMENT 2 READ A BY mask::\nFULL STATEMENT 3 WRITE A\n' * 1000
        notes += b''.join(b'DENIED STATEMENT %d ENDFILE A MODE\n' % number for number in range(10, 50))
        done = self.failed(b'JOB 7 lisa\n' + notes + b'END NORMAL AFTER 9\n' + CATALOGUE_1)
        wanted = [b'JOB 7 lisa', b'    DENIED STATEMENT 2 READ A BY mask:: (1000 times)', b'    FULL STATEMENT 3 WRITE A (1000 times)',
                  *(b'    DENIED STATEMENT %d ENDFILE A MODE' % number for number in range(10, 28)), b'    (and 22 other notes)',
                  b'    END NORMAL AFTER 9', b'']
        self.assertEqual((done.status, done.out.split(b'\n')), (1, wanted))
        with open(self.path('output'), 'wb') as output:
            output.write(b'JOB 7 lisa\n')
            for number in range(400_000):
                output.write(b'FULL STATEMENT %d WRITE A\n' % number)
            output.write(b'END MEMORY AFTER 9\n' + CATALOGUE_1)
        self.assertLess(self.memory_of(['failed', self.path('output'), '-o', self.path('list')], 1), MOST_MEMORY)

    def test_an_output_that_was_cut_off_is_told(self) -> None:
        ran = snomon(HEAD + SETS + b'$STREAM\n$LIST eve A\n$FOO\n$STOP\n')
        self.assertEqual((ran.status, ran.out), (1, b'LIST eve A\nREFUSED M2 NO ACCOUNT\n'))
        good = b'LIST lisa A\n A 1\nRECORDS 1\n'
        for output, line, listed, message in (
                (ran.out, 3, b'LIST eve A\n    REFUSED M2 NO ACCOUNT\n', 'the output has no catalogue'), (b'', 1, b'', 'the output has no catalogue'),
                (good, 4, b'', 'the output has no catalogue'),
                (good + b'JOB 1 lisa\nDENIED STATEMENT 1 READ A MODE\nEND NORM', 6,
                 b'JOB 1 lisa\n    DENIED STATEMENT 1 READ A MODE\n    (the output was cut off here)\n', 'the file ends within this line'),
                (b'JOB 1 lisa\nEND FAULT TYPE AT 1 AFTER 1\nJOB', 3, b'JOB 1 lisa\n    END FAULT TYPE AT 1 AFTER 1\n', 'the file ends within this line'),
                (b'JOB 1 lisa\n A\n', 3, b'JOB 1 lisa\n    (the output was cut off here)\n', 'the printout that begins at line 1 was cut off'),
                (good + CATALOGUE_1[:-2], 3 + CATALOGUE_1.count(b'\n'), b'', 'E4 TRUNCATED: LOG has 0 records')):
            done = self.failed(output)
            self.assertEqual((done.status, done.out), (1, listed), output)
            said = done.err.splitlines()
            self.assertTrue(said[0].startswith(f'snomon-deck: {self.path("output")}: line {line}: {message}'), done.err)
            self.assertEqual(said[1:], [f'snomon-deck: {self.path("output")}: its run ended early, or was not written to the end; what it did is not kept'])

    def test_a_cut_anywhere_is_told_but_behind_a_whole_data_set(self) -> None:
        from decks import printed
        output = BOTH[2]
        cards = (b'$SET PAYROLL', b'$SET EMPTY', b'$SET LOG lisa')
        whole = {output.index(card) for card in cards} | {len(output)}
        seen = {end for end in range(len(output) + 1) if printed.failed(self.write('output', output[:end]), io.BytesIO())[1] is None}
        self.assertEqual(seen, whole)

    def test_what_is_no_output_has_another_status(self) -> None:
        for output, message in ((HEAD, 'line 1: no line of an output before its catalogue begins with $'), (b'hello\n', 'line 1: no printout begins'),
                                (PRINTOUTS.replace(b'\n', b'\r\n'), 'line 1: the line ends with CR LF')):
            self.is_refused(self.failed(output), message, 2)
        self.is_refused(deck('failed', self.path('gone')), 'gone: No such file or directory', 2)
        self.is_refused(self.failed(BOTH[1], '-o', '/dev/full'), '/dev/full: No space left on device', 2)


def printed_for(account: bytes) -> bytes:
    """What stands for this account in the printouts that all tests have."""
    ends = [line for line in re.findall(rb'^(?:RECORDS|END|REFUSED|ENTRIES|NAMES|DENIED NOT|DENIED BY).*\n', PRINTOUTS, re.M)]
    pieces = re.findall(rb'(?:.*\n)*?(?:%s)' % b'|'.join(map(re.escape, ends)), PRINTOUTS)
    assert b''.join(pieces) == PRINTOUTS
    return b''.join(piece for piece in pieces if account in piece.split(b'\n')[0].split(b' '))


class Printouts(Trying):
    def test_printouts_of_an_account_are_those_of_its_jobs_and_its_commands(self) -> None:
        anna = (b'LIST anna PAYROLL\n $CATALOGUE\n \nRECORDS 2\nSHOWACL anna PAYROLL\nOWNER anna GROUP admin\n user::rwx\n'
                b' user:lisa:rw-\t#effective:r--\nENTRIES 2\nCATALOG anna\nNAMES 0\n')
        hugo = b'JOB 1 hugo\nREFUSED P3 CARD 1 COLUMN 8\n'
        self.assertEqual((printed_for(b'anna'), printed_for(b'hugo')), (anna, hugo))
        for output in (*BOTH.values(), PRINTOUTS):
            self.write('output', output)
            for account in (b'anna', b'lisa', b'hugo'):
                done = deck('printouts', self.path('output'), '--account', account.decode())
                self.assertEqual((done.status, done.out, done.err), (0, printed_for(account), ''))
        self.is_refused(deck('printouts', self.path('output'), '--account', 'eve'), 'output: nothing was printed for eve')

    def test_each_account_has_a_file_and_together_they_have_all(self) -> None:
        self.write('output', BOTH[2])
        done = deck('printouts', self.path('output'), '--each', self.path('each'), preexec_fn=lambda: os.umask(0))
        self.assertEqual((done.status, done.err), (0, ''))
        self.assertEqual(done.out.decode(), ''.join(f'{self.path("each")}/{name}\n' for name in ('anna', 'hugo', 'lisa')))
        self.assertEqual(sorted(os.listdir(self.path('each'))), ['anna', 'hugo', 'lisa'])
        self.assertEqual(stat.S_IMODE(os.stat(self.path('each')).st_mode), 0o700)
        for name in ('anna', 'hugo', 'lisa'):
            self.assertEqual(self.read('each/' + name), printed_for(name.encode()))
            self.assertEqual(stat.S_IMODE(os.stat(self.path('each/' + name)).st_mode), 0o600)
        self.assertEqual(sum(os.path.getsize(self.path('each/' + name)) for name in ('anna', 'hugo', 'lisa')), len(PRINTOUTS))

    def test_each_puts_files_in_the_place_of_older_ones_and_leaves_others(self) -> None:
        self.write('output', BOTH[1])
        os.mkdir(self.path('each'), 0o750)
        self.write('each/eve', b'of yesterday')
        os.chmod(self.write('each/anna', b'of yesterday'), 0o640)
        for _ in range(2):
            self.assertEqual(deck('printouts', self.path('output'), '--each', self.path('each')).status, 0)
            self.assertEqual((self.read('each/anna'), self.read('each/eve')), (printed_for(b'anna'), b'of yesterday'))
            self.assertEqual(sorted(os.listdir(self.path('each'))), ['anna', 'eve', 'hugo', 'lisa'])
        modes = [stat.S_IMODE(os.stat(self.path(name)).st_mode) for name in ('each', 'each/anna', 'each/hugo')]
        self.assertEqual(modes, [0o750, 0o640, 0o600])

    def test_each_writes_all_or_nothing(self) -> None:
        self.write('output', PRINTOUTS[:-1])
        self.is_refused_at(deck('printouts', self.path('output'), '--each', self.path('each')), 'output', PRINTOUTS.count(b'\n'), 'the file ends')
        self.assertEqual(self.names(), ['output'])
        self.write('output', PRINTOUTS)
        os.mkdir(self.path('each'))
        self.write('each/anna', b'of yesterday')
        os.symlink(self.path('output'), self.path('each/lisa'))
        done = deck('printouts', self.path('output'), '--each', self.path('each'))
        self.is_refused(done, 'each/lisa: it is there already, and is no file')
        os.unlink(self.path('each/lisa'))
        os.mkdir(self.path('each/lisa'))
        self.is_refused(deck('printouts', self.path('output'), '--each', self.path('each')), 'each/lisa: it is there already, and is no file')
        self.assertEqual((self.read('each/anna'), sorted(os.listdir(self.path('each')))), (b'of yesterday', ['anna', 'lisa']))
        self.assertEqual(self.read('output'), PRINTOUTS)
        self.is_refused(deck('printouts', self.path('output'), '--each', self.path('output')), 'output: Not a directory', 3)
        self.is_refused(deck('printouts', self.path('output'), '--each', self.path('gone/each')), 'gone/each: No such file or directory', 3)

    def test_there_may_be_more_accounts_than_files_that_can_be_open(self) -> None:
        accounts = [b'a%d' % number for number in range(200)]
        self.write('output', b''.join(b'LIST %s A\n %s\nRECORDS 1\n' % (account, account) for account in accounts * 3))
        done = deck('printouts', self.path('output'), '--each', self.path('each'),
                    preexec_fn=lambda: resource.setrlimit(resource.RLIMIT_NOFILE, (64, 64)))
        self.assertEqual((done.status, done.err, done.out.count(b'\n')), (0, '', 200))
        for account in accounts:
            self.assertEqual(self.read('each/' + account.decode()), b'LIST %s A\n %s\nRECORDS 1\n' % (account, account) * 3)

    def test_only_one_choice_of_printouts_can_be_made(self) -> None:
        self.write('output', BOTH[1])
        for words in (['--job', '1', '--account', 'anna'], ['--account', 'anna', '--each', 'x'], ['--account', '1'],
                      ['--each', self.path('each'), '-o', self.path('new')]):
            done = deck('printouts', self.path('output'), *words)
            self.assertEqual((done.status, done.out, self.names()), (2, b'', ['output']))
            self.assertIn('usage: snomon-deck printouts', done.err)
