"""Decks split and joined."""
from __future__ import annotations

import io
import os
import random
import re
import stat
from typing import Dict, List
from trying import ACCOUNTS, CATALOGUE_1, Done, SNOMON, Trying, deck, snomon

HEAD = b'$ACCOUNTS\n' + ACCOUNTS + b'$CATALOGUE\n'
OPEN = b'user::rwx,group::rwx,other::rwx\n'


def sets(*names: bytes) -> bytes:
    return b''.join(b'$SET %s anna admin 1\n%s%s 1\n' % (name, OPEN, name) for name in names)


def job(name: bytes, account: bytes = b'lisa') -> bytes:
    """A job that reads and writes that data set, in several turns."""
    return (b"$JOB %s\n$UNIT 8 %s\n  INPUT('R',8); OUTPUT('W',8)\nL N = N + 1\n  X = R\n  W = X N\n  LT(N,3) :S(L)\nEND\n$EOJ\n"
            % (account, name))


class Parts(Trying):
    """Splits the deck that is called whole, and joins what its parts print."""

    def whole(self, catalogue: bytes, stream: bytes) -> str:
        return self.write('whole', HEAD + catalogue + b'$STREAM\n' + stream + b'$STOP\nbehind\x00it\n')

    def split(self, *more: str) -> Done:
        return deck('split', self.path('whole'), self.path('parts'), *more)

    def run_parts(self, *words: str) -> None:
        for name in sorted(os.listdir(self.path('parts'))):
            if name.endswith('.deck'):
                done = snomon(self.read('parts/' + name), *words)
                self.assertEqual((done.status, done.err), (0, ''), name)
                self.write('parts/' + name.replace('.deck', '.out'), done.out)

    def join(self) -> Done:
        return deck('join', self.path('parts'), '-o', self.path('joined'))

    def is_joined(self, *words: str) -> bytes:
        """The parts, run and joined, have what the whole deck prints; its lines in the order that they have here."""
        self.run_parts(*words)
        done = self.join()
        self.assertEqual((done.status, done.err), (0, ''))
        whole = snomon(self.read('whole'), *words).out
        at = whole.index(b'$CATALOGUE')
        self.assertEqual(sorted(self.read('joined')[:at].split(b'\n')), sorted(whole[:at].split(b'\n')))
        self.assertEqual(self.read('joined')[at:], whole[at:])
        return self.read('joined')[:at]


class Split(Parts):
    def test_ties_are_told(self) -> None:
        self.whole(sets(b'A', b'B', b'C'), job(b'B') + job(b'A') + job(b'B') + job(b'C') + job(b'C') + job(b'B'))
        done = self.split('--ties', '--slots', '8')
        self.assertEqual(done.err.splitlines(), ['snomon-deck: %s: B keeps 3 of 6 jobs in one deck' % self.path('whole'),
                                                 'snomon-deck: %s: C keeps 2 of 6 jobs in one deck' % self.path('whole')])
        self.assertEqual(done.out.decode().split(), [self.path('parts/%d.deck' % n) for n in (1, 2, 3)])

    def test_decks_that_share_nothing_are_cut_apart(self) -> None:
        self.whole(sets(b'A', b'B', b'C'), job(b'B') + job(b'A')
                   + b'$LIST anna C\n$TURN 1 1\n$CREATE anna D\n$DRAIN\n$LIST lisa A\n')
        done = self.split()
        self.assertEqual((done.status, done.err), (0, ''))
        self.assertEqual(done.out.decode().split(), [self.path('parts/1.deck'), self.path('parts/2.deck')])
        self.assertEqual(self.names(), ['parts', 'whole'])
        self.assertEqual(sorted(os.listdir(self.path('parts'))), ['1.deck', '2.deck', 'cards'])
        self.assertEqual(self.read('parts/2.deck'), HEAD + sets(b'A') + b'$STREAM\n' + job(b'A') + b'$DRAIN\n$LIST lisa A\n$STOP\n')
        titles = [line for line in self.is_joined().split(b'\n') if line.split(b' ')[0] in (b'JOB', b'LIST', b'CREATE')]
        self.assertEqual(titles, [b'LIST anna C', b'CREATE anna D', b'JOB 1 lisa', b'JOB 2 lisa', b'LIST lisa A'])

    def test_lines_of_a_deck_are_copied_and_what_follows_the_stop_is_not(self) -> None:
        self.whole(CATALOGUE_1.split(b'\n', 1)[1], b'$SETACL anna LOG\nu::rwx\t# a tab\n\ng::-\no::r\n$ENDACL\n' + job(b'LOG'))
        self.split()
        self.assertEqual(self.read('parts/1.deck'), self.read('whole').split(b'behind')[0])

    def test_version_2_stays_version_2(self) -> None:
        catalogue = b'$CATALOGUE 2\n$SET A anna admin SEQ 1\n%sX\n$SET B anna admin APPEND 1\n%sY\n' % (OPEN, OPEN)
        self.write('whole', b'$ACCOUNTS\nanna admin\n' + catalogue + b'$STREAM\n' + job(b'A') + job(b'B') + b'$CREATE anna C APPEND\n$STOP\n')
        self.assertEqual(self.split().out.count(b'\n'), 2)
        self.assertEqual(self.read('parts/2.deck'), b'$ACCOUNTS\nanna admin\n$CATALOGUE 2\n$SET B anna admin APPEND 1\n' + OPEN
                         + b'Y\n$STREAM\n' + job(b'B') + b'$STOP\n')
        for part, name in enumerate((b'A', b'B'), 1):
            out = b'$CATALOGUE 2\n$SET %s anna admin SEQ 0\n%s' % (name, OPEN)
            if part == 1:
                out = b'CREATE anna C\nDONE\n' + out + b'$SET C anna admin APPEND 0\n' + OPEN
            self.write('parts/%d.out' % part, b'JOB 1 lisa\nREFUSED M2 NO ACCOUNT\n' + out)
        self.assertEqual(self.join().err, '')
        self.assertEqual(re.findall(b'[$J][$OSC].*', self.read('joined')), [
            b'JOB 1 lisa', b'JOB 2 lisa', b'$CATALOGUE 2', b'$SET A anna admin SEQ 0', b'$SET B anna admin SEQ 0', b'$SET C anna admin APPEND 0'])

    def test_jobs_that_share_a_data_set_among_others_stay_together_and_it_is_said(self) -> None:
        others = b''.join(job(name) for name in (b'B', b'C', b'D'))
        self.whole(sets(b'A', b'B', b'C', b'D', b'E'), job(b'A') + others + job(b'A') + b'$DRAIN\n' + job(b'E'))
        done = self.split()
        self.assertEqual(done.out.count(b'\n'), 2)
        self.assertIn('whole: lines 22 to 58: the job in line 22 shares A with the job in line 58, with more jobs than the 4 slots and no '
                      '$DRAIN between; so the 5 jobs there stay in one deck', done.err)
        self.is_joined()

    def test_with_slots_enough_they_need_not(self) -> None:
        others = b''.join(job(name) for name in (b'B', b'C', b'D'))
        self.whole(sets(b'A', b'B', b'C', b'D'), job(b'A') + others + job(b'A'))
        done = self.split('--slots', '5')
        self.assertEqual((done.out.count(b'\n'), done.err), (4, ''))
        self.is_joined('--slots', '5')

    def test_turns_keep_jobs_together_where_a_command_sees_them(self) -> None:
        self.whole(sets(b'A', b'B'), job(b'A') + job(b'B') + b'$TURN 1 3\n$TURN 2 1\n$LIST anna A\n')
        done = self.split()
        self.assertEqual(done.out.count(b'\n'), 1)
        self.assertIn('the job in line 13 shares A with the $LIST in line 33, with $TURN cards and no $DRAIN between', done.err)
        self.is_joined()

    def test_a_catalog_stands_in_each_deck_and_is_joined(self) -> None:
        self.whole(sets(b'A', b'B', b'C'), job(b'C') + job(b'B') + b'$DRAIN\n$CREATE anna D\n$DELETE anna A\n$CATALOG anna\n$CATALOG eve\n')
        done = self.split()
        self.assertEqual(done.err.count('$CATALOG sees every data set: it stands in each of the 2 decks'), 2)
        self.assertIn(b'CATALOG anna\n B anna admin 3\n C anna admin 3\n D anna admin 0\nNAMES 3\nCATALOG eve\nREFUSED M2 NO ACCOUNT\n',
                      self.is_joined().replace(b' 1\n', b' 3\n').replace(b' 4\n', b' 3\n'))

    def test_decks_near_a_thousand_data_sets_are_refused(self) -> None:
        self.whole(sets(*(b'S%d' % n for n in range(999))), b'$CREATE anna X\n$CREATE anna X\n' + job(b'S1'))
        self.assertEqual(self.split().status, 0)
        self.whole(sets(*(b'S%d' % n for n in range(999))), b'$CREATE anna X\n$CREATE anna Y\n' + job(b'S1'))
        done = deck('split', self.path('whole'), self.path('other'))
        self.is_refused_at(done, 'whole', 5 + 3 * 999 + 3, 'this $CREATE may be refused with K4')
        self.assertEqual(self.names(), ['parts', 'whole'])

    def test_a_folder_that_is_there_is_filled(self) -> None:
        self.whole(sets(b'A'), b'')
        os.mkdir(self.path('parts'))
        os.chmod(self.path('parts'), 0o750)
        before = os.stat(self.path('parts'))
        self.write('parts/notes', b'of somebody')
        self.assertEqual(self.split().status, 0)
        after = os.stat(self.path('parts'))
        self.assertEqual((after.st_ino, after.st_mode), (before.st_ino, before.st_mode))
        self.assertEqual(sorted(os.listdir(self.path('parts'))), ['1.deck', 'cards', 'notes'])
        self.assertEqual((self.read('parts/notes'), self.read('parts/1.deck')), (b'of somebody', self.read('whole').split(b'behind')[0]))
        self.is_joined()

    def test_what_is_new_is_for_its_owner_alone_whatever_the_umask(self) -> None:
        self.whole(sets(b'A', b'B'), job(b'A') + job(b'B'))
        for umask in (0, 0o777):
            folder = self.path(f'parts{umask}')
            done = deck('split', self.path('whole'), folder, preexec_fn=lambda: os.umask(umask))
            self.assertEqual((done.status, done.err), (0, ''))
            names = ['', '1.deck', '2.deck', 'cards']
            self.assertEqual([stat.S_IMODE(os.stat(os.path.join(folder, name)).st_mode) for name in names], [0o700, 0o600, 0o600, 0o600])

    def test_decks_or_outputs_of_another_split_are_left_alone(self) -> None:
        self.whole(sets(b'A'), b'')
        os.mkdir(self.path('parts'))
        for name in ('1.deck', '12.out', '3.new', 'cards'):
            self.write('parts/' + name, b'old')
            self.is_refused(self.split(), f'parts: it has {name}, as of another split')
            self.assertEqual((self.read('parts/' + name), os.listdir(self.path('parts'))), (b'old', [name]))
            os.remove(self.path('parts/' + name))
        self.is_refused(deck('split', self.path('whole'), self.path('whole')), 'whole: Not a directory', 3)
        self.is_refused(deck('split', self.path('gone'), self.path('other')), 'gone: No such file or directory', 3)
        self.is_refused(deck('split', self.path('whole'), self.path('no/folder')), 'no/folder: No such file or directory', 3)

    def test_refused_decks_are_refused_where_snomon_refuses_them(self) -> None:
        import monitor
        import random_decks
        from snobol import in_a_large_stack
        from decks import split, text
        r = random.Random(7)
        codes: Dict[str, int] = {}

        def told(data: bytes) -> str:
            try:
                split.survey(text.Lines('whole', io.BytesIO(data)))
            except text.Refused as refusal:
                found = re.match(r'whole: line (\d+): (\S\d [A-Z ]+)', str(refusal))
                assert found
                codes[found[2]] = codes.get(found[2], 0) + 1
                return 'snomon: line %s: %s\n' % found.groups()
            return ''

        def compare() -> None:
            for number in range(2000):
                data = spoiled(r, random_decks.deck(r, 4).encode())
                self.assertEqual(told(data), monitor.run(data, 4)[1], (number, data))

        in_a_large_stack(compare)
        self.assertGreater(sum(codes.values()), 750, codes)
        self.assertGreaterEqual(set(codes), {'E1 UNKNOWN CARD', 'E2 BAD CARD', 'E3 OUT OF PLACE', 'E4 TRUNCATED', 'T1 BAD NAME', 'T2 BAD NUMBER',
                                             'T3 BAD CHARACTER', 'T4 LINE TOO LONG', 'K1 NAME TAKEN', 'K3 SET FULL', 'K5 BAD TEXT', 'C1 ACCOUNT TWICE'})


WORDS = [b'$EOJ', b'$STOP', b'$FOO', b'$SET A b c 1', b'$JOB anna ST=0', b'$JOB anna ST=1 ST=2', b'$UNIT 8 A', b'$UNIT x A', b'$TURN 9 1', b'$TURN 1 x',
         b'$ENDACL', b'$LIST anna', b'$LIST 1 2', b'$CATALOGUE 3', b'$CATALOGUE', b'$STREAM', b'x', b'', b' ', b'anna admin', b'A' * 201, b'A' * 1025,
         b'A' * 5001, b'a\tb', b'$SET PAY anna admin 0', b'$SET PAY a b 1', b'$SET PAY a b 2', b'$SET PAY a b 3', b'$SET X a b 100001', b'$SET X a b SEQ 100001', b'$SET PAY a b APPEND 1', b'u::r,', b'$DRAIN x', b'$SETACL anna PAY']


def spoiled(r: random.Random, data: bytes) -> bytes:
    """A deck in which a line or two are others, are gone, are there twice, or have one byte more."""
    lines = data.split(b'\n')
    for _ in range(r.choice([1, 1, 2])):
        at = r.randrange(len(lines))
        how = r.randrange(5)
        if how == 0:
            lines[at] = r.choice(WORDS)
        elif how == 1:
            lines.insert(at, r.choice(WORDS))
        elif how == 2:
            del lines[at]
            lines = lines or [b'']
        elif how == 3:
            lines.insert(at, lines[at])
        else:
            place = r.randint(0, len(lines[at]))
            lines[at] = lines[at][:place] + r.choice([b'$', b' ', b'\r', b'\x7f', b'1', b':', b'\n']) + lines[at][place:]
    return (b'\r\n' if r.random() < 0.2 else b'\n').join(lines)[:r.choice([None, None, None, len(data) - 3])]


class Join(Parts):
    """Outputs that are not those of the decks."""

    def setUp(self) -> None:
        super().setUp()
        self.whole(sets(b'A', b'B', b'C'), job(b'B') + job(b'A') + b'$CREATE anna D\n$DRAIN\n$LIST anna A\n$CATALOG anna\n')
        self.split()
        self.run_parts()
        self.outs = {name: self.read('parts/' + name) for name in ('1.out', '2.out', 'cards')}

    def is_not_joined(self, name: str, content: bytes, message: str) -> None:
        self.write('joined', b'the old output')
        self.write('parts/' + name, content)
        done = self.join()
        self.is_refused(done, message)
        self.assertEqual((self.read('joined'), self.names()), (b'the old output', ['joined', 'parts', 'whole']))
        self.write('parts/' + name, self.outs[name])

    def test_an_output_cut_anywhere_is_not_joined(self) -> None:
        from decks import join, text
        for name in ('1.out', '2.out'):
            for end in range(len(self.outs[name])):
                self.write('parts/' + name, self.outs[name][:end])
                with self.assertRaisesRegex(text.Refused, 'parts/%s: line [0-9]+: ' % re.escape(name), msg='%s %d' % (name, end)):
                    join.join_outputs(self.path('parts'), io.BytesIO())
            self.write('parts/' + name, self.outs[name])
        self.assertEqual(self.join().status, 0)

    def test_outputs_of_other_decks_are_not_joined(self) -> None:
        out = self.outs['1.out']
        for old, new, message in (
                (out, self.outs['2.out'], 'parts/1.out: line '), (b'JOB 1 lisa', b'JOB 1 hugo', 'the deck has no such job that is to be printed here'),
                (b'JOB 1', b'JOB 2', 'line 3: the deck has no such job'), (b'JOB 1', b'JOB 0', 'line 3: the deck has no such job'),
                (b'$SET B anna', b'$SET Q anna', 'the data set B is due, and there is Q'),
                (b'\n B anna', b'\n Q anna', 'the deck has no data set Q here'),
                (b'CATALOG anna', b'CATALOG lisa', 'the printout CATALOG anna is due here, and there is CATALOG lisa'),
                (b'$CATALOGUE', b'LIST anna A\nRECORDS 0\n$CATALOGUE', 'the catalogue is due, and there is LIST anna A'),
                (b'$CATALOGUE', b'JOB 1 lisa\nEND NORMAL AFTER 1\n$CATALOGUE', 'the catalogue is due, and there is JOB 1 lisa')):
            self.assertIn(old, out)
            self.is_not_joined('1.out', out.replace(old, new, 1), message)
        one_more = b'$SET Z anna admin SEQ 0\n' if b'$CATALOGUE 2' in out else b'$SET Z anna admin 0\n'
        self.is_not_joined('2.out', self.outs['2.out'] + one_more + OPEN, 'the deck has no data set Z in the end')
        without_its_job = re.sub(rb'JOB 1 lisa\n( .*\n)*END.*\n', b'', out)
        self.is_not_joined('1.out', without_its_job, 'a job of this deck is to be printed here, and is not')
        self.is_not_joined('1.out', b'', 'parts/1.out: line 1: ')

    def test_versions_that_differ_are_not_joined(self) -> None:
        if b'$CATALOGUE 2' in self.outs['1.out']:
            other = self.outs['1.out'].replace(b'$CATALOGUE 2', b'$CATALOGUE').replace(b' SEQ', b'')
        else:
            other = re.sub(rb'(\$SET .*) (\d+)', rb'\1 SEQ \2', self.outs['1.out'].replace(b'$CATALOGUE', b'$CATALOGUE 2'))
        self.is_not_joined('1.out', other, 'their catalogues are of different versions')

    def test_a_changed_file_of_cards_is_refused_by_line(self) -> None:
        cards = self.outs['cards']
        for old, new, message in ((b'decks 2', b'decks 0', 'cards: line 1: there are 1 to 999 decks'),
                                  (b'decks 2\n', b'', 'cards: line 1: snomon-deck split writes no'),
                                  (b'set 1', b'set 3', 'cards: line '), (b'set 1', b'set', 'snomon-deck split writes no such line'), (cards, b'', 'cards: line 1: '),
                                  (b'job 1 lisa', b'job 1 1', 'snomon-deck split writes no such words'), (b'drain', b'rain', 'snomon-deck split writes no such line')):
            self.is_not_joined('cards', cards.replace(old, new, 1), message)

    def test_a_missing_output_is_told(self) -> None:
        os.remove(self.path('parts/2.out'))
        self.is_refused(self.join(), 'parts/2.out: No such file or directory', 3)
        self.is_refused(deck('join', self.path('gone')), 'gone/cards: No such file or directory', 3)


class Many(Parts):
    def test_999_parts_take_no_more_steps_than_one(self) -> None:
        from decks import join
        steps = 0

        class Counted(join.Part):
            """Counts how often it is asked whether it has jobs left, or which."""

            @property
            def accounts(self) -> Dict[int, bytes]:
                nonlocal steps
                steps += 1
                return self.left

            @accounts.setter
            def accounts(self, left: Dict[int, bytes]) -> None:
                self.left = left

        self.addCleanup(setattr, join, 'Part', join.Part)
        setattr(join, 'Part', Counted)
        jobs, joined = 3996, []
        for parts in (1, 999):
            steps = 0
            outputs: Dict[int, List[bytes]] = {part: [] for part in range(1, parts + 1)}
            cards = [b'decks %d' % parts]
            for number in range(1, jobs + 1):
                part = number % parts + 1
                outputs[part].append(b'JOB %d lisa\n %d\nEND NORMAL AFTER 1\n' % (len(outputs[part]) + 1, number))
                cards.append(b'job %d lisa' % part)
                if number >= jobs // 2 and number % 2 == 0:  # half of the jobs without a $DRAIN between, and half with many
                    cards.append(b'drain')
            os.mkdir(self.path('of %d' % parts))
            self.write('of %d/cards' % parts, b'\n'.join(cards) + b'\n')
            for part, printouts in outputs.items():
                self.write('of %d/%d.out' % (parts, part), b''.join(printouts) + b'$CATALOGUE 2\n')
            output = io.BytesIO()
            join.join_outputs(self.path('of %d' % parts), output)
            joined.append(output.getvalue())
            self.assertLess(steps, 10 * jobs)
        wanted = b''.join(b'JOB %d lisa\n %d\nEND NORMAL AFTER 1\n' % (number, number) for number in range(1, jobs + 1))
        self.assertEqual(joined, [wanted + b'$CATALOGUE 2\n'] * 2)


class RandomDecks(Trying):
    def test_300_random_decks_split_run_and_joined_are_as_whole_ones(self) -> None:
        import split_decks
        self.seen, different = split_decks.compare(split_decks.runs_of(SNOMON), 300, 1)
        self.assertEqual(different, [])
        self.assertRegex(self.seen, r'\A300 decks, (1[5-9]|2)\d+ of them cut into \d+, \d\d+ with jobs kept together, \d\d+ with \$CATALOG')
