"""snomon-parts: decks of submissions, cut, run in parts and joined, have the bytes of one run; what is no part's output is refused."""
from __future__ import annotations

import os
import random
import unittest
from typing import Callable, Dict, List, Optional, Tuple
from unittest import mock
from test_rounds_in_parts import TABLE, Round, Writer
from trying import NO_WORDS, PARTS, Done, Trying, deck, proved, run

SNOMON = os.environ.get('SNOMON') or proved('snomon')
DECKS = 200
OPEN = 'user::rwx,group::rwx,other::rwx\n'
SETS = ''.join(f'$SET {name} anna admin SEQ 1\n{OPEN}{name} 1\n' for name in 'ABC')


def deck_of(sets: str, stream: str) -> str:
    return f'$ACCOUNTS\n{TABLE}$CATALOGUE 2\n{sets}$STREAM\n{stream}$STOP\n'


def deck_of_round(made: Round, r: random.Random) -> str:
    """Some have no `$DRAIN` behind the last submission, some a `$CATALOG`, and some more behind the end."""
    stream = ''.join(text.cards + '$DRAIN\n' for text in made.texts)
    if r.random() < .1:
        stream += '$CATALOG anna\n$DRAIN\n'
    if r.random() < .3:
        stream = stream[:-len('$DRAIN\n')]
    return deck_of(''.join(made.sets.values()), stream) + r.choice(['', '', 'behind it\n', '$DRAIN\n$STOP\n'])


def job(name: str, account: str = 'lisa') -> str:
    return f"$JOB {account}\n$UNIT 8 {name}\n        INPUT('R',8); OUTPUT = R\nEND\n$EOJ\n"


@unittest.skipUnless(os.path.exists(PARTS) and os.path.exists(SNOMON), 'there is no snomon-parts, or no snomon')
class Parts(Trying):
    """Its deck is `whole`, and `parts` the folder of the parts."""

    def cut(self, text: str, *words: str) -> Done:
        return run([PARTS, 'split', self.write('whole', text.encode()), '--to', self.path('parts'), *words])

    def cut_into(self, count: int, text: str, *words: str) -> Done:
        done = self.cut(text, *words)
        self.assertEqual((done.status, done.out.decode().split()), (0, [self.path(f'parts/{n}.deck') for n in range(1, count + 1)]), done.err)
        return done

    def run_part(self, number: int) -> None:
        done = run([SNOMON, '--audit', self.path(f'parts/{number}.audit')], self.read(f'parts/{number}.deck'))
        self.assertEqual((done.status, done.err), (0, ''))
        self.write(f'parts/{number}.out', done.out)

    def joined(self, *words: str) -> Done:
        return run([PARTS, 'join', self.path('parts'), *words])

    def whole(self) -> Dict[str, bytes]:
        done = run([SNOMON, '--audit', self.path('audit')], self.read('whole'))
        self.assertEqual((done.status, done.err), (0, ''))
        return {'': done.out, '--audit': self.read('audit')}

    def is_whole(self) -> None:
        for word, wanted in self.whole().items():
            done = self.joined(*filter(None, [word]))
            self.assertEqual((done.status, done.out, done.err), (0, wanted, ''), word)

    def is_no_part(self, kind: str, number: int, line: Optional[int] = None) -> None:
        """A part's file is refused, by its name and the line."""
        done = self.joined(*['--audit'] * (kind == 'audit'))
        self.assertEqual((done.status, done.out), (1, b''))
        said = f'snomon-parts: {self.path("parts")}/{number}.{kind}: line '
        self.assertTrue(done.err.startswith(said) and done.err.endswith(': this is not what the part writes\n'), done.err)
        if line is not None:
            self.assertEqual(done.err[len(said):].split(':')[0], str(line))


class RandomDecks(Parts):
    def test_random_decks_in_parts_have_the_bytes_of_one_run(self) -> None:
        several = parts = 0
        for seed in range(DECKS):
            r = random.Random(seed)
            text = deck_of_round(Writer(seed).round(), r)
            with self.subTest(seed=seed), mock.patch.object(self, 'room', os.path.join(self.room, str(seed))):
                os.mkdir(self.room)
                count = self.in_parts(text, r)
                several += count > 1
                parts += count
        self.seen = f'{DECKS} decks, {several} of them cut into several, {parts} parts'
        self.assertGreater(several, DECKS // 2)

    def in_parts(self, text: str, r: random.Random) -> int:
        done = self.cut(text, '--parts', str(r.randint(2, 5)))
        self.assertEqual(done.status, 0, done.err)
        order = list(range(1, done.out.count(b'\n') + 1))
        r.shuffle(order)
        for number in order:
            self.run_part(number)
            if r.random() < .2:
                self.run_part(number)
        self.is_whole()
        if len(order) > 1 and r.random() < .2:
            self.is_mended(r.choice(order), r)
        return len(order)

    def is_mended(self, number: int, r: random.Random) -> None:
        """A part that was killed is refused; when it has run again, all is as before."""
        for kind in ('out', 'audit'):
            text = self.read(f'parts/{number}.{kind}')
            self.write(f'parts/{number}.{kind}', text[:r.randrange(len(text))])
            self.is_no_part(kind, number)
            self.run_part(number)
        self.is_whole()


class Cut(Parts):
    def test_a_part_has_its_submissions_and_its_data_sets_in_their_order(self) -> None:
        self.cut_into(2, deck_of(SETS, job('B') + '$DRAIN\n' + '$LIST anna A\n$DRAIN\n' + job('A') + '$DRAIN\n'))
        sets = {name: f'$SET {name} anna admin SEQ 1\n{OPEN}{name} 1\n' for name in 'ABC'}
        decks = sorted(self.read(f'parts/{n}.deck').decode() for n in (1, 2))
        rest = decks[0] if '$JOB lisa\n$UNIT 8 A' in decks[0] else decks[1]
        self.assertIn('$STREAM\n$LIST anna A\n$DRAIN\n' + job('A') + '$DRAIN\n$STOP\n', rest)
        self.assertIn(sets['A'], rest)
        self.assertNotIn(sets['B'], rest)
        self.assertEqual(sum(text.count('$SET C ') for text in decks), 1)

    def test_one_submission_of_two_accounts_is_one_part(self) -> None:
        text = deck_of(SETS, job('A') + job('B', 'anna') + '$DRAIN\n' + job('C') + '$DRAIN\n')
        done = self.cut(text, '--several')
        self.assertEqual((done.status, done.out, self.names()), (1, b'', ['whole']))
        self.assertEqual(done.err, f'snomon-parts: {self.path("whole")}: it is one part: line 6 of submission 1 is none that its account may hand in\n')
        self.assertIn(': it is one part: line 6 of submission 1 ', self.cut_into(1, text).err)
        self.assertEqual(self.read('parts/1.deck').decode(), text)
        self.run_part(1)
        self.is_whole()

    def test_what_ties_submissions_is_told(self) -> None:
        done = self.cut_into(2, deck_of(SETS, (job('A') + '$DRAIN\n') * 3 + (job('B') + '$DRAIN\n') * 2 + job('C') + '$DRAIN\n'), '--parts', '2', '--ties')
        self.assertEqual(done.err.splitlines(), [f'snomon-parts: {self.path("whole")}: {name} keeps {own} of 6 submissions in one part'
                                                 for name, own in (('A', 3), ('B', 2))])

    def test_submissions_that_share_a_data_set_are_one_part(self) -> None:
        done = self.cut(deck_of(SETS, (job('A') + '$DRAIN\n') * 3), '--several')
        self.assertEqual((done.status, done.err), (1, f'snomon-parts: {self.path("whole")}: it is one part: its submissions are tied to one another\n'))

    def test_a_catalogue_that_may_be_full_is_one_part(self) -> None:
        sets = ''.join(f'$SET S{n} anna admin SEQ 0\n{OPEN}' for n in range(999))
        done = self.cut(deck_of(sets, '$CREATE anna X\n$DRAIN\n$CREATE anna Y\n$DRAIN\n'), '--several')
        self.assertEqual((done.status, done.err), (1, f'snomon-parts: {self.path("whole")}: it is one part: it may come to more than 1,000 data sets\n'))
        self.cut_into(2, deck_of(sets, '$CREATE anna X\n$DRAIN\n$LIST anna S1\n$DRAIN\n'))

    def test_a_deck_that_is_refused_makes_nothing(self) -> None:
        done = self.cut('$ACCOUNTS\nanna\n')
        self.assertEqual((done.status, done.out, self.names()), (1, b'', ['whole']))
        self.assertTrue(done.err.startswith(f'snomon-parts: {self.path("whole")}: line 2: '), done.err)

    def test_an_end_that_is_more_than_its_card_is_one_part(self) -> None:
        text = deck_of(SETS, job('A') + '$DRAIN\n' + job('B') + '$DRAIN\n').replace('$STOP', '$STOPS')
        done = self.cut(text, '--several')
        self.assertEqual((done.status, done.err), (1, f'snomon-parts: {self.path("whole")}: it is one part: it is not written as a round is\n'))

    def test_the_folder_of_another_split_is_refused(self) -> None:
        text = deck_of(SETS, job('A') + '$DRAIN\n' + job('B') + '$DRAIN\n')
        self.cut_into(2, text)
        for name in ('1.deck', '2.deck'):
            done = self.cut(text)
            self.assertEqual((done.status, done.out), (1, b''))
            self.assertRegex(done.err, r'parts/(cards|\d\.deck) is of another split\n\Z')
            os.remove(self.path('parts/' + name))

    def test_words_that_ask_nothing(self) -> None:
        whole = self.write('whole', deck_of(SETS, '').encode())
        for words in (NO_WORDS, ['split'], ['split', whole], ['split', whole, '--to', 'x', '--parts', '0'], ['split', whole, '--to', 'x', '--parts', '1000'],
                      ['join'], ['bogus'], ['join', 'x', 'y']):
            done = run([PARTS, *words], cwd=self.room)
            self.assertEqual((done.status, done.out, bool(done.err), self.names()), (2, b'', True, ['whole']), words)


class Joined(Parts):
    def setUp(self) -> None:
        super().setUp()
        self.cut_into(2, deck_of(SETS, job('A') + '$DRAIN\n' + job('B') + job('B') + '$CREATE lisa D\n$DRAIN\n' + job('A') + '$DRAIN\n'), '--parts', '2')
        for number in (1, 2):
            self.run_part(number)

    def test_jobs_have_the_numbers_of_the_whole(self) -> None:
        self.is_whole()
        done = self.joined()
        self.assertEqual([line for line in done.out.splitlines() if line.startswith(b'JOB')], [b'JOB %d lisa' % n for n in range(1, 5)])
        self.assertEqual(self.joined('-o', self.path('made')).out, b'')
        self.assertEqual(self.read('made'), done.out)

    def test_a_link_and_a_device_are_written_to(self) -> None:
        os.symlink('made', self.path('link'))
        for name in ('made', 'link', 'link', '/dev/null'):
            done = self.joined('-o', self.path(name))
            self.assertEqual((done.status, done.out, done.err), (0, b'', ''))
        self.assertTrue(os.path.islink(self.path('link')))
        self.assertEqual(self.read('made'), self.joined().out)
        self.assertFalse(os.path.isfile('/dev/null'))
        self.assertEqual([name for name in self.names() if name.endswith('.new')], [])

    def test_a_part_of_another_deck_is_refused(self) -> None:
        for one, other in ((1, 2), (2, 1)):
            for kind in ('out', 'audit'):
                own = self.read(f'parts/{one}.{kind}')
                self.write(f'parts/{one}.{kind}', self.read(f'parts/{other}.{kind}'))
                self.is_no_part(kind, one)
                self.write(f'parts/{one}.{kind}', own)
        self.is_whole()

    def test_an_output_cut_off_anywhere_is_refused(self) -> None:
        """But behind its last record, where a record is no line yet, or a line is cut off within a printout, of which no more is known."""
        for kind in ('out', 'audit'):
            own = self.read(f'parts/1.{kind}')
            for at in range(len(own)):
                if own[:at].endswith(b'\n') or not at:
                    self.write(f'parts/1.{kind}', own[:at])
                    self.is_no_part(kind, 1)
            self.write(f'parts/1.{kind}', own)
        self.is_whole()

    def test_a_part_that_is_missing_is_told(self) -> None:
        os.remove(self.path('parts/2.out'))
        done = self.joined('-o', self.path('made'))
        self.assertEqual((done.status, done.out, 'made' in self.names()), (3, b'', False))
        self.assertEqual(done.err, f'snomon-parts: {self.path("parts")}/2.out: No such file or directory (os error 2)\n')

    def test_a_record_that_no_split_makes_is_refused(self) -> None:
        cards = self.read('parts/cards')
        for text in (b'', b'snomon-parts 1\n', b'snomon-parts 2\nparts 2\n', cards.replace(b'parts 2', b'parts 0'), cards + b'text 2 1 1\n', cards + b'more\n'):
            self.write('parts/cards', text)
            done = self.joined()
            self.assertEqual((done.status, done.out), (1, b''), text)
            self.assertEqual(done.err, f'snomon-parts: {self.path("parts")}/cards: snomon-parts split writes no such file\n')


class OfSnomonDeck(Parts):
    """`snomon-deck` has it done by the program, where that is there."""

    def of_deck(self, *words: str) -> Done:
        with mock.patch.dict(os.environ, SNOMON_PARTS=PARTS):
            return deck(*words)

    def test_split_and_join_are_done_by_the_program(self) -> None:
        self.write('whole', deck_of(SETS, ''.join(job(name) + '$DRAIN\n' for name in 'AABC')).encode())
        done = self.of_deck('split', self.path('whole'), self.path('parts'), '--ties')
        self.assertEqual((done.status, done.err), (0, f'snomon-deck: {self.path("whole")}: A keeps 2 of 4 submissions in one part\n'))
        self.assertEqual(done.out.decode().split(), [self.path(f'parts/{n}.deck') for n in (1, 2, 3)])
        self.assertTrue(self.read('parts/cards').startswith(b'snomon-parts 1\n'))
        for number in (1, 2, 3):
            self.run_part(number)
        for word, wanted in self.whole().items():
            done = self.of_deck('join', self.path('parts'), *filter(None, [word]), '-o', self.path('made'))
            self.assertEqual((done.status, done.err, self.read('made')), (0, '', wanted))
        self.write('parts/1.out', b'')
        done = self.of_deck('join', self.path('parts'), '-o', self.path('other'))
        self.is_refused(done, f'{self.path("parts")}/1.out: line 1: this is not what the part writes')
        self.assertNotIn('other', self.names())
        self.is_refused(deck('join', self.path('parts')), 'snomon-parts has cut this deck, and is not here', 3)
        self.is_refused(self.of_deck('split', self.path('whole'), self.path('parts')), 'as of another split')

    def test_all_other_decks_are_cut_as_without_it(self) -> None:
        ways: Tuple[Tuple[str, Callable[..., Done]], ...] = (('with', self.of_deck), ('without', deck))
        for stream in (job('A') + job('B', 'anna') + '$DRAIN\n', '$CATALOG anna\n$DRAIN\n' + job('A') + '$DRAIN\n' + job('B') + '$DRAIN\n'):
            self.write('whole', deck_of(SETS, stream).encode())
            told: List[str] = []
            for folder, cut in ways:
                done = cut('split', self.path('whole'), self.path(folder))
                self.assertEqual((done.status, done.out.count(b'\n')), (0, 2))
                told.append(done.err.replace(folder, ''))
            self.assertEqual(*told)
            for name in ('cards', '1.deck', '2.deck'):
                self.assertEqual(self.read('with/' + name), self.read('without/' + name))
                os.remove(self.path('with/' + name))
                os.remove(self.path('without/' + name))
