"""A fresh checkout, on a machine without the toolchain: the released program answers at once."""
from __future__ import annotations

import os
import resource
import shutil
import unittest
from checkout import without_rt
from trying import Done, TOP, Trying, run

FITS = run([os.path.join(TOP, 'tools', 'release'), '--check']).status == 0


def seconds_of_children() -> float:
    used = resource.getrusage(resource.RUSAGE_CHILDREN)
    return used.ru_utime + used.ru_stime


@unittest.skipUnless(FITS, 'release/ is of other sources than these')
class Fresh(Trying):
    def setUp(self) -> None:
        super().setUp()
        shutil.copytree(TOP, self.path('checkout'), ignore=shutil.ignore_patterns('out', '.git'))
        with open(os.path.join(TOP, 'examples', 'payroll.deck'), 'rb') as deck, open(os.path.join(TOP, 'examples', 'payroll.out'), 'rb') as out:
            self.deck, self.out = deck.read(), out.read()

    def ran(self, script: str, *words: str) -> Done:
        return run([self.path('checkout/' + script), *words], given=self.deck, env=without_rt(), cwd='/')

    def test_the_first_output_comes_at_once(self) -> None:
        before = seconds_of_children()
        done = self.ran('run')
        self.assertLess(seconds_of_children() - before, 2)  # of a processor, whatever else the machine does
        self.assertEqual((done.status, done.out, done.err), (0, self.out, ''))
        self.assertEqual((self.ran('bin/snomon-listing', '--quiet').status, os.path.exists(self.path('checkout/out'))), (0, False))

    def test_one_byte_of_the_program_is_noticed(self) -> None:
        with open(self.path('checkout/release/snomon'), 'r+b') as file:
            file.seek(-1, os.SEEK_END)
            last = file.read(1)
            file.seek(-1, os.SEEK_END)
            file.write(bytes([last[0] ^ 1]))
        done = self.ran('run')
        self.assertEqual((done.status, done.out), (125, b''))
        self.assertIn('is not the program that release/SHA256SUMS names', done.err)

    def test_one_letter_of_a_source_is_noticed(self) -> None:
        with open(self.path('checkout/crates/mon_text/specs/Lib.antt'), 'ab') as file:
            file.write(b' ')
        done = self.ran('run')
        self.assertEqual((done.status, done.out), (125, b''))
        self.assertIn('release/snomon is of other sources', done.err)

    def test_a_program_put_there_by_hand_is_noticed(self) -> None:
        os.makedirs(self.path('checkout/crates/snomon/out'))
        shutil.copy('/bin/true', self.path('checkout/crates/snomon/out/snomon'))
        done = self.ran('run')
        self.assertEqual((done.status, done.out), (0, self.out))
        self.assertIn('crates/snomon/out/snomon is not a program that was proved and built here', done.err)
