"""./test: its parts, of which each is told when it begins and when it ends."""
from __future__ import annotations

import os
import re
import shutil
from checkout import Checkout
from trying import Done, TOP, run

PARTS = {'examples': 'examples/check', 'listings': 'crates/listing/check', 'tools': 'tools/test', 'oracle': 'oracle/test', 'counts': 'bench/counts'}


class Told(Checkout):
    def setUp(self) -> None:
        super().setUp()
        self.release()
        shutil.copy(os.path.join(TOP, 'test'), self.path('test'))
        for number, path in enumerate(PARTS.values(), 1):
            self.script(path, b'#!/bin/sh\necho "ok one"\necho "%d passed, 0 failed"\n' % number)

    def tested(self) -> Done:
        return run([self.path('test')], env=self.environment(with_rt=False), cwd='/')

    def test_each_part_is_told_as_it_begins_and_ends(self) -> None:
        done = self.tested()
        self.assertEqual((done.status, done.out.splitlines()[-1]), (0, b'15 passed, 0 failed'), done.err)
        said = done.err.splitlines()
        self.assertEqual(sorted(line for line in said if line.endswith(' begins')), sorted(f'test: {part} begins' for part in PARTS))
        for number, part in enumerate(PARTS, 1):
            ended = [at for at, line in enumerate(said) if re.fullmatch(f'test: {part} has ended after [0-9]+ s: {number} passed, 0 failed', line)]
            self.assertEqual(len(ended), 1, said)
            self.assertLess(said.index(f'test: {part} begins'), ended[0])
        self.assertEqual(len(said), 2 * len(PARTS))

    def test_a_part_that_fails_or_counts_nothing_is_told(self) -> None:
        self.script('oracle/test', b'#!/bin/sh\necho "3 passed, 1 failed"; exit 1\n')
        self.script('bench/counts', b'#!/bin/sh\nexit 7\n')
        done = self.tested()
        self.assertEqual((done.status, done.out.splitlines()[-1]), (1, b'9 passed, 2 failed'))
        self.assertIn(b'test: counts ended with status 7 and counted nothing\n', done.out)
        self.assertIn('oracle has ended after', done.err)
