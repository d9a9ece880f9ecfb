"""tools/test itself: how it tells of classes of tests that are left out or fail whole."""
from __future__ import annotations

import os
import shutil
import sys
from trying import SNOMON, TOP, Trying, run

TESTS = b'''import unittest


class LeftOut(unittest.TestCase):
    @classmethod
    def setUpClass(cls) -> None:
        raise unittest.SkipTest('there is none here')

    def test_it(self) -> None:
        self.fail('it was tried')


class NotSetUp(unittest.TestCase):
    @classmethod
    def setUpClass(cls) -> None:
        raise OSError('no room')

    def test_it(self) -> None:
        self.fail('it was tried')


class Tried(unittest.TestCase):
    def test_of_one_thing(self) -> None:
        pass
'''


class Told(Trying):
    def test_a_class_that_is_left_out_whole_is_told_and_not_counted(self) -> None:
        os.makedirs(self.path('tools/tests'))
        os.mkdir(self.path('examples'))
        for name in ('tools/test', 'tools/tests/trying.py', 'examples/payroll.deck'):
            shutil.copy(os.path.join(TOP, name), self.path(name))
        shutil.copytree(os.path.join(TOP, 'tools', 'decks'), self.path('tools/decks'))
        self.write('tools/tests/test_one.py', TESTS)
        done = run([sys.executable, self.path('tools/test')], env={**os.environ, 'SNOMON': SNOMON})
        told = done.out.decode()
        self.assertEqual((done.status, done.err), (1, ''), told)
        self.assertIn('not tried LeftOut: there is none here\n', told)
        self.assertRegex(told, r'(?s)FAILED NotSetUp: .*OSError: no room')
        self.assertTrue(told.endswith('ok of one thing\n1 passed, 1 failed\n'), told)
