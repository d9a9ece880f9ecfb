"""Submissions that take more memory than there is at a site which keeps all in one ledger, and submissions beyond the limits of their account."""
from __future__ import annotations

import os
import resource
import unittest
from typing import Dict, List, Tuple
from test_ledger_program import LIMITS, LedgerTrying
from trying import Done, SITE

LIST = b'$LIST %s LOG\n'
LISTED = b'LIST %s LOG\n first\nRECORDS 1\n'
BIG = b'$JOB lisa\nEND\n' + b'X\n' * 400000 + b'$EOJ\n' # of more cards than 40 MB hold


class Limited(LedgerTrying):
    def with_limits(self, **limits: int) -> None:
        said = {**{line.split()[0].decode(): int(line.split()[1]) for line in LIMITS.splitlines()}, 'seconds': 60, 'output': 100000, **limits}
        self.write('said', (''.join('%s %d\n' % one for one in said.items()) + 'demonstration\n').encode())
        self.done('limits', self.folder, self.path('said'))

    def of(self, account: str) -> List[bytes]:
        return [text for (own, _), text in sorted(self.answers().items(), key=lambda one: one[0][1]) if own == account]


@unittest.skipUnless(os.path.exists(SITE), 'there is no site')
class Memory(Limited):
    def short_of_memory(self) -> Done:
        """A run in an address space of 40 MB."""
        return self.ledger('run', self.folder, preexec_fn=lambda: resource.setrlimit(resource.RLIMIT_AS, (40 << 20, resource.RLIM_INFINITY)))

    def test_many_large_files_take_no_memory(self) -> None:
        self.with_limits(bytes=2000000)
        self.drop([('anna', '%03d' % k, b' ' * 200 + b'\n' + b'#' * 1000000) for k in range(200)] + [('lisa', 'it', LIST % b'lisa')])
        done = self.short_of_memory()
        self.assertEqual((done.status, done.out, self.of('lisa')), (1, b'1 run, 200 refused\n', [LISTED % b'lisa']), done.err)

    def test_a_submission_without_memory_is_refused_alone_and_leaves_nothing(self) -> None:
        self.with_limits(bytes=10000000)
        self.drop([('lisa', 'big', BIG), ('lisa', 'small', LIST % b'lisa'), ('anna', 'it', LIST % b'anna')])
        done = self.short_of_memory()
        self.assertEqual((done.status, done.out), (1, b'2 run, 1 refused\n'), done.err)
        self.assertEqual((self.of('anna'), self.of('lisa')), ([LISTED % b'anna'], [b'REFUSED big\nOUT OF MEMORY\n', LISTED % b'lisa']))
        self.drop([('lisa', 'big', BIG)])
        self.assertEqual(self.done('run', self.folder), b'1 run, 0 refused\n')
        self.assertRegex(self.of('lisa')[2], rb'\AJOB \d+ lisa\nEND NORMAL AFTER 0\n\Z')
        self.assertRegex(self.done('verify', self.folder), rb'whole')


@unittest.skipUnless(os.path.exists(SITE), 'there is no site')
class Limits(Limited):
    def refused_at(self, limit: str, most: int, *texts: bytes) -> List[bytes]:
        """The replies where this limit is so; the first submission is within it."""
        self.with_limits(**{limit: most})
        before = len(self.of('anna'))
        self.drop([('anna', str(k), text) for k, text in enumerate(texts)])
        self.done('run', self.folder, status=1)
        return [text for text in self.of('anna')[before:] if text.startswith(b'REFUSED')]

    def test_each_limit_is_named_with_what_breaks_it(self) -> None:
        job = b'$JOB anna ST=%d MATCH=%d\nEND\n$EOJ\n'
        refused: Dict[str, Tuple[int, int, List[bytes]]] = { # by its name: how much it is, what it would come to, and the submissions
            'texts': (1, 2, [b'', b'$DRAIN\n']), 'bytes': (20, 21, [b'$DRAIN\n', b'$DRAIN\n', b'$DRAIN\n']), 'jobs': (1, 2, [job % (1, 1), job % (2, 1)]),
            'statements': (10, 11, [job % (4, 1), job % (7, 1)]), 'largest': (12, 13, [job % (3, 4), job % (13, 1)]),
            'work': (20, 21, [job % (3, 4), job % (3, 3)]), 'data_sets': (3, 4, [b'$CREATE anna A\n', b'$CREATE anna B\n'])}
        for limit, (most, sum_of_all, texts) in refused.items():
            wanted = b'REFUSED %d\nLIMIT %s: %d of %d\n' % (len(texts) - 1, limit.encode(), sum_of_all, most)
            self.assertEqual(self.refused_at(limit, most, *texts), [wanted])

    def test_who_owns_too_much_can_still_delete(self) -> None:
        refused, = self.refused_at('records', 4, LIST % b'anna', b"$JOB anna\n OUTPUT = 'hello'\nEND\n$EOJ\n")
        self.assertRegex(refused, rb'\AREFUSED 1\nLIMIT records: \d+ of 4\n\Z')
        self.drop([('anna', 'x', b'$DELETE anna LOG\n$DELETE anna PAYROLL\n')])
        self.assertEqual(self.done('run', self.folder), b'1 run, 0 refused\n')
        self.assertEqual(self.done('catalogue', self.folder), b'$CATALOGUE 2\n')

    def test_a_smaller_submission_behind_one_that_breaks_a_limit_runs(self) -> None:
        job = b'$JOB anna ST=%d\nEND\n$EOJ\n'
        self.assertEqual(self.refused_at('statements', 10, job % 6, job % 5, job % 4), [b'REFUSED 1\nLIMIT statements: 11 of 10\n'])
        self.assertEqual(len(self.of('anna')), 3)


if __name__ == '__main__':
    unittest.main()
