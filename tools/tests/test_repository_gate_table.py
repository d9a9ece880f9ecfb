"""tools/docs/gate_table: what a run takes is seen, and the table has what is seen and what the sources are."""
from __future__ import annotations

import json
import os
import shutil
import subprocess
import sys
import time
from trying import Done, TOP, Trying, run

PAGE = b'''# The gate
<!-- tools/docs/gate_table writes this -->
Of commit 1234abcd, on 1 May 2026: 100 minutes by the clock, 9 of processors.

| Crate | |
| mon_low | 1,234 | 5 | 6 |
| `rt` itself | 7 | 0 | |
<!-- until here -->
behind it
'''
BUSY = 'import time\nwhile time.process_time() < 1: pass'


class Gate(Trying):
    def setUp(self) -> None:
        super().setUp()
        for name in ('docs/dev', 'tools/docs', 'crates/mon_low/src', 'crates/mon_low/specs/inner', 'crates/mon_low/must-fail', 'crates/snomon/src'):
            os.makedirs(self.path(name))
        for name in ('tools/docs/gate_table', 'tools/docs/count'):
            shutil.copy(os.path.join(TOP, name), self.path(name))
        for name, content in (('docs/dev/gate.md', PAGE), ('crates.txt', b'# crates\nmon_low: thiserror\nsnomon may_abort=1: mon_low\n'),
                              ('crates/mon_low/src/lib.rt', b'one\n\n#[test]\n'), ('crates/snomon/src/main.rt', b'one\n'),
                              ('crates/mon_low/specs/Lib.antt', b'-- a comment\nuse A.{b}\nmod Low\n\nc : D\nc = d\n'),
                              ('crates/mon_low/specs/inner/Low.antt', b'c : D\n'), ('crates/mon_low/must-fail/one.edit', b'')):
            self.write(name, content)

    def gate(self, *words: str) -> Done:
        return run([self.path('tools/docs/gate_table'), *words], cwd='/')

    def page(self) -> str:
        return self.read('docs/dev/gate.md').decode()

    def test_lines_are_counted_and_seconds_stay(self) -> None:
        self.assertEqual(self.gate('--check').status, 1)
        self.assertEqual(self.gate().status, 0)
        page = self.page()
        for row in ('Of commit 1234abcd, on 1 May 2026: 100 minutes by the clock, 9 of processors.', '| mon_low | 1,234 | 5 | 3 | 2 | 1 | 0 | 1 | 1 |',
                    '| snomon | - | - | 1 | 0 | 0 | 0 | 0 | 0 |', '| all | 1,241 | 5 | 4 | 2 | 1 | 0 | 1 | 1 |'):
            self.assertIn(row + '\n', page)
        self.assertTrue(page.startswith('# The gate\n') and page.endswith('behind it\n'))
        self.assertEqual((self.gate('--check').status, self.gate().status, self.page()), (0, 0, page))
        self.write('crates/snomon/src/main.rt', b'one\ntwo\n')
        self.assertEqual(self.gate('--check').out, b'FAILED docs/dev/gate.md has other lines: run tools/docs/gate_table\n')

    def test_what_runs_took_is_written_with_their_date(self) -> None:
        for name, rows in (('one', [['mon_low', 'build', 1], ['mon_low', 'edits', 20], ['rt', 'other', 300], ['wall', '', 600]]),
                           ('two', [['mon_low', 'proof', 1000], ['unknown', 'edits', 59], ['wall', '', 60]])):
            self.write(name, json.dumps(rows).encode())
        self.assertEqual(self.gate('--write', self.path('one'), self.path('two')).status, 0)
        today = time.strftime('%d %B %Y', time.gmtime()).lstrip('0')
        for row in (f'Of commit unknown, on {today}: 11 minutes by the clock, 23 of processors.', '| mon_low | 1,001 | 20 | 3 | 2 | 1 | 0 | 1 | 1 |',
                    '| snomon | - | - | 1 | 0 | 0 | 0 | 0 | 0 |', '| `rt` itself | 359 | 0 |  |  |  |  |  |  |'):
            self.assertIn(row + '\n', self.page())

    def test_what_processes_take_is_seen(self) -> None:
        begin = 'exec "$0" -c "$1" %s'
        whole = ' & '.join(f'sh -c \'{begin % words}\' "$0" "$1"' for words in ('--crate-name mon_low', '--crate-name mon_low /tmp/rt-edits-1', 'x')) + ' & wait'
        with subprocess.Popen(['sh', '-c', whole, sys.executable, BUSY]) as busy:
            self.assertEqual(self.gate('--sample', str(busy.pid), self.path('seconds')).status, 0)
        rows = {(name, kind): seconds for name, kind, seconds in json.loads(self.read('seconds'))}
        self.assertEqual(sorted(rows), [('mon_low', 'edits'), ('mon_low', 'proof'), ('rt', 'other'), ('wall', '')])
        for row, seconds in rows.items():
            self.assertTrue(0.3 < seconds < (300 if row[0] == 'wall' else 2), (row, seconds))

    def test_other_words_are_refused(self) -> None:
        for words in (['--write'], ['--sample', '1'], ['--sample', 'x', 'y'], ['--lines'], ['--check', 'x']):
            self.assertEqual(self.gate(*words).status, 2, words)
