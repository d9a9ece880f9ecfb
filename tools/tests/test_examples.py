"""The man pages, and the examples of a round."""
from __future__ import annotations

import os
import re
import shutil
import sys
from trying import SNOMON, TOP, Trying, run, snomon
from test_deck_split import HEAD, job, sets


class Pages(Trying):
    def test_man_pages_are_set_without_a_warning(self) -> None:
        if not shutil.which('groff'):
            self.skipTest('there is no groff')
        for page in ('snomon.1', 'snomon-listing.1', 'snomon-parts.1', 'snomon-deck.1', 'snomon-audit.5', 'snomon-deck.5'):
            done = run(['groff', '-mdoc', '-Tascii', '-ww', os.path.join(TOP, 'docs', 'man', page)])
            self.assertEqual((done.status, done.err), (0, ''))
            self.assertIn(b'DESCRIPTION', re.sub(b'.\x08', b'', done.out))

    def test_the_page_of_deck_is_what_its_help_says(self) -> None:
        done = run([os.path.join(TOP, 'tools', 'manual'), '--check'])
        self.assertEqual((done.status, done.out), (0, b"ok docs/man/snomon-deck.1 is what snomon-deck --help says\n"))

    def test_the_first_change_of_CODE_can_be_laid_over(self) -> None:
        if not shutil.which('git'):
            self.skipTest('there is no git')
        patch = os.path.join(TOP, 'docs', 'dev', 'first-change.patch')
        with open(patch, encoding='utf-8') as file:
            names = re.findall(r'^\+\+\+ b/(.*)$', file.read(), re.M)
        shutil.copytree(os.path.join(TOP, 'oracle'), self.path('oracle'), ignore=shutil.ignore_patterns('__pycache__'))
        for name in names:
            os.makedirs(os.path.dirname(self.path(name)), exist_ok=True)
            shutil.copy(os.path.join(TOP, name), self.path(name))
        done = run(['git', 'apply', patch], cwd=self.room, env={**os.environ, 'GIT_CEILING_DIRECTORIES': os.path.dirname(self.room)})
        self.assertEqual((done.status, done.err), (0, ''))
        cases = next(name for name in names if name.endswith('.cases'))
        self.assertIn(b'LLT', self.read(cases))
        done = run([sys.executable, self.path('oracle/check.py'), self.path(cases)])
        self.assertEqual(done.status, 0, done.out)
        self.assertRegex(done.out, rb'agree, 0 differ')


class Rounds(Trying):
    def setUp(self) -> None:
        super().setUp()
        names = [b'S%d' % number for number in range(8)]
        self.text = HEAD + sets(*names) + b'$STREAM\n' + b''.join(map(job, names)) + b'$DRAIN\n$LIST anna S3\n$STOP\n'
        self.write('monday.deck', self.text)

    def is_as_the_whole(self) -> None:
        whole = snomon(self.text).out
        at = whole.index(b'LIST anna')
        self.assertEqual(self.read('monday.out')[at:], whole[at:])
        self.assertEqual(sorted(self.read('monday.out').split(b'\n')), sorted(whole.split(b'\n')))

    def test_the_makefile_splits_runs_and_joins(self) -> None:
        if not shutil.which('make'):
            self.skipTest('there is no make')
        words = ['make', '-j', '2', '-f', os.path.join(TOP, 'examples', 'round', 'Makefile'), 'DECK=monday.deck', 'MOST=3']
        words += [f'SNOMON={SNOMON}', f'SPLIT={TOP}/tools/deck split', f'JOIN={TOP}/tools/deck join']
        without = {key: value for key, value in os.environ.items() if not key.startswith('MAKE')}
        done = run(words, cwd=self.room, env=without)
        self.assertEqual((done.status, done.err), (0, ''))
        self.assertEqual(sorted(os.listdir(self.path('monday.parts'))),
                         ['1.deck', '1.out', '2.deck', '2.out', '3.deck', '3.out', 'cards'])
        self.is_as_the_whole()
        self.assertIn(b'up to date', run(words, cwd=self.room, env=without).out)
        os.remove(self.path('monday.parts/2.out'))
        os.remove(self.path('monday.out'))
        self.assertEqual(run(words, cwd=self.room, env=without).out.count(b'--slots'), 1)
        self.is_as_the_whole()
        os.remove(self.path('monday.out'))
        self.write('monday.deck', b'$ACCOUNTS\n')
        done = run(words, cwd=self.room, env=without)
        self.assertEqual((done.status, self.names()), (2, ['monday.deck']))

    def test_the_slurm_script_runs_each_part(self) -> None:
        script = ('snomon-deck split monday.deck parts --parts 3; for task in 1 2 3; do SLURM_ARRAY_TASK_ID=$task "$0" parts || exit; done; '
                  'snomon-deck join parts -o monday.out')
        path = os.path.join(TOP, 'bin') + os.pathsep + os.environ['PATH']
        done = run(['sh', '-c', script, os.path.join(TOP, 'examples', 'round', 'round.sbatch')], cwd=self.room,
                   env={**os.environ, 'SNOMON': SNOMON, 'PATH': path})
        self.assertEqual((done.status, done.err), (0, ''))
        self.is_as_the_whole()
