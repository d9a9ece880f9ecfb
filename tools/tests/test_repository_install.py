"""What is installed, compared with what was released, and taken away again."""
from __future__ import annotations

import os
import stat
from typing import Any, List
from checkout import BY_HAND, OF_THE_GATE, RELEASED, Checkout
from trying import BOTH, Done, PRINTOUTS, TOP, run

FORMER = ['deck', 'listing', 'site']
PROGRAMS = ['snomon-' + name for name in [*FORMER, 'parts']]
PAGES = sorted(os.listdir(os.path.join(TOP, 'docs', 'man')))


class Installed(Checkout):
    def setUp(self) -> None:
        super().setUp()
        self.release()
        self.there = self.path('there')

    def install(self, *words: str, **more: Any) -> Done:
        return run([self.path('install'), *words], env=self.environment(with_rt=False), cwd=self.room, **more)

    def files(self) -> List[str]:
        return sorted(os.path.relpath(os.path.join(folder, name), self.there) for folder, _, names in os.walk(self.there) for name in names)

    def test_what_is_installed_runs(self) -> None:
        done = self.install(self.there)
        self.assertEqual((done.status, done.err), (0, ''))
        for name in done.out.decode().split():
            self.assertTrue(os.path.isfile(name), name)
        self.assertEqual(sorted(os.listdir(self.there)), ['bin', 'lib', 'share'])
        self.assertEqual(sorted(os.listdir(os.path.join(self.there, 'bin'))), sorted(['snomon', *PROGRAMS, *FORMER]))
        self.assertEqual(sorted(name for _, _, names in os.walk(self.path('there/share/man')) for name in names), PAGES)
        self.assertFalse([name for name in self.files() if os.path.basename(name).startswith('.')])
        self.assertEqual(run([self.path('there/bin/snomon'), 'a']).out, b'released a\n')
        self.write('output', BOTH[2])
        done = run([self.path('there/bin/snomon-deck'), 'printouts', self.path('output')])
        self.assertEqual((done.status, done.out, done.err), (0, PRINTOUTS, ''))
        self.assertNotIn('__pycache__', os.listdir(self.path('there/lib/snomon/decks')))
        self.assertEqual(self.install(self.there).status, 0)

    def test_former_names_warn_and_call_what_they_are_called_now(self) -> None:
        self.install(self.there)
        for former in FORMER:
            now, before = (run([self.path('there/bin/' + name), '--help']) for name in ('snomon-' + former, former))
            self.assertEqual((before.status, before.out), (now.status, now.out), former)
            self.assertEqual(before.err, f'{former} is called snomon-{former} now; the next version has no {former}\n' + now.err)

    def test_the_units_name_what_is_installed(self) -> None:
        self.install(self.there)
        unit = self.read('there/lib/systemd/system/snomon-site.service').decode()
        self.assertIn(f'\nExecStart={os.path.realpath(self.there)}/bin/snomon-site run /srv/snomon\n', unit)
        self.assertNotIn('/usr/local', unit)
        self.assertIn('\nTimeoutStartSec=infinity\n', unit) # a run takes as long as its submissions
        self.assertIn('lib/systemd/system/snomon-site.timer', self.files())

    def test_a_staged_install_names_the_places_that_it_will_have(self) -> None:
        environment = {**self.environment(with_rt=False), 'DESTDIR': self.path('stage')}
        done = run([self.path('install'), '/usr'], env=environment, cwd=self.room)
        self.assertEqual((done.status, done.err), (0, ''))
        self.assertTrue(all(name.startswith(self.path('stage/usr/').encode()) for name in done.out.splitlines()))
        self.assertIn(b'\nExecStart=/usr/bin/snomon-site run', self.read('stage/usr/lib/systemd/system/snomon-site.service'))
        self.assertFalse([name for name in self.names() if name == 'usr'])
        self.install(self.there)
        self.assertEqual(self.read('there/lib/snomon/files'), self.read('stage/usr/lib/snomon/files'))
        for words in (['--verify', '/usr'], ['--remove', '/usr']):
            self.assertEqual(run([self.path('install'), *words], env=environment, cwd=self.room).status, 0)
        self.assertEqual([names for _, _, names in os.walk(self.path('stage')) if names], [])
        done = run([self.path('install'), 'usr'], env=environment, cwd=self.room)
        self.assertEqual((done.status, done.out), (1, b''))
        self.assertIn('with DESTDIR the prefix begins with /', done.err)

    def test_it_is_open_to_all_under_any_umask(self) -> None:
        self.install(self.there, umask=0o077)
        for folder, folders, names in os.walk(self.there):
            for name in folders + names:
                mode = stat.S_IMODE(os.stat(os.path.join(folder, name)).st_mode)
                self.assertEqual(mode, 0o755 if name in folders or mode & 0o100 else 0o644, name)

    def test_other_words_are_refused(self) -> None:
        for words in (['--bogus'], ['a', 'b'], [''], ['--verify', ''], ['--remove', 'a', 'b'], ['--verify', '--remove']):
            before = self.names()
            done = self.install(*words)
            self.assertEqual((done.status, done.out, self.names()), (2, b'', before), words)
            self.assertIn('./install [PREFIX]', done.err)

    def test_without_a_right_program_nothing_is_installed(self) -> None:
        self.script('release/listing', BY_HAND)
        done = self.install(self.there)
        self.assertEqual((done.status, done.out, 'there' in self.names()), (1, b'', False))
        self.assertIn('there is no listing to install', done.err)

    def test_a_folder_in_the_place_of_a_program_is_not_filled(self) -> None:
        os.makedirs(self.path('there/bin/snomon'))
        done = self.install(self.there)
        self.assertEqual((done.status, self.files()), (1, []))
        self.assertIn('there/bin/snomon is a folder', done.err)

    def test_what_an_older_release_had_is_taken_away(self) -> None:
        os.makedirs(self.path('there/lib/snomon/decks'))
        self.write('there/lib/snomon/decks/older.py', b'')
        self.install(self.there)
        self.assertNotIn('lib/snomon/decks/older.py', self.files())
        self.write('tools/decks/newer.py', b'')
        self.install(self.there)
        self.assertIn('lib/snomon/decks/newer.py', self.files())
        self.write('there/lib/snomon/decks/of_another.py', b'')
        os.remove(self.path('tools/decks/newer.py'))
        done = self.install(self.there)
        self.assertIn(b'there/lib/snomon/decks/newer.py is removed\n', done.out)
        self.assertNotIn('lib/snomon/decks/newer.py', self.files())
        self.assertIn('lib/snomon/decks/of_another.py', self.files())

    def test_what_is_installed_can_be_compared(self) -> None:
        self.install(self.there)
        done = self.install('--verify', self.there)
        self.assertEqual(done.status, 0, done.out)
        self.assertEqual(done.out.count(b'ok '), len(done.out.splitlines()))
        self.assertIn(b'there/bin/snomon\n', done.out)
        self.script('there/bin/snomon', RELEASED + b'#')
        with open(self.path('there/lib/snomon/decks/text.py'), 'ab') as file:
            file.write(b'#')
        done = self.install('--verify', self.there)
        self.assertEqual(done.status, 1)
        failed = [line for line in done.out.decode().splitlines() if line.startswith('FAILED')]
        self.assertEqual(failed, [f'FAILED {self.there}/bin/snomon', f'FAILED {self.there}/lib/snomon/decks/text.py'])

    def test_a_program_that_was_built_here_is_not_the_released_one(self) -> None:
        self.stamp('snomon', OF_THE_GATE)
        self.assertEqual(self.install(self.there).status, 0)
        done = self.install('--verify', self.there)
        self.assertEqual((done.status, done.out.count(b'FAILED'), b'FAILED' in done.out.splitlines()[0]), (1, 1, True))

    def test_what_was_installed_is_taken_away(self) -> None:
        os.makedirs(self.path('there/bin'))
        self.write('there/bin/other', b'')
        self.install(self.there)
        done = self.install('--remove', self.there)
        self.assertEqual((done.status, done.err, self.files()), (0, '', ['bin/other']))
        self.assertNotIn('snomon', os.listdir(self.path('there/lib')))
        done = self.install('--remove', self.there)
        self.assertEqual(done.status, 1)
        self.assertIn('nothing was installed there', done.err)
