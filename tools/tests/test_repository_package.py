"""What is packaged: the package and the tarball, the version, licences, completions, syntax files; and the types of the Python tools."""
from __future__ import annotations

import os
import re
import shutil
import subprocess
import tarfile
import unittest
from typing import Dict, List
from checkout import PROGRAMS, Checkout
from trying import Done, NO_WORDS, TOP, Trying, deck, proved, run
from decks.cards import CARDS
from decks.version import VERSION

# Where Python stands, and where the modules that it imports are looked for, beside that folder.
FOLDERS = {'bench': '', 'examples': '', 'oracle': '../tools', 'tools': 'docs:tests:../oracle:../examples'}


def text_of(*path: str) -> str:
    with open(os.path.join(TOP, *path), encoding='utf-8') as file:
        return file.read()


def is_python(path: str) -> bool:
    with open(path, 'rb') as file:
        return path.endswith('.py') or b'python' in file.readline() and not path.endswith('.md')


def files_of_python() -> Dict[str, List[str]]:
    """All of it, by its folder: but for what builds leave in `out`."""
    found: Dict[str, List[str]] = {}
    for place, folders, names in os.walk(TOP):
        folders[:] = [name for name in folders if name != 'out' and not name.startswith(('.', '__'))]
        for name in names:
            path = os.path.join(place, name)
            if os.path.isfile(path) and is_python(path):
                folder, _, rest = os.path.relpath(path, TOP).partition(os.sep)
                found.setdefault(folder, []).append(rest)
    return found


class Versions(unittest.TestCase):
    def test_all_programs_have_one_version(self) -> None:
        self.assertEqual(deck('--version').out.decode(), f'snomon-deck {VERSION}\n')
        self.assertEqual(run([os.path.join(TOP, 'tools', 'package'), '--version']).out.decode(), f'snomon {VERSION}\n')
        for crate in ('snomon_library' if program == 'snomon' else program for program in PROGRAMS):
            self.assertIn(f'.version("{VERSION}")', text_of('crates', crate, 'src', 'options.rt'), crate)
        self.assertIn(f'This is version {VERSION}', text_of('README.md'))
        self.assertIn(f'\n## {VERSION}', text_of('CHANGELOG.md'))

    def test_the_programs_print_it_and_tell_the_commit_that_they_are_of(self) -> None:
        script = os.path.join(TOP, 'tools', 'proved')
        commit, = re.findall('^commit (.*)$', text_of('release', 'SOURCES'), re.M)
        for program in PROGRAMS:
            origin = run([script, program, '--origin'])
            if origin.status:
                self.skipTest(f'there is no {program}')
            printed = run([run([script, '--path', program]).out.decode().strip(), '--version'])
            name = {'snomon': 'snomon', 'ledger_program': 'snomon-site'}.get(program, 'snomon-' + program.replace('snomon_', ''))
            self.assertEqual(printed.out.decode() + printed.err, f'{name} {VERSION}\n')
            if b'\norigin     released\n' in origin.out:
                self.assertIn(f'\ncommit     {commit}\n', origin.out.decode())


class Licences(unittest.TestCase):
    def test_each_library_that_a_program_contains_is_named(self) -> None:
        uses = {line.split(':')[0]: line.split(':')[1].split() for line in text_of('crates.txt').splitlines() if ':' in line and not line.startswith('#')}
        reached, left = set(), list(PROGRAMS)
        while left:
            crate = left.pop()
            if crate not in reached:
                reached.add(crate)
                left += uses.get(crate, [])
        self.assertEqual(re.findall('^== (.*)', text_of('packaging', 'LICENCES'), re.M), sorted(reached - set(uses)))


class Syntax(unittest.TestCase):
    """The files for vim and nano know the words that the documents have."""

    def test_cards_are_those_of_a_deck(self) -> None:
        wanted = {card.decode()[1:] for card in CARDS}
        for name in ('vim/syntax/snomon.vim', 'nano/snomon.nanorc'):
            found, = re.findall(r'\$\\?\(([A-Z|\\]*ACCOUNTS[A-Z|\\]*)\)', text_of('packaging', *name.split('/')))
            self.assertEqual({word for word in re.split(r'[|\\]+', found) if word}, wanted, name)

    def test_functions_are_those_of_the_language(self) -> None:
        told = text_of('docs', 'reference', 'language.md')
        wanted = set(re.findall(r'^\| `([A-Z]+)\(', told[told.index('`SIZE(S)`') - 2:], re.M)) | {'DEFINE', 'TABLE'}
        vim = re.findall('snomonFunction (.*)', text_of('packaging', 'vim', 'syntax', 'snomon.vim'))[0].split()
        nano = re.findall(r'\((ANY\|[A-Z|]*)\)', text_of('packaging', 'nano', 'snomon.nanorc'))[0].split('|')
        self.assertEqual(vim, nano)
        self.assertLessEqual(wanted, set(vim))
        self.assertEqual([word for word in vim if f'`{word}' not in told], [])


class Completed(Trying):
    def completed(self, *words: str) -> List[str]:
        """What bash offers for the last word."""
        script = ('source "$0/packaging/completions.bash"; PATH=$0/bin:$PATH; COMP_WORDS=("$@"); COMP_CWORD=$(($# - 1)); _snomon; printf "%s\\n" "${COMPREPLY[@]}"')
        done = run(['bash', '-c', script, TOP, *words])
        self.assertEqual((done.status, done.err), (0, ''))
        return done.out.decode().split()

    def test_commands_and_their_options(self) -> None:
        self.assertLessEqual({'next', 'audit', 'acl', 'split'}, set(self.completed('snomon-deck', '')))
        self.assertEqual(self.completed('snomon-deck', 'au'), ['audit'])
        self.assertLessEqual({'--set', '--unused', '--json', '--help'}, set(self.completed('snomon-deck', 'audit', 'x', '--')))
        self.assertEqual(self.completed('snomon-deck', 'audit', '--un'), ['--unused'])
        self.assertEqual(self.completed('snomon-deck', 'audit', 'some'), [])

    def test_the_programs_name_theirs(self) -> None:
        self.assertLessEqual({'init', 'run', 'status', 'verify'}, set(self.completed('snomon-site', '')))
        self.assertIn('--access', self.completed('snomon-listing', '--acc'))

    @unittest.skipUnless(proved('snomon_parts'), 'there is no snomon-parts')
    def test_snomon_parts_names_its(self) -> None:
        self.assertLessEqual({'split', 'join'}, set(self.completed('snomon-parts', '')))
        self.assertEqual(self.completed('snomon-parts', 'split', '--sev'), ['--several'])


@unittest.skipUnless(shutil.which('git'), 'there is no git')
class Packaged(Checkout):
    def setUp(self) -> None:
        super().setUp()
        self.release()
        for words in (['init', '-q'], ['add', '-A'], ['-c', 'user.name=A', '-c', 'user.email=a@example.com', 'commit', '-qm', 'one']):
            subprocess.run(['git', '-C', self.room, *words], check=True)
        os.mkdir(self.path('made'))

    def package(self, *words: str) -> Done:
        return run([self.path('tools/package'), *words], env=self.environment(with_rt=False), cwd='/')

    def test_the_tarball_has_the_files_of_the_commit(self) -> None:
        done = self.package('tarball', self.path('made'))
        self.assertEqual((done.status, done.err), (0, ''))
        name = f'snomon-{VERSION}.tar.gz'
        self.assertEqual(sorted(os.listdir(self.path('made'))), [name, name + '.sha256'])
        with tarfile.open(self.path(f'made/{name}')) as tarball:
            names = tarball.getnames()
        for file in ('LICENSE', 'CHANGELOG.md', 'SECURITY.md', 'packaging/LICENCES', 'release/SOURCES', 'release/snomon', 'tools/decks/version.py'):
            self.assertIn(f'snomon-{VERSION}/{file}', names)
        first = self.read(f'made/{name}')
        self.assertEqual((self.package('tarball', self.path('made')).status, self.read(f'made/{name}') == first), (0, True))
        self.assertEqual(run(['sha256sum', '-c', name + '.sha256'], cwd=self.path('made')).status, 0)

    @unittest.skipUnless(shutil.which('dpkg-deb'), 'there is no dpkg-deb')
    def test_the_package_installs_what_runs(self) -> None:
        done = self.package('deb', self.path('made'))
        self.assertEqual((done.status, done.err), (0, ''))
        path = done.out.decode().strip()
        self.assertEqual(run(['dpkg-deb', '-x', path, self.path('root')]).status, 0)
        control = run(['dpkg-deb', '-f', path]).out.decode()
        self.assertIn(f'Version: {VERSION}\n', control)
        self.assertIn('Built from commit 1234.', control)
        self.assertEqual(sorted(os.listdir(self.path('root/usr/bin'))), ['snomon', 'snomon-deck', 'snomon-listing', 'snomon-parts', 'snomon-site'])
        self.assertEqual(run([self.path('root/usr/bin/snomon-deck'), '--version']).out.decode(), f'snomon-deck {VERSION}\n')
        self.assertEqual(sorted(os.listdir(self.path('root/usr/share/doc/snomon'))), ['SECURITY.md', 'changelog.Debian.gz', 'changelog.gz', 'copyright'])
        self.assertIn(b'ExecStart=/usr/bin/snomon-site', self.read('root/usr/lib/systemd/system/snomon-site.service'))
        os.rename(path, self.path('first.deb'))
        self.assertEqual((self.package('deb', self.path('made')).status, self.read('first.deb') == self.read(os.path.relpath(path, self.room))), (0, True))

    def test_programs_that_do_not_fit_are_not_packaged(self) -> None:
        self.write('crates/snomon/src/main.rt', b'two\n')
        for kind in ('deb', 'tarball'):
            done = self.package(kind, self.path('made'))
            self.assertEqual((done.status, done.out, os.listdir(self.path('made'))), (1, b'', []))
            self.assertIn('the released programs do not fit the sources', done.err)

    def test_other_words_are_refused(self) -> None:
        for words in (NO_WORDS, ['rpm', self.room], ['deb'], ['deb', 'a', 'b']):
            self.assertEqual(self.package(*words).status, 2, words)
        self.assertEqual(self.package('deb', self.path('gone')).status, 1)


class Looked(Trying):
    """What other tools say, where they are there."""

    @unittest.skipUnless(all(map(shutil.which, ('lintian', 'dpkg-deb', 'git'))), 'there is no lintian, dpkg-deb or git')
    def test_lintian_finds_no_error_in_the_package(self) -> None:
        named = {**os.environ, 'DEBFULLNAME': 'A', 'DEBEMAIL': 'a@example.com'}  # whoever the commit is of
        done = run([os.path.join(TOP, 'tools', 'package'), 'deb', self.room], env=named)
        if done.status and 'do not fit the sources' in done.err:
            self.skipTest('the released programs do not fit the sources')
        self.assertEqual(done.status, 0, done.err)
        found = run(['lintian', '--allow-root', done.out.decode().strip()])
        self.assertEqual([line for line in found.out.decode().splitlines() if line.startswith(('E:', 'W:'))], [])

    @unittest.skipUnless(shutil.which('mypy'), 'there is no mypy')
    def test_mypy_finds_the_types_right(self) -> None:
        found = files_of_python()
        self.assertEqual(sorted(found), sorted(FOLDERS))
        for folder, files in found.items():
            with self.subTest(folder):
                done = run(['mypy', '--strict', '--scripts-are-modules', '--cache-dir', self.path('cache'), *files], cwd=os.path.join(TOP, folder),
                           env={**os.environ, 'MYPYPATH': FOLDERS[folder]})
                self.assertEqual(done.status, 0, done.out.decode())
