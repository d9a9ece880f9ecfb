"""Help and version of listing, site and snomon-parts go to standard output with status 0; words that ask nothing keep standard error and
status 2."""
from __future__ import annotations

import os
import unittest
from trying import NO_WORDS, PARTS, SITE, Trying, proved, run

LISTING = os.environ.get('LISTING') or proved('listing')
PROGRAMS = {'listing': LISTING, 'site': SITE, **({'parts': PARTS} if os.path.exists(PARTS) else {})}
COMMANDS = {'site': ('init', 'run', 'status', 'catalogue', 'verify', 'put', 'restore', 'accounts', 'adduser', 'groups', 'deluser', 'limits', 'archive',
                     'prune', 'deck', 'check', 'submit', 'queue'), 'parts': ('split', 'join')}
NOTHING = {
    'site': (NO_WORDS, ['--bogus', '--help'], ['go'], ['run'], ['run', 'a', 'b'], ['run', '--bogus', 'a'], ['init'], ['init', 'a'],
             ['init', 'a', '--accounts', 'b'],
             ['init', 'a', '--accounts', 'b', '--users', 'c', '--demonstration'], ['check', 'a'], ['check', 'a', '--account', '9X'], ['verify'],
             ['verify', 'a', 'b'], ['put', 'a'], ['restore', 'a', 'A'], ['restore', 'a', '9X', '--at', '0'], ['adduser', 'a', 'anna'],
             ['adduser', 'a', 'anna', 'x'], ['groups', 'a', 'anna'], ['catalogue', 'a', '--at', 'x'],
             ['init', 'a', '--rounds', 'b', '--limits', 'c'], ['init', 'a', '--rounds', 'b', '--demonstration'], ['deluser', 'a'], ['deck', 'a'], ['deck', 'a', 'x'], ['archive', 'a', '--keep', 'x'],
             ['archive', 'a', '--days', '0'], ['archive', 'a', '--keep', '1', '--days', '1'], ['prune', 'a'], ['prune', 'a', '--days', 'x'],
             ['submit', 'a', 'b'], ['queue', 'a']),
    'listing': (['--bogus'], ['a', 'b'], ['--access', '--account', '9X'], ['--text'], ['--account', 'lisa'], ['--text', '--account', '9X'],
                ['--text', '--access', '--account', 'lisa'], ['--text', '--account', 'lisa', '--csv'], ['--set', 'A']),
    'parts': (NO_WORDS, ['--bogus', '--help'], ['split'], ['join', 'a', 'b']),
}


@unittest.skipUnless(all(map(os.path.exists, PROGRAMS.values())), 'there is no listing, or no site')
class Help(Trying):
    def says(self, name: str, *words: str) -> str:
        done = run([PROGRAMS[name], *words], cwd=self.room)
        self.assertEqual((done.status, done.err), (0, ''), words)
        return done.out.decode()

    def test_help_goes_to_standard_output(self) -> None:
        for name, program in PROGRAMS.items():
            said = self.says(name, '--help')
            self.assertIn('\nUsage: %s ' % os.path.basename(program), said)
            self.assertIn('\nExit status: 0 where ', said)
            self.assertEqual(self.says(name, '-h'), said)
            if name in COMMANDS:
                self.assertEqual(self.says(name, 'help'), said)

    def test_the_help_of_a_command_goes_there_too(self) -> None:
        for name, command in ((name, command) for name in COMMANDS if name in PROGRAMS for command in COMMANDS[name]):
            said = self.says(name, command, '--help')
            self.assertIn('\nUsage: %s %s ' % (os.path.basename(PROGRAMS[name]), command), said)
            self.assertEqual((self.says(name, command, '-h'), self.says(name, 'help', command)), (said, said))

    def test_the_version_goes_there_too(self) -> None:
        for name in PROGRAMS:
            self.assertRegex(self.says(name, '--version'), r'\Asnomon-%s \d+\.\d+\.\d+\n\Z' % name)
            self.assertEqual(self.says(name, '-V'), self.says(name, '--version'))

    def test_nothing_is_read_for_them(self) -> None:
        for name, program in PROGRAMS.items():
            for word in ('--help', '--version'):
                self.assertEqual(run(['/bin/sh', '-c', '"$0" "$1" </dev/zero', program, word]).out.decode(), self.says(name, word))

    def test_words_that_ask_nothing_are_told_on_standard_error(self) -> None:
        for name, words in ((name, words) for name in PROGRAMS for words in NOTHING[name]):
            done = run([PROGRAMS[name], *words], cwd=self.room)
            self.assertEqual((done.status, done.out, bool(done.err)), (2, b'', True), words)

    def test_a_stream_that_is_full_is_told_by_the_status(self) -> None:
        for name in PROGRAMS:
            for word in ('--help', '--version'):
                self.assertEqual(run(['/bin/sh', '-c', '"$0" "$1" >/dev/full', PROGRAMS[name], word]).status, 3)
            self.assertEqual(run(['/bin/sh', '-c', '"$0" --bogus 2>/dev/full', PROGRAMS[name]]).status, 2)
        done = run(['/bin/sh', '-c', '"$0" --help >/dev/full', LISTING])
        self.assertEqual(done.err, 'listing: write fault\n')
