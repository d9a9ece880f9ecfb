"""./run and tools/release: the program that is built here, the released one, and programs that are not right."""
from __future__ import annotations

import os
import signal
import subprocess
import time
from typing import Tuple
from checkout import BY_HAND, OF_THE_GATE, PROGRAM, PROGRAMS, RELEASED, Checkout, sha256
from trying import Done, run


class Built(Checkout):
    # What is built here

    def test_the_first_run_builds_and_says_how_far_it_is(self) -> None:
        done = self.ran('--check')
        self.assertEqual((done.status, done.out), (0, b'--check\ndeck\n'))
        self.assertIn('proving mon_low, 1 of 2\n', done.err)
        self.assertIn('proving snomon, 2 of 2\n', done.err)
        self.assertEqual((self.ran().err, self.builds()), ('', 1))

    def test_what_no_build_reads_builds_nothing(self) -> None:
        self.ran()
        self.write('crates/other/src/lib.rt', b'two\n')
        self.write('crates.txt', b'# crates\nmon_low: thiserror\nsnomon: mon_low clap\nlisting: mon_low\nsite: mon_low\nother:\nnew: mon_low\n')
        self.assertEqual((self.ran().err, self.builds()), ('', 1))
        self.write('crates/mon_low/specs/Low.antt', b'two\n')
        self.assertIn('min the last time', self.ran().err)
        self.write('crates.txt', b'mon_low:\nsnomon: mon_low clap\n')
        self.ran()
        self.assertEqual(self.builds(), 3)

    def test_another_toolchain_builds_anew_and_none_takes_what_is_there(self) -> None:
        self.ran()
        self.write('version', b'kit 2\n')
        self.ran()
        self.assertEqual(self.builds(), 2)
        done = self.ran(with_rt=False)
        self.assertEqual((done.out, done.err), (b'\ndeck\n', ''))

    def test_other_handles_build_anew(self) -> None:
        self.ran()
        self.write('HANDLES', b'Handles allowed: Net.\n')
        self.ran()
        self.assertEqual(self.builds(), 2)

    def test_what_the_gate_built_is_taken(self) -> None:
        sum = self.sum()
        self.stamp('snomon', OF_THE_GATE)
        done = self.ran('a')
        self.assertEqual((done.status, done.out, done.err, self.builds()), (0, b'of the gate a\n', '', 0))
        self.write('crates/mon_low/specs/Low.antt', b'two\n')
        self.proved('--stamp', 'snomon', sum, 'kit 1')
        self.ran()
        self.assertEqual(self.builds(), 1)

    def test_help_builds_nothing(self) -> None:
        done = self.ran('--help')
        self.assertEqual((done.status, done.out, self.builds()), (2, b'', 0))
        self.assertIn('not built here', done.err)
        self.ran()
        self.assertEqual((self.ran('--help').out, self.builds()), (b'--help\ndeck\n', 1))

    def test_what_cannot_be_built_is_told(self) -> None:
        self.write('refuse', b'')
        done = self.ran()
        self.assertEqual((done.status, done.out), (125, b''))
        self.assertIn('could not be built', done.err)

    def test_a_build_can_be_asked_for(self) -> None:
        self.release()
        done = self.ran('--build')
        self.assertEqual((done.status, done.out, self.builds()), (0, b'', 1), done.err)
        self.assertEqual(self.ran('a').out, b'a\ndeck\n')
        self.ran('--build')
        self.assertEqual(self.builds(), 2)
        self.assertEqual(self.ran('--build', '--check').status, 2)

    # The deck that a word names

    def says_of(self, *words: str) -> bytes:
        done = self.ran(*words)
        self.assertEqual((done.status, done.err), (0, ''), words)
        return done.out

    def named_decks(self) -> Tuple[str, str]:
        self.ran()
        return self.write('one', b'first\n'), self.write('other', b'second\n')

    def test_a_word_that_names_a_file_gives_the_deck(self) -> None:
        one, other = self.named_decks()
        for before, after in ((), ()), (('--check',), ()), ((), ('--check',)), (('--slots', '4'), ('--check',)), (('--',), ()):
            self.assertEqual(self.says_of(*before, one, *after), b' '.join(map(str.encode, before + after)) + b'\nfirst\n')
        self.assertEqual(self.says_of(one, other), other.encode() + b'\nfirst\n')

    def test_a_deck_is_given_to_a_program_that_has_to_be_built_first(self) -> None:
        one = self.write('one', b'first\n')
        self.assertEqual((self.ran('--check', one).out, self.builds()), (b'--check\nfirst\n', 1))

    def test_the_value_of_an_option_gives_no_deck(self) -> None:
        one, other = self.named_decks()
        self.assertEqual(self.says_of('--audit', one), b'--audit %s\ndeck\n' % one.encode())
        self.assertEqual(self.says_of('--audit', one, other), b'--audit %s\nsecond\n' % one.encode())
        self.assertEqual(self.says_of('--audit=' + one, other), b'--audit=%s\nsecond\n' % one.encode())
        self.assertEqual(self.says_of(other, '--audit', one), b'--audit %s\nsecond\n' % one.encode())
        self.write('4', b'third\n')
        done = run([self.path('run'), '--slots', '4', 'one'], given=b'', env=self.environment(), cwd=self.room)
        self.assertEqual(done.out, b'--slots 4\nfirst\n')

    def test_a_word_that_names_no_file_goes_to_the_program(self) -> None:
        self.named_decks()
        for word in (self.path('none'), self.path('bin'), '', '-'):
            self.assertEqual(self.says_of(word), word.encode() + b'\ndeck\n')
        self.write('-x', b'third\n')
        for word, wanted in (('-x', b'-x\n'), ('./-x', b'\nthird\n')):
            self.assertEqual(run([self.path('run'), word], given=b'', env=self.environment(), cwd=self.room).out, wanted)

    def test_a_file_with_the_name_of_an_action_is_none(self) -> None:
        self.named_decks()
        self.assertEqual(self.ran('--build', self.path('one')).status, 2)
        self.assertEqual(self.ran('--origin', self.path('one')).status, 2)

    def test_each_program_has_options_with_values_of_its_own(self) -> None:
        self.release()
        for name in PROGRAMS:
            self.script(f'crates/{name}/out/{name}', b'#!/bin/sh\necho "$@"; cat\n')
            self.proved('--stamp', name, self.sum(name), 'kit 1')
        one = self.write('one', b'first\n')
        path = one.encode()
        for words, wanted in ((('listing', one), b'\nfirst\n'), (('listing', '--access', '--set', one), b'--access --set %s\n' % path),
                              (('listing', '--account', one, one), b'--account %s\nfirst\n' % path), (('listing', '--slots', one), b'--slots\nfirst\n'),
                              (('ledger_program', 'check', one), b'check %s\n' % path), (('ledger_program', one), path + b'\n'),
                              (('snomon_parts', 'split', one), b'split %s\n' % path)):
            self.assertEqual(self.proved(*words).out, wanted, words)

    # What is not right

    def test_a_program_put_there_by_hand_is_not_run(self) -> None:
        self.script(PROGRAM, BY_HAND)
        done = self.ran()
        self.assertIn('is not a program that was proved and built here', done.err)
        self.assertEqual((done.out, self.builds()), (b'\ndeck\n', 1))
        self.script(PROGRAM, BY_HAND)
        done = self.ran()
        self.assertIn('is not a program that was proved and built here', done.err)
        self.assertEqual((done.out, self.builds()), (b'\ndeck\n', 2))

    def test_a_program_put_there_by_hand_gives_way_to_the_released_one(self) -> None:
        self.release()
        self.script(PROGRAM, BY_HAND)
        done = self.ran('a', with_rt=False)
        self.assertIn('is not a program that was proved and built here', done.err)
        self.assertEqual((done.status, done.out), (0, b'released a\n'))

    def test_the_released_program_needs_no_toolchain(self) -> None:
        self.release()
        done = self.ran('a', 'b', with_rt=False)
        self.assertEqual((done.status, done.out, done.err), (0, b'released a b\n', ''))
        self.assertEqual(self.ran('--help', with_rt=False).out, b'released --help\n')
        self.write('version', b'kit 2\n')
        self.assertEqual((self.ran().out, self.builds()), (b'released\n', 0))

    def test_a_released_program_with_another_byte_is_not_run(self) -> None:
        self.release()
        self.script('release/snomon', RELEASED.replace(b'released', b'Released'))
        done = self.ran(with_rt=False)
        self.assertEqual((done.status, done.out), (125, b''))
        self.assertIn('release/snomon is not the program that release/SHA256SUMS names', done.err)
        self.assertEqual((self.ran().out, self.builds()), (b'\ndeck\n', 1))

    def test_a_source_with_another_letter_makes_the_release_another(self) -> None:
        self.release()
        self.write('crates/mon_low/specs/Low.antt', b'ons\n')
        done = self.ran(with_rt=False)
        self.assertEqual((done.status, done.out), (125, b''))
        self.assertIn('release/snomon is of other sources (commit 1234)', done.err)
        self.assertIn('rt, which could prove and build it, is not on PATH', done.err)
        self.assertEqual((self.ran().out, self.builds()), (b'\ndeck\n', 1))

    def test_origin_tells_which_program_runs(self) -> None:
        self.release()
        said = self.ran('--origin', with_rt=False).out.decode()
        for line in (f'program    {self.path("release/snomon")}', 'origin     released', f'sha256     {sha256(RELEASED)}',
                     f'sources    {self.sum()}', 'commit     1234', 'toolchain  kit 1'):
            self.assertIn(line + '\n', said)
        self.ran('--build')
        said = self.ran('--origin').out.decode()
        self.assertIn(f'program    {self.path(PROGRAM)}\norigin     built here\n', said)
        self.write('crates/mon_low/specs/Low.antt', b'two\n')
        done = self.ran('--origin')
        self.assertEqual((done.status, done.out), (1, b''))
        self.assertIn('snomon is not built here, and release/snomon is of other sources', done.err)

    def test_other_programs_are_refused(self) -> None:
        for words in ((), ('other',), ('--sum', 'other', 'kit 1'), ('../snomon',)):
            done = self.proved(*words)
            self.assertEqual((done.status, done.out, self.builds()), (2, b'', 0))
            self.assertIn('the programs are snomon, listing, ledger_program and snomon_parts', done.err)

    def test_a_checkout_that_cannot_be_written_says_so(self) -> None:
        self.write('out', b'')
        done = self.ran()
        self.assertEqual((done.status, done.out, done.err), (125, b'', f'snomon: {self.path("out")} cannot be written, and a build needs it\n'))

    # Two at a time, and one that is ended

    def test_a_second_build_says_what_it_waits_for_and_an_ended_one_leaves_nothing(self) -> None:
        self.write('slow', b'')
        first = subprocess.Popen([self.path('run')], stdin=subprocess.DEVNULL, stderr=subprocess.PIPE, env=self.environment())
        self.addCleanup(first.kill)
        self.wait_for('child')
        second = subprocess.Popen([self.path('run')], stdin=subprocess.DEVNULL, stdout=subprocess.PIPE, stderr=subprocess.PIPE, env=self.environment())
        self.addCleanup(second.kill)
        assert second.stderr
        self.assertEqual(second.stderr.readline().decode(), f'snomon: waiting for the build that goes on here (process {first.pid})\n')
        os.remove(self.path('slow'))
        first.send_signal(signal.SIGTERM)
        self.assertIn(b'ended before it was built', first.communicate(timeout=20)[1])
        self.assertEqual(first.returncode, 130)
        self.assertEqual((second.communicate(timeout=20)[0], second.returncode, self.builds()), (b'\n', 0, 2))
        child = int(self.read('child'))
        self.assertFalse(os.path.exists(f'/proc/{child}') and self.is_sleeping(child))

    def wait_for(self, name: str) -> None:
        for _ in range(200):
            if name in self.names() and self.read(name):
                return
            time.sleep(0.05)
        self.fail(f'{name} is not written')

    def is_sleeping(self, process: int) -> bool:
        with open(f'/proc/{process}/cmdline', 'rb') as file:
            return b'sleep' in file.read()

    # Releases

    def released_by(self, *words: str) -> Done:
        return run([self.path('tools/release'), *words], env=self.environment(), cwd='/')

    def test_a_release_is_made_of_the_programs_of_a_passed_gate(self) -> None:
        self.assertIn('no gate has passed', self.released_by().err)
        self.stamp('snomon', OF_THE_GATE)
        for name in PROGRAMS[1:]:
            self.stamp(name, BY_HAND)
        self.assertEqual(self.released_by('--passed').status, 0)
        self.assertEqual(self.released_by('--check').status, 1)
        self.assertEqual(self.released_by().status, 0)
        self.assertEqual(self.released_by('--check').status, 0)
        os.remove(self.path(PROGRAM))
        self.assertEqual(self.ran('a', with_rt=False).out, b'of the gate a\n')
        done = run(['sha256sum', '--check', 'SHA256SUMS'], cwd=self.path('release'))
        self.assertEqual((done.status, done.out), (0, b''.join(b'%s: OK\n' % name.encode() for name in PROGRAMS)))
        self.write('crates/mon_low/specs/Low.antt', b'two\n')
        self.assertEqual(self.released_by('--check').status, 1)
        self.assertIn('other sources', self.released_by().err)

    def test_a_release_is_compared_with_what_the_gate_built(self) -> None:
        for name in PROGRAMS:
            self.stamp(name, RELEASED)
        self.released_by('--passed')
        self.released_by()
        self.assertEqual(self.released_by('--compare').out,
                         b''.join(b'ok release/%s is what was built\n' % name.encode() for name in PROGRAMS) + b'4 passed, 0 failed\n')
        self.stamp('snomon', BY_HAND)
        done = self.released_by('--compare')
        self.assertEqual((done.status, done.out.splitlines()[-1]), (1, b'3 passed, 1 failed'))
        self.write('crates/mon_low/specs/Low.antt', b'two\n')
        for name in PROGRAMS:
            self.stamp(name, BY_HAND)
        done = self.released_by('--compare')
        self.assertEqual((done.status, done.out.splitlines()[-1]), (0, b'0 passed, 0 failed'))
        self.assertIn(b'moved on', done.out)
