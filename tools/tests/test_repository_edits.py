"""tools/edits: the bugs that the gate leaves out can be applied, stand in must-fail/ while they are tried, and no longer."""
from __future__ import annotations

import os
import shutil
from trying import Done, NO_WORDS, TOP, Trying, run

EDIT = b'file: src/lib.rt\nold: one\nnew: two\n'
RT = b'#!/bin/sh\necho "$@"; ls crates/*/must-fail; cat crates/mon_low/must-fail/left.edit; exit 3\n'


class Edits(Trying):
    def setUp(self) -> None:
        super().setUp()
        for name in ('tools', 'bin', 'crates/mon_low/src', 'crates/mon_low/must-fail', 'crates/mon_low/edits', 'crates/mon_high/edits'):
            os.makedirs(self.path(name))
        shutil.copy(os.path.join(TOP, 'tools/edits'), self.path('tools/edits'))
        for name, content in (('crates/mon_low/src/lib.rt', b'one\n'), ('crates/mon_low/must-fail/tried.edit', EDIT),
                              ('crates/mon_low/edits/left.edit', EDIT), ('bin/rt', RT)):
            self.write(name, content)
        os.chmod(self.path('bin/rt'), 0o755)

    def edits(self, *words: str) -> Done:
        return run([self.path('tools/edits'), *words], cwd='/', env={**os.environ, 'PATH': self.path('bin') + ':' + os.environ['PATH']})

    def test_one_that_cannot_be_applied_is_told(self) -> None:
        done = self.edits('--check')
        self.assertEqual((done.status, done.out), (0, b'ok 1 edits of the gate, and 1 that it leaves out, can be applied\n'))
        for name, content, why in (('mon_low/edits/left', b'file: src/lib.rt\nold: on\nold: two\nnew: x\n', b'an old text stands in its file 0 times'),
                                   ('mon_low/must-fail/tried', b'file: src/no.rt\nold: one\nnew: two\n', b'there is no file src/no.rt'),
                                   ('mon_low/must-fail/tried', b'# nothing\n', b'it has no old text')):
            self.write(f'crates/{name}.edit', content)
            done = self.edits('--check')
            self.assertEqual(done.status, 1)
            self.assertIn(b'FAILED crates/%s.edit: %s\n' % (name.encode(), why), done.out)
            self.write(f'crates/{name}.edit', EDIT)

    def test_they_are_tried_beside_the_others_and_taken_away(self) -> None:
        for words in (NO_WORDS, ['mon_low']):
            done = self.edits(*words)
            self.assertEqual((done.status, done.out), (3, b'must-fail mon_low\nleft.edit\ntried.edit\n' + EDIT))
            self.assertEqual(os.listdir(self.path('crates/mon_low/must-fail')), ['tried.edit'])
        os.remove(self.path('crates/mon_low/must-fail/tried.edit'))
        self.assertEqual(self.edits().out, b'must-fail mon_low\nleft.edit\n' + EDIT)
        self.assertFalse(os.path.exists(self.path('crates/mon_low/must-fail')))

    def test_a_crate_without_such_edits_is_refused(self) -> None:
        for word in ('mon_high', 'nothing', '--help'):
            done = self.edits(word)
            self.assertEqual((done.status, done.out), (2, b''))
            self.assertIn(f'no edits of {word} are left out\n', done.err)
