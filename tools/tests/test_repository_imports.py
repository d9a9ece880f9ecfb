"""tools/imports_and_widths: which imports nothing uses, which lines are wide, and that both may only fall."""
from __future__ import annotations

import os
import shutil
from trying import TOP, Trying, run

SOURCE = '''//! A module that speaks of Unsaid in a comment alone.
ghost use Rattle.std.specs.Prelude.{◌≡◌, ◌≤◌, length, Some};
ghost use Rattle.low.specs.Cards.{Card as AnyCard, Other as AnyOther};
pub use crate::given::Given;
use crate::card::{self, Card, Unsaid};
use crate::sink::Sink;
use std::fs::{DirEntry, FileExt as Files, OpenOptionsExt};

fn of(text: &[u8]) -> Option<Card>
    ensures { result.left ≡ length text.now → AnyCard }
{
    let said = b"Unsaid {";
    if text[0] <= b\'"\' { None } else { Some(card::read(text)) }
}
'''
UNUSED = 'crates/low/src/it.rt: ghost ◌≤◌, ghost Some, ghost AnyOther, Unsaid, DirEntry, Files\n'


class Imports(Trying):
    def setUp(self) -> None:
        super().setUp()
        for name in ('tools/tests/data', 'crates/low/src', 'crates/low/specs/inner'):
            os.makedirs(self.path(name))
        shutil.copy(os.path.join(TOP, 'tools', 'imports_and_widths'), self.path('tools'))
        self.write('crates/low/src/it.rt', SOURCE.encode())
        self.write('crates/low/src/sink.rt', b'pub trait Sink {\n}\n')
        self.write('crates/low/specs/inner/Low.antt', '≡'.encode() * 160 + b'\n' + b'x' * 161 + b'\n')

    def looked(self, word: str, status: int, *texts: str) -> str:
        done = run([self.path('tools/imports_and_widths'), word], cwd='/')
        self.assertEqual((done.status, done.err), (status, ''), done.out.decode())
        for text in texts:
            self.assertIn(text, done.out.decode())
        return done.out.decode()

    def test_imports_that_nothing_uses_are_listed(self) -> None:
        self.assertEqual(self.looked('--list', 0), UNUSED)

    def test_what_is_allowed_may_only_fall(self) -> None:
        self.looked('--check', 1, 'crates/low/src/it.rt: 6 unused, 0 wide, and allowed are 0 unused, 0 wide: nothing uses ghost ◌≤◌', 'wide: 2')
        self.looked('--write', 0)
        self.looked('--check', 0, 'ok ')
        self.write('crates/low/src/it.rt', SOURCE.replace('Card, Unsaid', 'Card, New, Unsaid').encode())
        self.looked('--check', 1, 'it.rt: 7 unused', 'New')
        self.looked('--write', 1, '7 unused and 1 wide in all, and allowed are 6 and 1')
        self.write('crates/low/src/it.rt', SOURCE.replace('Card, Unsaid', 'Card').encode())
        self.looked('--check', 1, 'it.rt: 5 unused', '--write lowers them')
        self.looked('--write', 0)
        self.looked('--check', 0)

    def test_a_file_that_was_moved_is_followed(self) -> None:
        self.looked('--write', 0)
        os.rename(self.path('crates/low/src/it.rt'), self.path('crates/low/src/other.rt'))
        self.looked('--check', 1, 'other.rt', 'it.rt')
        self.looked('--write', 0)
        self.looked('--check', 0)

    def test_other_words_are_refused(self) -> None:
        done = run([self.path('tools/imports_and_widths'), '--all'])
        self.assertEqual((done.status, done.out), (2, b''))
