"""The pictures that are drawn from a deck and from a definition say what these say, or are told to be another."""
from __future__ import annotations

import os
import shutil
from typing import Sequence, Tuple
from trying import TOP, Trying, run

DEFINITION = 'crates/mon_access/specs/AccessCheck.antt'


class Pictures(Trying):
    def checked(self, name: str, sources: Sequence[str], *changes: Tuple[bytes, bytes]) -> Tuple[int, bytes]:
        """The status and the first words of tools/docs/NAME --check, over copies of its sources of which the first is changed."""
        for path in ('tools/docs/pictures.py', f'tools/docs/{name}', f'docs/pictures/{name}.svg', *sources):
            os.makedirs(os.path.dirname(self.path(path)), exist_ok=True)
            shutil.copy(os.path.join(TOP, path), self.path(path))
        text = self.read(sources[0])
        for old, new in changes:
            self.assertIn(old, text)
            text = text.replace(old, new)
        self.write(sources[0], text)
        done = run([self.path(f'tools/docs/{name}'), '--check'])
        return done.status, (done.out + done.err.encode()).split(b' ')[0]

    def test_the_loop_is_of_the_first_deck(self) -> None:
        sources = ('examples/first.out', 'examples/first.deck')
        self.assertEqual(self.checked('loop', sources), (0, b'ok'))
        self.assertEqual(self.checked('loop', sources, (b'ADA 100', b'ADA 200')), (1, b'FAILED'))

    def test_the_chart_is_of_the_access_check(self) -> None:
        self.assertEqual(self.checked('access_check', (DEFINITION,)), (0, b'ok'))
        without_mask = (b'some_holds (is_for_user account) entries request && some_holds (has_tag Mask) entries request',
                        b'some_holds (is_for_user account) entries request')
        self.assertEqual(self.checked('access_check', (DEFINITION,), without_mask), (1, b'FAILED'))
        groups_first = ((b'entries then NamedUser', b'entries then Between'), (b'entries then InGroup', b'entries then NamedUser'),
                        (b'entries then Between', b'entries then InGroup'))
        self.assertEqual(self.checked('access_check', (DEFINITION,), *groups_first), (1, b'FAILED'))
