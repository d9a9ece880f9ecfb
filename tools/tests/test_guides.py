"""What examples/guides.py says of pages that are followed in a folder."""
from __future__ import annotations

import os
import pwd
import sys
import unittest
from typing import List, Tuple
from trying import SNOMON, TOP

sys.path.append(os.path.join(TOP, 'examples'))
import guides  # noqa: E402

PAGE = '''Put this into the file `words`:
```file words
ADA
```
```sh
cat words; snomon-deck --help | grep -c usage: || true
```
```output
ADA
1
```
'''


class Guides(unittest.TestCase):
    def wrong(self, *changes: Tuple[str, str]) -> List[str]:
        text = PAGE
        for old, new in changes:
            self.assertIn(old, text)
            text = text.replace(old, new)
        return list(guides.followed(SNOMON, text))

    def test_a_page_is_followed_from_top_to_bottom(self) -> None:
        self.assertEqual(self.wrong(), [])

    def test_another_output_is_told(self) -> None:
        self.assertEqual(self.wrong(('ADA\n1\n', 'BOB\n1\n')), ['block 2:\ncat words; snomon-deck --help | grep -c usage: || true\nprints\nADA\n1\n'])

    def test_what_is_printed_has_to_be_shown(self) -> None:
        self.assertEqual(len(self.wrong(('```output\nADA\n1\n```\n', ''))), 1)

    def test_a_command_that_fails_is_told(self) -> None:
        self.assertIn('prints\nADA\nstatus 3\n', self.wrong(('snomon-deck --help', 'exit 3; true'))[0])

    def test_the_text_names_each_file(self) -> None:
        self.assertEqual(len(self.wrong(('the file `words`', 'a file'))), 2)  # it is not there, so the command fails, too

    def test_each_block_has_a_mark(self) -> None:
        self.assertEqual(len(self.wrong(('```sh', '```'))), 2)  # then nothing prints the output

    def test_a_page_with_a_site_has_its_program(self) -> None:
        self.assertEqual(self.wrong(('cat words; snomon-deck --help', 'cat words; snomon-site --help'), ('usage:', 'Usage:')), [])

    @unittest.skipUnless(guides.has_places(), 'root, or a place of its own, is not to be had here')
    def test_root_makes_users_that_are_seen_there_alone(self) -> None:
        made = ('cat words; snomon-deck --help | grep -c usage: || true', 'useradd --create-home guide; runuser -u guide -- cat words; ls /home | wc -l')
        self.assertEqual(self.wrong(('```sh', '```root'), made), [])
        self.assertNotIn('guide', [user.pw_name for user in pwd.getpwall()])
