"""tools/docs/sentences: what a sentence, a cell and a word are to it."""
from __future__ import annotations

import os
from typing import List
from trying import NO_WORDS, TOP, Trying, run

TOOL = os.path.join(TOP, 'tools', 'docs', 'sentences')


def words(number: int, last: str = 'end.') -> str:
    return ' '.join(['Word'] + ['word'] * (number - 2) + [last])


class Sentences(Trying):
    def found(self, text: str) -> List[str]:
        """The lines that tell of this page, without its name; and the status of a check."""
        page = self.write('page.md', text.encode())
        told = [line.removeprefix(page + ': ') for line in run([TOOL, page]).out.decode().splitlines()]
        self.assertEqual(run([TOOL, '--check', page]).status, int(bool(told)))
        return [line.partition(':')[0] for line in told]

    def test_forty_words_are_a_sentence_and_no_more(self) -> None:
        self.assertEqual(self.found(words(40) + ' ' + words(40, 'End?') + '\n'), [])
        self.assertEqual(self.found(words(40).replace(' ', '\n') + '\n' + words(41) + '\n'), ['a sentence of 41 words'])
        self.assertEqual(self.found('# Head\n' + words(41, 'end') + '\n'), ['a sentence of 41 words'])
        self.assertEqual(self.found(words(25, 'so:') + ' ' + words(25) + '\n'), ['a sentence of 50 words'])

    def test_a_sentence_ends_with_its_entry_and_before_the_name_of_a_crate(self) -> None:
        self.assertEqual(self.found('- ' + words(30, 'end') + '\n- ' + words(30, 'end') + '\n\n' + words(30, 'end') + '\n1. ' + words(30) + '\n'), [])
        self.assertEqual(self.found(words(30) + ' mon_acl ' + words(30).lower() + '\n'), [])
        self.assertEqual(self.found(words(30, 'at 0.') + '\n' + words(9) + '\n'), [])

    def test_code_is_one_word_and_a_block_of_code_none(self) -> None:
        self.assertEqual(self.found('`' + words(50) + '` ' + words(39) + '\n```\n' + words(99) + '\n```\n'), [])
        self.assertEqual(self.found('`a b` ' + words(40) + '\n'), ['a sentence of 41 words'])
        self.assertEqual(self.found('[a link](page.md#of-' + 'x-' * 50 + ') ' + words(38) + '\n'), [])

    def test_a_cell_has_sixty_words(self) -> None:
        head = '| Name | What |\n|---|---|\n'
        self.assertEqual(self.found(head + f'| a | {words(30)} {words(30, "End.")} |\n'), [])
        self.assertEqual(self.found(head + f'| a | {words(30)}<br>{words(31)} |\n'), ['a cell of 61 words'])
        self.assertEqual(self.found(head + f'| a | {words(41)} | {words(20)} |\n'), ['a sentence of 41 words'])

    def test_pages_are_counted_and_other_words_refused(self) -> None:
        page = self.write('page.md', (words(41) + '\n').encode())
        self.assertEqual(run([TOOL, '--count', page]).out.decode(), f'{page}: 1 sentences, 0 cells\n')
        for given in (NO_WORDS, ['--check'], ['--other', page]):
            self.assertEqual(run([TOOL, *given]).status, 2, given)
