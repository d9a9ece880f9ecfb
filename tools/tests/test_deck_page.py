"""The page of who may do what: what `page` makes of a report, and what it refuses."""
from __future__ import annotations

import html.parser
import io
import os
import random
import re
import time
import xml.etree.ElementTree
from typing import Dict, List, Optional, Tuple
from trying import DECK, MOST_MEMORY, TOP, Trying, deck, run

TITLE = b'account,set,permission,answer,entry\n'
# Of examples/payroll.deck: anna is the owner; lisa's entry has r and w, and the mask r alone; hugo has no entry but other::.
PAYROLL = TITLE + b'''anna,PAYROLL,r,granted,
anna,PAYROLL,w,granted,
anna,PAYROLL,x,granted,
lisa,PAYROLL,r,granted,
lisa,PAYROLL,w,denied,mask::
lisa,PAYROLL,x,denied,user:lisa:
hugo,PAYROLL,r,denied,other::
hugo,PAYROLL,w,denied,other::
hugo,PAYROLL,x,denied,other::
'''
LOG = b'''anna,LOG,r,denied,user::
anna,LOG,w,granted,
anna,LOG,x,denied,user::
lisa,LOG,r,denied,group:staff:
lisa,LOG,w,denied,mask::
lisa,LOG,x,denied,group:staff:
hugo,LOG,r,denied,group::
hugo,LOG,w,denied,mask::
hugo,LOG,x,granted,
'''
TWO = PAYROLL + LOG
Attributes = Dict[str, Optional[str]]
EMPTY_TAGS = ('meta', 'br', 'col')


class Page(html.parser.HTMLParser):
    """A page as a browser reads it: its elements, each with the attributes and the text in it; each is closed where it must be."""

    def __init__(self, text: bytes) -> None:
        super().__init__()
        self.elements: List[Tuple[str, Attributes, List[str]]] = []
        self.open: List[Tuple[str, Attributes, List[str]]] = []
        self.declared: List[str] = []
        self.feed(text.decode('utf-8'))
        self.close()
        if self.open:
            raise ValueError(f'{self.open} are not closed')

    def handle_decl(self, decl: str) -> None:
        self.declared.append(decl)

    def handle_starttag(self, tag: str, attrs: List[Tuple[str, Optional[str]]]) -> None:
        self.elements.append((tag, dict(attrs), []))
        if tag not in EMPTY_TAGS:
            self.open.append(self.elements[-1])
        elif tag == 'br':
            self.handle_data('\n')

    def handle_endtag(self, tag: str) -> None:
        if tag not in EMPTY_TAGS and self.open.pop()[0] != tag:
            raise ValueError(f'</{tag}> closes something else')

    def handle_startendtag(self, tag: str, attrs: List[Tuple[str, Optional[str]]]) -> None:
        self.handle_starttag(tag, attrs)

    def handle_data(self, data: str) -> None:
        for _, _, texts in self.open:
            texts.append(data)

    def all(self, *tags: str) -> List[Tuple[str, Attributes, str]]:
        return [(tag, attributes, ''.join(texts)) for tag, attributes, texts in self.elements if tag in tags]

    def texts(self, *tags: str) -> List[str]:
        return [text for _, _, text in self.all(*tags)]

    def rows(self) -> List[List[str]]:
        """The cells of the table, as lists of their texts; a header cell has its scope before it."""
        rows: List[List[str]] = []
        for tag, attributes, text in self.all('tr', 'th', 'td'):
            if tag == 'tr':
                rows.append([])
            else:
                rows[-1].append(f'{attributes["scope"]}: {text}' if tag == 'th' else text)
        return rows


class Made(Trying):
    def page(self, report: bytes) -> bytes:
        done = deck('page', self.write('report', report))
        self.assertEqual((done.status, done.err), (0, ''))
        return done.out

    def test_the_page_has_a_row_for_each_data_set_and_a_column_for_each_account(self) -> None:
        self.assertEqual(Page(self.page(TWO)).rows(), [
            ['col: Data set', 'col: anna', 'col: lisa', 'col: hugo'],
            ['row: PAYROLL', 'may read, write, look up', 'may read\nwrite denied by mask::\nlook up denied by user:lisa:',
             'read, write, look up denied by other::'],
            ['row: LOG', 'may write\nread, look up denied by user::', 'read, look up denied by group:staff:\nwrite denied by mask::',
             'may look up\nread denied by group::\nwrite denied by mask::']])
        self.assertEqual(Page(self.page(TWO)).texts('p')[-1], 'In all 2 data sets and 3 accounts.')

    def test_a_report_on_one_account_and_one_data_set_has_its_page(self) -> None:
        report = TITLE + b''.join(LOG.splitlines(True)[3:6])
        self.assertEqual(Page(self.page(report)).rows(), [['col: Data set', 'col: lisa'],
                                                          ['row: LOG', 'read, look up denied by group:staff:\nwrite denied by mask::']])
        self.assertEqual(Page(self.page(report)).texts('p')[-1], 'In all 1 data set and 1 account.')

    def test_a_report_on_nobody_has_a_page_that_says_so(self) -> None:
        page = Page(self.page(TITLE))
        self.assertEqual((page.rows(), page.texts('p')[-1]), ([], 'The report has no account, or no data set.'))

    def test_names_of_every_form_stand_as_they_are(self) -> None:
        longest = b'Z' + b'.-_9aA' * 5
        page = Page(self.page(PAYROLL.replace(b'lisa', longest).replace(b'PAYROLL', b'a')))
        self.assertEqual(page.rows()[0][2], 'col: ' + longest.decode())
        self.assertEqual(page.rows()[1][2], f'may read\nwrite denied by mask::\nlook up denied by user:{longest.decode()}:')

    def test_the_page_stands_alone(self) -> None:
        text = self.page(TWO)
        page = Page(text)
        self.assertEqual(page.declared, ['DOCTYPE html'])
        self.assertLessEqual({tag for tag, _, _ in page.elements},
                             set('html head meta title style body h1 p code table caption colgroup col thead tbody tr th td br'.split()))
        attributes = {name for _, named, _ in page.elements for name in named}
        self.assertLessEqual(attributes, set('lang charset http-equiv name content style span scope class'.split()))
        self.assertNotRegex(text, rb'(?i)@import|url\(|https?:|//|javascript')
        self.assertIn(("meta", {'http-equiv': 'Content-Security-Policy', 'content': "default-src 'none'; style-src 'unsafe-inline'"}, ''),
                      page.all('meta'))

    def test_the_page_is_one_that_everyone_can_read(self) -> None:
        text = self.page(TWO)
        page = Page(text)
        self.assertEqual(page.all('html')[0][1], {'lang': 'en'})
        self.assertEqual([page.texts(tag) for tag in ('title', 'h1', 'caption')],
                         [['Who may do what'], ['Who may do what'], ['What each account may do with each data set']])
        self.assertEqual(page.all('tr', 'caption')[0][0], 'caption')
        style = page.texts('style')[0]
        self.assertIn('prefers-color-scheme: dark', style)
        colours = set(re.findall(r'(--\w+): #', style))
        for scheme in re.findall(r':root \{(.*?)\}', style):  # each colour is given for light and for dark
            self.assertEqual(set(re.findall(r'(--\w+):', scheme)), colours)
        self.assertEqual(set(re.findall(r'var\((--\w+)\)', style)), set(re.findall(r'(--\w+):', text.decode())))
        xml.etree.ElementTree.fromstring(text)  # what is read by stricter rules is read the same by all

    def test_colours_can_be_told_apart_from_the_text(self) -> None:
        style = Page(self.page(TWO)).texts('style')[0]
        for scheme in re.findall(r':root \{(.*?)\}', style):
            colours = dict(re.findall(r'--(\w+): (#\w+)', scheme))
            for ground in ('page', 'head', 'part', 'none'):
                self.assertGreater(contrast(colours['text'], colours[ground]), 7, (scheme, ground))

    def test_the_stored_page_is_that_of_the_example(self) -> None:
        with open(os.path.join(TOP, 'docs', 'pictures', 'payroll-access.html'), 'rb') as page:
            self.assertEqual(self.page(PAYROLL), page.read())

    def test_the_program_makes_the_report_of_the_stored_page(self) -> None:
        if 'LISTING' not in os.environ:
            self.skipTest('LISTING names no program')
        with open(os.path.join(TOP, 'examples', 'payroll.deck'), 'rb') as example:
            done = run([os.environ['LISTING'], '--access', '--csv'], given=example.read())
        self.assertEqual((done.status, done.out, done.err), (0, PAYROLL, ''))


def contrast(one: str, other: str) -> float:
    """How far two colours are apart, from 1 to 21, as the guidelines for accessible pages (WCAG 2.1) reckon it."""
    lights = []
    for colour in (one, other):
        digits = colour[1:] if len(colour) == 7 else ''.join(digit * 2 for digit in colour[1:])
        parts = [int(digits[at:at + 2], 16) / 255 for at in (0, 2, 4)]
        parts = [part / 12.92 if part <= 0.03928 else ((part + 0.055) / 1.055) ** 2.4 for part in parts]
        lights.append(0.2126 * parts[0] + 0.7152 * parts[1] + 0.0722 * parts[2])
    return (max(lights) + 0.05) / (min(lights) + 0.05)


class Refused(Trying):
    def refused(self, report: bytes, line: int, message: str) -> None:
        self.write('old', b'the old page')
        done = deck('page', self.write('report', report), '-o', self.path('old'))
        self.is_refused_at(done, 'report', line, message)
        self.assertEqual((self.read('old'), self.names()), (b'the old page', ['old', 'report']))

    def test_lines_that_no_report_has_are_refused(self) -> None:
        for old, new, line, message in (
                (TITLE, b'', 1, 'the line account,set,permission,answer,entry is due, and there is anna,PAYROLL,r,granted,'),
                (TITLE, b'SET PAYROLL OWNER anna GROUP admin MODE SEQ RECORDS 3\n', 1, 'the line account,set'),
                (b'lisa,PAYROLL,w,denied,mask::', b'lisa,PAYROLL,w,denied,', 6, 'a report has no such line: lisa,PAYROLL,w,denied,'),
                (b'lisa,PAYROLL,w,denied,mask::', b'lisa,PAYROLL,w,granted,mask::', 6, 'a report has no such line'),
                (b'lisa,PAYROLL,w,denied,mask::', b'lisa,PAYROLL,w,refused,mask::', 6, 'a report has no such line'),
                (b'lisa,PAYROLL,w,denied,mask::', b'lisa,PAYROLL,w,denied,mask:lisa:', 6, 'a report has no such line'),
                (b'lisa,PAYROLL,w,denied,mask::', b'lisa,PAYROLL,w,denied,user:lisa', 6, 'a report has no such line'),
                (b'lisa,PAYROLL,w,denied,mask::', b'lisa,PAYROLL,w,denied,mask::,', 6, 'a report has no such line'),
                (b'lisa,PAYROLL,w,denied,mask::', b'', 6, 'a report has no such line: \n'),
                (b'anna,PAYROLL,x', b'<b>,PAYROLL,x', 4, 'a report has no such line: <b>,PAYROLL'),
                (b'anna,PAYROLL,x', b'a' * 32 + b',PAYROLL,x', 4, 'a report has no such line'),
                (b'anna,PAYROLL,x', b'anna,\xc3\x84,x', 4, 'a report has no such line: anna,\\xc3\\x84,x'),
                (b'anna,PAYROLL,x', b'anna,PAYROLL,q', 4, 'a report has no such line'),
                (b'anna,PAYROLL,x,granted,', b'anna,PAYROLL,x,granted', 4, 'a report has no such line'),
                (b'anna,PAYROLL,x', b'a' * 6000 + b',PAYROLL,x', 4, 'T4 LINE TOO LONG'),
                (b'anna,PAYROLL,x,granted,\n', b'anna,PAYROLL,x,granted,\r\n', 4, 'the line ends with CR LF')):
            self.refused(TWO.replace(old, new, 1), line, message)
        self.refused(b'', 1, 'the line account,set,permission,answer,entry is due')

    def test_lines_out_of_their_order_are_refused(self) -> None:
        lines = TWO.splitlines(True)
        for other, line, message in (
                (lines[:2] + lines[3:], 3, 'w of anna on PAYROLL is due, and there is x of anna on PAYROLL'),
                (lines[:1] + lines[2:], 2, 'r of anna on PAYROLL is due, and there is w of anna on PAYROLL'),
                (lines[:2] + lines[1:], 3, 'w of anna on PAYROLL is due, and there is r of anna on PAYROLL'),
                (lines[:3] + lines[6:], 4, 'x of anna on PAYROLL is due, and there is x of lisa on PAYROLL'),
                (lines[:5] + lines[14:], 6, 'w of lisa on PAYROLL is due, and there is w of lisa on LOG'),
                (lines[:4] + lines[1:], 5, 'anna on PAYROLL was told of before'),
                (lines[:10] + lines[1:], 11, 'anna on PAYROLL was told of before'),
                (lines + lines[1:], 20, 'PAYROLL was told of before'),
                (lines[:13] + lines[16:], 14, 'lisa on LOG is due, as for the first data set, and there is hugo on LOG'),
                (lines[:10] + lines[13:16] + lines[10:13] + lines[16:], 11, 'anna on LOG is due, as for the first data set, and there'),
                (lines[:7] + lines[10:], 14, 'another data set is due, as for the first data set, and there is hugo on LOG'),
                (lines[:16], 17, 'hugo on LOG is due, as for the first data set'),
                (lines[:16] + [line.replace(b'LOG', b'BOX') for line in lines[10:]], 17, 'hugo on LOG is due')):
            self.refused(b''.join(other), line, message)

    def test_a_report_cut_anywhere_is_refused_but_where_it_is_a_whole_one(self) -> None:
        from decks import page, text
        lines = TWO.splitlines(True)
        # Of the first data set any number of accounts may be all of them; of the next not.
        whole = {sum(map(len, lines[:count])) for count in (1, 4, 7, 10, 19)}
        for end in range(len(TWO) + 1):
            try:
                page.page_of([self.write('report', TWO[:end])], io.BytesIO())
                self.assertIn(end, whole)
            except text.Refused as refusal:
                self.assertNotIn(end, whole)
                number = TWO[:end].count(b'\n') + 1
                self.assertTrue(str(refusal).startswith(f'{self.path("report")}: line {number}: '), (str(refusal), number))

    def test_files_that_cannot_be_read_or_written_are_told(self) -> None:
        self.is_refused(deck('page', self.path('gone')), 'gone: No such file or directory', 3)
        self.is_refused(deck('page', self.room), f'{self.room}: it has no file NAME.audit')
        self.is_refused(deck('page', self.write('report', TWO), '-o', '/dev/full'), '/dev/full: No space left on device', 3)
        self.is_refused(deck('page', self.path('report'), '-o', self.path('gone/page')), 'gone/page: No such file or directory', 3)
        done = run(['sh', '-c', 'cat "$1" | "$0" page /dev/stdin', DECK, self.path('report')])
        self.assertEqual((done.status, len(Page(done.out).rows())), (0, 3))


class Long(Trying):
    def test_the_page_of_1000_data_sets_and_200_accounts(self) -> None:
        entries, r = ['', 'user::', 'group:staff:', 'mask::', 'other::'], random.Random(1)
        kinds = [[r.choice(entries) for _ in 'rwx'] for _ in range(50)]
        with open(self.path('report'), 'wb') as report:
            report.write(TITLE)
            for number in range(1000):
                for account in range(200):
                    told = [f'a{account},S{number},{letter},{"denied" if entry else "granted"},{entry}\n'
                            for letter, entry in zip('rwx', kinds[(number + account) % 50])]
                    report.write(''.join(told).encode())
        begun = time.monotonic()
        memory = self.memory_of(['page', self.path('report'), '-o', self.path('page')])
        self.seen = f'it took {memory // 1024} MiB and {time.monotonic() - begun:.1f} s, and has {os.path.getsize(self.path("page")):,} bytes'
        self.assertLess(memory, MOST_MEMORY)
        lines = self.read('page').split(b'\n')
        self.assertEqual([sum(line.startswith(begin) for line in lines) for begin in (b'<tr>', b'<th scope="row">', b'<td')],
                         [1001, 1000, 200_000])
        at = lines.index(b'<th scope="row">S999</th>') + 1 + 199
        kind = kinds[(999 + 199) % 50]
        for entry in filter(None, kind):
            self.assertIn(f' denied by {entry}', lines[at].decode())
        self.assertEqual('may ' in lines[at].decode(), '' in kind)
