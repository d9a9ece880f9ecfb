"""The page of audits: denials first, letters, totals, a bar for each run, and what changed lists."""
from __future__ import annotations

import os
import re
import shutil
import unittest
from typing import Dict, List
from trying import Trying, deck, run
from test_deck_audit import AUDIT
from test_deck_page import Page

BROWSER = shutil.which('chromium') or shutil.which('chromium-browser') or shutil.which('google-chrome') or ''


class Tables(Page):
    """The rows of each table, by its caption."""

    def tables(self) -> Dict[str, List[List[str]]]:
        tables: Dict[str, List[List[str]]] = {}
        rows: List[List[str]] = []
        for tag, attributes, text in self.all('caption', 'tr', 'th', 'td'):
            if tag == 'caption':
                rows = tables[text] = []
            elif tag == 'tr':
                rows.append([])
            else:
                rows[-1].append(text)
        return tables


class Made(Trying):
    def page(self, *audits: bytes) -> Tables:
        for number, audit in enumerate(audits, 1):
            self.write(f'{number}.audit', audit)
        done = deck('page', *(self.path(f'{number}.audit') for number in range(1, len(audits) + 1)))
        self.assertEqual((done.status, done.err), (0, ''))
        return Tables(done.out)

    def test_denials_stand_first_the_most_frequent_before_the_others(self) -> None:
        again = b'JOB 1 lisa ASKED 5 READ 8 PAYROLL 1 DENIED BY other::\n'
        page = self.page(AUDIT.replace(again, again * 3))
        self.assertEqual([page.texts(tag) for tag in ('title', 'h1')], [['Who did what'], ['Who did what']])
        self.assertEqual(list(page.tables()), ['What was tried and not done', 'What each account did with each data set', 'How often, by account',
                                               'How often, by data set', 'The runs', 'What changed permission lists, and in which line of the audit',
                                               'What each account did and tried'])
        self.assertEqual(page.tables()['What was tried and not done'], [
            ['Data set', 'Account', 'Tried', 'Times'], ['PAYROLL', 'lisa', 'read denied by other::', '3'], ['PAYROLL', 'lisa', 'write denied by mask::', '1'],
            ['PAYROLL', 'anna', 'set the list refused: A4 MISSING group::', '1'], ['PAYROLL', 'hugo', 'list the records denied by other::', '1'],
            ['LOG', 'anna', 'delete it denied: NOT OWNER', '1'], ['GONE', 'lisa', 'cut off the rest denied: NO DATA SET', '1']])

    def test_the_letters_say_what_was_done_and_their_titles_how_often(self) -> None:
        again = b'JOB 1 lisa ASKED 3 READ 8 PAYROLL 0 GOT BY user:lisa:\n'
        page = self.page(AUDIT.replace(again, again * 12))
        self.assertEqual(page.tables()['What each account did with each data set'], [
            ['Data set', 'anna', 'hugo', 'lisa'], ['GONE', '', '', '---'], ['LOG', '---', '-w-', ''], ['NOTES', '--x', '', ''], ['PAYROLL', 'r-x', '---', 'r--']])
        cells = [attributes for tag, attributes, _ in page.all('td') if 'title' in attributes]
        self.assertEqual(cells[-1], {'class': 'part', 'title': 'read (12 times); write denied by mask::; read denied by other::'})
        self.assertEqual(cells[-2], {'class': 'none', 'title': 'list the records denied by other::'})
        self.assertEqual([attributes.get('class') for attributes in cells], ['none', 'none', None, None, 'part', 'none', 'part'])

    def test_totals_are_those_of_accounts_and_of_data_sets(self) -> None:
        tables = self.page(AUDIT).tables()
        self.assertEqual(tables['How often, by account'], [['Account', 'Read', 'Written', 'Looked up', 'Changed', 'Not done'],
                                                           ['anna', '1', '0', '2', '2', '2'], ['hugo', '0', '2', '0', '0', '1'], ['lisa', '1', '0', '0', '0', '3']])
        self.assertEqual(tables['How often, by data set'][1:], [['GONE', '0', '0', '0', '0', '1'], ['LOG', '0', '2', '0', '0', '1'],
                                                                ['NOTES', '0', '0', '1', '1', '0'], ['PAYROLL', '2', '0', '1', '1', '4']])

    def test_each_run_has_a_bar(self) -> None:
        second = b'JOB 1 lisa LOADED\nJOB 1 lisa ASKED 3 READ 8 PAYROLL 0 GOT BY user:lisa:\nRUN 0 .NONE REFUSED LINE 3 T1 BAD NAME\n'
        page = self.page(AUDIT + b'RUN 0 .NONE STOPPED\n', second)
        self.assertEqual(page.tables()['The runs'][1:], [['1', '4', '8', '8', '6', '', 'at its end'],
                                                         ['2', '1', '0', '1', '0', '', 'refused: LINE 3 T1 BAD NAME']])
        bars = [(attributes['class'], attributes['style']) for _, attributes, _ in page.all('span') if 'style' in attributes]
        self.assertEqual(bars, [('done', 'width: 57.14%'), ('denied', 'width: 42.86%'), ('done', 'width: 7.14%')])
        self.assertEqual(page.texts('p')[-1], 'In all 5 jobs, 8 commands and 6 denials, in 2 runs.')

    def test_a_run_that_broke_off_is_told(self) -> None:
        self.assertEqual(self.page(AUDIT).tables()['The runs'][1][-1], 'not told')

    def test_changes_of_a_list_say_what_is_new_and_what_is_gone(self) -> None:
        lists = [b'user::rwx,group::---,other::---', b'user::rwx,user:lisa:r--,group::---,mask::r--,other::---', b'user::rwx,group::r--,other::---']
        page = self.page(b''.join(b'COMMAND 0 anna SETACL PAYROLL DONE %b BY owner\n' % text for text in lists))
        rows = page.tables()['What changed permission lists, and in which line of the audit']
        self.assertEqual(rows[2], ['2', '1', 'anna', 'SETACL', 'PAYROLL', 'user::rwx, user:lisa:r--, group::---, mask::r--, other::---'])
        self.assertEqual(page.texts('ins')[1:], ['user:lisa:r--', 'mask::r--', 'group::r--'])
        self.assertEqual(page.texts('del')[1:], ['user:lisa:r--', 'group::---', 'mask::r--'])

    def test_an_audit_in_which_no_data_set_was_asked_for_has_its_page(self) -> None:
        page = self.page(b'JOB 1 lisa LOADED\nJOB 1 lisa ENDED NORMAL AFTER 1\n')
        self.assertEqual((list(page.tables()), page.texts('p')[-1]), (['The runs'], 'No data set was asked for.'))
        self.assertEqual(page.tables()['The runs'][1:], [['1', '1', '0', '0', '0', '', 'not told']])

    def test_names_of_runs_are_no_tags(self) -> None:
        os.mkdir(self.path('<b>&'))
        self.write('<b>&/<i>.audit', AUDIT)
        done = deck('page', self.path('<b>&'))
        self.assertEqual(Tables(done.out).tables()['The runs'][1][0], '<i>')
        self.assertNotIn(b'<i>', done.out)

    def test_many_denials_are_folded_and_none_is_left_out(self) -> None:
        page = self.page(b''.join(b'JOB 1 account%02d ASKED 3 READ 8 LOG 0 DENIED BY other::\n' % number for number in range(50)))
        tables = page.tables()
        first, others = tables['What was tried and not done'], tables['What else was tried and not done']
        self.assertEqual((len(first) + len(others) - 2, page.texts('summary')[0]), (50, f'{len(others) - 1} rows more'))

    def test_each_part_has_a_link(self) -> None:
        page = self.page(AUDIT)
        links = [attributes['href'] for _, attributes, _ in page.all('a')]
        self.assertEqual(links, [f'#{attributes["id"]}' for _, attributes, _ in page.all('section')])
        self.assertEqual(page.texts('a'), ['Not done', 'Letters', 'By account', 'By data set', 'Runs', 'Permission lists', 'In words'])

    @unittest.skipUnless(BROWSER, 'there is no chromium')
    def test_fifty_accounts_fit_on_the_screen_of_a_browser(self) -> None:
        text = b''.join(b'JOB 1 account%02d ASKED 3 READ 8 A_LONG.NAME-OF-A_DATA_SET_31.32 0 GOT BY other::\n' % number for number in range(50))
        page = deck('page', self.write('1.audit', text)).out
        bars = b'document.querySelector("td.bar span").offsetWidth'
        script = (b'<script>document.title = document.querySelector("table.letters").getBoundingClientRect().right + " " + %b</script></body>' % bars)
        self.write('page.html', re.sub(b'<meta http-equiv[^>]*>', b'', page).replace(b'</body>', script))
        words = ['--headless', '--no-sandbox', '--disable-gpu', '--window-size=1280,1000', '--user-data-dir=' + self.path('profile')]
        done = run([BROWSER, *words, '--dump-dom', 'file://' + self.path('page.html')])
        found = re.search(rb'<title>([\d.]+) (\d+)</title>', done.out)
        if not found:
            self.skipTest('chromium shows no page here')
        self.assertLessEqual(float(found[1]), 1280)
        self.assertGreater(int(found[2]), 100)  # the bar of the only run

    def test_what_is_no_audit_has_no_page(self) -> None:
        self.write('old', b'the old page')
        for text, line, message in ((AUDIT + b'x\n', 27, 'an audit has no such line: x'), (b'JOB 1\n', 1, 'an audit has no such line: JOB 1'),
                                    (AUDIT[:-3], 26, 'the file ends within this line'), (b'RUN\n', 1, 'the line account,set,permission,answer,entry is due')):
            self.is_refused_at(deck('page', self.write('audit', text), '-o', self.path('old')), 'audit', line, message)
            self.assertEqual(self.read('old'), b'the old page')
