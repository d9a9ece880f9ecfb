"""The page of audits: what was denied, what each account did with each data set, totals, the runs, and the changes of lists."""
from __future__ import annotations

import html
from dataclasses import dataclass, field
from typing import BinaryIO, Callable, Dict, List, Set, Tuple

from . import markup
from .audit import PERMISSION, Asked, Event
from .audits import Audit, tally
from .text import counted, text_of
from .usage import letters_of

BEGINNINGS = (b'JOB ', b'COMMAND ', b'RUN ')  # of the first line of an audit
# What was done, by what was asked and how it was answered. To find no further record is to have read.
DONE_WORDS = {('READ', 'GOT'): 'read', ('READ', 'EOF'): 'found the end', ('WRITE', 'DONE'): 'wrote',
              ('WRITE', 'FULL'): 'found no room', ('ENDFILE', 'DONE'): 'cut off the rest',
              ('LIST', 'RECORDS'): 'listed the records', ('SHOWACL', 'ENTRIES'): 'saw the list', ('CATALOG', 'SHOWN'): 'saw the name',
              ('CREATE', 'DONE'): 'created it', ('DELETE', 'DONE'): 'deleted it', ('SETACL', 'DONE'): 'set the list'}
TRIED_WORDS = {'READ': 'read', 'WRITE': 'write', 'ENDFILE': 'cut off the rest', 'LIST': 'list the records',
               'SHOWACL': 'see the list', 'CREATE': 'create it', 'DELETE': 'delete it', 'SETACL': 'set the list'}
KINDS = ('read', 'written', 'looked up', 'changed')  # of what was done; beside these it was not done
KIND_OF = {'r': 0, 'w': 1, 'x': 2}
SHOWN = 30  # of the rows of what was not done; the others show when one asks for them

Told = Dict[str, int]  # what an account did or tried on a data set, in the order of its first time, and how often


@dataclass
class Deeds:
    """What an account did with a data set, and what it tried."""
    done: Told = field(default_factory=dict)
    tried: Told = field(default_factory=dict)
    letters: Set[str] = field(default_factory=set)


@dataclass
class Run:
    """What a run had, in numbers."""
    name: str
    jobs: int = 0
    commands: int = 0
    done: int = 0
    denied: int = 0
    ending: str = 'not told'


class Summary:
    """What audits tell of accounts and data sets. Memory grows with their number and that of the runs, and not with that of the lines."""

    def __init__(self) -> None:
        self.sets: Dict[str, Dict[str, Deeds]] = {}  # by data set, and by account
        self.accounts: Dict[str, List[int]] = {}     # how often it did what, by KINDS, and how often it was not done
        self.totals: Dict[str, List[int]] = {}       # the same for each data set
        self.changes: List[Event] = []
        self.runs: List[Run] = []

    def take(self, audit: Audit) -> None:
        run = Run(audit.run)
        self.runs.append(run)
        told, others = tally(audit)
        for row in others:
            self._take_row(run, Event(*row))
        for asked, times in told.items():
            self._take_asked(run, asked, times)

    def _take_row(self, run: Run, event: Event) -> None:
        run.jobs += event.enters()
        run.commands += event.is_of_a_command()
        if event.is_of_the_run():
            run.ending = 'at its end' if event.event == 'STOPPED' else f'refused: {event.more}'
        if event.changes_a_list():
            self.changes.append(event)

    def _take_asked(self, run: Run, asked: Asked, times: int) -> None:
        account, event, name, answer, why = asked
        run.denied += times * (answer == 'DENIED')
        if not name or name[:1] == '.' or event == 'REWIND':
            return
        deeds = self.sets.setdefault(name, {}).setdefault(account, Deeds())
        words = DONE_WORDS.get((event, answer))
        if words is None:
            kind, told, words = len(KINDS), deeds.tried, _tried(event, answer, why)
        else:
            kind, told = KIND_OF.get(PERMISSION.get(event, ''), KINDS.index('changed')), deeds.done
            deeds.letters.add(PERMISSION.get(event, ''))
            run.done += times
        told[words] = told.get(words, 0) + times
        for totals in (self.accounts.setdefault(account, [0] * (len(KINDS) + 1)), self.totals.setdefault(name, [0] * (len(KINDS) + 1))):
            totals[kind] += times


def _tried(asked: str, answer: str, why: str) -> str:
    """What was not done, and why."""
    entry = f' by {why[3:]}' if why.startswith('BY ') else f': {why}'
    return f'{TRIED_WORDS[asked]} {answer.lower()}{entry}'


def write_page(audits: List[Audit], page: BinaryIO) -> None:
    summary = Summary()
    for audit in audits:
        summary.take(audit)
    markup.begin(b'Who did what', ABOUT, page)
    whole = [counted(sum(run.jobs for run in summary.runs), 'job'), counted(sum(run.commands for run in summary.runs), 'command'),
             counted(sum(run.denied for run in summary.runs), 'denial'), counted(len(summary.runs), 'run')]
    markup.paragraph(f'In all {whole[0]}, {whole[1]} and {whole[2]}, in {whole[3]}.', page)
    if not summary.sets:
        markup.paragraph('No data set was asked for.', page)
    parts = [(name, write) for name, write, is_there in _parts(summary) if is_there]
    markup.links([name.encode() for name, _ in parts], page)
    for name, write in parts:
        markup.begin_part(name.encode(), page)
        write(summary, page)
        markup.end_part(page)
    markup.end(page)


def _parts(summary: Summary) -> List[Tuple[str, Callable[[Summary, BinaryIO], None], bool]]:
    """The parts of the page in order: what a link to it says, what writes it, and whether there is anything to write."""
    has_sets = bool(summary.sets)
    return [('Not done', _write_tried, any(deeds.tried for by_account in summary.sets.values() for deeds in by_account.values())),
            ('Letters', _write_letters, has_sets),
            ('By account', lambda one, page: _write_totals('account', one.accounts, page), has_sets),
            ('By data set', lambda one, page: _write_totals('data set', one.totals, page), has_sets),
            ('Runs', _write_runs, True),
            ('Permission lists', _write_changes, bool(summary.changes)),
            ('In words', _write_words, has_sets)]


def _write_tried(summary: Summary, page: BinaryIO) -> None:
    """What was not done, the most frequent first."""
    tried = [(times, name, account, words) for name, by_account in summary.sets.items() for account, deeds in by_account.items()
             for words, times in deeds.tried.items()]
    tried.sort(key=lambda one: -one[0])
    _write_tried_rows('What was tried and not done', tried[:SHOWN], page)
    if tried[SHOWN:]:
        markup.begin_folded(f'{counted(len(tried) - SHOWN, "row")} more'.encode(), page)
        _write_tried_rows('What else was tried and not done', tried[SHOWN:], page)
        markup.end_folded(page)


def _write_tried_rows(caption: str, tried: List[Tuple[int, str, str, str]], page: BinaryIO) -> None:
    _begin_table(caption, ('Data set', 'Account', 'Tried', 'Times'), page)
    for times, name, account, words in tried:
        _write_row(name, (account, words, times), page)
    markup.end_table(page)


def _write_letters(summary: Summary, page: BinaryIO) -> None:
    accounts = sorted(summary.accounts)
    markup.begin_letters(b'What each account did with each data set', [account.encode() for account in accounts], page)
    for name, by_account in sorted(summary.sets.items()):
        cells = [_letters(by_account[account]) if account in by_account else b'<td></td>' for account in accounts]
        markup.write_row(name.encode(), cells, page)
    markup.end_table(page)


def _letters(deeds: Deeds) -> bytes:
    """What was done; what more there is to tell shows where one points at it."""
    kind = '' if not deeds.tried else 'part' if deeds.done else 'none'
    title = '; '.join(_times(words, times) for told in (deeds.done, deeds.tried) for words, times in told.items())
    named = f' class="{kind}"' if kind else ''
    return f'<td{named} title="{title}">{letters_of(deeds.letters)}</td>'.encode()


def _write_totals(of_what: str, totals: Dict[str, List[int]], page: BinaryIO) -> None:
    _begin_table(f'How often, by {of_what}', (of_what.capitalize(), *(kind.capitalize() for kind in KINDS), 'Not done'), page)
    for name, numbers in sorted(totals.items()):
        _write_row(name, numbers, page)
    markup.end_table(page)


def _write_runs(summary: Summary, page: BinaryIO) -> None:
    """A bar for each, as long as what was done in it, and in another colour what was denied."""
    most = max((run.done + run.denied for run in summary.runs), default=0)
    _begin_table('The runs', ('Run', 'Jobs', 'Commands', 'Done', 'Denied', 'Done and denied', 'How it ended'), page)
    for run in summary.runs:
        bars = ''.join(f'<span class="{kind}" style="width: {100 * number / most:.2f}%"></span>'
                       for kind, number in (('done', run.done), ('denied', run.denied)) if number)
        markup.write_row(_escaped(run.name), [*_numbers((run.jobs, run.commands, run.done, run.denied)), f'<td class="bar">{bars}</td>'.encode(),
                                              markup.cell([_escaped(run.ending)], b'')], page)
    markup.end_table(page)


def _write_changes(summary: Summary, page: BinaryIO) -> None:
    """Each with its list, in which what is new is marked, and behind which what is gone stands."""
    _begin_table('What changed permission lists, and in which line of the audit', ('Line', 'Run', 'Account', 'Card', 'Data set', 'List'), page)
    before: Dict[str, List[str]] = {}
    for event in summary.changes:
        now = event.more.split(' ')[0].split(',') if event.event == 'SETACL' else []
        markup.write_row(event.line.encode(), [markup.cell([words], b'') for words in
                                               (_escaped(event.run), event.account.encode(), event.event.encode(), event.set.encode(),
                                                _difference(before.get(event.set, now), now).encode())], page)
        before.pop(event.set, None)
        if event.event == 'SETACL':
            before[event.set] = now
    markup.end_table(page)


def _difference(before: List[str], now: List[str]) -> str:
    entries = [f'<code>{entry}</code>' if entry in before else f'<ins><code>{entry}</code></ins>' for entry in now]
    return ', '.join(entries + ([f'<del><code>{entry}</code></del>' for entry in before if entry not in now] if now else []))


def _write_words(summary: Summary, page: BinaryIO) -> None:
    markup.begin_folded(b'The same in words', page)
    _begin_table('What each account did and tried', ('Data set', 'Account', 'Did', 'Tried'), page)
    for name, by_account in summary.sets.items():
        for account, deeds in by_account.items():
            cells = [markup.cell([_times(words, times).encode() for words, times in told.items()], b'') for told in (deeds.done, deeds.tried)]
            markup.write_row(name.encode(), [markup.cell([account.encode()], b''), *cells], page)
    markup.end_table(page)
    markup.end_folded(page)


def _begin_table(caption: str, titles: Tuple[str, ...], page: BinaryIO) -> None:
    page.write(text_of([b'<table>', b'<caption>%s</caption>' % caption.encode(), *markup.titles(*(title.encode() for title in titles)), b'<tbody>']))


def _write_row(name: str, cells: 'List[int] | Tuple[object, ...]', page: BinaryIO) -> None:
    markup.write_row(name.encode(), _numbers(tuple(cells)), page)


def _numbers(cells: Tuple[object, ...]) -> List[bytes]:
    """Cells; those that are numbers stand to the right."""
    return [b'<td class="number">%d</td>' % cell if isinstance(cell, int) else markup.cell([str(cell).encode()], b'') for cell in cells]


def _times(words: str, times: int) -> str:
    return words if times == 1 else f'{words} ({times} times)'


def _escaped(text: str) -> bytes:
    return html.escape(text).encode('utf-8', 'replace')


ABOUT = b'''<p>An audit tells who asked for what, and what came of it. First stands what was not done: denied by an entry of a data set's list
or for want of something, or refused. In the table of letters each row is a data set, each column an account; more shows where one
points at a cell.</p>
<ul class="legend">
<li><code>r</code> records were read or listed, or the end was found</li>
<li><code>w</code> records were written or cut off, or no room was found for them</li>
<li><code>x</code> the name, the size or the list was seen</li>
<li><code>-</code> that was not done; an empty cell: nothing was done or tried</li>
<li><span class="part">yellow</span> something was done, and something tried that was not done</li>
<li><span class="none">red</span> all that was tried was not done</li>
<li><span class="done">blue</span> the part of a run's bar that was done; <span class="denied">red</span> that was denied</li>
<li><ins><code>r--</code></ins> an entry that is new in a permission list; <del><code>r--</code></del> one that is gone</li>
</ul>
'''
