"""Where jobs of an output failed, and why: what `faults` does. It reads the output beside what listing wrote of the deck."""
from __future__ import annotations

import re
from typing import BinaryIO, Dict, Iterator, List, Tuple

from .files import opened
from .output import Output
from .printed import Told, all_printouts
from .source_listing import Card, Program, programs
from .text import OutputLines, Refused, counted, text_of

AT = re.compile(rb'END (?:FAULT (?P<fault>[A-Z]+)|MATCH LIMIT) AT (?P<statement>\d+) AFTER \d+')
NOTE = re.compile(rb'(?:DENIED|FULL) STATEMENT (?P<statement>\d+) .*')
REFUSED = re.compile(rb'REFUSED (?P<code>[A-Z]\d)(?P<more>.*)')
STATEMENT_LIMIT = b'END STATEMENT LIMIT '

# By the fault: how a report begins that says which name is concerned.
REPORTS = {b'FUNCTION': (b'NO FUNCTION ',), b'KEYWORD': (b'NO KEYWORD ', b'OUT OF RANGE '), b'LABEL': (b'NO LABEL ',),
           b'TYPE': (b'NO TABLE ', b'TOO LATE '), b'FORMAT': (b'NO FILE ',)}

# What to do where no report says it: docs/reference/language.md, "Faults".
ADVICE = {b'TYPE': 'ask INTEGER(V) or DATATYPE(V) before', b'ARITH': 'test the operands, as NE(N,0)', b'NULL': 'test with DIFFER(S)',
          b'FUNCTION': 'DEFINE the function first', b'PROTOTYPE': 'write both parentheses, and each identifier once',
          b'KEYWORD': 'there is no such keyword, it is only read, or the number is out of its range',
          b'ENTRY': 'label the first statement of the function', b'NEGATIVE': 'test with GE(N,0)',
          b'LENGTH': 'set &MAXLNGTH, or write the string in parts', b'LEVEL': 'jump over the statements of functions',
          b'GOTO': 'test the target in the statement before', b'LABEL': 'give a statement that label',
          b'DEPTH': 'use a loop; refer to a part of a pattern by *V',
          b'FORMAT': 'for INPUT a number, 1 to 1,024, and no name of a file; for OUTPUT (nA1) in capitals, without blanks',
          b'UNIT': 'units are 1 to 99'}


def faults(output: str, listing: str, told: BinaryIO) -> bool:
    """Writes for each job that failed where it did; whether there is one."""
    failures, numbers = _failures(output)
    with opened(listing) as file:
        for program, number in _numbered(listing, list(programs(listing, file)), numbers):
            failure = failures.get(number)
            if failure is not None:
                told.write(text_of([b'JOB %d %s' % (number, program.account), *_indented(_told(program, failure))]))
    return bool(failures)


def _failures(output: str) -> Tuple[Dict[int, Told], Dict[int, bytes]]:
    """Of the jobs that failed what is told of them, and the accounts of all; by their numbers."""
    failures: Dict[int, Told] = {}
    accounts: Dict[int, bytes] = {}
    with opened(output) as file:
        for title, lines in all_printouts(Output(OutputLines(output, file))):
            job = Told(title)
            for line in lines:
                job.take(line)
            if title[0] == b'JOB':
                accounts[int(title[1])] = title[2]
                if job.is_failure():
                    failures[int(title[1])] = job
    return failures, accounts


def _numbered(listing: str, listed: List[Program], accounts: Dict[int, bytes]) -> Iterator[Tuple[Program, int]]:
    """Each program with the number that its job has in the output. A site counts jobs through the run of many submissions, so
    these are in the same order, but need not begin with 1."""
    if len(listed) != len(accounts):
        raise Refused(f'{listing}: it has {counted(len(listed), "job")}, and the output {len(accounts)}: it is of another deck')
    for program, number in zip(listed, sorted(accounts)):
        if program.account != accounts[number]:
            raise Refused(f'{listing}: job {program.number} is of {program.account.decode()}, and that of the output of '
                          f'{accounts[number].decode()}: it is of another deck')
        yield program, number


def _indented(lines: Iterator[bytes]) -> List[bytes]:
    return [b'    ' + line for line in lines]


def _told(program: Program, failure: Told) -> Iterator[bytes]:
    """A line for each note and for the end, and below it where in the program that was."""
    for note in failure.notes:
        yield note
        placed = NOTE.fullmatch(note)
        if placed is not None:
            yield from _place(program, int(placed.group('statement')))
    yield failure.last
    at, refused = AT.fullmatch(failure.last), REFUSED.fullmatch(failure.last)
    if at is not None:
        yield from _place(program, int(at.group('statement')))
        yield from _advice(program, at.group('fault'), int(at.group('statement')))
    elif refused is not None:
        yield from _refusal(program, refused.group('code'))
    elif failure.last.startswith(STATEMENT_LIMIT):
        yield (b'LINE %d lets %d statements begin: look for a loop without an end, or write a larger ST= there'
               % (program.line, program.statements))


def _place(program: Program, statement: int) -> Iterator[bytes]:
    cards = program.of_statement(statement)
    if cards:
        yield b'LINE %d CARD %d STATEMENT %d%s' % (cards[0].line, cards[0].number, statement, _beside(cards[0], statement))
    for card in cards:
        yield b'    ' + card.text


def _beside(card: Card, statement: int) -> bytes:
    """Which place a statement has among those that begin on its line."""
    if card.first == card.last:
        return b''
    return b', number %d of %d that begin there' % (statement - card.first + 1, card.last - card.first + 1)


def _advice(program: Program, fault: bytes, statement: int) -> Iterator[bytes]:
    """Which names are concerned, as far as a listing tells, or what else helps. A match has no fault, but a limit."""
    if not fault:
        yield b'a match takes more than %d steps: take BREAK or SPAN for ARB, begin with POS(0), or write a larger MATCH=' % program.steps
        return
    lines = {card.line for card in program.of_statement(statement)}
    reports = [report.what for report in program.reports if report.line in lines and report.what.startswith(REPORTS.get(fault, ()))]
    if reports:
        yield from reports
    elif fault in ADVICE:
        yield ADVICE[fault].encode()


def _refusal(program: Program, code: bytes) -> Iterator[bytes]:
    """The first report with the code of the refusal."""
    for report in program.reports:
        if report.what.startswith(code + b' '):
            yield b'LINE %d %s' % (report.line, report.what)
            yield from report.shown
            return
