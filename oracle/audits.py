"""Audits of random decks beside what is printed: each says what the other must.

python3 audits.py COUNT SEED       runs monitor.py on random decks, and has status 1 where an audit and an output do not fit
python3 audits.py --stored CASES   the same of the worked decks of that folder beside which an audit is stored, which has to be that audit
python3 audits.py --store CASES    writes these audits

In the audit's order stand the commands with their replies, and the jobs that end or are refused; in its job's lines each denial, each FULL
and each line for the spool. Each request on a data set that was granted names an entry, and no other does. A line is one of LINE: so no
record's text is in it. So does each command that lists records, and each data set that a CATALOG shows; what only an owner may do says so.
The last line says how the deck came to its end."""
from __future__ import annotations

import re
import sys
from random import Random
from typing import Dict, Iterable, Iterator, List, Match, Optional, Tuple
import monitor
import random_decks
from snobol import in_a_large_stack

STORED = '''
a-command-between-the-turns-of-two-jobs a-fifth-job-waits-for-a-slot a-writer-without-read-tells-no-length
acts-on-untied-units-and-spool adder-without-read-over-five-records all-slots-full-of-loops append-denied-before-mode
append-set-made-anew-as-seq copy-set-to-spool create-delete-and-names create-in-full-catalogue denials-of-units
denied-after-list-change denied-after-set-was-made-anew each-command-of-owners endfile-after-rewind-empties-the-set
example-auditor example-cleanup example-groups example-refused job-of-unknown-account list-change-refusals-in-order
list-of-a-hundred-named-users option-slots-eight position-is-kept-over-a-new-set refused-deck-without-stop
refused-literal-not-closed refused-unit-tied-twice rewind-does-not-look-the-set-up write-by-the-other-of-two-groups'''.split()  # the worked decks beside which an audit is stored

NAME = r'[A-Za-z][A-Za-z0-9._-]{0,30}'
ENTRY = r'(?:user|group|mask|other):(?:%s)?:' % NAME
REASON = r'BY %s|NO DATA SET|NOT OWNER|NO UNIT|IN STREAM|SPOOL UNIT|MODE' % ENTRY
LINE = re.compile(
    r'JOB (?P<n>\d+) (?P<account>%(name)s) (?:LOADED|REFUSED (?P<refused>[A-Z][0-9A-Z ]+)|ENDED (?P<ended>[A-Z0-9 ]+)'
    r'|ASKED (?P<st>\d+) (?P<act>READ|WRITE|ENDFILE|REWIND) (?P<unit>\d+) (?P<target>%(name)s|\.DATA|\.SPOOL|\.NONE) (?P<place>\d+) '
    r'(?P<outcome>GOT|DONE|EOF|FULL|DENIED)(?: (?P<by>%(reason)s))?)'
    r'|COMMAND 0 (?P<who>%(name)s) (?P<card>CREATE|DELETE|SETACL|SHOWACL|LIST|CATALOG)(?: (?P<set>%(name)s))? '
    r'(?P<reply>DONE(?: (?P<new>SEQ|APPEND|(?!BY )[a-zA-Z0-9._:,-]+))?|(?:RECORDS|ENTRIES|NAMES) \d+|DENIED (?:%(reason)s)|REFUSED [A-Z0-9: a-z]+?)'
    r'(?: BY (?P<grant>owner|%(entry)s))?|COMMAND 0 (?P<shown_to>%(name)s) CATALOG SHOWN (?P<shown>%(name)s) BY %(entry)s'
    % {'name': NAME, 'reason': REASON, 'entry': ENTRY})
GRANTS = {'DELETE': ('owner',), 'SETACL': ('owner',), 'SHOWACL': ('owner', 'entry'), 'LIST': ('entry',)}  # by what these may be granted


class Unfit(Exception):
    pass


def blocks(lines: Iterable[str]) -> Iterator[List[str]]:
    """What is printed of each command, and of each job that ended or was refused."""
    block: List[str] = []
    for line in lines:
        block.append(line)
        is_job = block[0].startswith('JOB ')
        if len(block) > 1 and (line.startswith(('END ', 'REFUSED ')) if is_job else line[:1] != ' ' and not line.startswith('OWNER ')):
            yield block
            block = []
    if block:
        raise Unfit('the output is cut off in %r' % block[0])


def note(said: Match[str]) -> str:
    """What the printout of its job has of a request that was denied, or that found no room."""
    target = said['target'] if said['target'][0] != '.' else 'UNIT ' + said['unit']
    words = 'STATEMENT %s %s %s' % (said['st'], said['act'], target)
    return 'FULL ' + words if said['outcome'] == 'FULL' else 'DENIED %s %s' % (words, said['by'])


def named_rightly(said: Match[str]) -> bool:
    """A grant is named exactly of what a data set's list granted."""
    if said['outcome'] == 'DENIED':
        return said['by'] is not None
    on_a_set = said['target'][0] != '.' and said['act'] != 'REWIND'
    return on_a_set == (said['by'] is not None and said['by'].startswith('BY '))


def granted_rightly(said: Match[str]) -> bool:
    """By what a command was granted is said exactly of what was done or shown, but for CREATE, and CATALOG, which has its lines."""
    if said['reply'].startswith(('DENIED ', 'REFUSED ')) or said['card'] not in GRANTS:
        return said['grant'] is None
    return said['grant'] is not None and ('owner' if said['grant'] == 'owner' else 'entry') in GRANTS[said['card']]


def names_of(block: List[str]) -> List[str]:
    """The names that the printout of a CATALOG shows."""
    return [line.split(' ')[1] for line in block if line.startswith(' ')]


def printed(audit: Iterable[str]) -> Iterator[Tuple[str, List[str], Optional[int], str]]:
    """What has to be printed, by the audit alone, but for texts: for each block its first line, its notes, how many lines are spooled
    (or None), and its last line. Of a CATALOG the notes are the names that are shown."""
    notes: Dict[str, List[str]] = {}
    spooled: Dict[str, int] = {}
    shown: Optional[Tuple[str, List[str]]] = None       # of a CATALOG: for whom, and what
    for line in audit:
        said = LINE.fullmatch(line)
        if said is None:
            raise Unfit('no line of an audit: %r' % line)
        if said['shown']:
            if shown is None or shown[0] != said['shown_to']:
                raise Unfit('it does not stand behind a CATALOG of its account: %r' % line)
            shown[1].append(said['shown'])
            continue
        shown = None
        if said['card']:
            if not granted_rightly(said):
                raise Unfit('it does not say by what it was granted, or says a wrong thing: %r' % line)
            shown = (said['who'], []) if said['card'] == 'CATALOG' else None
            reply = 'DONE' if said['new'] else said['reply']
            yield ' '.join(filter(None, [said['card'], said['who'], said['set']])), shown[1] if shown else [], None, reply
            continue
        head = 'JOB %s %s' % (said['n'], said['account'])
        if said['refused']:
            yield head, [], 0, 'REFUSED ' + said['refused']
        elif said['ended']:
            yield head, notes.pop(head, []), spooled.pop(head, 0), 'END ' + said['ended']
        elif said['act']:
            if not named_rightly(said):
                raise Unfit('it does not name the entry that granted, or names one: %r' % line)
            if said['outcome'] in ('DENIED', 'FULL'):
                notes.setdefault(head, []).append(note(said))
            elif said['target'] == '.SPOOL' and said['act'] == 'WRITE':
                spooled[head] = spooled.get(head, 0) + 1


def last_line(err: str) -> str:
    """How the run came to its end, by standard error."""
    return 'RUN 0 .NONE ' + (re.sub(r'snomon: line (\d+): (.*)\n', r'REFUSED LINE \1 \2', err) or 'STOPPED')


def fit(out: str, err: str, audit: List[str]) -> None:
    if audit[-1:] != [last_line(err)]:
        raise Unfit('its last line is not %r' % last_line(err))
    lines = out.split('\n')
    found = list(blocks(lines[:-1] if err else lines[:lines.index('$CATALOGUE 2')]))
    wanted = list(printed(audit[:-1]))
    for block, (head, notes, spooled, last) in zip(found, wanted):
        inner = block[1:-1]
        if head.startswith('CATALOG ') and names_of(inner) != notes:
            raise Unfit('%r shows %r, and the audit %r' % (head, names_of(inner), notes))
        if spooled is not None and (len(inner) != spooled + len(notes) or inner[spooled:] != notes):
            raise Unfit('%r notes %r, and the audit %r' % (head, inner[spooled:], notes))
        if (block[0], block[-1]) != (head, last):
            raise Unfit('%r, %r are printed, and the audit has %r, %r' % (block[0], block[-1], head, last))
    if len(found) != len(wanted):
        raise Unfit('%d are printed, and the audit has %d' % (len(found), len(wanted)))


def run(count: int, seed: int) -> int:
    r, unfit, lines = Random(seed), 0, 0
    for n in range(count):
        audit: List[str] = []
        text = random_decks.deck(r, 1 + n % 4)
        out, err, _ = monitor.run(text.encode(), 1 + n % 4, audit)
        lines += len(audit)
        try:
            fit(out, err, audit)
        except Unfit as why:
            unfit += 1
            print('UNFIT deck %d of seed %d: %s' % (n, seed, why))
    print('%d audits with %d lines, %d unfit' % (count, lines, unfit))
    return 1 if unfit or not lines else 0


def of_case(cases: str, name: str) -> Tuple[str, str, List[str]]:
    """(output, standard error, the audit) of a worked deck, as monitor.py gives them"""
    audit: List[str] = []
    with open('%s/%s/args' % (cases, name)) as args, open('%s/%s/deck' % (cases, name), 'rb') as deck:
        words = args.read().split()
        out, err, _ = monitor.run(deck.read(), int(words[words.index('--slots') + 1]) if '--slots' in words else 4, audit)
    return out, err, audit


def store(cases: str) -> int:
    for name in STORED:
        with open('%s/%s/audit' % (cases, name), 'w', newline='') as file:
            file.writelines(line + '\n' for line in of_case(cases, name)[2])
    return 0


def stored(cases: str) -> int:
    unfit = 0
    for name in STORED:
        out, err, audit = of_case(cases, name)
        try:
            with open('%s/%s/audit' % (cases, name), newline='') as file:
                if file.read() != ''.join(line + '\n' for line in audit):
                    raise Unfit('another audit is stored')
            fit(out, err, audit)
        except (OSError, Unfit) as why:
            unfit += 1
            print('UNFIT %s: %s' % (name, why))
    print('%d stored audits, %d unfit' % (len(STORED), unfit))
    return 1 if unfit else 0


def main() -> int:
    if sys.argv[1] in ('--store', '--stored'):
        return (store if sys.argv[1] == '--store' else stored)(sys.argv[2])
    return run(int(sys.argv[1]), int(sys.argv[2]))


if __name__ == '__main__':
    sys.exit(in_a_large_stack(main))
