"""A plain, slow monitor: whole decks, with owner commands and jobs, written from their rules alone.

python3 monitor.py [--slots N] [--audit FILE] < deck    prints what snomon has to print, and writes to a file who asked for what: a
                                                       line for each entry of the history, as the crate audit says it, and a last one

Programs are run by snobol.py; refusals.py says which are refused, and where."""
from __future__ import annotations

import re
import sys
from typing import Callable, Dict, FrozenSet, Iterable, Iterator, List, NamedTuple, Optional, Sequence, Tuple, Type, Union
import snobol
from refusals import is_end_line
from snobol import in_a_large_stack

NAME = re.compile(r'[A-Za-z][A-Za-z0-9._-]{0,30}\Z')
CARDS = {'$' + c for c in ('ACCOUNTS CATALOGUE SET STREAM CREATE DELETE SETACL ENDACL SHOWACL LIST CATALOG JOB UNIT EOJ '
                           'TURN DRAIN STOP').split()}


class Refused(Exception):
    """The deck is refused at the line at hand."""


def unless(test: object, code: str) -> None:
    if not test:
        raise Refused(code)


def is_name(word: str) -> bool:
    return bool(NAME.match(word))


def number(word: str) -> int:
    unless(re.match(r'[0-9]{1,19}\Z', word), 'T2 BAD NUMBER')
    return int(word)


# ---- permission lists -------------------------------------------------------------------------------------------

Perms = FrozenSet[str]
Tag = Tuple[str, str]           # of an entry: its kind, and whom it names, or nobody
Entries = Dict[Tag, Perms]
ALL: Perms = frozenset('rwx')
ORDER = ['user', 'group', 'mask', 'other']
TAGS = {'user': 'user', 'u': 'user', 'group': 'group', 'g': 'group', 'mask': 'mask', 'm': 'mask', 'other': 'other',
        'o': 'other'}


class BadList(Exception):
    pass


def read_entry(text: str, n: int, entries: Entries) -> None:
    fields = [f.strip(' \t') for f in text.split(':')]
    tag = TAGS.get(fields[0])
    if tag is None:
        raise BadList('A1 BAD TAG ENTRY %d' % n)
    if len(fields) == 2 and tag in ('mask', 'other'):
        fields.insert(1, '')
    if len(fields) != 3:
        raise BadList('A3 BAD PERMS ENTRY %d' % n)
    if fields[1] and (tag in ('mask', 'other') or not is_name(fields[1])):
        raise BadList('A2 BAD QUALIFIER ENTRY %d' % n)
    perms = fields[2]
    if any(c not in 'rwx-' for c in perms) or any(perms.count(c) > 1 for c in 'rwx'):
        raise BadList('A3 BAD PERMS ENTRY %d' % n)
    if (tag, fields[1]) in entries:
        raise BadList('A5 TWICE ENTRY %d' % n)
    if fields[1] and sum(1 for k in entries if k[1]) == 100:
        raise BadList('A7 TOO MANY ENTRY %d' % n)
    entries[tag, fields[1]] = frozenset(perms) - {'-'}


def read_list(pieces: Iterable[str]) -> Entries:
    entries: Entries = {}
    for n, piece in enumerate(pieces):
        read_entry(piece, n + 1, entries)
    for tag in ('user', 'group', 'other'):
        if (tag, '') not in entries:
            raise BadList('A4 MISSING %s::' % tag)
    if any(q for t, q in entries) and ('mask', '') not in entries:
        raise BadList('A6 NO MASK')
    return entries


def read_short(text: str) -> Entries:
    return read_list(text.split(','))


def read_long(lines: Iterable[str]) -> Entries:
    return read_list([t for t in (line.split('#')[0].strip(' \t') for line in lines) if t])


def canonical(entries: Entries) -> List[Tag]:
    return sorted(entries, key=lambda e: (ORDER.index(e[0]), e[1]))


def shown(perms: Perms) -> str:
    return ''.join(c if c in perms else '-' for c in 'rwx')


def short_line(entries: Entries) -> str:
    return ','.join('%s:%s:%s' % (tag, who, shown(entries[tag, who])) for tag, who in canonical(entries))


def long_lines(entries: Entries) -> Iterator[str]:
    for tag, who in canonical(entries):
        perms, line = entries[tag, who], '%s:%s:' % (tag, who)
        line += shown(perms)
        mask = entries.get(('mask', ''))
        if mask is not None and (tag == 'group' or tag == 'user' and who) and perms - mask:
            line += '\t#effective:' + shown(perms & mask)
        yield line


def spelled(tag: Tag) -> str:
    return '%s:%s:' % tag


def matching_groups(account: Account, data_set: DataSet) -> List[Tag]:
    return [e for e in canonical(data_set.acl) if e[0] == 'group' and (e[1] or data_set.group) in account[1]]


def decider(account: Account, data_set: DataSet, request: str) -> Optional[str]:
    """None where the request is granted, else the entry that decides."""
    name, entries, mask = account[0], data_set.acl, data_set.acl.get(('mask', ''), ALL)
    if name == data_set.owner:
        return None if request in entries['user', ''] else 'user::'
    if ('user', name) in entries:
        if request not in entries['user', name]:
            return spelled(('user', name))
        return None if request in mask else 'mask::'
    matching = matching_groups(account, data_set)
    if matching:
        if not any(request in entries[e] for e in matching):
            return spelled(matching[0])
        return None if request in mask else 'mask::'
    return None if request in entries['other', ''] else 'other::'


def grantor(account: Account, data_set: DataSet, request: str) -> str:
    """The entry that grants, where the request is granted."""
    name, entries = account[0], data_set.acl
    if name == data_set.owner:
        return 'user::'
    if ('user', name) in entries:
        return 'user:%s:' % name
    matching = matching_groups(account, data_set)
    if matching:
        return spelled(next(e for e in matching if request in entries[e]))
    return 'other::'


# ---- data sets and units ----------------------------------------------------------------------------------------

Account = Tuple[str, List[str]]     # its name and its groups
MODES = ('SEQ', 'APPEND')


class DataSet:
    def __init__(self, owner: str, group: str, mode: str, acl: Entries, records: List[str]) -> None:
        self.owner, self.group, self.mode, self.acl, self.records = owner, group, mode, acl, records


class Unit:
    def __init__(self, kind: str, name: str = '') -> None:
        self.kind, self.name, self.position = kind, name, 0     # 'set', with its name; 'data' or 'spool'


class JobCards(NamedTuple):
    number: int
    account: str
    statements: int
    steps: int
    ties: List[Tuple[int, str]]     # units and data sets
    lines: List[str]                # the program and its data


class Running(snobol.Job):
    """A job in a slot: its requests are served by the monitor's data sets."""

    def __init__(self, monitor: Monitor, number: int, account: Account, program: snobol.Program, data: List[str], units: Dict[int, Unit],
                 statements: int, steps: int) -> None:
        super().__init__(program, (), statements, steps)
        self.monitor, self.number, self.account, self.data, self.units = monitor, number, account, data, units
        self.spool: List[str] = []
        self.notes: List[str] = []
        self.point, self.why = program.start, ''

    def denied(self, act: str, target: str, why: str) -> str:
        self.notes.append('DENIED STATEMENT %d %s %s %s' % (self.stno, act, target, why))
        self.why = ' ' + why
        return 'DENIED'

    def ask(self, act: str, number: int, text: Optional[str] = None) -> str:
        asked = self.asked(act, number)
        answer = self.answer(act, number, text or '')
        outcome = answer.split(' ')[0]
        self.audit('ASKED %s %s%s' % (asked[0], outcome, self.why if outcome == 'DENIED' else asked[1]))
        return answer

    def audit(self, what: str) -> None:
        self.monitor.audit.append('JOB %d %s %s' % (self.number, self.account[0], what))

    def asked(self, act: str, number: int) -> Tuple[str, str]:
        """What the audit says of a request, and by which entry it is granted if it is, as things stand before it."""
        unit, granted = self.units.get(number), ''
        target = '.NONE' if unit is None else unit.name if unit.kind == 'set' else '.' + unit.kind.upper()
        place = 0 if unit is None else unit.position
        data_set = self.monitor.sets.get(target) if act != 'REWIND' else None
        if data_set is not None:
            request = 'r' if act == 'READ' else 'w'
            if act == 'WRITE' and data_set.mode == 'APPEND':
                place = len(data_set.records)
            if decider(self.account, data_set, request) is None:
                granted = ' BY ' + grantor(self.account, data_set, request)
        return '%d %s %d %s %d' % (self.stno, act, number, target, place), granted

    def answer(self, act: str, number: int, text: str) -> str:
        unit = self.units.get(number)
        if unit is None:
            return self.denied(act, 'UNIT %d' % number, 'NO UNIT')
        if unit.kind == 'set':
            return self.ask_set(act, unit, text)
        if act == 'REWIND':
            unit.position = 0
            return 'DONE'
        if unit.kind == 'data':
            if act != 'READ':
                return self.denied(act, 'UNIT %d' % number, 'IN STREAM')
            return self.next_of(self.data, unit)
        if act != 'WRITE':
            return self.denied(act, 'UNIT %d' % number, 'SPOOL UNIT')
        self.spool.append(text)
        return 'DONE'

    def next_of(self, records: Sequence[str], unit: Unit) -> str:
        if unit.position >= len(records):
            return 'EOF'
        unit.position += 1
        return 'GOT ' + records[unit.position - 1]

    def ask_set(self, act: str, unit: Unit, text: str) -> str:
        if act == 'REWIND':
            unit.position = 0
            return 'DONE'
        data_set = self.monitor.sets.get(unit.name)
        if data_set is None:
            return self.denied(act, unit.name, 'NO DATA SET')
        by = decider(self.account, data_set, 'r' if act == 'READ' else 'w')
        if by is not None:
            return self.denied(act, unit.name, 'BY ' + by)
        if act == 'READ':
            return self.next_of(data_set.records, unit)
        appends = data_set.mode == 'APPEND'
        if act == 'ENDFILE' and appends:
            return self.denied(act, unit.name, 'MODE')
        kept = data_set.records if appends else data_set.records[:unit.position]
        if act == 'WRITE':
            if len(kept) == 100000:
                self.notes.append('FULL STATEMENT %d WRITE %s' % (self.stno, unit.name))
                return 'FULL'
            kept.append(text)
        if not appends:
            data_set.records, unit.position = kept, len(kept)
        return 'DONE'

    def turn(self) -> Optional[str]:
        """None where it goes on, else its ending."""
        try:
            if isinstance(self.point, int):
                self.point = self.statement(self.point)
            return 'NORMAL' if self.point == 'END' else None
        except snobol.Over as over:
            return str(over) + (' AT %d' % self.stno if str(over) == 'MATCH LIMIT' else '')
        except snobol.Fault as fault:
            return 'FAULT %s AT %d' % (fault, self.stno)

    def printout(self, ending: str) -> List[str]:
        return (['JOB %d %s' % (self.number, self.account[0])] + [' ' + line for line in self.spool] + self.notes
                + ['END %s AFTER %d' % (ending, self.stcount)])


# ---- the deck ---------------------------------------------------------------------------------------------------

class Monitor:
    def __init__(self, slots: int, running: Type[Running] = Running) -> None:
        self.running = running
        self.accounts: Dict[str, List[str]] = {}
        self.sets: Dict[str, DataSet] = {}
        self.slots: List[Optional[Running]] = [None] * slots
        self.out: List[str] = []
        self.audit: List[str] = []
        self.jobs = 0

    def turn(self, s: int) -> None:
        running = self.slots[s] if s < len(self.slots) else None
        if running is not None:
            ending = running.turn()
            if ending is not None:
                running.audit('ENDED %s AFTER %d' % (ending, running.stcount))
                self.out += running.printout(ending)
                self.slots[s] = None

    def rounds(self, enough: Callable[[], bool]) -> None:
        while True:
            for s in range(len(self.slots)):
                if enough():
                    return
                self.turn(s)

    def drain(self) -> None:
        self.rounds(lambda: not any(self.slots))

    def load(self, job: JobCards) -> None:
        self.rounds(lambda: None in self.slots)
        number, account, statements, steps, ties, lines = job
        head = 'JOB %d %s' % (number, account)

        def refuse(said: str) -> None:
            self.out += [head, said]
            self.audit.append('%s %s' % (head, said))

        if account not in self.accounts:
            refuse('REFUSED M2 NO ACCOUNT')
            return
        units = {5: Unit('data'), 6: Unit('spool')}
        for u, name in ties:
            code = 'U2' if not 1 <= u <= 99 else 'U1' if u in units and units[u].kind == 'set' else None
            if code:
                refuse('REFUSED %s UNIT %d' % (code, u))
                return
            units[u] = Unit('set', name)
        end = next((i for i, line in enumerate(lines) if line[:1] != '*' and is_end_line(line)), len(lines))
        try:
            program = snobol.Program(lines[:end + 1])
        except SyntaxError as said:
            refuse(str(said))
            return
        self.audit.append(head + ' LOADED')
        self.slots[self.slots.index(None)] = self.running(
            self, number, (account, self.accounts[account]), program, lines[end + 1:], units, statements, steps)

    def command(self, word: str, account: str, name: str, mode: str = '', read: Callable[[], Entries] = dict) -> None:
        self.out.append(' '.join([word, account] + ([name] if name else [])))
        reply = self.served(word, account, name, mode, read)
        self.out += reply
        line = ' '.join(['COMMAND 0', account, word] + ([name] if name else []) + reply[-1:])
        if reply == ['DONE'] and word == 'CREATE':
            line += ' ' + mode
        elif reply == ['DONE'] and word == 'SETACL':
            line += ' ' + short_line(self.sets[name].acl)
        who = account, self.accounts.get(account, [])
        self.audit.append(line + self.granted(word, who, name, reply[-1]))
        for shown_name, data_set in self.sets.items() if word == 'CATALOG' and account in self.accounts else ():
            if decider(who, data_set, 'x') is None:
                self.audit.append('COMMAND 0 %s CATALOG SHOWN %s BY %s' % (account, shown_name, grantor(who, data_set, 'x')))

    def granted(self, word: str, who: Account, name: str, last: str) -> str:
        """By what the audit says that a command was granted which is done or shows something; what it shows it leaves as it is."""
        if last == 'DONE' and word in ('DELETE', 'SETACL'):
            return ' BY owner'
        if last.startswith('RECORDS '):
            return ' BY ' + grantor(who, self.sets[name], 'r')
        if last.startswith('ENTRIES '):
            return ' BY owner' if who[0] == self.sets[name].owner else ' BY ' + grantor(who, self.sets[name], 'x')
        return ''

    def served(self, word: str, account: str, name: str, mode: str, read: Callable[[], Entries]) -> List[str]:
        """Of CREATE the mode, of SETACL how its list is read."""
        if account not in self.accounts:
            return ['REFUSED M2 NO ACCOUNT']
        who, data_set = (account, self.accounts[account]), self.sets.get(name)
        if word == 'CREATE':
            if data_set:
                return ['REFUSED K1 NAME TAKEN']
            if len(self.sets) == 1000:
                return ['REFUSED K4 CATALOGUE FULL']
            self.sets[name] = DataSet(account, self.accounts[account][0], mode, read_short('u::rwx,g::---,o::---'), [])
            return ['DONE']
        if word == 'CATALOG':
            names = [' %s %s %s %d' % (n, s.owner, s.group, len(s.records)) for n, s in self.sets.items()
                     if decider(who, s, 'x') is None]
            return names + ['NAMES %d' % len(names)]
        if data_set is None:
            return ['DENIED NO DATA SET']
        if word in ('DELETE', 'SETACL') and data_set.owner != account:
            return ['DENIED NOT OWNER']
        if word == 'DELETE':
            del self.sets[name]
            return ['DONE']
        if word == 'SETACL':
            try:
                data_set.acl = read()
            except BadList as bad:
                return ['REFUSED %s' % bad]
            return ['DONE']
        by = decider(who, data_set, 'r' if word == 'LIST' else 'x')
        if by is not None and not (word == 'SHOWACL' and data_set.owner == account):
            return ['DENIED BY ' + by]
        if word == 'LIST':
            return [' ' + r for r in data_set.records] + ['RECORDS %d' % len(data_set.records)]
        return (['OWNER %s GROUP %s' % (data_set.owner, data_set.group)] + [' ' + e for e in long_lines(data_set.acl)]
                + ['ENTRIES %d' % len(data_set.acl)])

    def catalogue(self) -> List[str]:
        out = ['$CATALOGUE 2']
        for name, s in self.sets.items():
            out.append('$SET %s %s %s %s %d' % (name, s.owner, s.group, s.mode, len(s.records)))
            out.append(short_line(s.acl))
            out += s.records
        return out


class Deck:
    """The lines of a deck, taken one by one; what each causes is done at once."""

    def __init__(self, monitor: Monitor) -> None:
        self.monitor, self.version, self.limit = monitor, 1, 200
        self.section: Callable[[str], None] = self.opening
        self.job: Optional[JobCards] = None
        self.list: Optional[Tuple[str, str, List[str]]] = None      # of $SETACL: the account, the data set, and the lines so far
        # The words of the $SET card whose list is due; or the data set's records so far, and how many there will be.
        self.due: Union[List[str], Tuple[List[str], int], None] = None

    def take(self, raw: bytes) -> None:
        unless(len(raw) <= self.limit, 'T4 LINE TOO LONG')
        in_list = self.list is not None and raw[:1] != b'$'
        unless(all(32 <= c <= 126 or in_list and c == 9 for c in raw), 'T3 BAD CHARACTER')
        self.section(raw.decode('ascii'))

    def lone(self, line: str, due: str, further: Sequence[str] = ()) -> List[str]:
        """The card that is due, alone, or with one of these words behind it; the words behind it."""
        words = line.split()
        unless(words[0] in CARDS, 'E1 UNKNOWN CARD')
        unless(words[0] == due, 'E3 OUT OF PLACE')
        unless(len(words) == 1 or len(words) == 2 and words[1] in further, 'E2 BAD CARD')
        return words[1:]

    def opening(self, line: str) -> None:
        if line.strip(' '):
            self.lone(line, '$ACCOUNTS')
            self.section = self.table

    def table(self, line: str) -> None:
        if line[:1] == '$':
            self.version = 2 if self.lone(line, '$CATALOGUE', ('2',)) else 1
            self.section, self.limit = self.sets, 5000
            return
        words = line.split()
        if words:
            unless(len(words) >= 2, 'E2 BAD CARD')
            unless(all(map(is_name, words)), 'T1 BAD NAME')
            unless(words[0] not in self.monitor.accounts, 'C1 ACCOUNT TWICE')
            unless(len(words) <= 18, 'C2 TOO MANY GROUPS')
            self.monitor.accounts[words[0]] = words[1:]

    def sets(self, line: str) -> None:
        if self.due is None:
            words = line.split()
            if not words:
                return
            if words[0] != '$SET':
                self.lone(line, '$STREAM')
                self.section, self.limit = self.stream, 200
                return
            bad = 'K5 BAD TEXT'
            if self.version == 1:
                unless(len(words) == 5, bad)
                words.insert(4, 'SEQ')
            unless(len(words) == 6 and all(map(is_name, words[1:4])) and words[4] in MODES, bad)
            unless(re.match(r'[0-9]{1,19}\Z', words[5]), bad)
            unless(int(words[5]) <= 100000, 'K3 SET FULL')
            unless(words[1] not in self.monitor.sets, 'K1 NAME TAKEN')
            unless(len(self.monitor.sets) < 1000, 'K4 CATALOGUE FULL')
            self.due = words
        elif isinstance(self.due, list):
            try:
                acl = read_short(line)
            except BadList:
                raise Refused('K5 BAD TEXT')
            name, owner, group, mode, count = self.due[1:]
            self.monitor.sets[name] = DataSet(owner, group, mode, acl, [])
            self.due = (self.monitor.sets[name].records, int(count)) if int(count) else None
        else:
            unless(len(line) <= 1024, 'K5 BAD TEXT')
            records, wanted = self.due
            records.append(line)
            if len(records) == wanted:
                self.due = None

    def stream(self, line: str) -> None:
        if self.list is not None:
            self.list_line(line, *self.list)
        elif self.job is not None:
            self.job_line(line, self.job)
        elif line.strip(' '):
            self.card(line, line.split())

    def card(self, line: str, words: List[str]) -> None:
        card, monitor = words[0], self.monitor
        unless(card in CARDS, 'E1 UNKNOWN CARD')
        unless(card not in ('$ACCOUNTS', '$CATALOGUE', '$SET', '$STREAM', '$ENDACL', '$UNIT', '$EOJ'), 'E3 OUT OF PLACE')
        if card in ('$STOP', '$DRAIN'):
            unless(len(words) == 1, 'E2 BAD CARD')
            monitor.drain()
            if card == '$STOP':
                raise EOFError
        elif card == '$TURN':
            unless(len(words) == 3, 'E2 BAD CARD')
            s, k = number(words[1]), number(words[2])
            unless(1 <= s <= 8 and 1 <= k <= 1000000, 'E2 BAD CARD')
            for _ in range(k):
                if s > len(monitor.slots) or monitor.slots[s - 1] is None:
                    break
                monitor.turn(s - 1)
        elif card == '$JOB':
            self.open_job(words)
        else:
            n = 2 if card == '$CATALOG' else 3
            has_mode = card == '$CREATE' and len(words) == 4 and words[3] in MODES
            unless(len(words) == n or has_mode or card == '$SETACL' and len(words) > 3, 'E2 BAD CARD')
            unless(all(map(is_name, words[1:n])), 'T1 BAD NAME')
            if card == '$SETACL' and len(words) == 3:
                self.list = (words[1], words[2], [])
                return
            mode = words[3] if has_mode else 'SEQ'
            monitor.command(card[1:], words[1], words[2] if n == 3 else '', mode, lambda: read_short(line.split(None, 3)[3]))

    def list_line(self, line: str, account: str, name: str, lines: List[str]) -> None:
        if line[:1] == '$':
            unless(line.split()[0] == '$ENDACL', 'E3 OUT OF PLACE')
            unless(len(line.split()) == 1, 'E2 BAD CARD')
            self.list = None
            self.monitor.command('SETACL', account, name, read=lambda: read_long(lines))
        else:
            lines.append(line)

    def open_job(self, words: List[str]) -> None:
        options = {'ST': 50000, 'MATCH': 1000000}
        unless(len(words) >= 2, 'E2 BAD CARD')
        found = [m for m in (re.match(r'(ST|MATCH)=(.*)', w) for w in words[2:]) if m]
        unless(len(found) == len(words) - 2 and len({m.group(1) for m in found}) == len(found), 'E2 BAD CARD')
        unless(is_name(words[1]), 'T1 BAD NAME')
        for m in found:
            options[m.group(1)] = number(m.group(2))
        unless(all(1 <= n <= 10000000 for n in options.values()), 'E2 BAD CARD')
        self.monitor.jobs += 1
        self.job = JobCards(self.monitor.jobs, words[1], options['ST'], options['MATCH'], [], [])
        self.begun = False

    def job_line(self, line: str, job: JobCards) -> None:
        if line[:1] == '$' and line[:2] != '$$':
            words = line.split()
            unless(words[0] in CARDS or self.begun, 'E1 UNKNOWN CARD')
            unless(words[0] == '$EOJ' or words[0] == '$UNIT' and not self.begun, 'E3 OUT OF PLACE')
            unless(len(words) == (1 if words[0] == '$EOJ' else 3), 'E2 BAD CARD')
            if words[0] == '$EOJ':
                self.job = None
                self.monitor.load(job)
                return
            n = number(words[1])
            unless(is_name(words[2]), 'T1 BAD NAME')
            job.ties.append((n, words[2]))
            return
        self.begun = True
        job.lines.append(line[1:] if line[:2] == '$$' else line)


def lines_of(data: bytes) -> List[bytes]:
    """A CR before the LF belongs to the line's end; the last line may lack its end."""
    lines = data.split(b'\n')
    last = lines.pop()
    return [l[:-1] if l.endswith(b'\r') else l for l in lines] + ([last] if last else [])


def run(data: bytes, slots: int = 4, audit: Optional[List[str]] = None, running: Type[Running] = Running) -> Tuple[str, str, int]:
    """(output, standard error, exit status); a list that is given gets the lines of the audit"""
    lines = lines_of(data)
    monitor = Monitor(slots, running)
    if audit is not None:
        monitor.audit = audit
    deck = Deck(monitor)
    try:
        for n, line in enumerate(lines):
            deck.take(line)
        n = len(lines)
        raise Refused('E4 TRUNCATED')
    except EOFError:
        monitor.audit.append('RUN 0 .NONE STOPPED')
        return ''.join(line + '\n' for line in monitor.out + monitor.catalogue()), '', 0
    except Refused as code:
        monitor.audit.append('RUN 0 .NONE REFUSED LINE %d %s' % (n + 1, code))
        return ''.join(line + '\n' for line in monitor.out), 'snomon: line %d: %s\n' % (n + 1, code), 1


def main() -> None:
    words = sys.argv[1:]
    slots = int(words[words.index('--slots') + 1]) if '--slots' in words else 4
    audit: List[str] = []
    out, err, status = in_a_large_stack(lambda: run(sys.stdin.buffer.read(), slots, audit))
    if '--check' in words:
        out = 'DECK OK\n' if status == 0 else ''
    elif '--audit' in words:
        with open(words[words.index('--audit') + 1], 'w') as file:
            file.writelines(line + '\n' for line in audit)
    sys.stdout.write(out)
    sys.stderr.write(err)
    sys.exit(status)


if __name__ == '__main__':
    main()
