"""Ledgers for tests, written by the definition of their text: crates/ledger_text/specs, Text and Records, and crates/ledger_run/specs,
Meaning: a commit is the SHA-256 of the one before it, a record, and what that changed.

python3 tools/tests/ledgers.py DIR [COMMITS]     makes the site's folder DIR with the example's ledger, on which docs/reference/history.md asks its
                                                 questions; or with a ledger of so many commits"""
from __future__ import annotations

import calendar
import hashlib
import os
import sys
from typing import Optional, Sequence, Tuple, Union

Time = Union[int, str]  # seconds of UTC, or `2026-10-05 08:00:00`
ACCOUNTS = b'anna admin\nlisa staff\nhugo ops\n'
USERS = b'# who is who\n1001 anna\n1002 lisa\n1004 hugo\n'
LIMITS = b'texts 10\nbytes 65536\n'
PAID = b'user::rw-,user:lisa:rw-,group::---,mask::rw-,other::---'
SEEN = b'user::rw-,user:lisa:rw-,group::---,group:ops:r--,mask::rw-,other::---'
OWN = b'user::rwx,group::---,other::---'


def text_of(fields: Sequence[bytes]) -> bytes:
    """Their number, and each behind its length."""
    return b'%d\n' % len(fields) + b''.join(b'%d\n%b\n' % (len(field), field) for field in fields)


def record(kind: str, time: Time, *fields: Union[bytes, int]) -> bytes:
    """A record of this UTC time; its numbers may be numbers."""
    words = [b'%d' % field if isinstance(field, int) else field for field in fields]
    return text_of([kind.encode(), b'%d' % seconds(time), *words])


def seconds(time: Time) -> int:
    """Of `2026-10-05 08:00:00`; or a number of them."""
    return time if isinstance(time, int) else calendar.timegm(tuple(map(int, time.replace('-', ' ').replace(':', ' ').split())))


def change(kind: str, *fields: Union[bytes, int]) -> bytes:
    """A record of a change: it has no time, and no submission's number, as crates/ledger_sets writes it."""
    return record(kind, 0, 0, *fields)


def audit(jobs: int, lines: bytes) -> bytes:
    """The lines of an audit; there were so many jobs by then."""
    return record('AUDIT', 0, jobs, lines)


def data_set(card: bytes, listed: bytes, *records: bytes) -> bytes:
    """A data set as it stands from then on: `card` says name, owner, group and mode."""
    head = b'$SET %b %d\n%b\n' % (card, len(records), listed)
    return change('SET', card.split()[0], head, b''.join(line + b'\n' for line in records))


class Writer:
    """Puts commits one after the other into the ledger of a site's folder."""

    def __init__(self, site: str) -> None:
        self.folder, self.count, self.digest = os.path.join(site, 'keep', 'ledger'), 0, b''
        os.makedirs(self.folder)

    def path(self, number: int) -> str:
        return os.path.join(self.folder, f'{number:08}')

    def put(self, head: bytes, *changes: bytes) -> None:
        text = text_of([self.digest, head, text_of(changes) if changes else b''])
        with open(self.path(self.count), 'wb') as file:
            file.write(text)
        self.count, self.digest = self.count + 1, hashlib.sha256(text).hexdigest().encode()


def tables(time: Time, accounts: bytes, users: bytes, limits: bytes) -> bytes:
    return record('TABLES', time, text_of([accounts, users, limits]))


def foreign(name: bytes, card: bytes) -> bytes:
    return b'REFUSED %b\nLINE 1: I1 FOREIGN ACCOUNT\n %b\n %b^\n' % (name, card, b' ' * card.index(b' ', 1))


# The example: a site from 1 October 2026 on. 10 November is a Tuesday.
BEGIN, MONDAY, AFTER = '2026-10-01 06:00:00', '2026-10-05 08:00:00', '2026-10-05 08:00:02'
LISTS, LISTED, AUDITED, TOM = '2026-10-12 09:30:00', '2026-10-12 09:30:04', '2026-10-20 10:00:00', '2026-11-02 07:00:00'
PAYS, TIDIES, RESTORES = '2026-11-03 08:15:00', '2026-11-09 16:45:00', '2026-11-10 12:00:00'
PEEKS, CHECKED, WAITS = '2026-11-11 23:10:00', '2026-11-11 23:30:00', '2026-11-12 08:00:00'
COMMITS = [
    # 0, 1: the site is made.
    [record('EDIT', BEGIN, b'root', b'init'),
     data_set(b'PAYROLL anna admin SEQ', PAID, b'ADA 100', b'BOB 200', b'CYD 300'),
     data_set(b'JOURNAL anna staff APPEND', b'user::rw-,group::-w-,other::---', b'BEGUN'),
     data_set(b'OLD anna admin SEQ', OWN, b'1999')],
    [tables(BEGIN, ACCOUNTS, USERS, LIMITS)],
    # 2 to 7: lisa raises all but the first; hugo may not see it, and speaks for anna.
    [record('TOOK', MONDAY, 1, b'lisa', 1002, b'raise.job', b'$JOB lisa\n..\n$EOJ\n')],
    [record('TOOK', MONDAY, 2, b'hugo', 1004, b'look.cards', b'$LIST hugo PAYROLL\n')],
    [record('REFUSED', MONDAY, 3, b'hugo', 1004, b'as-anna.cards', foreign(b'as-anna.cards', b'$LIST anna PAYROLL'))],
    [record('RAN', AFTER, 1, b'JOB 1 lisa\nEND NORMAL AFTER 25\n'),
     audit(1, b'JOB 1 lisa LOADED\n' + b''.join(b'JOB 1 lisa ASKED 5 READ 8 PAYROLL %d GOT BY user:lisa:\n' % place for place in range(3))
            + b'JOB 1 lisa ASKED 5 READ 8 PAYROLL 3 EOF BY user:lisa:\n'
            + b''.join(b'JOB 1 lisa ASKED 10 WRITE 9 PAYROLL %d DONE BY user:lisa:\n' % place for place in range(3))
            + b'JOB 1 lisa ASKED 11 WRITE 10 JOURNAL 1 DONE BY group::\nJOB 1 lisa ENDED NORMAL AFTER 25\n'),
     change('KEEP', b'PAYROLL', 1, b'BOB 220\nCYD 330\n'), change('KEEP', b'JOURNAL', 1, b'RAISED BY LISA\n')],
    [record('RAN', AFTER, 2, b'LIST hugo PAYROLL\nDENIED BY other::\n'), audit(1, b'COMMAND 0 hugo LIST PAYROLL DENIED BY other::\n')],
    [record('GAVE', '2026-10-05 08:00:03', 1, 3)],
    # 8, 9: anna lets the group ops read it, and makes a set.
    [record('TOOK', LISTS, 4, b'anna', 1001, b'lists.cards', b'$SETACL anna PAYROLL\n..\n')],
    [record('RAN', LISTED, 4, b'SETACL anna PAYROLL\nDONE\nCREATE anna NOTES\nDONE\n'),
     audit(1, b'COMMAND 0 anna SETACL PAYROLL DONE ' + SEEN + b' BY owner\nCOMMAND 0 anna CREATE NOTES DONE SEQ\n'),
     data_set(b'PAYROLL anna admin SEQ', SEEN, b'ADA 100', b'BOB 220', b'CYD 330'), data_set(b'NOTES anna admin SEQ', OWN)],
    # 10 to 14: hugo reads it; a submission of lisa is late.
    [record('TOOK', AUDITED, 5, b'hugo', 1004, b'audit.job', b'$JOB hugo\n..\n$EOJ\n')],
    [record('TOOK', AUDITED, 6, b'lisa', 1002, b'slow.job', b'$JOB lisa\n..\n$EOJ\n')],
    [record('RAN', '2026-10-20 10:00:06', 5, b'JOB 2 hugo\nEND NORMAL AFTER 5\n'),
     audit(2, b'JOB 2 hugo LOADED\n'
            + b''.join(b'JOB 2 hugo ASKED 2 READ 8 PAYROLL %d GOT BY group:ops:\nJOB 2 hugo ASKED 2 WRITE 6 .SPOOL 0 DONE\n' % place for place in range(3))
            + b'JOB 2 hugo ASKED 2 READ 8 PAYROLL 3 EOF BY group:ops:\nJOB 2 hugo ENDED NORMAL AFTER 5\n')],
    [record('DROPPED', '2026-10-20 10:01:06', 6, b'LATE', b'REFUSED slow.job\nLATE: more than 60 seconds\n')],
    [record('GAVE', '2026-10-20 10:01:07', 4, 6)],
    # 15, 16: tom comes; and each may hand in more, by a record of its own.
    [record('EDIT', TOM, b'root', b'adduser tom 1003 staff'), tables(0, ACCOUNTS + b'tom staff\n', USERS + b'1003 tom\n', LIMITS)],
    [tables(TOM, ACCOUNTS + b'tom staff\n', USERS + b'1003 tom\n', LIMITS.replace(b'texts 10', b'texts 20'))],
    # 17, 18: anna adds a record.
    [record('TOOK', PAYS, 7, b'anna', 1001, b'pay.job', b'$JOB anna\n..\n$EOJ\n')],
    [record('RAN', PAYS, 7, b'JOB 3 anna\nEND NORMAL AFTER 9\n'),
     audit(3, b'JOB 3 anna LOADED\nJOB 3 anna ASKED 3 READ 8 PAYROLL 0 GOT BY user::\nJOB 3 anna ASKED 4 WRITE 9 PAYROLL 3 DONE BY user::\n'
            b'JOB 3 anna ENDED NORMAL AFTER 9\n'), change('KEEP', b'PAYROLL', 3, b'DAN 400\n')],
    # 19, 20: anna takes the list back, and her set away.
    [record('TOOK', TIDIES, 8, b'anna', 1001, b'tidy.cards', b'$SETACL anna PAYROLL\n..\n')],
    [record('RAN', TIDIES, 8, b'..'),
     audit(3, b'COMMAND 0 anna SETACL PAYROLL DONE ' + PAID + b' BY owner\nCOMMAND 0 anna DELETE NOTES DONE BY owner\n'),
     data_set(b'PAYROLL anna admin SEQ', PAID, b'ADA 100', b'BOB 220', b'CYD 330', b'DAN 400'), change('GONE', b'NOTES')],
    # 21: the operator takes it back to what it was behind commit 9.
    [record('EDIT', RESTORES, b'root', b'restore PAYROLL --at 9'),
     data_set(b'PAYROLL anna admin SEQ', SEEN, b'ADA 100', b'BOB 220', b'CYD 330')],
    # 22 to 24: tom speaks for lisa, and looks for what he may read.
    [record('REFUSED', PEEKS, 9, b'tom', 1003, b'as-lisa.cards', foreign(b'as-lisa.cards', b'$LIST lisa PAYROLL'))],
    [record('TOOK', PEEKS, 10, b'tom', 1003, b'peek.job', b'$JOB tom\n..\n$EOJ\n')],
    [record('RAN', '2026-11-11 23:10:01', 10, b'JOB 4 tom\nDENIED STATEMENT 2 READ PAYROLL BY other::\nEND FAULT TYPE AT 5 AFTER 5\n'),
     audit(5, b'JOB 4 tom LOADED\nJOB 4 tom ASKED 2 READ 8 PAYROLL 0 DENIED BY other::\n'
            b'JOB 4 tom ASKED 3 READ 9 JOURNAL 0 DENIED BY group::\nJOB 4 tom ASKED 4 READ 9 JOURNAL 0 DENIED BY group::\n'
            b'JOB 4 tom ENDED FAULT TYPE AT 5 AFTER 5\nJOB 5 tom REFUSED U1 UNIT 8\n')],
    # 25, 26: a checkpoint; and a submission that waits.
    [record('CHECKED', CHECKED, 25, b'c' * 64)],
    [record('TOOK', WAITS, 11, b'lisa', 1002, b'later.job', b'$JOB lisa\n..\n$EOJ\n')],
]


def write_example(site: str, commits: Optional[int] = None) -> Writer:
    """The first so many commits of the example, or all."""
    writer = Writer(site)
    for records in COMMITS[:commits]:
        writer.put(*records)
    return writer


def write_large(site: str, commits: int) -> Writer:
    """Texts of 30 accounts: each reads 20 records and adds one to one of 50 data sets, which begins anew from time to time. A commit takes
    it, one runs it, one says that it was answered."""
    writer, listed = Writer(site), b'user::rw-,group::rw-,other::---'
    writer.put(record('EDIT', 0, b'root', b'init'), *(data_set(b'SET%d user0 staff APPEND' % number, listed) for number in range(50)))
    writer.put(tables(0, b''.join(b'user%d staff\n' % number for number in range(30)), b'', LIMITS))
    held = [0] * 50
    for commit in range(2, commits):
        number, time = 1 + (commit - 2) // 3, 1_790_000_000 + 20 * commit
        account, which = b'user%d' % (number % 30), number % 50
        if commit % 3 == 2:
            writer.put(record('TOOK', time, number, account, 1000 + number % 30, b'report.job', b'$JOB %b\n..\n$EOJ\n' % account))
        elif commit % 3 == 0:
            held[which] = 1 if held[which] == 1000 else held[which] + 1
            writer.put(record('RAN', time, number, b'JOB %d %b\nEND NORMAL AFTER 30\n' % (number, account)), *_work(time, number, account, which, held[which]))
        else:
            writer.put(record('GAVE', time, number, number))
    return writer


def _work(time: Time, number: int, account: bytes, which: int, held: int) -> Tuple[bytes, bytes]:
    """The audit of a submission, and the data set that has so many records now."""
    name, line = b'SET%d' % which, b'ENTRY %d OF %b' % (number, account)
    reads = b''.join(b'JOB %d %b ASKED %d READ 8 %b %d GOT BY group::\n' % (number, account, 3 + place % 2, name, place) for place in range(20))
    told = b'JOB %d %b LOADED\n%bJOB %d %b ASKED 9 WRITE 9 %b %d DONE BY group::\nJOB %d %b ENDED NORMAL AFTER 30\n' % (
        number, account, reads, number, account, name, held - 1, number, account)
    left = (data_set(name + b' user0 staff APPEND', b'user::rw-,group::rw-,other::---', line) if held == 1 else
            change('KEEP', name, held - 1, line + b'\n'))
    return audit(number, told), left


if __name__ == '__main__':
    write_large(sys.argv[1], int(sys.argv[2])) if len(sys.argv) > 2 else write_example(sys.argv[1])
