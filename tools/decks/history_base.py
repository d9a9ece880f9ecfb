"""What `history --sqlite` does: a database for sqlite3 of what a site's ledger tells, made anew or carried on."""
from __future__ import annotations

import contextlib
import os
import sqlite3
from typing import Iterator, Optional, Tuple

from .beside import FILE_MODE
from .course import Asked, Changed, Checked, Claimed, Course, Edited, Ended, Given, Happened, Head, Known, Tables
from .files import blaming
from .ledger import Ledger
from .text import Fault, Refused

APPLICATION = 0x536E6F48  # what tells such a database from others
VERSION = 2               # of its tables
SCHEMA = '''\
CREATE TABLE commits (      -- the files of the ledger
    number INTEGER PRIMARY KEY,
    digest TEXT NOT NULL,    -- its SHA-256, which the next commit names
    bytes INTEGER NOT NULL
);
CREATE TABLE submissions (  -- what users handed in
    number INTEGER PRIMARY KEY,
    account TEXT NOT NULL,   -- in whose box it was
    uid INTEGER NOT NULL,    -- the user of the system whose file it was
    file TEXT NOT NULL,      -- what that was called
    bytes INTEGER NOT NULL,  -- its length; of a refused one 0
    claimed TEXT NOT NULL,   -- when
    state TEXT NOT NULL,     -- WAITS, RAN, REFUSED or DROPPED
    ended TEXT,              -- when it ran, was refused or dropped
    reason TEXT,             -- why it was refused or dropped
    reply TEXT,              -- what its user was told then
    printed INTEGER,         -- how many bytes it printed
    claimed_in INTEGER NOT NULL REFERENCES commits,
    ended_in INTEGER REFERENCES commits
);
CREATE TABLE asked (        -- what a submission's jobs and commands asked for, as snomon-audit(5) has it
    submission INTEGER NOT NULL REFERENCES submissions,
    time TEXT NOT NULL,
    job INTEGER NOT NULL,    -- 0 of a command
    account TEXT NOT NULL,
    event TEXT NOT NULL,     -- READ, WRITE, LIST, SETACL, LOADED, ENDED ..
    data_set TEXT,           -- .DATA, .SPOOL and .NONE too
    statement INTEGER,
    answer TEXT,             -- GOT, DONE, EOF, FULL, DENIED, RECORDS ..
    more TEXT,               -- by which entry of the list; why; how a job ended
    times INTEGER NOT NULL   -- how often this was so
);
CREATE TABLE changes (      -- data sets that are new, changed or gone
    id INTEGER PRIMARY KEY,
    time TEXT NOT NULL,
    submission INTEGER REFERENCES submissions,  -- by which submission
    edit INTEGER REFERENCES edits,  -- or by which act of the operator
    data_set TEXT NOT NULL,
    change TEXT NOT NULL,    -- NEW, CHANGED or GONE
    owner TEXT,              -- from then on, as all behind it; of a set that is gone nothing
    group_name TEXT,
    mode TEXT,
    list TEXT,               -- the permission list, in the short form
    records INTEGER,         -- how many
    in_commit INTEGER NOT NULL REFERENCES commits
);
CREATE TABLE records (      -- which record stood in a data set, and from which change to which
    data_set TEXT NOT NULL,
    place INTEGER NOT NULL,  -- from 1
    record TEXT NOT NULL,
    since_change INTEGER NOT NULL REFERENCES changes,
    until_change INTEGER REFERENCES changes
);
CREATE TABLE edits (        -- what the operator did by commands
    id INTEGER PRIMARY KEY,
    time TEXT NOT NULL,
    who TEXT NOT NULL,
    act TEXT NOT NULL,
    in_commit INTEGER NOT NULL REFERENCES commits
);
CREATE TABLE operator_lines ( -- which lines stood in accounts, users and limits
    table_name TEXT NOT NULL,
    line TEXT NOT NULL,
    since TEXT NOT NULL,
    until TEXT               -- before this time; nothing where it still stands
);
CREATE TABLE given (        -- which answers were brought to the disk
    time TEXT NOT NULL,
    first INTEGER NOT NULL,  -- the number of a submission
    last INTEGER NOT NULL
);
CREATE TABLE checkpoints (
    time TEXT NOT NULL,
    commits INTEGER NOT NULL,
    digest TEXT NOT NULL
);
CREATE VIEW used AS         -- what was granted, and by which permission of a list
    SELECT *, CASE WHEN event IN ('READ', 'LIST') THEN 'r' WHEN event IN ('WRITE', 'ENDFILE') THEN 'w' ELSE 'x' END AS permission
    FROM asked WHERE event IN ('READ', 'LIST', 'WRITE', 'ENDFILE', 'SHOWACL', 'CATALOG')
    AND answer IN ('GOT', 'EOF', 'DONE', 'FULL', 'RECORDS', 'ENTRIES', 'SHOWN') AND data_set NOT LIKE '.%';
CREATE VIEW versions AS     -- what each data set was from one change to the next, and which change was before it
    SELECT id, data_set, time AS since, until, submission, edit, owner, group_name, mode, list, records, before
    FROM (SELECT *, lead(time) OVER later AS until, lag(id) OVER later AS before
          FROM changes WINDOW later AS (PARTITION BY data_set ORDER BY id))
    WHERE change <> 'GONE';
CREATE VIEW held AS         -- which record stood where from when to when, and which submission or edit put it there
    SELECT records.data_set, place, record, put.time AS since, gone.time AS until, put.submission, put.edit
    FROM records JOIN changes AS put ON put.id = since_change LEFT JOIN changes AS gone ON gone.id = until_change;
CREATE INDEX asked_of ON asked (data_set, time);
CREATE INDEX changes_of ON changes (data_set, id);
CREATE INDEX standing ON records (data_set, place) WHERE until_change IS NULL;
CREATE INDEX records_of ON records (data_set, since_change);
CREATE INDEX standing_lines ON operator_lines (table_name, line) WHERE until IS NULL;
'''


def write_base(site: str, path: str) -> None:
    """Makes the database at this path, or adds what it does not have yet of the site's ledger: all of that, or nothing."""
    ledger = Ledger(site)
    with _base(path) as base:
        first, before = _first_new(ledger, base, path)
        course = Course(_known(base))
        writer = Writer(base)
        for commit in ledger.commits(first, before):
            base.execute('INSERT INTO commits VALUES (?, ?, ?)', (commit.number, commit.digest, commit.size))
            for happened in course.told(commit):
                writer.write(happened)


@contextlib.contextmanager
def _base(path: str) -> Iterator[sqlite3.Connection]:
    """The database, in a transaction that ends with this. A new file is for its owner alone."""
    is_new = not os.path.lexists(path)
    if is_new:
        with blaming(path):
            os.close(os.open(path, os.O_CREAT | os.O_EXCL | os.O_RDWR, FILE_MODE))
    try:
        with contextlib.closing(sqlite3.connect(path, isolation_level=None)) as base:
            base.execute('BEGIN IMMEDIATE')
            _prepare(base, path)
            yield base
            base.execute('COMMIT')
            is_new = False
    except sqlite3.OperationalError as error:
        raise Fault(f'{path}: {error}') from error
    except sqlite3.DatabaseError as error:
        raise Refused(f'{path}: {error}') from error
    finally:
        if is_new:
            os.unlink(path)


def _prepare(base: sqlite3.Connection, path: str) -> None:
    (application,), (version,) = base.execute('PRAGMA application_id').fetchone(), base.execute('PRAGMA user_version').fetchone()
    if not base.execute('SELECT count(*) FROM sqlite_master').fetchone()[0]:
        for statement in SCHEMA.split(';\n')[:-1]:
            base.execute(statement)
        base.execute(f'PRAGMA application_id = {APPLICATION}')
        base.execute(f'PRAGMA user_version = {VERSION}')
    elif application != APPLICATION:
        raise Refused(f'{path}: it is a database of something else')
    elif version != VERSION:
        raise Refused(f'{path}: its tables are those of another version of this command: make a new one')


def _first_new(ledger: Ledger, base: sqlite3.Connection, path: str) -> Tuple[int, str]:
    """The number of the first commit that the database does not have, and the digest of the one before it."""
    last: Optional[Tuple[int, str]] = base.execute('SELECT number, digest FROM commits ORDER BY number DESC LIMIT 1').fetchone()
    if last is None:
        return 0, ''
    number, digest = last
    if number >= ledger.count:
        raise Refused(f'{ledger.path(number)}: this commit is missing, and {path} has it')
    if ledger.digest(number) != digest:
        raise Refused(f'{ledger.path(number)}: it is another commit than the one of this number in {path}')
    return number + 1, digest


def _known(base: sqlite3.Connection) -> Known:
    """What has to be known of the commits that the database has. Whose a submission is stands in its table."""
    known = Known(next=base.execute('SELECT ifnull(max(number), -1) + 1 FROM submissions').fetchone()[0])
    for data_set, *head in base.execute("SELECT data_set, owner, group_name, mode, list, records FROM changes WHERE change <> 'GONE' "
                                        'AND id IN (SELECT max(id) FROM changes GROUP BY data_set)'):
        known.heads[data_set] = Head(*head)
    for table, line in base.execute('SELECT table_name, line FROM operator_lines WHERE until IS NULL ORDER BY rowid'):
        known.lines[table].append(line)
    return known


class Writer:
    """Writes what happened into the tables."""

    def __init__(self, base: sqlite3.Connection) -> None:
        self.base = base
        self.edit: Optional[int] = None  # the operator's last

    def write(self, one: Happened) -> None:
        what = one.what
        if isinstance(what, Claimed):
            self._claimed(one, what)
        elif isinstance(what, Ended):
            state = 'RAN' if what.reason is None else 'DROPPED'
            self.base.execute('UPDATE submissions SET state = ?, ended = ?, reason = ?, reply = ?, printed = ?, ended_in = ? WHERE number = ?',
                              (state, one.time, what.reason, what.reply, what.printed, one.commit.number, what.number))
        elif isinstance(what, Asked):
            self.base.executemany('INSERT INTO asked VALUES (?, ?, ?, ?, ?, ?, ?, ?, ?, ?)', (
                (what.number, one.time, int(job), account, event, data_set or None, int(statement) if statement else None, answer or None,
                 more or None, times) for (job, account, event, data_set, statement, answer, more), times in what.told.items()))
        elif isinstance(what, Changed):
            self._changed(one, what)
        elif isinstance(what, Tables):
            self._tables(one, what)
        elif isinstance(what, Edited):
            self.edit = self.base.execute('INSERT INTO edits VALUES (NULL, ?, ?, ?, ?)', (one.time, one.operator, what.act, one.commit.number)).lastrowid
        elif isinstance(what, Given):
            self.base.execute('INSERT INTO given VALUES (?, ?, ?)', (one.time, what.first, what.last))
        elif isinstance(what, Checked):
            self.base.execute('INSERT INTO checkpoints VALUES (?, ?, ?)', (one.time, what.count, what.digest))

    def _claimed(self, one: Happened, what: Claimed) -> None:
        is_taken, number = what.reply is None, one.commit.number
        ended = (None, None, None, None) if is_taken else (one.time, what.reason(), what.reply, number)
        self.base.execute('INSERT INTO submissions (number, account, uid, file, bytes, claimed, state, claimed_in, ended, reason, reply, ended_in) '
                          'VALUES (?, ?, ?, ?, ?, ?, ?, ?, ?, ?, ?, ?)',
                          (what.number, *what.claim, what.size, one.time, 'WAITS' if is_taken else 'REFUSED', number, *ended))

    def _changed(self, one: Happened, what: Changed) -> None:
        change = 'GONE' if what.after is None else 'NEW' if what.before is None else 'CHANGED'
        made = self.base.execute('INSERT INTO changes VALUES (NULL, ?, ?, ?, ?, ?, ?, ?, ?, ?, ?, ?)', (
            one.time, what.number, None if one.operator is None else self.edit, what.data_set, change, *(what.after or (None,) * 5), one.commit.number)).lastrowid
        now = dict(enumerate(what.records, what.kept + 1))
        stood = dict(self.base.execute('SELECT place, record FROM records WHERE data_set = ? AND until_change IS NULL AND place > ?',
                                       (what.data_set, what.kept)))
        self.base.executemany('UPDATE records SET until_change = ? WHERE data_set = ? AND place = ? AND until_change IS NULL', (
            (made, what.data_set, place) for place, record in stood.items() if now.get(place) != record))
        self.base.executemany('INSERT INTO records VALUES (?, ?, ?, ?, NULL)', (
            (what.data_set, place, record, made) for place, record in now.items() if stood.get(place) != record))

    def _tables(self, one: Happened, what: Tables) -> None:
        self.base.executemany('UPDATE operator_lines SET until = ? WHERE table_name = ? AND line = ? AND until IS NULL', (
            (one.time, what.table, line) for line in what.gone))
        self.base.executemany('INSERT INTO operator_lines VALUES (?, ?, ?, NULL)', ((what.table, line, one.time) for line in what.new))
