"""What the lines of an audit say. An audit is what `snomon --audit` writes: a line for each thing that happened, in its order, of
words with one blank between them. Here a line is a row, whose cells are those of the columns."""
from __future__ import annotations

import functools
import re
from typing import NamedTuple, Optional, Tuple

from .tables import Columns, Row
from .text import NAME

ON_A_LIST = ('CREATE', 'DELETE', 'SETACL')  # what sets a data set's list: done, they change who may do what
# By what is asked of a data set, the permission that is needed for it; and the answers that say that it was granted.
PERMISSION = {'READ': 'r', 'LIST': 'r', 'WRITE': 'w', 'ENDFILE': 'w', 'SHOWACL': 'x', 'CATALOG': 'x'}
GRANTED = ('GOT', 'EOF', 'DONE', 'FULL', 'RECORDS', 'ENTRIES', 'SHOWN')

_NAME = NAME.pattern.decode()
_ENTRY = f'(?:user|group|mask|other):(?:{_NAME})?:[r-][w-][x-]'
_WORDS = {'name': _NAME, 'n': '[0-9]{1,20}', 'now': f'SEQ|APPEND|{_ENTRY}(?:,{_ENTRY})*', 'entry': f'BY (?:user|group|mask|other):(?:{_NAME})?:',
          'why': 'NO DATA SET|NOT OWNER|NO UNIT|IN STREAM|SPOOL UNIT|MODE', 'code': '[A-Z][0-9]+(?: [A-Za-z0-9:]+)+'}
OF_JOB = re.compile(
    r'JOB (?P<job>%(n)s) (?P<account>%(name)s) (?:(?P<loaded>LOADED)|(?P<refused>REFUSED) (?P<code>%(code)s)'
    r'|(?P<ended>ENDED) (?P<end>[A-Z]+(?: [A-Z0-9]+)* AFTER %(n)s)'
    r'|ASKED (?P<statement>%(n)s) (?P<act>READ|WRITE|ENDFILE|REWIND) (?P<unit>%(n)s) (?P<set>%(name)s|\.NONE|\.DATA|\.SPOOL)'
    r' (?P<place>%(n)s) (?:(?P<outcome>GOT|DONE|EOF|FULL)(?: (?P<by>%(entry)s))?|(?P<denied>DENIED) (?P<why>%(entry)s|%(why)s)))' % _WORDS)
OF_COMMAND = re.compile(
    r'COMMAND (?P<job>0) (?P<account>%(name)s) (?:(?P<card>CREATE|DELETE|SETACL|SHOWACL|LIST) (?P<set>%(name)s)|(?P<catalog>CATALOG))'
    r' (?:(?P<done>DONE)(?: (?P<now>%(now)s))?(?: (?P<owner>BY owner))?|(?P<shown>RECORDS|ENTRIES|NAMES) (?P<count>%(n)s)(?: (?P<by>%(entry)s|BY owner))?'
    r'|(?<=CATALOG )(?P<named>SHOWN) (?P<name>%(name)s) (?P<granted>%(entry)s)'
    r'|(?P<denied>DENIED) (?P<why>%(entry)s|%(why)s)|(?P<unserved>REFUSED) (?P<code>%(code)s))' % _WORDS)
OF_RUN = re.compile(r'RUN (?P<job>0) (?P<account>\.NONE) (?:(?P<stopped>STOPPED)|(?P<refused>REFUSED) (?P<code>LINE %(n)s %(code)s))' % _WORDS)
# By the columns behind the number of the line, the parts that may stand in each; of some commands two stand in the last.
PARTS = {'job': ['job'], 'account': ['account'], 'event': ['loaded', 'refused', 'ended', 'act', 'card', 'catalog', 'stopped'], 'set': ['set', 'name'],
         'statement': ['statement'], 'unit': ['unit'], 'place': ['place'], 'answer': ['outcome', 'denied', 'done', 'shown', 'named', 'unserved'],
         'more': ['why', 'now', 'count', 'code', 'end', 'owner', 'by', 'granted']}
COLUMNS = Columns(('run', 'line', *PARTS), frozenset(('line', 'job', 'statement', 'unit', 'place')))


class Event(NamedTuple):
    """A row by its columns."""
    run: str
    line: str
    job: str
    account: str
    event: str
    set: str
    statement: str
    unit: str
    place: str
    answer: str
    more: str

    def is_denied(self) -> bool:
        return self.answer == 'DENIED'

    def changes_a_list(self) -> bool:
        return self.event in ON_A_LIST and self.answer == 'DONE'

    def enters(self) -> bool:
        """A job does, whether it is loaded or refused."""
        return self.is_of_a_job() and self.event in ('LOADED', 'REFUSED')

    def is_of_a_job(self) -> bool:
        return self.job != '0'

    def is_of_the_run(self) -> bool:
        return self.account == '.NONE'

    def is_of_a_command(self) -> bool:
        """Of one that was served or not; what a `$CATALOG` shows is told in lines behind its own."""
        return not self.is_of_a_job() and not self.is_of_the_run() and self.answer != 'SHOWN'


@functools.lru_cache(1 << 12)
def cells_of(line: str) -> Optional[Row]:
    """What a line says, by the columns behind its number; nothing where it is none that an audit has."""
    kind = line.split(' ', 1)[0]
    said = {'COMMAND': OF_COMMAND, 'RUN': OF_RUN}.get(kind, OF_JOB).fullmatch(line)
    if said is None:
        return None
    parts = said.groupdict('')
    return tuple([' '.join([parts[part] for part in some if parts.get(part)]) for some in PARTS.values()])


def of(column: str) -> int:
    """Where a row has the cell of this column."""
    return COLUMNS.names.index(column)


LINE, ACCOUNT, EVENT, SET, ANSWER, MORE = map(of, ('line', 'account', 'event', 'set', 'answer', 'more'))
Asked = Tuple[str, str, str, str, str]  # account, event, set, answer and more: what is left of a row where it does not matter when


def asked_of(row: Row) -> Asked:
    return row[ACCOUNT], row[EVENT], row[SET], row[ANSWER], row[MORE]
