"""Decks whose data sets are as full as may be: what a program prints of them.

python3 full_decks.py PROGRAM

They and their outputs are worked out by hand, but too long to be kept as cases of crates/rows."""
from __future__ import annotations

import subprocess
import sys
from typing import List, Tuple

Lines = List[str]
FULL = 100000
PAYROLL = ['user::rwx,user:lisa:rw-,group::r--,mask::r--,other::---', 'ADA 100', 'BOB 200', '']


def records(count: int) -> Lines:
    """A list, and so many records."""
    return ['user::rwx,group::---,other::---'] + ['R%d' % n for n in range(1, count + 1)]


def one_more_record() -> Tuple[Lines, Lines]:
    """All records are read, so that the write would be one too many: nothing changes."""
    payroll, big = PAYROLL, records(FULL)
    sets = ['$SET PAYROLL anna admin 3'] + payroll + ['$SET BIG anna admin %d' % FULL] + big
    left = ['$SET PAYROLL anna admin SEQ 3'] + payroll + ['$SET BIG anna admin SEQ %d' % FULL] + big
    deck = ['$ACCOUNTS', 'anna admin', 'lisa staff', 'hugo ops staff', '$CATALOGUE'] + sets + [
        '$STREAM', '$JOB anna ST=200000', '$UNIT 8 BIG',
        "  INPUT('R',8); OUTPUT('W',8)",    # statements 1 and 2
        'L X = R :S(L)',                    # 3, which begins once for each record and once at their end
        "  W = 'Z'",                        # 4
        'END', '$EOJ', '$STOP']
    return deck, ['JOB 1 anna', 'FULL STATEMENT 4 WRITE BIG', 'END NORMAL AFTER %d' % (FULL + 4), '$CATALOGUE 2'] + left


def each_set_for_itself() -> Tuple[Lines, Lines]:
    """Beside a set that is full, one takes its last record and no further, and is cut by a write at its beginning."""
    one = ['$SET ONE anna admin SEQ %d' % FULL] + records(FULL)
    two = ['$SET TWO anna admin SEQ %d' % (FULL - 1)] + records(FULL - 1)
    deck = ['$ACCOUNTS', 'anna admin', '$CATALOGUE 2'] + one + two + [
        '$STREAM', '$JOB anna ST=200000', '$UNIT 8 TWO', '$UNIT 9 TWO',
        "  OUTPUT('W',8); INPUT('R',9); OUTPUT('V',9)",     # statements 1 to 3
        'L X = R :S(L)',                                    # 4, once for each record and once at their end
        "  V = 'LAST'",                                     # 5
        "  V = 'MORE' :S(N)",                               # 6, which finds the set full
        "  W = 'FIRST'",                                    # 7, at the position of unit 8
        'N', 'END', '$EOJ', '$STOP']                        # 8
    return deck, ['JOB 1 anna', 'FULL STATEMENT 6 WRITE TWO', 'END NORMAL AFTER %d' % (FULL + 7), '$CATALOGUE 2'] + one + [
        '$SET TWO anna admin SEQ 1', records(0)[0], 'FIRST']


def a_log_that_is_full() -> Tuple[Lines, Lines]:
    """A set of mode APPEND takes its last record and no further, wherever a unit stands: at its beginning, or behind a read."""
    log = records(FULL - 1)    # its list, and then its records
    deck = ['$ACCOUNTS', 'anna admin', '$CATALOGUE 2', '$SET LOG anna admin APPEND %d' % (FULL - 1)] + log + [
        '$STREAM', '$JOB anna', '$UNIT 8 LOG',
        "  OUTPUT('W',8); INPUT('R',8)",    # statements 1 and 2
        "  W = 'LAST'",                     # 3, at position 0, which stays
        "  W = 'MORE'",                     # 4, which finds the set full
        '  OUTPUT = R',                     # 5, which reads the first record
        "  W = 'MORE'",                     # 6, which finds it full behind the read, too
        'END', '$EOJ', '$STOP']
    return deck, ['JOB 1 anna', ' ' + log[1], 'FULL STATEMENT 4 WRITE LOG', 'FULL STATEMENT 6 WRITE LOG', 'END NORMAL AFTER 6',
                  '$CATALOGUE 2', '$SET LOG anna admin APPEND %d' % FULL] + log + ['LAST']


def text_of(lines: Lines) -> bytes:
    return ''.join(line + '\n' for line in lines).encode()


def main() -> None:
    failed = False
    cases = one_more_record, each_set_for_itself, a_log_that_is_full
    for case in cases:
        deck, wanted = map(text_of, case())
        got = subprocess.run([sys.argv[1]], input=deck, capture_output=True, timeout=60)
        if (got.stdout, got.stderr, got.returncode) != (wanted, b'', 0):
            failed = True
            print('DIFFERENT', case.__name__)
    print('%d decks of %d records in a set' % (len(cases), FULL))
    sys.exit(1 if failed else 0)


if __name__ == '__main__':
    main()
