"""Words of the command line: what they have to be."""
from __future__ import annotations

import argparse
import datetime
import os
import re
from typing import Callable, Tuple

from .lists import BadList, canonical
from .text import is_name

UNITS_LIMIT = 99


def a_name(word: str) -> bytes:
    if not is_name(os.fsencode(word)):
        raise argparse.ArgumentTypeError(f'{word!r} is no name')
    return os.fsencode(word)


def a_list(word: str) -> bytes:
    try:
        return canonical(os.fsencode(word))
    except BadList as fault:
        raise argparse.ArgumentTypeError(str(fault)) from fault


def number_of_job(word: str) -> int:
    if not (word.isascii() and word.isdigit()):
        raise argparse.ArgumentTypeError(f'{word!r} is no number of a job')
    return int(word)


def a_time(word: str) -> str:
    """A time of UTC, as records of a ledger have it: of a day alone its beginning."""
    found = re.fullmatch(r'([0-9]{4}-[0-9]{2}-[0-9]{2})(?:T([0-9]{2}:[0-9]{2})(:[0-9]{2})?Z?)?', word)
    try:
        if found is not None:
            return datetime.datetime.fromisoformat(f'{found[1]}T{found[2] or "00:00"}{found[3] or ":00"}').isoformat() + 'Z'
    except ValueError:
        pass  # there is no such day, or hour
    raise argparse.ArgumentTypeError(f'{word!r} is no time: 2026-11-27, or 2026-11-27T08:30:00')


def a_unit(word: str) -> Tuple[int, str]:
    """A unit's number, and the file with its lines."""
    number, equals, path = word.partition('=')
    if not (equals and path and number.isascii() and number.isdigit() and 1 <= int(number) <= UNITS_LIMIT):
        raise argparse.ArgumentTypeError(f'{word!r} is not N=FILE, with N from 1 to {UNITS_LIMIT}')
    return int(number), path


def up_to(most: int) -> Callable[[str], int]:
    def number(word: str) -> int:
        if not (word.isascii() and word.isdigit() and 1 <= int(word) <= most):
            raise argparse.ArgumentTypeError(f'{word!r} is not 1 to {most}')
        return int(word)
    return number
