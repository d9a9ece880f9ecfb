"""What bench/counts and bench/instructions share: how many instructions a run takes, and in which functions, by cachegrind.

Every deck of decks.py and job_decks.py, by its name and its size. Some decks of tables take a few instructions more or fewer from run
to run, since a seed is drawn for each."""

from __future__ import annotations

import functools
import os
import re
import shutil
import subprocess
import sys
import tempfile
from typing import Callable, Dict, Iterable, List, Optional, Tuple

sys.dont_write_bytecode = True  # the repository has no folder for it
import decks
import job_decks

HERE = os.path.dirname(os.path.realpath(__file__))
TOP = os.path.dirname(HERE)
CASES: Dict[str, Optional[Callable[[float], Iterable[str]]]] = {**{case: None for case in decks.CASES}, **job_decks.CASES}


def write_deck(case: str, size: float, path: str) -> None:
    """The deck of a case: 1 is its whole size."""
    with open(path, 'w', encoding='ascii') as file:
        if case in job_decks.CASES:
            file.write(job_decks.deck(case, size))
        else:
            decks.write_deck(case, size * 2, file)


def valgrind() -> bool:
    """Whether there is one."""
    return shutil.which('valgrind') is not None


def program_to_measure() -> str:
    """What SNOMON names, or ./run would run."""
    if 'SNOMON' in os.environ:
        return os.environ['SNOMON']
    asked = subprocess.run([f'{TOP}/tools/proved', '--path', 'snomon'], stdout=subprocess.PIPE, text=True)
    return asked.stdout.strip() or sys.exit('there is no snomon to measure')


def plain_program(folder: str) -> Optional[str]:
    """Builds the plain program, plain/baseline.rs with its jobs, where rustc is there."""
    if not shutil.which('rustc'):
        return None
    program = f'{folder}/plain'
    subprocess.run(['rustc', '--edition', '2021', '-O', '-g', '-o', program, f'{HERE}/plain/baseline.rs'], check=True)
    return program


class Counted:
    """Of a run: its instructions, those of each function, and what it wrote."""

    def __init__(self, table: str, output: bytes) -> None:
        self.output, function = output, ''
        self.functions: Dict[str, int] = {}
        for line in table.splitlines():
            if line.startswith('fn='):
                function = line[3:]
            elif line[:1].isdigit():
                self.functions[function] = self.functions.get(function, 0) + int(line.split()[1])
        self.total = sum(self.functions.values())

    @functools.cached_property
    def own(self) -> int:
        """Those of the program's own functions: what the C library and its loader take differs from machine to machine."""
        return sum(count for name, count in self.functions.items() if '::' in name or name.startswith('rattle_'))

    def dearest(self, most: int) -> List[Tuple[str, float]]:
        """(a function, its share in 100) of those that take the most."""
        ordered = sorted(self.functions.items(), key=lambda item: -item[1])[:most]
        return [(re.sub(r'::<.*', '', name), 100 * count / self.total) for name, count in ordered]


def counted(program: str, deck: str) -> Counted:
    """A run on a deck; the status of valgrind, where it or the program failed, is an error."""
    with tempfile.TemporaryDirectory() as folder, open(deck, 'rb') as file:
        table = f'{folder}/counts'
        words = ['valgrind', '--tool=cachegrind', '--cache-sim=no', f'--cachegrind-out-file={table}', program]
        ran = subprocess.run(words, stdin=file, capture_output=True, check=True)
        with open(table, encoding='ascii', errors='replace') as counts:
            return Counted(counts.read(), ran.stdout)


def megabytes(program: str, deck: str) -> float:
    """The most memory of a run that was resident. A child of this process would be charged with Python's, so time asks."""
    with open(deck, 'rb') as file:
        words = ['/usr/bin/time', '-f', '%M', program]
        ran = subprocess.run(words, stdin=file, stdout=subprocess.DEVNULL, stderr=subprocess.PIPE, check=True)
    return int(ran.stderr.split()[-1]) * 1024 / 1e6
