#!/usr/bin/env python3
"""worked_decks.py PROGRAM CASES: runs a program, as it is started at the shell, on each worked deck of that folder, on a native
stack of 1 MiB, and compares output, standard error and status, and the audit where one is stored beside them. Prints what differs;
the status is 1 where something does."""
from __future__ import annotations

import multiprocessing.pool
import os
import resource
import subprocess
import sys
import tempfile
from typing import Optional, TypeVar, Union

Other = TypeVar('Other')
STACK = 1 << 20
SECONDS = 120


def of_case(folder: str, name: str, otherwise: Other) -> Union[bytes, Other]:
    path = os.path.join(folder, name)
    if not os.path.exists(path):
        return otherwise
    with open(path, 'rb') as file:
        return file.read()


def runs(program: str, folder: str) -> Optional[str]:
    """What differs from the case, or None."""
    words = of_case(folder, 'args', b'').decode().split()
    audit = of_case(folder, 'audit', None)
    with tempfile.NamedTemporaryFile() as seen, open(os.path.join(folder, 'deck'), 'rb') as deck:
        if audit is not None:
            words += ['--audit', seen.name]
        try:
            done = subprocess.run([program, *words], stdin=deck, capture_output=True, timeout=SECONDS)
        except subprocess.TimeoutExpired:
            return f'{folder}: not ended after {SECONDS} seconds'
        if audit is not None and seen.read() != audit:
            return f'{folder}: another audit'
    wanted = of_case(folder, 'stdout', b''), of_case(folder, 'stderr', b''), int(of_case(folder, 'status', b'0'))
    differs = [part for part, one, other in zip(('output', 'standard error', 'status'), (done.stdout, done.stderr, done.returncode), wanted) if one != other]
    return f'{folder}: another {" and ".join(differs)}' if differs else None


def main() -> int:
    program, cases = os.path.abspath(sys.argv[1]), sys.argv[2]
    resource.setrlimit(resource.RLIMIT_STACK, (STACK, STACK))
    folders = sorted(entry.path for entry in os.scandir(cases) if entry.is_dir())
    with multiprocessing.pool.ThreadPool(len(os.sched_getaffinity(0))) as pool:
        different = [said for said in pool.imap(lambda folder: runs(program, folder), folders) if said]
    print('\n'.join([*different, f'{len(folders)} decks, {len(different)} different']))
    return 1 if different or not folders else 0


if __name__ == '__main__':
    sys.exit(main())
