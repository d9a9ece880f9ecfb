"""What the programs have in common that draw a picture of docs/ anew, or with --check say whether it is as they draw it."""
from __future__ import annotations

import os
import sys
from typing import List, Optional

TOP = os.path.join(os.path.dirname(os.path.realpath(__file__)), '..', '..')


def drawn(words: List[str], usage: Optional[str], name: str, picture: str, of: str) -> int:
    """The status of a call with these words; `picture` draws docs/pictures/NAME.svg, and `of` says what it is then."""
    if words not in ([], ['--check']):
        print(usage, file=sys.stderr)
        return 2
    path = os.path.join(TOP, 'docs', 'pictures', name + '.svg')
    if not words:
        with open(path, 'w', encoding='utf-8') as file:
            file.write(picture)
        return 0
    with open(path, encoding='utf-8') as file:
        same = file.read() == picture
    print(f'ok docs/pictures/{name}.svg is {of}' if same else f'FAILED docs/pictures/{name}.svg: run tools/docs/{name}')
    return 0 if same else 1
