"""What `acl` does, and `new --acl`: permission lists of real files as those of data sets, and back."""
from __future__ import annotations

import os
from typing import BinaryIO, List, Set, Tuple

from .catalogue import SETS_LIMIT, DataSet, heading
from .files import opened
from .lists import canonical
from .real_files import Map, RealFile, Say, deviation, escaped, files_of, list_of, real_file
from .rounds import at_its_catalogue
from .text import Refused, text_of


def import_lists(path: str, names: Map, tell: Say, catalogue: BinaryIO) -> None:
    """A catalogue with an empty data set for each of the files, that has the file's owner, group and list."""
    sets: Set[bytes] = set()
    catalogue.write(text_of([heading(1)]))
    for real in files_of(path, names, tell):
        data_set, permissions = named(real, names, tell)
        if data_set.name in sets:
            raise Refused(f'{real.told}: a file before this one is called {os.fsdecode(data_set.name)} too; a line of --map gives it another name')
        if len(sets) == SETS_LIMIT:
            raise Refused(f'{path}: it has more files than the {SETS_LIMIT:,} data sets that there may be')
        sets.add(data_set.name)
        catalogue.write(text_of([data_set.card(), permissions]))


def named(real: RealFile, names: Map, tell: Say) -> Tuple[DataSet, bytes]:
    """The empty data set of a file, and its list."""
    name = names.name(real.told, b'file', real.path)
    owner, group = names.name(real.told, b'user', real.owner), names.name(real.told, b'group', real.group)
    told = deviation(real)
    if told is not None:
        tell(told)
    return DataSet(0, name, owner, group, None, 0), list_of(real, names)


def named_file(path: str, name: bytes, names: Map, tell: Say) -> Tuple[DataSet, bytes]:
    """That of the file at a path, which is called so."""
    return named(real_file(os.fsencode(path), name), names, tell)


def export_lists(output: str, names: Map, listing: BinaryIO) -> None:
    """What `setfacl --restore` takes, of each data set of a catalogue."""
    with opened(output) as file:
        for found in at_its_catalogue(output, file).data_sets():
            data_set = found.data_set
            lines: List[bytes] = [b'# file: ' + escaped(names.origin(b'file', data_set.name)),
                                  b'# owner: ' + escaped(names.origin(b'user', data_set.owner)),
                                  b'# group: ' + escaped(names.origin(b'group', data_set.group))]
            for entry in canonical(found.permissions).split(b','):
                tag, name, permissions = entry.split(b':')
                lines.append(b':'.join([tag, escaped(names.origin(tag, name)) if name else b'', permissions]))
            listing.write(text_of([*lines, b'']))
