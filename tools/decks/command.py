"""The words of `deck`, its messages and its exit statuses."""
from __future__ import annotations

import argparse
import os
import signal
import sys
from typing import Callable, Optional, Sequence

from . import acl, faults, history, join, join_audit, page, printed, questions, rounds, split, trial, usage
from .audits import audits_of
from .catalogue import MODES
from .cards import SLOTS_LIMIT
from .files import say, written
from .parts import PARTS_LIMIT
from .progress import told
from .real_files import read_map
from .text import Fault, Refused
from .version import VERSION
from .words import a_list, a_name, a_time, a_unit, number_of_job, up_to

STATUS_REFUSED, STATUS_WORDS, STATUS_FAULT = 1, 2, 3
ABOUT = ('Makes the next deck for snomon from what a run has printed, tells what failed in it and what was printed for whom, '
         'makes a deck of one program, cuts a deck into several, tells who did what by an audit, and makes a page of who may do what, or '
         'of who did.')
STATUSES = ('The status is 0; or 1 if a file is not what it should be, 2 if the words of the command are not, 3 if reading or '
            'writing fails. Then nothing was written, except to a pipe or device that broke.')
FAILED_STATUSES = ('The status is 0 if nothing failed; 1 if something did, or the output was cut off; 2 if the words of the '
                   'command are not what they should be, or OUTPUT is not, or reading or writing fails.')
NEW_LIST = 'user::rwx,group::---,other::---'


def main(words: Sequence[str]) -> int:
    for number in (signal.SIGTERM, signal.SIGHUP):
        signal.signal(number, _leave)  # so that what was begun is taken away
    try:
        options = _parsed(words)
        with told():
            return options.act(options) or 0
    except (Refused, Fault) as error:
        say(str(error))
        return STATUS_REFUSED if isinstance(error, Refused) else STATUS_FAULT
    except KeyboardInterrupt:
        return 128 + signal.SIGINT


def _parsed(words: Sequence[str]) -> argparse.Namespace:
    try:
        try:
            return _options().parse_args(words)
        finally:
            if sys.stdout is not None:
                sys.stdout.flush()  # the help, where it was asked for
    except OSError as error:
        os.dup2(os.open(os.devnull, os.O_WRONLY), 1)  # so that Python does not try once more at its end
        raise Fault(f'standard output: {error.strerror}') from error


def _leave(number: int, _frame: object) -> None:
    raise SystemExit(128 + number)


def _options() -> argparse.ArgumentParser:
    parser = argparse.ArgumentParser(prog='snomon-deck', description=ABOUT, epilog=STATUSES)
    parser.add_argument('--version', action='version', version=f'snomon-deck {VERSION}', help='tell the version and exit')
    kinds = parser.add_subparsers(metavar='COMMAND', required=True)

    def kind(name: str, act: Act, help_line: str, more: str = '', statuses: str = STATUSES) -> argparse.ArgumentParser:
        made = kinds.add_parser(name, help=help_line, description=f'{help_line[:1].upper()}{help_line[1:]}. {more}'.strip(),
                                epilog=statuses)
        made.set_defaults(act=act)
        return made

    _add_next(kind)
    _add_printed(kind)
    _add_sets(kind)
    _add_new(kind)
    _add_acl(kind)
    _add_try(kind)
    _add_split(kind)
    _add_audit(kind)
    _add_page(kind)
    _add_history(kind)
    return parser


Act = Callable[[argparse.Namespace], Optional[int]]
Kind = Callable[..., argparse.ArgumentParser]


def _add_next(kind: Kind) -> None:
    made = kind('next', _next, 'make the next deck of a run\'s output',
                'It has the accounts of one file, the output\'s catalogue as it stands, and the cards of another file. An '
                'output has a catalogue only where its run ended with the status 0. Each owner and each named user of a data '
                'set that is no account is told of on standard error.')
    _takes_output(made)
    made.add_argument('--accounts', required=True, metavar='FILE', help='the accounts, one a line')
    made.add_argument('--stream', required=True, metavar='FILE',
                      help='the commands and jobs; a $STOP may end them, with nothing behind it')
    made.add_argument('--strict', action='store_true',
                      help='make no deck where an owner or a named user is no account; the status is then 1')
    _gives(made, 'the deck')


def _add_printed(kind: Kind) -> None:
    made = kind('failed', _failed, 'list the jobs that did not end well, and the commands that were refused or denied',
                'A job is listed that was denied something, even if it ended normally, with its number, its account, what it was '
                'denied and how it ended.', FAILED_STATUSES)
    _takes_output(made)
    _gives(made, 'the list')
    made = kind('faults', _faults, 'tell on which line of its program each job failed, and why',
                'It reads an output, or a site\'s answer, beside what snomon-listing wrote of the deck, or with --text of the submission. Of '
                'each job that did not end normally, or was denied something, it gives the line of the file, the text of the statement, the '
                'function, keyword or label that is concerned, where the listing names one, and else what helps.', FAILED_STATUSES)
    _takes_output(made)
    made.add_argument('listing', metavar='LISTING', help='what snomon-listing has written of the same deck, without --quiet')
    _gives(made, 'what it tells')
    made = kind('printouts', _printouts, 'write what was printed before the catalogue',
                'Whose a printout is, its title says: the account of the job or command.')
    _takes_output(made)
    which = made.add_mutually_exclusive_group()
    which.add_argument('--job', type=number_of_job, metavar='N', help='only what the job of this number printed')
    which.add_argument('--account', type=a_name, metavar='NAME', help='only what was printed for this account')
    which.add_argument('--each', metavar='DIR',
                       help='write a file for each account into this folder, called as the account is. The folder is made if need '
                            'be; a file there of that name is replaced, and others stay. The files are named on standard output')
    made.set_defaults(refuse=made.error)
    _gives(made, 'the printouts', 'not with --each')


def _add_sets(kind: Kind) -> None:
    made = kind('get', _get, 'write the records of a data set, a line each')
    _takes_output(made)
    made.add_argument('set', type=a_name, metavar='SET', help='its name')
    _gives(made, 'the records')
    made = kind('put', _put, 'make the lines of a file the records of a data set',
                'All else is written as it was. A record has at most 1,024 characters, all of ASCII 32 to 126; a CR before '
                'the end of a line belongs to that end.')
    _takes_output(made)
    made.add_argument('set', type=a_name, metavar='SET', help='its name; it has to be there')
    made.add_argument('file', metavar='FILE', help='a text file')
    _gives(made, 'the whole output with that change', 'it may be OUTPUT itself')
    made = kind('names', _names, 'write the names of the data sets')
    _takes_output(made)
    made.add_argument('--long', action='store_true', help='also owner, group, mode in version 2, and number of records')
    _gives(made, 'the names')


def _add_new(kind: Kind) -> None:
    made = kind('new', _new, 'make a catalogue of a folder of text files',
                'Each file is a data set, which is called as the file is. The catalogue can be given to next as an output. '
                'Either --owner and --group are given, or --acl.')
    made.add_argument('folder', metavar='DIR', help='the folder, with nothing else in it')
    made.add_argument('--owner', type=a_name, metavar='ACCOUNT', help='the owner of each data set')
    made.add_argument('--group', type=a_name, metavar='GROUP', help='the group of each data set')
    made.add_argument('--list', type=a_list, metavar='LIST',
                      help='the permission list of each data set, in the short form; %s where it is not given' % NEW_LIST)
    made.add_argument('--acl', action='store_true',
                      help='give each data set the owner, the group and the permission list that its file has, and not those of the three words above')
    _maps(made)
    made.add_argument('--mode', choices=[os.fsdecode(mode) for mode in MODES], metavar='MODE',
                      help='the mode of each data set, SEQ or APPEND; the catalogue is then one of version 2')
    made.set_defaults(refuse=made.error)
    _gives(made, 'the catalogue')


def _add_acl(kind: Kind) -> None:
    made = kind('acl', _acl, 'take permission lists from real files, or give them back',
                'With --import it makes a catalogue with an empty data set for each file, that has the file\'s owner, group and list. With '
                '--export it writes what setfacl --restore takes. Folders, and their default: entries, are passed over; these are told, and '
                'so is a list with which Linux would grant more than acl(5) says.')
    which = made.add_mutually_exclusive_group(required=True)
    which.add_argument('--import', dest='folder', metavar='FOLDER', help='a folder with files; or a file that getfacl -R has written')
    which.add_argument('--export', dest='export', metavar='OUTPUT', help='what a run of snomon has written, or a catalogue')
    _maps(made)
    _gives(made, 'the catalogue', 'or what setfacl takes')


def _maps(parser: argparse.ArgumentParser) -> None:
    parser.add_argument('--map', metavar='FILE',
                        help='what users, groups and files are called here that have numbers or other names: lines "user 1001 lisa", '
                             '"group _ssh ssh", "file a/b PAYROLL"; "file a/c -" passes that file over')


def _add_try(kind: Kind) -> None:
    made = kind('try', _try, 'make a deck of one program, to try it',
                'It has one account, me, and no data set but those of --unit. Tabs become blanks, up to each eighth column, and a line that begins with '
                '$ gets another. What stands behind the program\'s END line is data. So: snomon-deck try PROGRAM | snomon, and, to '
                'see its mistakes, snomon-deck try PROGRAM | snomon-listing.')
    made.add_argument('program', metavar='PROGRAM', help='a file with a SNOBOL4 program')
    made.add_argument('data', nargs='?', metavar='DATA', help='a file with the lines that it reads')
    made.add_argument('--unit', dest='units', type=a_unit, action='append', default=[], metavar='N=FILE',
                      help='tie this unit, 1 to 99, to a data set UNITn that has the lines of the file, and is of mode SEQ; may be given for '
                           'several units. For a unit that the program writes give an empty file, as /dev/null: get OUTPUT UNITn then has what '
                           'it wrote')
    made.set_defaults(refuse=made.error)
    _gives(made, 'the deck')


def _add_split(kind: Kind) -> None:
    made = kind('split', _split, 'cut a deck into decks that share no data set',
                'DIR gets 1.deck, 2.deck and so on, and a file for join. Run each of them, with as many slots as here, into '
                '1.out, 2.out and so on, in any order or at once; then join. The decks are named on standard output. What is '
                'to be known of how it was cut is said on standard error, with the lines of the cards. If each submission in it ends with '
                'a $DRAIN card, snomon-parts does it, where that is installed.')
    made.add_argument('deck', metavar='DECK', help='a deck that snomon --check finds good')
    made.add_argument('folder', metavar='DIR', help='a folder for them: it is made if need be, and may have other files, but none '
                                                       'of another split')
    made.add_argument('--parts', type=up_to(PARTS_LIMIT), default=16, metavar='N',
                      help='how many decks at most, 1 to %s; %%(default)s where it is not given' % PARTS_LIMIT)
    made.add_argument('--slots', type=up_to(SLOTS_LIMIT), default=4, metavar='N',
                      help='with how many slots the decks will be run, 1 to 8; %(default)s where it is not given')
    made.add_argument('--ties', action='store_true',
                      help='say, too, which data sets several jobs have units for, and how many jobs each keeps in one deck')
    made = kind('join', _join, 'put together the outputs of the decks that split has made',
                'Jobs are numbered, and data sets stand, as in the output of the whole deck.')
    made.add_argument('folder', metavar='DIR', help='the folder that split filled, with an output for each deck')
    made.add_argument('--audit', action='store_true',
                      help='put together the audits 1.audit, 2.audit and so on, and not the outputs. What jobs of different decks did '
                           'between two cards may stand in another order')
    _gives(made, 'the output', 'or the audit')


def _add_audit(kind: Kind) -> None:
    made = kind('audit', _audit, 'list who did what, by the audits of runs',
                'Each line of an audit that all of the options want is a row; without them each is. Behind its number stand the '
                'job, 0 for a command, the account and the event; of what is asked of a unit also the data set, the statement, the '
                'unit and how many records stand before the place; then the answer, and by which entry, why, or what more. Of '
                'several audits each row begins with its run, which is called as its file is, without .audit.')
    made.add_argument('audits', nargs='+', metavar='AUDIT', help='what snomon --audit has written; or a folder with such files, NAME.audit')
    made.add_argument('--set', type=a_name, metavar='SET', help='only what was asked of the data set of this name')
    made.add_argument('--account', type=a_name, metavar='NAME', help='only what this account did, by its jobs and its commands')
    made.add_argument('--denied', action='store_true', help='only what was denied')
    made.add_argument('--lists', action='store_true',
                      help='only what changed a permission list: a $SETACL, $CREATE or $DELETE that is done')
    made.add_argument('--from', dest='first', type=number_of_job, metavar='N', help='from where this job is loaded or refused, of one run')
    made.add_argument('--to', dest='last', type=number_of_job, metavar='N', help='to where this job has ended or is refused, of one run')
    which = made.add_mutually_exclusive_group()
    which.add_argument('--unused', metavar='OUTPUT',
                       help='list instead the data sets of this output, or of a site\'s catalogue, of which nobody read or wrote a record; '
                            'with --account that account did not')
    which.add_argument('--could', metavar='REPORT',
                       help='list instead who could do more with a data set than they did, by what listing --access --csv has written: '
                            'account, set, what it could and what it did')
    form = made.add_mutually_exclusive_group()
    form.add_argument('--csv', dest='form', action='store_const', const='csv', default='table',
                      help='write comma-separated values and not a table; each row has its run')
    form.add_argument('--json', dest='form', action='store_const', const='json',
                      help='write a JSON list of objects, one a line; each has its run')
    made.set_defaults(refuse=made.error)
    _gives(made, 'the list')


def _add_history(kind: Kind) -> None:
    made = kind('history', _history, 'list what the ledger of a site tells: what was claimed, ran and changed, of whom and when',
                'It is for sites that keep a ledger, DIR/keep/ledger; one that has a folder of rounds keeps none, and audit is for that. '
                'Each commit has to name the SHA-256 of the one before it: the file of one that does not is told, and nothing is listed. A row has '
                'the commit, the UTC time, the number of the submission and its account, or the operator, and what happened. It is one for each '
                'submission that was claimed, refused, run or dropped; for each data set that is new, changed or gone, with what it was; for each '
                'line of the operator\'s tables that is new or gone; and for what a submission\'s jobs and commands asked for, with how often.')
    made.add_argument('folder', metavar='DIR', help='the folder of the site')
    made.add_argument('--since', type=a_time, metavar='TIME', help='only from this UTC time on: 2026-11-27, or 2026-11-27T08:30:00')
    made.add_argument('--until', type=a_time, metavar='TIME', help='only what was before this UTC time')
    made.add_argument('--account', type=a_name, metavar='NAME', help='only what this account did, and lines of tables that are of it')
    made.add_argument('--set', type=a_name, metavar='SET', help='only what was asked of the data set of this name, and its changes')
    made.add_argument('--denied', action='store_true', help='only what was denied, and submissions that were refused or dropped')
    form = made.add_mutually_exclusive_group()
    form.add_argument('--csv', dest='form', action='store_const', const='csv', default='table', help='write comma-separated values and not a table')
    form.add_argument('--json', dest='form', action='store_const', const='json', help='write a JSON list of objects, one a line')
    form.add_argument('--sqlite', metavar='FILE',
                      help='list nothing, and write all into this database for sqlite3: it is made, or gets the commits that it does not have '
                           'yet. Its .schema says what its tables have')
    made.set_defaults(refuse=made.error)
    _gives(made, 'the list')


def _add_page(kind: Kind) -> None:
    made = kind('page', _page, 'make a page of HTML of who may do what, or of who did what',
                'Of who may do what it has a row for each data set and a column for each account. Of audits it has what was denied, '
                'a table of letters, totals and the runs. It stands alone: no script, and nothing from outside.')
    made.add_argument('reports', nargs='+', metavar='REPORT',
                      help='what listing --access --csv has written, with the status 0; or audits, as for audit')
    _gives(made, 'the page')


def _takes_output(parser: argparse.ArgumentParser) -> None:
    parser.add_argument('output', metavar='OUTPUT', help='what a run of snomon has written')


def _gives(parser: argparse.ArgumentParser, what: str, more: str = '') -> None:
    parser.add_argument('-o', '--output', dest='target', metavar='FILE',
                        help=f'write {what} to this file, whole or not at all, and not to standard output'
                             + (f'; {more}' if more else ''))


def _next(options: argparse.Namespace) -> None:
    with written(options.target) as file:
        missing = rounds.next_deck(options.output, options.accounts, options.stream, file)
        for told in missing:
            say(told)
        if missing and options.strict:
            raise Refused(f'{options.accounts}: accounts are missing, so there is no next deck (--strict)')


def _failed(options: argparse.Namespace) -> int:
    try:
        with written(options.target) as file:
            is_any, cut = printed.failed(options.output, file)
    except (Refused, Fault) as error:
        say(str(error))
        return STATUS_WORDS
    if cut is not None:
        say(str(cut))
        say(f'{options.output}: its run ended early, or was not written to the end; what it did is not kept')
    return STATUS_REFUSED if is_any or cut is not None else 0


def _faults(options: argparse.Namespace) -> int:
    try:
        with written(options.target) as file:
            is_any = faults.faults(options.output, options.listing, file)
    except (Refused, Fault) as error:
        say(str(error))
        return STATUS_WORDS
    return STATUS_REFUSED if is_any else 0


def _get(options: argparse.Namespace) -> None:
    with written(options.target) as file:
        rounds.get_records(options.output, options.set, file)


def _put(options: argparse.Namespace) -> None:
    with written(options.target) as file:
        rounds.put_records(options.output, options.set, options.file, file)


def _names(options: argparse.Namespace) -> None:
    with written(options.target) as file:
        rounds.names(options.output, options.long, file)


def _printouts(options: argparse.Namespace) -> None:
    if options.each is not None and options.target is not None:
        options.refuse('-o is not allowed with --each')
    paths = None if options.each is None else printed.printouts_of_each(options.output, options.each)
    with written(options.target) as file:
        if paths is None:
            printed.printouts(options.output, options.job, options.account, file)
        else:
            file.write(_a_line_each(paths))


def _new(options: argparse.Namespace) -> None:
    given = [options.owner, options.group, options.list]
    if options.acl and any(given):
        options.refuse('--owner, --group and --list are not allowed with --acl')
    if not options.acl and (options.owner is None or options.group is None or options.map is not None):
        options.refuse('--owner and --group are required without --acl, and --map is not allowed')
    mode = None if options.mode is None else os.fsencode(options.mode)
    if options.acl:
        names = read_map(options.map)

        def common(path: str, name: bytes) -> rounds.NewSet:
            data_set, permissions = acl.named_file(path, name, names, say)
            return rounds.NewSet(data_set.name, data_set.owner, data_set.group, permissions)
    else:
        permissions = options.list or os.fsencode(NEW_LIST)

        def common(path: str, name: bytes) -> rounds.NewSet:
            return rounds.NewSet(name, options.owner, options.group, permissions)
    with written(options.target) as file:
        rounds.new_catalogue(options.folder, common, mode, file)


def _acl(options: argparse.Namespace) -> None:
    names = read_map(options.map)
    with written(options.target) as file:
        if options.folder is not None:
            acl.import_lists(options.folder, names, say, file)
        else:
            acl.export_lists(options.export, names, file)


def _try(options: argparse.Namespace) -> None:
    if len({unit for unit, _ in options.units}) < len(options.units):
        options.refuse('--unit names a unit twice')
    with written(options.target) as file:
        trial.deck_of_program(options.program, options.data, options.units, file)


def _split(options: argparse.Namespace) -> None:
    decks, notes = split.split_deck(options.deck, options.folder, options.parts, options.slots, options.ties)
    for note in notes:
        say(note)
    with written(None) as file:
        file.write(_a_line_each(decks))


def _a_line_each(paths: Sequence[str]) -> bytes:
    return b''.join(os.fsencode(path) + b'\n' for path in paths)


def _join(options: argparse.Namespace) -> None:
    with written(options.target) as file:
        (join_audit.join_audits if options.audit else join.join_outputs)(options.folder, file)


def _audit(options: argparse.Namespace) -> None:
    asks_of_lines = options.denied or options.lists or options.first is not None or options.last is not None
    if options.first is not None and options.last is not None and options.first > options.last:
        options.refuse('--to is an earlier job than --from')
    if asks_of_lines and (options.unused is not None or options.could is not None):
        options.refuse('--unused and --could list no lines: only --set and --account are allowed with them')
    audits = audits_of(options.audits)
    if len(audits) > 1 and (options.first is not None or options.last is not None):
        options.refuse('--from and --to are jobs of one run, and there are several audits')
    names = [None if name is None else os.fsdecode(name) for name in (options.set, options.account)]
    question = questions.Question(names[0], names[1], options.denied, options.lists, options.first, options.last)
    with written(options.target) as file:
        if options.unused is not None:
            usage.write_unused(options.unused, audits, question, options.form, file)
        elif options.could is not None:
            usage.write_could(options.could, audits, question, options.form, file)
        else:
            questions.answered(audits, question, options.form, file)


def _history(options: argparse.Namespace) -> None:
    names = [None if name is None else os.fsdecode(name) for name in (options.account, options.set)]
    question = history.Question(options.since, options.until, names[0], names[1], options.denied)
    if options.sqlite is None:
        with written(options.target) as file:
            history.write_history(options.folder, question, options.form, file)
        return
    if question != history.Question() or options.target is not None:
        options.refuse('--since, --until, --account, --set, --denied and -o are not allowed with --sqlite, which takes all')
    from . import history_base  # here, since a Python without sqlite3 can do all else
    history_base.write_base(options.folder, options.sqlite)


def _page(options: argparse.Namespace) -> None:
    with written(options.target) as file:
        page.page_of(options.reports, file)
