"""The command `couplingnut`: its subcommands, their options and their ends."""
from __future__ import annotations

import argparse
import os
import sys
from typing import Callable, Dict, List, NoReturn, Optional, Tuple, Union

from . import ends, follow, neighbours, output, report, site
from .captures import RAW_END, STANDARD_INPUT, Wish, rate_of, read_captures
from .htmlpage import html_page
from .jsonpage import json_page
from .lines import CALLED, LINES
from .parts import chip_of
from .textpage import text_page
from .unit import read_unit

PAGES: Dict[str, Callable[[Union[report.Judged, report.Refused]], str]] = {'text': text_page, 'json': json_page, 'html': html_page}
ENDINGS = {'.txt': 'text', '.json': 'json', '.html': 'html', '.htm': 'html'}
# The programs of today under one roof, by their subcommands.
TOOLS = {'read': ('busread', 'say what passed on the lines, record by record'),
         'send': ('bussend', 'make the samples of a run or of a whole setup'),
         'map': ('mkmap', 'make a register map from a table, and back')}
BETWEEN = '\n' + '=' * 110 + '\n\n'  # two pages of text
STATUSES = 'Status: 0 ready to sign, 1 not ready, 2 refused or a wrong command, 3 input or output failed.'


def _add_lines(parser: argparse.ArgumentParser) -> None:
    """The options that say where the lines are."""
    group = parser.add_argument_group('the lines of the capture, by the names of its channels')
    for line in LINES:
        group.add_argument(f'--{line}', metavar='NAME', action='append' if line == 'csb' else 'store',
                           help=f'the channel of the {CALLED[line]} line; else it is found by a usual name')


def _add_selects(parser: argparse.ArgumentParser) -> None:
    """What --csb means where it may be given for each of several chips."""
    parser.add_argument_group('several chips of the same table in one capture', '--csb NAME for each select, up to eight: a page a chip, '
                              'named after its select. With -o they go into that folder, with an index; else they follow one another as '
                              'text, or with --json as a line each. The status is the highest of theirs.')


def _add_part(parser: argparse.ArgumentParser) -> None:
    """The options that name an older chip."""
    parser.add_argument('--part', metavar='NAME', help='the unit\'s chip is an older one: AD9557 or AD9508')
    parser.add_argument('--top', metavar='ADDRESS', help='the highest address that the part has, hexadecimal: it has to be the last one of '
                        'the table or map')


def _report_parser(commands) -> None:
    parser = commands.add_parser(
        'report', allow_abbrev=False, help='say whether a unit may be signed out, and why not', epilog=STATUSES,
        description='Reads the capture of a unit\'s set-up by the proved library and makes a page: the verdict, what needs attention, '
        'and every register that was written.',
        usage='couplingnut report [OPTION..] UNIT.txt CAPTURE\n       couplingnut report [OPTION..] --all FOLDER [UNIT.txt] [-o SITE]\n'
        '       couplingnut report [OPTION..] --csb NAME --csb NAME .. UNIT.txt CAPTURE [-o FOLDER]')
    parser.add_argument('unit_table', nargs='?', metavar='UNIT.txt', help='the table of the unit: mkmap\'s, with names and wanted values')
    parser.add_argument('capture', nargs='?', metavar='CAPTURE',
                        help=f'a capture that sigrok reads, or raw samples ({RAW_END}, or - for standard input)')
    parser.add_argument('-o', dest='out', metavar='FILE', help='write the page here; its ending says which page. With --all, or --csb for '
                        'several chips: the folder')
    pages = parser.add_mutually_exclusive_group()
    for page in PAGES:
        pages.add_argument(f'--{page}', dest='page', action='store_const', const=page, help=f'make the page as {page}')
    parser.add_argument('--all', metavar='FOLDER', help='a page for every recording of a folder, and an index of them')
    parser.add_argument('-j', dest='jobs', type=_count, default=1, metavar='N', help='with --all: so many at a time')
    parser.add_argument('--unit', metavar='NAME', help='the unit\'s name; else that of the table\'s file')
    parser.add_argument('--date', metavar='DATE', help='when it was recorded; else a field to fill in')
    parser.add_argument('--technician', metavar='NAME', help='who recorded it; else a field to fill in')
    parser.add_argument('--rate', type=_rate, metavar='HZ', help='samples a second, where the capture does not say')
    parser.add_argument('--format', dest='form', metavar='FORMAT', help='the input format for sigrok-cli, as its -I takes it')
    parser.add_argument('--flags', type=_flags, metavar='FLAGS', help='the flag byte of the unit\'s map, as mkmap takes it')
    _add_part(parser)
    _add_lines(parser)
    _add_selects(parser)
    parser.set_defaults(run=_report)


def _follow_parser() -> argparse.ArgumentParser:
    parser = argparse.ArgumentParser(
        prog='couplingnut read --follow', allow_abbrev=False,
        description='Prints each record as soon as its last sample has come.', usage='couplingnut read --follow [OPTION..] MAP [SAMPLES]')
    parser.add_argument('map', metavar='MAP', help='the map, as mkmap makes it')
    parser.add_argument('samples', nargs='?', default=STANDARD_INPUT, metavar='SAMPLES', help='raw samples; - is standard input')
    _add_part(parser)
    _add_lines(parser)
    return parser


def _count(text: str) -> int:
    if not text.isdecimal() or not 1 <= int(text) <= 64:
        raise argparse.ArgumentTypeError(f'"{text}" is no number from 1 to 64')
    return int(text)


def _rate(text: str) -> Optional[int]:
    try:
        rate = rate_of(text)
    except ValueError as error:
        raise argparse.ArgumentTypeError(str(error)) from None
    if rate is None:
        raise argparse.ArgumentTypeError('a rate is above 0')
    return rate


def _flags(text: str) -> int:
    mkmap = neighbours.mkmap()
    try:
        return mkmap.hex_number(text, mkmap.MOST_FLAGS, 'flags')
    except mkmap.Bad as bad:
        raise argparse.ArgumentTypeError(str(bad)) from None


def _selects(words: argparse.Namespace) -> Tuple[str, ...]:
    """The selects of several chips; none where there is one chip."""
    return tuple(words.csb) if len(words.csb or []) > 1 else ()


def _named(words: argparse.Namespace) -> Dict[str, Optional[str]]:
    """The lines that the user has named; of several selects none is the one."""
    select = words.csb[0] if words.csb and not _selects(words) else None
    return {line: select if line == 'csb' else getattr(words, line) or None for line in LINES}


def _wish(words: argparse.Namespace) -> Wish:
    return Wish(_named(words), words.rate, words.form, _selects(words))


def _page_of(words: argparse.Namespace) -> str:
    """Which page is asked for: by option, by the file's ending, or text for a terminal and HTML for a file."""
    if words.page:
        return words.page
    if words.out in (None, STANDARD_INPUT):
        return 'text'
    return ENDINGS.get(os.path.splitext(words.out)[1].lower(), 'html')


def _check(words: argparse.Namespace) -> None:
    """What is wrong with a report's command line as a whole."""
    if words.all is not None:
        if words.capture is not None:
            raise ends.Wrong('with --all there is no CAPTURE: the folder has them')
        if words.out is None and words.page != 'json':
            raise ends.Wrong('--all writes pages into a folder: name it with -o SITE, or ask for --json')
    elif words.unit_table is None or words.capture is None:
        raise ends.Wrong('name the unit\'s table and a capture: couplingnut report UNIT.txt CAPTURE')
    for given in (words.unit_table, words.capture):
        if words.out and given and os.path.exists(words.out) and os.path.exists(given) and os.path.samefile(words.out, given):
            raise ends.Wrong(f'-o names {given}, which is to be read')


def _check_selects(words: argparse.Namespace) -> None:
    """What is wrong with a command line that names several selects."""
    if words.part is not None:
        raise ends.Wrong('several selects are read together by the rules of the newer chips: with --part make a report for each --csb')
    if words.all is not None:
        return
    if words.out not in (None, STANDARD_INPUT) and os.path.splitext(words.out)[1].lower() in ENDINGS:
        raise ends.Wrong(f'several selects make a page each: -o names the folder for them, and {words.out} is the name of one page')
    if words.out in (None, STANDARD_INPUT) and words.page == 'html':
        raise ends.Wrong('several selects make a page each: name the folder for them with -o FOLDER')


def _report(words: argparse.Namespace) -> int:
    _check(words)
    if _selects(words):
        _check_selects(words)
    wish, filled, chip = _wish(words), report.Filled(words.date, words.technician), chip_of(words.part, words.top, words.flags)
    to_output = words.page == 'json'
    if words.all is not None:
        return site.make_site(site.Folder(words.all, words.unit_table, words.out, words.jobs, to_output, wish, filled, chip))
    if wish.selects and words.out not in (None, STANDARD_INPUT):
        folder, file = os.path.split(words.capture)
        return site.make_chips(site.Folder(folder, words.unit_table, words.out, 1, to_output, wish, filled, chip), file, words.unit or '')
    unit = read_unit(words.unit_table, words.unit, chip)
    made = report.make_all(unit, read_captures(words.capture, wish), filled)
    page = _page_of(words)
    content = (BETWEEN if page == 'text' else '').join(PAGES[page](one) for one in made)
    if words.out in (None, STANDARD_INPUT):
        output.write_out(content)
    else:
        output.write_file(words.out, content)
    return max(one.status() for one in made)


def _tool(name: str, words: List[str]) -> NoReturn:
    """Becomes one of the programs of today."""
    program = TOOLS[name][0]
    path = neighbours.tool(program)
    sys.stdout.flush()
    try:
        os.execv(path, [program, *words])
    except OSError as error:
        raise ends.Unreadable(f'{path}: {error.strerror}') from None


def _read_or_follow(words: List[str]) -> int:
    """`couplingnut read`: busread, or following a live acquisition, which is done here."""
    if '--follow' not in words:
        if '--help' in words:
            _follow_parser().print_help()
            print('\nWithout --follow it is busread:\n', flush=True)
        _tool('read', words)
    asked = _follow_parser().parse_args([word for word in words if word != '--follow'])
    if _selects(asked):
        raise ends.Wrong('--csb is given more than once: read --follow reads one chip; `couplingnut report` reads several')
    return follow.follow(asked.map, asked.samples, _named(asked), chip_of(asked.part, asked.top))


def _parser() -> argparse.ArgumentParser:
    parser = argparse.ArgumentParser(
        prog='couplingnut', allow_abbrev=False, epilog=STATUSES,
        description='Reads what passed on a chip\'s serial control interface, and says which settings it now has.')
    parser.add_argument('--version', action='version', version=f'couplingnut {neighbours.version()}')
    commands = parser.add_subparsers(dest='command', metavar='COMMAND', required=True)
    _report_parser(commands)
    for name, (program, words) in TOOLS.items():
        commands.add_parser(name, help=f'{words} (the program {program})', add_help=False)
    return parser


def _run(words: List[str]) -> int:
    if words[:1] == ['read']:
        return _read_or_follow(words[1:])
    if words[:1] and words[0] in TOOLS:
        _tool(words[0], words[1:])
    asked = _parser().parse_args(words)
    return asked.run(asked)


def main() -> int:
    """Runs the command line; what ends it is told on standard error, and never as a traceback of a known end."""
    try:
        return _run(sys.argv[1:])
    except ends.End as end:
        for line in str(end).split('\n'):
            print(f'couplingnut: {line}', file=sys.stderr)
        return end.status
    except KeyboardInterrupt:
        print('couplingnut: stopped', file=sys.stderr)
        return ends.FAILED
    except MemoryError:
        print('couplingnut: the capture is too large for this machine\'s memory', file=sys.stderr)
        return ends.FAILED
