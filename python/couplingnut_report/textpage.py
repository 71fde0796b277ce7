"""The report as plain text: the verdict in the first line, the first reason in the second."""
from __future__ import annotations

import textwrap
from typing import Iterable, List, Optional

from . import advice, legend
from .findings import BITS, BROKEN, COMMAND, Finding, bits_of
from .reading import Event
from .report import ASSUMED, Judged, Report, chip, is_milestone, looked_for, milestone, named_counts
from .sentences import at_place, number, place, plain, seconds, short
from .lines import CALLED
from .wave import taken_levels

WIDTH = 110


def _wrapped(text: str, start: str = '', further: str = '') -> List[str]:
    return textwrap.wrap(text, WIDTH, initial_indent=start, subsequent_indent=further, break_long_words=False) or ['']


def _section(title: str, lines: Iterable[str]) -> List[str]:
    return ['', title, '-' * len(title), *lines]


def _verdict(report: Report) -> List[str]:
    lines = [f'{report.headline()}: unit {report.unit.name}']
    lines += [f'{at}. {plain(reason.sentence)}' for at, reason in enumerate(report.verdict.reasons, 1)]
    return lines + [report.underline()]


def _facts(report: Report) -> List[str]:
    capture, unit = report.capture, report.unit
    length = f'{number(len(capture.samples))} samples'
    if capture.rate:
        length += f', {seconds(len(capture.samples), capture.rate)} at {number(capture.rate)} a second'
    known = [('Recorded', report.filled.date or '.' * 24), ('Technician', report.filled.technician or '.' * 24),
             chip(unit), ('Recording', capture.file), ('  SHA-256', capture.sha256),
             ('Map and wanted', unit.file), ('  SHA-256', unit.sha256), ('Length', length),
             ('Lines', ', '.join(f'{CALLED[line]} {name}' for line, name in capture.lines.items()))]
    known += [('Other selects', ', '.join(capture.others))] * bool(capture.others)
    if isinstance(report, Judged):
        known += [('Recording whole', ', '.join(report.wholeness()))]
    return _section('Unit and recording', [f'{name:<18}{text}' for name, text in known] + [ASSUMED] * isinstance(report, Judged))


def _drawn(report: Judged, event: Event) -> List[str]:
    """The bits of a broken byte or command."""
    levels, most = taken_levels(report.capture.samples, event), BITS[event.in_data()]
    cells = [f'{bit:3}' for bit in range(1, most + 1)]
    head = ''.join(cells[:len(levels)]) + ' |' + ''.join(cells[len(levels):])
    taken = ''.join(f'{level:3}' for level in levels) + ' |' + '  -' * (most - len(levels))
    end = f'{bits_of(event)}, then the select rose at {at_place(event.at, report.capture.rate)}.'
    return [f'   bit  {head}', f'   taken{taken}', f'   {end}']


def _broken(report: Judged, finding: Finding) -> List[str]:
    """The first broken byte or command of a register with its bits; the others, and those that share a reason, a line each."""
    lines = [] if finding.listed else _drawn(report, finding.events[0])
    for event in finding.events[0 if finding.listed else 1:]:
        name = report.unit.register(event.record.address).titled() if event.in_data() else 'a command'
        lines.append(f'   {name}: {bits_of(event)}, {at_place(event.at, report.capture.rate)}')
    return lines


def _needs(report: Judged) -> List[str]:
    lines: List[str] = []
    for at, reason in enumerate(report.verdict.reasons, 1):
        lines += [f'{at}. {advice.title(report, reason)}']
        if reason.cause in (BROKEN, COMMAND):
            lines += _broken(report, reason)
        else:
            lines += [line for detail in advice.details(report, reason) for line in _wrapped(detail, '   ', '   ')]
        lines += _wrapped(f'To do: {advice.to_do(report, reason)}', '   ', '   ')
    lines += [line for remark in report.verdict.remarks for line in _wrapped('Remark: ' + plain(remark.sentence), '', '   ')]
    lines += [plain(milestone(report, event)) for event in report.reading.events() if is_milestone(event)]
    lines += [looked_for(report)] * bool(looked_for(report))
    return _section('Needs attention' if report.verdict.reasons else 'Nothing needs attention', lines)


def _registers(report: Judged) -> List[str]:
    fulfilled, wanted = report.in_force()
    lines = [f'{sum(row.written for row in report.rows)} registers were written since the start. {fulfilled} of {wanted} wanted values are '
             'in force.', f'{"address":8} {"in force":9} {"waiting":8} {"wanted":7} {"OK":12} {"moved":10} {"read back":10} register']
    for row in report.rows:
        see = ' and '.join(map(str, report.numbers_of(row.register.address)))
        okay = {None: '-', True: 'yes', False: 'NO'}[row.ok()] + (f', see {see}' if see else '')
        moved = ''.join('#' if row.moved >> bit & 1 else '.' for bit in range(7, -1, -1)) if row.written else 'no write'
        lines.append(f'{place(row.register.address):8} {short(row.in_force):9} {_or_dash(row.waiting):8} {_or_dash(row.register.wanted):7} '
                     f'{okay:12} {moved:10} {"yes" if row.confirmed_at is not None else "-":10} {row.register.called()}')
    return _section('Registers written', lines)


def _or_dash(byte: Optional[int]) -> str:
    return '-' if byte is None else short(byte)


def _signature(report: Report) -> List[str]:
    said = 'the unit is signed out.' if report.status() == 0 else 'the unit goes back to the workshop.'
    return _section('Signature', [f'Unit {report.unit.name}, recording {report.capture.sha256[:8]}: {report.headline()}. '
                                  f'I have read this report; {said}', '', 'Manager     ______________________________  Date ____________',
                                  '', 'Technician  ______________________________  Date ____________'])


def text_page(report: Report) -> str:
    """The whole page."""
    lines = _verdict(report) + ['', f'Bench sign-out report, Couplingnut {report.version}'] + _facts(report)
    if isinstance(report, Judged):
        lines += _needs(report) + _registers(report)
        lines += _section('Counts', [f'{number(count):>9} {name}' for name, count in named_counts(report)])
    else:
        lines += _section('Registers written', ['Not known, since the recording was refused.'])
    words = [plain(sentence) for sentence in (legend.of(report.unit, report.capture) if isinstance(report, Judged) else legend.REFUSED)]
    return '\n'.join(lines + _section('In plain words', words) + _signature(report)) + '\n'
