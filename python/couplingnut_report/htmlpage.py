"""The report as one HTML file that needs nothing beside it: for the screen, for one or two sheets of paper, for a screen reader."""
from __future__ import annotations

import html
from typing import Optional, Union

from . import attention, legend, pictures
from .facts import Row
from .lines import CALLED
from .markup import DASH, byte_or_dash, document, element, head, section
from .report import ASSUMED, Judged, Refused, Report, chip, named_counts
from .sentences import counted, marked, number, place, seconds

KINDS = ('go', 'stop', 'unread')
COLUMNS = ('Address', 'Register', 'In force', 'Waiting', 'Wanted', 'OK', 'Read back', 'Bits that moved')


def _verdict(report: Report) -> str:
    """The verdict, the reasons right below it, and then what to do with them."""
    kind, reasons = KINDS[report.status()], ''
    for at, reason in enumerate(report.verdict.reasons, 1):
        link = f'<a class="num" href="#a{at}" aria-label="reason {at}, more below">{at}</a>'
        reasons += element('li', link + element('span', marked(reason.sentence))) + '\n'
    listed = element('ol', reasons) if reasons else ''
    return (f'<section class="verdict {kind}" aria-labelledby="v">{pictures.sign(kind)}<h1 id="v">{report.headline()}</h1>{listed}'
            f'{element("p", html.escape(report.underline()), "sub")}</section>\n')


def _field(name: str, text: Optional[str], small: str = '', long: bool = False) -> str:
    """One fact, or a line to fill it in by hand."""
    blank = element('span', element('span', 'blank, to fill in by hand', 'sr'), 'blank')
    filled = (html.escape(text) if text else blank) + (element('small', small) if small else '')
    return element('div', element('dt', name) + element('dd', filled), 'long' if long else '') + '\n'


def _sha(digest: str) -> str:
    return f'SHA-256 <code>{digest[:8]}…{digest[-4:]}</code>'


def _facts(report: Report) -> str:
    capture, unit = report.capture, report.unit
    long = f'{seconds(len(capture.samples), capture.rate)} at {number(capture.rate)} a second' if capture.rate else 'its rate is not known'
    whole, why = report.wholeness() if isinstance(report, Judged) else ('Not known', 'the recording was refused')
    facts = (_field('Unit', unit.name) + _field('Recorded', report.filled.date) + _field(*chip(unit), long=True)
             + _field('Technician', report.filled.technician, long=True) + _field('Recording', capture.file, _sha(capture.sha256), True)
             + _field('Map and wanted values', unit.file, _sha(unit.sha256), True)
             + _field('Length', counted(len(capture.samples), 'sample'), long) + _field('Recording whole', whole, why))
    lines = ', '.join(f'{CALLED[line]} {name}' for line, name in capture.lines.items())
    lines += f'; other selects {", ".join(capture.others)}' if capture.others else ''
    assumed = f'Lines, by channel: {html.escape(lines)}.' + (f'<br>{ASSUMED}' if isinstance(report, Judged) else '')
    full = f'SHA-256 in full: recording <code>{capture.sha256}</code><br>map and wanted values <code>{unit.sha256}</code>'
    return section('f', 'Unit and recording', element('dl', facts) + element('p', assumed, 'assumed') + element('p', full, 'sha'), 'facts')


def _cell(kind: str, label: str, content: str) -> str:
    return f'<td role="cell" class="{kind}" data-l="{label}">{content}</td>'


def _ok(report: Judged, row: Row) -> str:
    """Whether the value in force is the wanted one, and which reasons name the register."""
    see = report.numbers_of(row.register.address)
    words = {None: DASH, True: pictures.mark(True) + 'yes', False: pictures.mark(False) + 'NO'}[row.ok()]
    return words + (f', see {" and ".join(map(str, see))}' if see else '')


def _row(report: Judged, row: Row) -> str:
    bad = bool(report.numbers_of(row.register.address)) or row.ok() is False
    name = f'<th role="rowheader" scope="row">{html.escape(row.register.called())}</th>'
    cells = [_cell('addr', 'Address', element('span', place(row.register.address), 'v')), name,
             _cell('val', 'In force', byte_or_dash(row.in_force)), _cell('val', 'Waiting', byte_or_dash(row.waiting)),
             _cell('val', 'Wanted', byte_or_dash(row.register.wanted)),
             _cell('ok no' if row.ok() is False else 'ok', 'OK', _ok(report, row)),
             _cell('rb', 'Read back', DASH if row.confirmed_at is None else 'yes'),
             _cell('mv', 'Bits that moved', pictures.moved_bits(row.moved) if row.written else 'not written')]
    return f'<tr role="row"{" class=bad" if bad else ""}>{"".join(cells)}</tr>\n'


def _registers(report: Judged) -> str:
    fulfilled, wanted = report.in_force()
    written = sum(row.written for row in report.rows)
    caption = (f'{counted(written, "register was", "registers were")} written since the start. {number(fulfilled)} of '
               f'{counted(wanted, "wanted value is", "wanted values are")} in force.')
    heads = ''.join(f'<th role="columnheader" scope="col">{name}</th>' for name in COLUMNS)
    rows = ''.join(_row(report, row) for row in report.rows)
    table = (f'<table class="regs stack" role="table"><caption>{caption}</caption>'
             f'<thead role="rowgroup"><tr role="row">{heads}</tr></thead>\n<tbody role="rowgroup">{rows}</tbody></table>')
    return section('r', 'Registers written', table if report.rows else element('p', caption), attention.page_break(report))


def _counts(report: Union[Judged, Refused]) -> str:
    if isinstance(report, Judged):
        given = named_counts(report)
    else:
        given = [('samples in the file', len(report.capture.samples)), ('registers known', 0)]
        given += [('good ones before the bad', report.refusal.at)] if report.refusal.at is not None else []
    cells = ''.join(element('div', element('dt', name) + element('dd', number(count))) for name, count in given)
    return section('c', 'Counts', element('dl', cells), 'counts keep')


def _legend(report: Report) -> str:
    sentences = legend.of(report.unit, report.capture) if isinstance(report, Judged) else legend.REFUSED
    lines = ''.join(element('li', marked(sentence)) + '\n' for sentence in sentences)
    return section('l', 'In plain words', element('ul', lines), 'legend keep')


def _signature(report: Report) -> str:
    said = 'I have read this report and sign the unit out.' if report.status() == 0 else (
        'I have read this report; the unit goes back to the workshop.')
    fields = ''.join(element('div', name) for who in ('Manager', 'Technician') for name in (f'{who}, name', 'Signature', 'Date'))
    what = f'Unit {html.escape(report.unit.name)}, recording <code>{report.capture.sha256[:8]}</code>: <b>{report.headline()}</b>. {said}'
    return section('s', 'Signature', element('p', what) + element('div', fields, 'lines'), 'sign-lines')


def html_page(report: Union[Judged, Refused]) -> str:
    """The whole page."""
    middle = attention.needs(report) + _registers(report) if isinstance(report, Judged) else attention.refused(report)
    body = (head(f'Bench sign-out report: unit {report.unit.name}', report.version) + _verdict(report) + _facts(report) + middle
            + _counts(report) + _legend(report) + _signature(report))
    state = report.headline() + ('' if isinstance(report, Judged) else ', not read')
    foot = f'Unit {report.unit.name} · {state} · recording {report.capture.sha256[:8]}'
    return document(f'{report.unit.name}: {state.lower()}', foot, body)
