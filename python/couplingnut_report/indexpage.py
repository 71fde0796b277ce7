"""The index of a folder: how many units may go out, and a verdict line for each recording, the bad ones first."""
from __future__ import annotations

import html
import os
from dataclasses import dataclass
from typing import List, Optional, Tuple
from urllib.parse import quote

from . import ends, neighbours, pictures
from .markup import document, element, head, section
from .sentences import counted, number

GROUPS = (('stop', 'Do not sign out', 'do not sign out', (ends.NOT_READY,)),
          ('unread', 'Do not sign out: recording not read', 'could not be read', (ends.REFUSED, ends.FAILED)),
          ('go', 'Ready to sign out', 'ready to sign out', (ends.READY,)))
VERDICTS = {'stop': 'Do not sign out', 'unread': 'Not read', 'go': 'Ready'}
COLUMNS = ('Unit', 'Verdict', 'File written', 'Recording', 'Why')
MOST_REASONS = 2
SHORT_NAME = 26  # which is not broken into lines
READY_MEANS = ('Ready means: the recording begins and ends with the select high and has a frame; nothing is left broken off, no read '
               'disagreed, nothing waits, no write was ignored but 0 to a blank register, and every wanted value is in force.')


@dataclass(frozen=True)
class Row:
    """One recording: its unit, file and time, the status of its report, the reasons as HTML, how many wanted values are in force out of
    how many, and its page."""
    unit: str
    file: str
    written: str
    status: int
    reasons: List[str]
    in_force: Tuple[int, int]
    page: Optional[str]


def _tally(rows: List[Row], noun: str) -> str:
    items = ''
    for kind, _, words, statuses in GROUPS:
        count = sum(row.status in statuses for row in rows)
        items += f'<li class="{kind}">{pictures.sign(kind)}<b>{number(count)}</b><span>{words}</span></li>\n'
    return section('t', counted(len(rows), noun), f'<ul class="tally">{items}</ul>')


def _why(row: Row, kind: str) -> str:
    if kind == 'go':
        fulfilled, wanted = row.in_force
        return f'{fulfilled} of {counted(wanted, "wanted value")} in force'
    shown = ''.join(f'<div>{"<b>Not read</b>: " if kind == "unread" else ""}{reason}</div>' for reason in row.reasons[:MOST_REASONS])
    more = len(row.reasons) - MOST_REASONS
    return shown + (f'<div class="more">and {number(more)} more on its page</div>' if more > 0 else '')


def _cell(kind: str, content: str) -> str:
    return f'<td role="cell" class="{kind}">{content}</td>'


def _row(row: Row, kind: str) -> str:
    name = html.escape(row.unit)
    linked = f'<a href="{html.escape(quote(os.fsencode(row.page)))}">{name}</a>' if row.page else name
    sign = {'go': pictures.mark(True), 'stop': pictures.mark(False), 'unread': element('span', '?', 'v') + ' '}[kind]
    cells = [f'<th role="rowheader" scope="row" class="unit">{linked}</th>', _cell('ver', sign + VERDICTS[kind]),
             _cell('when', row.written),
             _cell('file' if len(row.file) <= SHORT_NAME else 'name', html.escape(row.file)), _cell('why', _why(row, kind))]
    return f'<tr role="row">{"".join(cells)}</tr>\n'


def _group(rows: List[Row], kind: str, title: str) -> str:
    """The rows of one verdict, under its name."""
    named = f'<th role="rowheader" scope="rowgroup" class="grp" colspan="{len(COLUMNS)}">{title} ({number(len(rows))})</th>'
    ordered = sorted(rows, key=lambda row: (row.unit, row.file))
    return f'<tr role="row">{named}</tr>\n' + ''.join(_row(row, kind) for row in ordered) if rows else ''


def index_page(name: str, rows: List[Row], part: Optional[str] = None, noun: str = 'recording') -> str:
    """The whole index of a folder's recordings, or of the chips of one or more; of an older part's units, if that was named."""
    heads = ''.join(f'<th role="columnheader" scope="col">{name}</th>' for name in COLUMNS)
    body = ''.join(_group([row for row in rows if row.status in statuses], kind, title) for kind, title, _, statuses in GROUPS)
    table = ('<table class="list stack" role="table"><caption>The bad ones first. A unit\'s name leads to its page.</caption>'
             f'<thead role="rowgroup"><tr role="row">{heads}</tr></thead><tbody role="rowgroup">{body}</tbody></table>')
    title = f'Bench sign-out: all {noun}s of {name}'
    means = READY_MEANS + (f' The chips are read as {part}; at the end no run of theirs is unfinished.' if part else '')
    means += ' No chip was read while another\'s select was low.' if noun == 'chip' else ''
    content = _tally(rows, noun) + section('e', 'Verdict of each', table) + element('p', means, 'foot')
    return document(title, title, head(title, neighbours.version(), 'h1') + content)
