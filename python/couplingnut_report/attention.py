"""The part of the HTML page on what needs attention: an item for each reason, remarks, and the recording as a strip."""
from __future__ import annotations

import html
from typing import Optional, Sequence

from . import advice, pictures
from .findings import BROKEN, COMMAND, CONTENDED, READ, RECORDING, WAITS, WANTED, Finding, bits_of, is_read, selects_low, why_ignored
from .markup import byte, element, section
from .reading import RESET, Event
from .report import Judged, Refused, is_milestone, looked_for, milestone
from .sentences import at_place, counted, marked, number, seconds, value
from .strip import RESETS, TRANSFERS, milestone_mark, strip, unit_of_time
from .unit import ABSENT, Register
from .wave import wave

# So many rows, or transfers and resets, are listed on a page; JSON has all.
MOST_ROWS, MOST_MILESTONES = 60, 8
# A table of registers with so many rows is not cut between two sheets.
UNCUT_ROWS = 30


def _item(report: Judged, finding: Finding, at: int, content: str) -> str:
    title = element('h3', element('span', str(at), 'num') + element('span', html.escape(advice.title(report, finding))))
    todo = element('p', f'<b>To do:</b> {html.escape(advice.to_do(report, finding))}', 'todo')
    return f'<article class="item" id="a{at}">{title}{content}{todo}</article>\n'


def _fact(name: str, words: str, small: str = '') -> str:
    return element('div', element('dt', name) + element('dd', words + (element('small', small) if small else '')))


def _beside(report: Judged, event: Event) -> str:
    """The facts beside the picture of a broken byte or command."""
    rate, register = report.capture.rate, report.unit.register(event.record.address)
    what = 'so its register is not known' if not event.in_data() else 'so this answer was not whole' if is_read(event) else (
        'so this byte was not written')
    words = _fact('Arrived before the select rose', bits_of(event), what)
    sample = f'sample {number(event.at)}'
    words += _fact('When', seconds(event.at, rate), sample) if rate else _fact('When', sample)
    row = next((row for row in report.rows if row.register.address == register.address), None)
    if not event.in_data() or row is None:
        return words + _fact('Stays in force', 'Everything as it was')
    later = row.confirmed_at if row.confirmed_at is not None and row.confirmed_at > event.at else None
    words += _fact('In force', byte(row.in_force), f'confirmed by a read at {at_place(later, rate)}' if later is not None else '')
    return words + (_fact('Wanted', byte(register.wanted)) if register.wanted is not None else '')


def _broken(report: Judged, finding: Finding, at: int) -> str:
    """A broken byte or command with its picture; more of the same register are listed below it."""
    event = finding.events[0]
    name = 'command' if finding.cause == COMMAND else f'byte for {report.unit.register(event.record.address).called()}'
    more = _cut_table(report, finding.events[1:]) if len(finding.events) > 1 else ''
    picture = element('figure', wave(report.capture.samples, event, name, f'w{at}'))
    return element('div', picture + element('dl', _beside(report, event), 'kv'), 'broken') + more


def _table(heads: Sequence[str], rows: Sequence[Sequence[str]]) -> str:
    """A small table; its cells are HTML."""
    head = ''.join(f'<th scope="col">{name}</th>' for name in heads)
    lines = ''
    for first, *others in rows[:MOST_ROWS]:
        lines += element('tr', f'<th scope="row">{first}</th>' + ''.join(element('td', cell) for cell in others))
    more = element('p', f'and {number(len(rows) - MOST_ROWS)} more.', 'small') if len(rows) > MOST_ROWS else ''
    return element('table', element('thead', element('tr', head)) + element('tbody', lines), 'few') + more


def _cut_table(report: Judged, events: Sequence[Event]) -> str:
    rows = []
    for event in events:
        name = report.unit.register(event.record.address).titled() if event.in_data() else 'a command'
        rows.append((html.escape(name), bits_of(event), at_place(event.at, report.capture.rate)))
    return _table(('Broken off as well', 'Arrived', 'When'), rows)


def _or_dash(wanted: Optional[int]) -> str:
    return '–' if wanted is None else value(wanted)


def _many(report: Judged, finding: Finding) -> str:
    """The registers of a reason that has many, as one table."""
    reading, registers = report.reading, [report.unit.register(address) for address in finding.addresses]
    if finding.cause == WANTED:
        return element('p', 'The table of registers below shows each of them.')
    if finding.cause == WAITS:
        return _table(('Register', 'Waiting', 'In force', 'Wanted'), [
            (html.escape(register.titled()), value(reading.buffer[register.address]), value(reading.active[register.address]),
             _or_dash(register.wanted)) for register in registers])
    if finding.cause == CONTENDED:
        return _table(('Register', 'Low too', 'When'), [
            (html.escape(report.unit.register(event.record.address).titled()), html.escape(selects_low(event)),
             at_place(event.low[0].at, report.capture.rate)) for event in finding.events])
    heads = ('Register', 'Due', 'Carried', 'When') if finding.cause == READ else ('Register', 'Sent', 'Why ignored', 'When')
    rows = []
    for event in finding.events:
        register = report.unit.register(event.record.address)
        third = value(event.record.byte4) if finding.cause == READ else why_ignored(register)
        rows.append((html.escape(register.titled()), value(event.record.byte3), third, at_place(event.at, report.capture.rate)))
    return _table(heads, rows)


def _picture(report: Judged, finding: Finding, register: Register) -> str:
    """The small picture of a card."""
    in_force = report.reading.active[register.address] if register.address < report.unit.size else 0
    if finding.cause == WAITS:
        return pictures.waiting(report.reading.buffer[register.address], in_force)
    if finding.cause == WANTED:
        return pictures.two_bytes('in force', in_force, 'wanted', register.wanted or 0)
    if finding.cause == CONTENDED:
        return ''
    record = finding.events[0].record
    if finding.cause == READ:
        return pictures.two_bytes('due', record.byte3, 'carried', record.byte4)
    return pictures.ignored(record.byte3, 'absent' if register.kind == ABSENT else register.kind)


def _card(report: Judged, finding: Finding) -> str:
    picture = _picture(report, finding, report.unit.register(finding.addresses[0])) if finding.addresses else ''
    return picture + ''.join(element('p', html.escape(line)) for line in advice.details(report, finding))


def _is_wide(finding: Finding) -> bool:
    """Whether an item takes the whole width."""
    return finding.cause in (BROKEN, COMMAND) or finding.listed


def _items(report: Judged) -> str:
    """What is about the recording, broken bytes and tables in full width, the others two abreast."""
    wide, cards = '', ''
    for at, finding in enumerate(report.verdict.reasons, 1):
        if finding.cause in (BROKEN, COMMAND):
            drawn = _cut_table(report, finding.events) if finding.listed else _broken(report, finding, at)
            wide += _item(report, finding, at, drawn)
        elif finding.listed:
            wide += _item(report, finding, at, _many(report, finding))
        elif finding.cause == RECORDING:
            wide += _item(report, finding, at, _card(report, finding))
        else:
            cards += _item(report, finding, at, _card(report, finding))
    return wide + (element('div', cards, 'pair') if cards else '')


def _remarks(report: Judged) -> str:
    if not report.verdict.remarks:
        return ''
    title = element('h3', f'Remarks {element("span", "they do not stand against signing", "small")}')
    lines = ''.join(element('li', marked(remark.sentence)) for remark in report.verdict.remarks)
    return element('div', title + element('ul', lines), 'remarks')


def _milestones(report: Judged) -> str:
    """Transfers and soft resets, with their places."""
    events = [event for event in report.reading.events() if is_milestone(event)]
    lines = ''
    for event in events[:MOST_MILESTONES]:
        mark = milestone_mark(RESETS if event.is_write(RESET) else TRANSFERS)
        words = element('span', marked(milestone(report, event)))
        lines += element('li', f'<svg viewBox="-7 2 14 14" aria-hidden="true">{mark}</svg>{words}')
    rest = len(events) - MOST_MILESTONES
    if rest > 0:
        lines += element('li', f'<span></span><span>and {number(rest)} more of them.</span>')
    return element('ul', lines, 'events') if lines else ''


def _strip(report: Judged) -> str:
    """The recording with the numbers of the reasons beside their frames."""
    frames = report.reading.frames
    if not frames:
        return ''
    numbered = list(enumerate(report.verdict.reasons, 1))
    marks = [(finding.places()[0], at) for at, finding in numbered if finding.places()]
    if frames[-1].end is None:
        marks.append((frames[-1].start, max(at for at, finding in numbered if finding.cause == RECORDING)))
    scale = element('span', f'{unit_of_time(report.reading)}; each block is one frame', 'small')
    return element('div', element('h3', f'When it happened {scale}') + strip(report.reading, marks) + _milestones(report), 'strip')


def page_break(report: Judged) -> str:
    """The table of registers begins the second sheet where the first is full, but not crowded; elsewhere a short one is not cut."""
    reasons = report.verdict.reasons
    wide = sum(map(_is_wide, reasons))
    if wide <= 1 and 1 <= len(reasons) <= wide + 2 and not any(reason.listed for reason in reasons):
        return 'p2'
    return 'keep' if len(report.rows) <= UNCUT_ROWS else ''


def needs(report: Judged) -> str:
    """What needs attention, or that nothing does."""
    looked = looked_for(report)
    content = _items(report) + _remarks(report) + _strip(report) + (element('p', looked, 'clean') if looked else '')
    return section('n', 'Needs attention' if report.verdict.reasons else 'Nothing needs attention', content)


def refused(report: Refused) -> str:
    """A recording that was refused: the place, why, and how to record it right."""
    refusal, rate = report.refusal, report.capture.rate
    where, drawn = '', ''
    if refusal.at is not None:
        where = f': sample {number(refusal.at)}' + (f', at {seconds(refusal.at, rate)}' if rate else '')
        drawn = element('figure', pictures.bad_sample(report.capture.samples, refusal.at))
    told = ('A sample has four levels: select, clock, data and answer. This one has more, so that other lines than the chip\'s are in '
            'the recording, and its lines may be exchanged.',
            'The reader does not guess. It refused the recording, and nothing on this page is taken from it.',
            f'The registers are not known: none of the {counted(len(report.unit.wanted()), "wanted value")} can be checked with it.')
    steps = ('Record select, clock, data and answer on the first four lines, in this order, and no other; or name the lines.',
             'Record the set-up again: start before the select first goes low, and stop after it has gone high for the last time.',
             'Make this report again. If it refuses the same sample, the recorder or its file is at fault, and not the unit.')
    title = element('h3', element('span', '1', 'num') + element('span', f'Refusal {refusal.number}{where}'))
    words = element('div', ''.join(element('p', line) for line in told))
    listed = element('ol', ''.join(element('li', step) for step in steps), 'steps')
    return section('n', 'Needs attention', f'<article class="item" id="a1">{title}{element("div", drawn + words, "broken wider")}</article>'
                   + element('div', element('h3', 'What to do') + listed, 'item'))
