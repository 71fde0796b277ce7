"""The whole recording as one strip: a block for each frame, what was sent above the line and answers below it.

Places are in per cent and sizes in pixels, so that the words are as large on paper as on a small screen. A long quiet stretch is
shortened, and says how long it was.
"""
from __future__ import annotations

from typing import Dict, List, Sequence, Tuple

from .reading import IGNORED, READ, RESET, TRANSFER, Frame, Reading
from .sentences import counted, number
from .svg import INK, RULE, SANS, SOFT, STOP, hatching, num, path, rect, shape, text

BROKEN, OPEN, RESETS, TRANSFERS, IGNORES, CONTENDED, DIFFERS, READS, EMPTY, WRITES = (
    'broken', 'open', 'reset', 'transfer', 'ignored', 'contended', 'differs', 'read', 'empty', 'write')
KEY = {WRITES: 'write', READS: 'read (below the line)', DIFFERS: 'read that disagreed', CONTENDED: 'read with another select low',
       TRANSFERS: 'transfer', RESETS: 'soft reset', BROKEN: 'broken off', IGNORES: 'ignored write', EMPTY: 'nothing passed',
       OPEN: 'not finished'}
ANSWERS = (READS, DIFFERS, CONTENDED)  # which stand below the line
QUIET = 0.05  # seconds, which is shortened
MOST_FOLDS, FOLD_WIDTH = 6, 6.5
FOLD_MARGIN = 0.02  # what stays of a quiet stretch on either side
COLUMNS, PIXELS = 330, 6.6  # blocks of one kind in the same column are one; pixels of one per cent, as printed
LEAST_WIDTH = 4
TICKS = 9


def kind_of(reading: Reading, frame: Frame) -> str:
    """What a frame is shown as: the most serious thing in it."""
    tests = ((BROKEN, lambda event: event.is_cut()), (RESETS, lambda event: event.is_write(RESET)),
             (TRANSFERS, lambda event: event.is_write(TRANSFER)), (IGNORES, lambda event: event.is_write(IGNORED)),
             (CONTENDED, lambda event: event.is_contended()), (DIFFERS, lambda event: event.disagrees()),
             (READS, lambda event: event.record.kind == READ))
    if reading.is_open(frame):
        return OPEN
    if not frame.events and frame.after.stalled and not frame.took_no_bit():
        return READS if frame.last.direction == 1 else WRITES
    if not frame.events:
        return EMPTY
    return next((kind for kind, test in tests if any(map(test, frame.events))), WRITES)


class _Axis:
    """Where a sample stands, in per cent of the width."""

    def __init__(self, reading: Reading):
        length, frames = len(reading.capture.samples), reading.frames
        rate = reading.capture.rate
        self.length, self.rate = length, rate
        least = QUIET * rate if rate else length / 20
        gaps = zip([0] + [frame.end or length for frame in frames], [frame.start for frame in frames] + [length])
        quiet = sorted(((end - start, start, end) for start, end in gaps if end - start > max(least, 8)), reverse=True)[:MOST_FOLDS]
        self.folds = sorted((start + size * FOLD_MARGIN, end - size * FOLD_MARGIN) for size, start, end in quiet)
        shown = length - sum(end - start for start, end in self.folds)
        self.scale = (100 - FOLD_WIDTH * len(self.folds)) / max(shown, 1)

    def x(self, sample: float) -> float:
        """The place of a sample."""
        place = sample * self.scale
        for start, end in self.folds:
            inside = min(max(sample - start, 0), end - start)
            place += inside * (FOLD_WIDTH / (end - start) - self.scale)
        return place

    def is_folded(self, sample: float) -> bool:
        """Whether a sample stands in a stretch that is shortened."""
        return any(start - 1 < sample < end + 1 for start, end in self.folds)


def milestone_mark(kind: str) -> str:
    """The mark above a block, around x = 0."""
    if kind == BROKEN:
        return path('M-5.500 3.500l11 11M5.500 3.500l-11 11', STOP, 3.2)
    if kind == TRANSFERS:
        return shape('M0 3l6.500 12h-13z')
    if kind == RESETS:
        return path('M0 2.500L6.500 9 0 15.500-6.500 9z', INK, 2, fill='#fff')
    return ''


def _block(kind: str, width: float) -> str:
    """The block of a frame, from x = 0 on; the line is at y = 40."""
    above = f'<g transform="translate({num(width / 2)} 0)">{milestone_mark(kind)}</g>'
    if kind in ANSWERS:
        fill, stroke, line = ('url(#trouble)', STOP, 1.5) if kind != READS else ('#fff', INK, 1)
        return rect(0.75, 40.5, max(width - 1.5, 3.5), 14, fill, stroke, line)
    if kind == BROKEN:
        return rect(0.75, 22.75, max(width - 1.5, 5), 17, 'url(#trouble)', STOP, 1.5) + above
    if kind == OPEN:
        width = max(width, 8)
        return shape(f'M0 22h{num(width)}v18h-{num(width)}z', 'url(#trouble)') + path(f'M{num(width)} 22H0V40H{num(width)}', STOP, 2)
    if kind in (IGNORES, EMPTY):
        return rect(0.75, 22.75, max(width - 1.5, 4), 17, '#fff', INK if kind == IGNORES else RULE, 1.5, '2 2')
    return rect(0, 22, width, 18, INK) + above


def _placed(x: float, content: str) -> str:
    return f'<svg x="{x:.2f}%" y="0" overflow="visible">{content}</svg>'


def _baseline(axis: _Axis) -> List[str]:
    """The line itself, broken where a quiet stretch is shortened."""
    parts, start = [], 0.0
    for begin, end in axis.folds:
        parts.append(_line(start, axis.x(begin)))
        start, middle = axis.x(end), (axis.x(begin) + axis.x(end)) / 2
        size = (end - begin) / (1 - 2 * FOLD_MARGIN)
        long = f'{size / axis.rate:.1f} s' if axis.rate else number(round(size))
        parts.append(_placed(middle, path('M-6 47l6-14M0 47l6-14', INK, 1.3) + text(0, 60, long, 'middle', 11.5, fill=SOFT)))
    return parts + [_line(start, 100)]


def _line(start: float, end: float) -> str:
    return f'<line x1="{start:.2f}%" x2="{end:.2f}%" y1="40" y2="40" stroke="{INK}"/>'


def _step(axis: _Axis) -> float:
    """The distance of two ticks: 1, 2 or 5 with noughts, in samples or in milliseconds."""
    shown = axis.length - sum(end - start for start, end in axis.folds)
    unit = axis.rate / 1000 if axis.rate else 1
    least, step = shown / unit / TICKS, 1e-6
    while step < least:
        step = next((step * factor for factor in (2, 5, 10) if step * factor >= least), step * 10)
    return max(step * unit, 1)


def _ticks(axis: _Axis) -> List[str]:
    step, parts, sample, last = _step(axis), [], 0.0, -100.0
    while sample <= axis.length:
        x = axis.x(sample)
        if not axis.is_folded(sample) and x < 97 and x - last > 5:
            at = sample / axis.rate * 1000 if axis.rate else sample
            words = f'{at:,.0f}' if step * (1000 / axis.rate if axis.rate else 1) >= 1 else f'{at:.3f}'.rstrip('0').rstrip('.')
            anchor = 'start' if x < 1 else 'middle'
            parts.append(f'<line x1="{x:.2f}%" x2="{x:.2f}%" y1="57" y2="62" stroke="{RULE}"/>')
            parts.append(f'<text x="{x:.2f}%" y="75" font-size="11.5" fill="{SOFT}" text-anchor="{anchor}">{words}</text>')
            last = x
        folds = [end for start, end in axis.folds if start - 1 < sample < end + 1]
        sample = max(sample + step, (folds[0] // step) * step + step) if folds else sample + step
    return parts


def _width(frame: Frame, axis: _Axis) -> float:
    end = axis.length if frame.end is None else frame.end
    return max((axis.x(end) - axis.x(frame.start)) * PIXELS, LEAST_WIDTH)


def _blocks(reading: Reading, axis: _Axis) -> List[str]:
    """The frames; where many stand in one place, each kind once."""
    shown: Dict[Tuple[int, str], str] = {}
    for frame in reading.frames:
        kind, x = kind_of(reading, frame), axis.x(frame.start)
        key = (int(x / 100 * COLUMNS), kind)
        if key not in shown:
            shown[key] = _placed(x, _block(kind, _width(frame, axis)))
    return list(shown.values())


def _number_place(reading: Reading, frame: Frame, axis: _Axis) -> Tuple[float, int]:
    """Where a reason's number stands beside a frame: how far from its start, and how high."""
    kind, middle = kind_of(reading, frame), _width(frame, axis) / 2
    if kind in (DIFFERS, CONTENDED):
        return -11, 48
    return middle + {BROKEN: -17, TRANSFERS: -17, RESETS: 17}.get(kind, 0), 9


def _numbers(reading: Reading, axis: _Axis, marks: Sequence[Tuple[int, int]]) -> List[str]:
    """The numbers of the reasons, beside their frames and beside each other."""
    placed = []
    for sample, reason in marks:
        frame = next(frame for frame in reading.frames if frame.start <= sample and (frame.end is None or sample <= frame.end))
        aside, y = _number_place(reading, frame, axis)
        placed.append((axis.x(frame.start) * PIXELS + aside, y, axis.x(frame.start), reason))
    parts: List[str] = []
    ends: Dict[int, float] = {}
    for pixels, y, start, reason in sorted(placed):
        pixels = max(pixels, ends.get(y, pixels))
        ends[y] = pixels + 17
        x = pixels - start * PIXELS
        ring = f'<circle cx="{num(x)}" cy="{y}" r="7.5" fill="#fff" stroke="{INK}" stroke-width="1.2"/>'
        parts.append(_placed(start, ring + text(x, y + 4, str(reason), 'middle', 11, True)))
    return parts


def strip(reading: Reading, marks: Sequence[Tuple[int, int]]) -> str:
    """The strip; `marks` are samples with the number of the reason that they belong to."""
    axis = _Axis(reading)
    kinds = [kind_of(reading, frame) for frame in reading.frames]
    told = ', '.join(f'{number(kinds.count(kind))} {words}' for kind, words in KEY.items() if kind in kinds)
    described = f'{counted(len(kinds), "frame")}: {told}. The lists beside it give each place.'
    parts = _baseline(axis) + _blocks(reading, axis) + _numbers(reading, axis, marks) + _ticks(axis)
    return (f'<svg class="line" role="img" aria-labelledby="stt std" font-family="{SANS}"><title id="stt">The whole recording from left to '
            f'right</title><desc id="std">{described}</desc><defs>{hatching("trouble", STOP, 4, 1.8)}</defs>{"".join(parts)}</svg>'
            + _key(kinds, bool(axis.folds)))


def unit_of_time(reading: Reading) -> str:
    """What the numbers below the strip count."""
    return 'milliseconds from the start of the recording' if reading.capture.rate else 'samples from the start of the recording'


def _key(kinds: Sequence[str], folded: bool) -> str:
    """What each kind of block is."""
    rows = [(_key_icon(kind), words) for kind, words in KEY.items() if kind in kinds]
    if folded:
        rows.append((path('M3 16l6-14M9 16l6-14', INK, 1.3), 'quiet, shortened'))
    items = ''.join(f'<li><svg viewBox="0 0 18 18" aria-hidden="true">{icon}</svg>{words}</li>' for icon, words in rows)
    return f'<ul class="key">{items}</ul>'


def _key_icon(kind: str) -> str:
    if kind in (BROKEN, TRANSFERS, RESETS):
        return f'<g transform="translate(9 0)">{milestone_mark(kind)}</g>'
    below = kind in ANSWERS
    line = path('M0 2h18' if below else 'M0 17.5h18', INK, 1)
    return line + f'<g transform="translate(5 {-38.5 if below else -22.5})">{_block(kind, 8)}</g>'

