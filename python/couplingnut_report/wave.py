"""The lines around a byte or a command that broke off, drawn from the samples themselves.

What the chip took is solid, with the place and value of each bit. What came after the select rose is dashed, hatched and has no values:
bits that did not arrive are never guessed.
"""
from __future__ import annotations

from bisect import bisect_right
from typing import List

from .findings import BITS, bits_of
from .reading import Event, rises_before
from .sentences import number
from .svg import DASHED, GHOST, HATCH, INK, SOFT, STOP, dot, hatching, num, path, picture, rect, shape, text

SELECT, CLOCK, DATA, ANSWER = range(4)
_LINE = {bit: bytes(byte >> bit & 1 for byte in range(256)) for bit in range(4)}
WIDTH, LEFT, RIGHT = 430, 52, 8
HIGH_LOW = {SELECT: (52, 74), CLOCK: (90, 112), DATA: (128, 150), ANSWER: (128, 150)}
# A pause between two bits is drawn at most so many usual bits wide.
WIDEST = 3


def taken_at(samples: bytes, event: Event) -> List[int]:
    """The samples at which the bits of a broken byte or command were taken: the last rises of the clock before the select rose."""
    return rises_before(samples, event.at, event.record.byte3)


def source_of(event: Event) -> int:
    """The line that the bits came from: the answer line for a read with SDO active, else the data line."""
    return ANSWER if event.in_data() and event.before.direction == 1 and event.before.settings_in_use.sdo_active else DATA


def taken_levels(samples: bytes, event: Event) -> List[int]:
    """The bits of a broken byte or command, in the order in which they came."""
    return [samples[at] >> source_of(event) & 1 for at in taken_at(samples, event)]


class _Scale:
    """Where a sample stands in the picture: evenly, but for pauses, which are drawn shorter."""

    def __init__(self, taken: List[int], cut: int, missing: int, samples: bytes):
        steps = sorted(after - before for before, after in zip(taken, taken[1:])) or [max(cut - taken[-1], 1) * 2]
        self.step = max(steps[len(steps) // 2], 1)
        self.first = max(0, int(taken[0] - 0.75 * self.step))
        marks = [self.first, *taken, cut]
        self.samples, self.places = [self.first], [0.0]
        self.pauses: List[int] = []
        for before, after in zip(marks, marks[1:]):
            shown = min(after - before, WIDEST * self.step)
            self.pauses += [(before + after) // 2] * (after - before > shown)
            self.samples.append(after)
            self.places.append(self.places[-1] + shown)
        ghosts = max(self.step * (missing + 0.95) - (cut - taken[-1]), self.step)
        self.last = min(len(samples), cut + int(ghosts))
        again = samples[cut:self.last].translate(_LINE[SELECT]).find(0)
        self.last = self.last if again < 0 else cut + again
        self.unit = (WIDTH - LEFT - RIGHT) / (self.places[-1] + ghosts)

    def x(self, sample: float) -> float:
        """The place of a sample."""
        at = min(max(bisect_right(self.samples, sample) - 1, 0), len(self.samples) - 1)
        if at == len(self.samples) - 1:
            return LEFT + (self.places[at] + sample - self.samples[at]) * self.unit
        long, wide = self.samples[at + 1] - self.samples[at], self.places[at + 1] - self.places[at]
        return LEFT + (self.places[at] + (sample - self.samples[at]) * wide / max(long, 1)) * self.unit


def _trace(samples: bytes, bit: int, scale: _Scale, start: int, end: int) -> str:
    """The path of a line from one sample to another."""
    levels = samples[start:end].translate(_LINE[bit])
    if not levels:
        return ''
    y = HIGH_LOW[bit]
    at, level = 0, levels[0]
    drawn = f'M{num(scale.x(start))} {y[1 - level]}'
    while True:
        at = levels.find(1 - level, at)
        if at < 0:
            return drawn + f'H{num(scale.x(end))}'
        level = 1 - level
        drawn += f'H{num(scale.x(start + at))}V{y[1 - level]}'


def _lines(samples: bytes, event: Event, scale: _Scale) -> List[str]:
    """The three lines: solid before the rise, dashed after it."""
    source, drawn = source_of(event), []
    names = ((SELECT, 'select'), (CLOCK, 'clock'), (source, 'answer' if source == ANSWER else 'data'))
    for bit, name in names:
        y = HIGH_LOW[bit]
        drawn.append(text(0, (y[0] + y[1]) / 2 + 4, name))
        drawn.append(path(_trace(samples, bit, scale, scale.first, event.at), INK, 2.2))
        if bit == SELECT:
            drawn.append(path(f'M{num(scale.x(event.at))} {y[1]}V{y[0]}H{num(scale.x(scale.last))}', INK, 2.2))
        else:
            drawn.append(path(_trace(samples, bit, scale, event.at, scale.last), GHOST, 1.3, DASHED))
    drawn += [text(scale.x(at), 116, '//', 'middle', bold=True) for at in scale.pauses]
    return drawn


def _bits(samples: bytes, event: Event, taken: List[int], scale: _Scale) -> List[str]:
    """The bits that were taken, numbered and with their values, and the places of those that were not."""
    most, drawn, y = BITS[event.in_data()], [text(0, 32, 'bit'), text(0, 179, 'taken')], HIGH_LOW[DATA]
    closest = min((scale.x(after) - scale.x(before) for before, after in zip(taken, taken[1:])), default=20)
    radius = min(9, max(6, min(closest, scale.step * scale.unit) / 2 - 0.4))
    size = 12.5 * radius / 9
    for bit, (at, level) in enumerate(zip(taken, taken_levels(samples, event)), 1):
        x = scale.x(at)
        drawn.append(path(f'M{num(x)} 112V164', INK, 1, '2 2'))
        drawn.append(dot(x, y[1 - level], 3.2) + dot(x, 28, radius))
        drawn.append(text(x, 28 + size * 0.35, str(bit), 'middle', size, True, '#fff'))
        drawn.append(text(x, 180, str(level), 'middle', 16, True, mono=True))
    for ahead in range(1, most - len(taken) + 1):
        x = scale.x(taken[-1]) + ahead * scale.step * scale.unit
        x = max(x, scale.x(event.at) + 10 + (ahead - 1) * scale.step * scale.unit)
        drawn.append(dot(x, 28, radius - 0.5, '#fff', GHOST, DASHED))
        drawn.append(text(x, 28 + size * 0.35, str(len(taken) + ahead), 'middle', size, fill=SOFT))
        drawn.append(path(f'M{num(x - 4)} 175h8', SOFT, 1.5))
    return drawn


def _rise(event: Event, taken: List[int], scale: _Scale) -> List[str]:
    """The rise of the select, and what it means."""
    x, most, got = scale.x(event.at), BITS[event.in_data()], event.record.byte3
    right, what = WIDTH - RIGHT - x, 'byte' if event.in_data() else 'command'
    return [text(scale.x(taken[0]), 68, 'low: the chip listens', size=11.5, fill=SOFT, small=True),
            f'<g stroke="#fff" stroke-width="4" paint-order="stroke">'
            f'{text(x + right / 2 + 3, 72, "high: not listening" if right > 115 else "high", "middle", 11.5, small=True)}</g>',
            path(f'M{num(x)} 14V190', STOP, 3), shape(f'M{num(x - 6.5)} 66L{num(x)} 54L{num(x + 6.5)} 66z', STOP),
            text(min(max(x, 110), WIDTH - 110), 10, f'select rises: {what} broken off', 'middle', bold=True, fill=STOP),
            text(x - 6, 200, f'{bits_of(event) if x > 170 else got} taken', 'end'),
            text(x + 6, 200, f'{most - got} not taken' if right > 60 else f'{most - got} not', fill=SOFT)]


def wave(samples: bytes, event: Event, name: str, ident: str) -> str:
    """The picture of one broken byte or command."""
    taken, most = taken_at(samples, event), BITS[event.in_data()]
    levels = ', '.join(map(str, taken_levels(samples, event)))
    described = (f'Bits 1 to {len(taken)} were taken with the values {levels}. At sample {number(event.at)} the select rose. '
                 f'Bits {len(taken) + 1} to {most} were not taken.')
    scale = _Scale(taken, event.at, most - len(taken), samples)
    x = scale.x(event.at)
    parts = [f'<defs>{hatching(ident + "h", HATCH, 6, 2)}</defs>', rect(x, 44, WIDTH - RIGHT - x, 114, f'url(#{ident}h)')]
    parts += _lines(samples, event, scale) + _bits(samples, event, taken, scale) + _rise(event, taken, scale)
    return picture('wave', f'0 -5 {WIDTH} 211', f'Select, clock and data lines around the broken {name}', ''.join(parts), described, ident)
