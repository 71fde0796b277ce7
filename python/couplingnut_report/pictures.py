"""The small pictures of a page: signs, ticks, bits, a value that waits, two bytes that differ, a write that was ignored, a bad sample."""
from __future__ import annotations

from typing import List

from .sentences import number, short
from .svg import GO, INK, RULE, SOFT, STOP, num, path, picture, rect, shape, text

_OCTAGON = '20,3 44,3 61,20 61,44 44,61 20,61 3,44 3,20'


def sign(kind: str) -> str:
    """The verdict as a shape that no other verdict has."""
    if kind == 'go':
        inner = f'<circle cx="32" cy="32" r="29" fill="none" stroke="{GO}" stroke-width="5"/>' + path('M17 33l11 11 20-24', GO, 7)
        return picture('sign', '0 0 64 64', 'Tick: ready to sign out', inner)
    if kind == 'stop':
        inner = f'<polygon points="{_OCTAGON}" fill="{STOP}"/>' + path('M20 20l24 24M44 20L20 44', '#fff', 8)
        return picture('sign', '0 0 64 64', 'Cross: do not sign out', inner)
    inner = (f'<polygon points="{_OCTAGON}" fill="none" stroke="{STOP}" stroke-width="4"/><circle cx="32" cy="48" r="4" fill="{STOP}"/>'
             + path('M22 25c0-6 4.5-10 10-10s10 4 10 9.500c0 7-10 7.500-10 15', STOP, 6))
    return picture('sign', '0 0 64 64', 'Question mark: not read', inner)


def mark(good: bool) -> str:
    """A tick or a cross before a word that says the same."""
    drawn = path('M1.500 6.500l3 3.200L10.500 2', INK, 2) if good else path('M1.500 1.500l9 9M10.500 1.500l-9 9', STOP, 2.6)
    return f'<svg class="tick" viewBox="0 0 12 12" aria-hidden="true">{drawn}</svg>'


def _numbers(mask: int) -> List[str]:
    return [str(bit) for bit in range(7, -1, -1) if mask >> bit & 1]


def moved_bits(mask: int) -> str:
    """Eight boxes, those of the bits that moved filled."""
    bits = _numbers(mask)
    title = 'no bit moved' if not bits else f'{"bit" if len(bits) == 1 else "bits"} {", ".join(bits)} moved'
    boxes = []
    for at in range(8):
        moved = mask >> (7 - at) & 1
        boxes.append(rect(0.5 + 10 * at + (4 if at >= 4 else 0), 0.5, 8, 10, INK if moved else '#fff', INK if moved else RULE))
    return picture('bits', '0 0 84 11', title, ''.join(boxes))


def waiting(value: int, in_force: int) -> str:
    """A value that waits beside the one in force, and no transfer between them."""
    parts = [text(50, 11, 'waiting', 'middle'), text(270, 11, 'in force', 'middle', bold=True),
             rect(1.5, 18, 97, 36, stroke=INK, stroke_width=1.5, dash='5 3'), rect(220.5, 17.5, 98, 37, stroke=INK, stroke_width=3),
             text(50, 42, short(value), 'middle', 16, mono=True), text(269.5, 42, short(in_force), 'middle', 16, True, mono=True),
             path('M104 36H148M172 36H208', INK, 1.5, '4 3'), path('M207 31l9 5-9 5z', INK, 1.3),
             path('M153 29l14 14M167 29l-14 14', STOP, 3.5), text(160, 60, 'no transfer', 'middle')]
    return picture('stagepic', '0 0 320 62', f'{short(value)} waits; no transfer came; {short(in_force)} is in force', ''.join(parts))


def two_bytes(upper: str, first: int, lower: str, second: int) -> str:
    """Two bytes bit by bit, with those marked that differ."""
    differ = first ^ second
    parts = []
    for name, byte, y in ((upper, first, 6), (lower, second, 36)):
        parts += [text(0, y + 15, name), text(318, y + 16, short(byte), 'end', 16, True, mono=True)]
        for at in range(8):
            x, wrong = 58 + 24 * at + (6 if at >= 4 else 0), differ >> (7 - at) & 1
            parts.append(rect(x, y, 20, 20, '#fff', STOP if wrong else RULE, 3 if wrong else 1))
            parts.append(text(x + 10, y + 15, str(byte >> (7 - at) & 1), 'middle', bold=bool(wrong), mono=True))
            parts.append(path(f'M{x + 10} 28V34', STOP, 3) if wrong and y == 6 else '')
    title = f'{upper} {short(first)}, {lower} {short(second)}: they differ in bit {", ".join(_numbers(differ))}'
    return picture('stagepic', '0 0 320 62', title, ''.join(parts))


def ignored(value: int, why: str) -> str:
    """A write that ends before the register."""
    parts = [text(50, 11, 'sent', 'middle'), text(269.5, 11, 'register', 'middle'), rect(1.5, 18, 97, 36, stroke=INK, stroke_width=1.5),
             text(50, 42, short(value), 'middle', 16, mono=True), path('M104 36H196', INK, 1.5), path('M203 20V52', STOP, 5),
             text(150, 29, 'ignored', 'middle'), rect(220.5, 18.5, 98, 36, stroke=RULE, stroke_width=1.5, dash='2 3'),
             text(269.5, 41, why, 'middle')]
    return picture('stagepic', '0 0 320 62', f'{short(value)} was sent to a register that is {why}; nothing changed', ''.join(parts))


def bad_sample(samples: bytes, at: int) -> str:
    """The samples around one that has more lines than a chip."""
    first, around, step = max(0, at - 6), 13, 27
    names = ['select', 'clock', 'data', 'answer', 'line 5', 'line 6', 'line 7', 'line 8']
    parts = []
    for line, name in enumerate(names):
        y = 26 + 14 * line + (6 if line > 3 else 0)
        parts.append(text(0, y + 10, name, fill=SOFT if line > 3 else ''))
        for column, level in enumerate(samples[first:first + around]):
            high, x = level >> line & 1, 52 + step * column
            wrong = high and line > 3
            parts.append(rect(x, y, step - 4, 11, STOP if wrong else INK if high else '#fff', STOP if wrong else RULE, 1,
                              '2 2' if line > 3 and not high else ''))
            parts.append(path(f'M{x + 8} {num(y + 2)}l7 7m0-7l-7 7', '#fff', 2) if wrong else '')
    x = 52 + step * (at - first)
    parts += [rect(x - 2.5, 21, step + 1, 125, stroke=STOP, stroke_width=2.4), shape(f'M{x + 11} 14h1v7h-1z', STOP),
              text(min(max(x + 11, 90), 310), 10, f'sample {number(at)}: a fifth line', 'middle', bold=True, fill=STOP),
              text(52, 162, number(first), fill=SOFT), text(240, 162, 'filled: high; dashed: has to be empty', 'middle')]
    return picture('badpic', '0 -4 420 172', f'The samples around number {number(at)}', ''.join(parts))
