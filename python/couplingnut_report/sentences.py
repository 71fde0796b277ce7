"""The forms of numbers, values and places on a page, and sentences that can be set as text or as HTML."""
from __future__ import annotations

import html
import os
from typing import Iterable, List, Optional, Sequence, Union


class Strong(str):
    """The words that a sentence is about."""


class Value(int):
    """A register's byte."""


Part = Union[str, Strong, Value]
Sentence = Sequence[Part]
Words = List[Part]


def plain(sentence: Sentence) -> str:
    """A sentence as text."""
    return ''.join(value(part) if isinstance(part, Value) else part for part in sentence)


def marked(sentence: Sentence) -> str:
    """A sentence as HTML."""
    def part_of(part: Part) -> str:
        if isinstance(part, Value):
            return f'<span class="v">{short(part)}</span> ({int(part)})'
        return f'<b>{html.escape(part)}</b>' if isinstance(part, Strong) else html.escape(part)
    return ''.join(map(part_of, sentence))


def readable(name: str) -> str:
    """A file's name as text; what is no UTF-8 in it can't be shown."""
    return os.fsencode(name).decode('utf-8', 'replace')


def short(byte: int) -> str:
    """A byte in the workshop's form alone."""
    return f'0x{byte:02X}'


def value(byte: int) -> str:
    """A byte in the workshop's form, and as a plain number."""
    return f'0x{byte:02X} ({int(byte)})'


def place(address: int) -> str:
    """An address."""
    return f'0x{address:04X}'


def number(count: int) -> str:
    """A count, in thousands."""
    return f'{count:,}'


def counted(count: int, one: str, many: Optional[str] = None) -> str:
    """A count with its noun."""
    return f'{number(count)} {one if count == 1 else many or one + "s"}'


def joined(items: Iterable[str], last: str = 'and') -> str:
    """A list in words."""
    items = list(items)
    return items[0] if len(items) == 1 else f'{", ".join(items[:-1])} {last} {items[-1]}' if items else ''


def some(items: Sequence[str], most: int = 3) -> str:
    """The first few of a list, and how many more there are."""
    if len(items) <= most:
        return joined(items)
    return f'{", ".join(items[:most])} and {number(len(items) - most)} more'


def seconds(samples: int, rate: int) -> str:
    """The time that so many samples take."""
    time = samples / rate
    return f'{time:.4f} s' if time >= 1 else f'{time * 1000:.3f} ms'


def when(at: int, rate: Optional[int]) -> str:
    """The time of a sample, or its number where the rate is not known. Samples are counted from 0."""
    return seconds(at, rate) if rate else f'sample {number(at)}'


def at_place(at: int, rate: Optional[int]) -> str:
    """The time of a sample together with its number."""
    return f'{seconds(at, rate)} (sample {number(at)})' if rate else f'sample {number(at)}'
