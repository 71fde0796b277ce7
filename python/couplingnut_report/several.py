"""Several chips of one capture, each with a select of its own.

Each chip is read alone, with its select as CSB: that gives its records with their samples, and its stages. All are read together too,
which says of each read whether another select was low. It is proved that a chip's own records are, in order, the same both ways but for
that. Which select it was, and when, is found by the levels at the eight edges of the byte.
"""
from __future__ import annotations

from dataclasses import replace
from typing import List, Sequence, Tuple, Union

import couplingnut as cn

from .captures import Capture
from .lines import shared_samples
from .reading import CONTENDED, READ, Event, Low, Reading, Refusal, read, rises_before
from .unit import Unit

PIECE = 2 * 65536  # bytes for one call: two a sample
BYTE_BITS = 8


def own_records(unit: Unit, captures: Sequence[Capture]) -> List[List[cn.Record]]:
    """For each chip its own records, in order, of the reading of all together."""
    chips, samples = cn.Several(unit.map, len(captures)), shared_samples([capture.samples for capture in captures])
    own: List[List[cn.Record]] = [[] for _ in captures]
    for start in range(0, len(samples), PIECE):
        for record in chips.read(samples[start:start + PIECE]):
            own[record.chip].append(record.record)
    return own


def low_at(captures: Sequence[Capture], chip: int, at: int) -> Tuple[Low, ...]:
    """The other selects that were low at an edge of the byte that a chip was read up to this sample, each with the first such sample."""
    edges, found = rises_before(captures[chip].samples, at + 1, BYTE_BITS), []
    for other, capture in enumerate(captures):
        low = [edge for edge in edges if other != chip and not capture.samples[edge] & 1]
        found += [Low(capture.lines['csb'], low[0])] if low else []
    return tuple(sorted(found, key=lambda select: select.at))


def _marked(event: Event, record: cn.Record, captures: Sequence[Capture], chip: int) -> Event:
    """An event with the record that the reading of all together has of it."""
    if record == event.record:
        return event
    if record != event.record._replace(byte5=CONTENDED) or record.kind != READ:
        raise AssertionError(f'chip {chip} alone gave {event.record}, and with the others {record}')
    return replace(event, record=record, low=low_at(captures, chip, event.at))


def matched(reading: Reading, records: Sequence[cn.Record], captures: Sequence[Capture], chip: int) -> Reading:
    """A chip's reading with its own records of the reading of all together, which say which reads were contended."""
    if len(records) != sum(1 for _ in reading.events()):
        raise AssertionError(f'chip {chip} alone gave {sum(1 for _ in reading.events())} records, and with the others {len(records)}')
    told = iter(records)
    frames = [replace(frame, events=[_marked(event, next(told), captures, chip) for event in frame.events]) for frame in reading.frames]
    return replace(reading, frames=frames)


def read_chips(unit: Unit, captures: Sequence[Capture]) -> List[Union[Reading, Refusal]]:
    """The reading of each chip, as a unit that is named after its select; or its refusal."""
    own, found = own_records(unit, captures), []
    for chip, capture in enumerate(captures):
        reading = read(replace(unit, name=f'{unit.name}, chip {capture.lines["csb"]}'), capture)
        found.append(reading if isinstance(reading, Refusal) else matched(reading, own[chip], captures, chip))
    return found
