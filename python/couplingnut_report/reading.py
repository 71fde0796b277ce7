"""A recording read by the library: its records with their samples, frame by frame, and both stages of every register at the end.

Frames are cut out by the levels of the select line; what passed in them is for the library to say. A recording may be handed to it in
any pieces without a difference, so each frame is handed over up to just before its end: the session there tells how it ended.
"""
from __future__ import annotations

import functools
import re
from dataclasses import dataclass, field
from typing import Dict, FrozenSet, Iterator, List, NamedTuple, Optional, Tuple, Union

import couplingnut as cn

from .captures import Capture
from .unit import Unit

PIECE = 4096
WRITE, READ, CUT = 1, 2, 3
IGNORED, ACTIVE, WAITING, SETTING, TRANSFER, RESET = range(6)
AGREED, DISAGREED, CONTENDED = range(3)
_LEVELS = bytes(byte & 3 for byte in range(256))
_SELECT = bytes(byte & 1 for byte in range(256))
_BAD = re.compile(rb'[^\x00-\x0F]')


class Low(NamedTuple):
    """Another chip's select that was low while a byte was read, and the first sample in which it was."""
    select: str
    at: int


@dataclass(frozen=True)
class Event:
    """A record, the number of the sample that completed it, and what else the library showed there: whether buffer readback was on, how
    many registers a transfer put in force, and the session before (of a cut: just before the select rose). Of a contended read also the
    other selects that were low."""
    record: cn.Record
    at: int
    readback: bool
    came_in_force: int
    before: cn.Session
    low: Tuple[Low, ...] = ()

    def is_write(self, *effects: int) -> bool:
        """Whether it is a write with one of these effects."""
        return self.record.kind == WRITE and self.record.byte5 in effects

    def is_cut(self) -> bool:
        """Whether it is a byte or a command that broke off."""
        return self.record.kind == CUT

    def in_data(self) -> bool:
        """Of a cut: whether a byte broke off, and not a command."""
        return self.record.byte4 == 1

    def agrees(self) -> bool:
        """Whether it is a read that carried the byte that was due."""
        return self.record.kind == READ and self.record.byte5 == AGREED

    def disagrees(self) -> bool:
        """Whether it is a read that carried another byte than was due."""
        return self.record.kind == READ and self.record.byte5 == DISAGREED

    def is_contended(self) -> bool:
        """Whether it is a read with another chip's select low, which says nothing of the byte."""
        return self.record.kind == READ and self.record.byte5 == CONTENDED


@dataclass
class Frame:
    """The samples while the select was low: the first, the first after them (none if the recording ends in it), the sessions before it,
    just before its end and after it, and what passed. An older chip's run may go on from frame to frame: it stalls between them."""
    start: int
    end: Optional[int]
    before: cn.Session
    last: cn.Session
    after: cn.Session
    events: List[Event] = field(default_factory=list)

    def took_no_bit(self) -> bool:
        """Whether the clock never rose in it."""
        return not self.events and self.last.bits == 0 and (self.last.phase == 'instruction' or self.before.stalled)

    def carried_no_byte(self) -> bool:
        """Whether it ended right after its command, and was the end of the run too."""
        return not (self.events or self.before.stalled or self.after.stalled) and self.last.phase == 'data' and self.last.bits == 0

    def led_nowhere(self) -> bool:
        """Of an older chip: whether its command named an address above the top, so that bits are passed over, and none was a byte."""
        return not self.events and self.last.phase == 'rest'


@dataclass(frozen=True)
class Reading:
    """All that the library said of a recording."""
    unit: Unit
    capture: Capture
    frames: List[Frame]
    active: bytes
    buffer: bytes
    session: cn.Session
    touched: FrozenSet[int]

    def events(self) -> Iterator[Event]:
        """The events in order of time."""
        return (event for frame in self.frames for event in frame.events)

    @functools.cached_property
    def writes(self) -> Dict[int, List[Event]]:
        """For each register written, its writes with effect 1 or 2."""
        found: Dict[int, List[Event]] = {}
        for event in self.events():
            if event.is_write(ACTIVE, WAITING):
                found.setdefault(event.record.address, []).append(event)
        return found

    def begins_high(self) -> bool:
        """Whether the first sample has the select high."""
        return bool(self.capture.samples) and self.capture.samples[0] & 1 == 1

    def ends_high(self) -> bool:
        """Whether the select is high at the end."""
        return bool(self.capture.samples) and self.session.last_csb == 1

    def is_open(self, frame: Frame) -> bool:
        """Whether the recording ends before the frame does, or the older chip's run that stalls after it."""
        return frame.end is None or frame is self.frames[-1] and self.session.stalled


@dataclass(frozen=True)
class Refusal:
    """A recording that the library refused: the number, its words, and the sample that is to blame, if it is one."""
    unit: Unit
    capture: Capture
    number: int
    words: str
    at: Optional[int]


def frames_of(samples: bytes) -> Iterator[Tuple[int, Optional[int]]]:
    """Where the frames of a recording begin and end, by the levels of its select."""
    levels = samples.translate(_SELECT)
    start = levels.find(b'\0')
    while start >= 0:
        end = levels.find(b'\1', start)
        yield start, None if end < 0 else end
        start = -1 if end < 0 else levels.find(b'\0', end)


def rises_before(samples: bytes, end: int, count: int) -> List[int]:
    """The last samples before this one in which the clock rose with the select low; at most so many."""
    found: List[int] = []
    reach = 256
    while len(found) < count:
        start = max(0, end - reach)
        levels, found, at = samples[start:end].translate(_LEVELS), [], end - start
        while len(found) < count:
            at = levels.rfind(b'\0\2', 0, at)
            if at < 0:
                break
            found.append(start + at + 1)
            at += 1
        if start == 0:
            break
        reach *= 8
    return found[::-1]


class _Reader:
    """The library with the session and the banks of one recording."""

    def __init__(self, unit: Unit, samples: bytes):
        self.map, self.part, self.samples, self.at = unit.map, unit.part, samples, 0
        self.active, self.buffer = cn.banks(unit.map)
        self.session = cn.open(unit.map, self.active, self.buffer, part=unit.part)
        self.touched = cn.touched_words(unit.map)

    def up_to(self, end: int) -> Iterator[Event]:
        """Reads on to this sample, and gives the events on the way."""
        while self.at < end:
            piece = self.samples[self.at:min(end, self.at + PIECE)]
            before, active = self.session, bytes(self.active)
            self.session, record, taken = cn.next_record(self.map, self.session, self.active, self.buffer, piece, part=self.part,
                                                         touched=self.touched)
            self.at += taken
            if record is not None:
                moves = record.kind == WRITE and record.byte5 == TRANSFER
                came = sum(old != new for old, new in zip(active, self.active)) if moves else 0
                yield Event(record, self.at - 1, self.session.settings.buffer_readback, came, before)

    def between(self, end: int) -> cn.Session:
        """Reads on to this sample with the select high, where nothing is recorded."""
        for event in self.up_to(end):
            raise AssertionError(f'a record with the select high: {event}')
        return self.session


def _read_frames(reader: _Reader) -> List[Frame]:
    frames, length = [], len(reader.samples)
    for start, end in frames_of(reader.samples):
        before = reader.between(start)
        events = list(reader.up_to(length if end is None else end))
        last = reader.session
        events += reader.up_to(length if end is None else end + 1)
        frames.append(Frame(start, end, before, last, reader.session, events))
    reader.between(length)
    return frames


def read(unit: Unit, capture: Capture) -> Union[Reading, Refusal]:
    """The reading of a recording, or its refusal: of a refused one nothing is told, also not what came before the bad sample."""
    reader = _Reader(unit, capture.samples)
    bad = _BAD.search(capture.samples)
    try:
        if bad:
            cn.read(unit.map, reader.session, reader.active, reader.buffer, bad[0], part=unit.part)
        frames = _read_frames(reader)
    except cn.Refused as refused:
        return Refusal(unit, capture, refused.number, cn.message(refused.number), bad.start() if bad else None)
    return Reading(unit, capture, frames, bytes(reader.active), bytes(reader.buffer), reader.session, frozenset(cn.touched(reader.touched)))
