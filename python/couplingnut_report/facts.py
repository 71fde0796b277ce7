"""What a page says of single registers, selected from the events of a reading and the stages at its end."""
from __future__ import annotations

import functools
import operator
from dataclasses import dataclass
from typing import Dict, List, Optional

from .reading import ACTIVE, IGNORED, READ, RESET, SETTING, TRANSFER, WAITING, WRITE, Event, Reading
from .unit import BUFFERED, PLAIN, READ_ONLY, Register

SLOW_ADDRESS, SLOW_BIT = 0x0001, 0x10
RESETS, CONTENDED_READS = 'soft resets', 'reads with another select low'  # as a page counts them


@dataclass
class Row:
    """One register at the end of the recording."""
    register: Register
    in_force: int
    waiting: Optional[int]
    written: bool
    moved: int
    confirmed_at: Optional[int]

    def ok(self) -> Optional[bool]:
        """Whether the value in force is the wanted one, and nothing else; none where no value is wanted."""
        return None if self.register.wanted is None else self.in_force == self.register.wanted


def keeps_a_value(register: Register) -> bool:
    """Whether the stages hold a value of this register that can be in force."""
    return register.kind in (PLAIN, BUFFERED, READ_ONLY)


def waiting(reading: Reading) -> List[int]:
    """The buffered registers whose waiting byte is another than the one in force."""
    return [address for address, register in sorted(reading.unit.listed.items())
            if register.kind == BUFFERED and reading.buffer[address] != reading.active[address]]


def moved_bits(reading: Reading) -> Dict[int, int]:
    """For each register, the bits that moved in any of its writes."""
    return {address: functools.reduce(operator.or_, (event.record.moved for event in events)) for address, events in reading.writes.items()}


def _not_buffered(reading: Reading, found: Dict[int, int]) -> Dict[int, int]:
    return {address: at for address, at in found.items() if reading.unit.register(address).kind != BUFFERED}


def confirmed(reading: Reading) -> Dict[int, int]:
    """For each register, the last read that agreed, with buffer readback off, after the value in force could last have changed: by a write, a
    transfer, a soft reset, or the end of a frame that moves the buffered registers."""
    found: Dict[int, int] = {}
    for frame in reading.frames:
        for event in frame.events:
            if event.is_write(RESET):
                found.clear()
            elif event.is_write(TRANSFER):
                found = _not_buffered(reading, found)
            elif event.is_write(ACTIVE, WAITING):
                found.pop(event.record.address, None)
            elif event.agrees() and not event.readback:
                found[event.record.address] = event.at
        if frame.end is not None and frame.last.armed:
            found = _not_buffered(reading, found)
    return found


def written_after(reading: Reading, address: int, at: int) -> Optional[Event]:
    """The last whole write to a register after a sample."""
    last = reading.writes.get(address, [])[-1:]
    return last[0] if last and last[0].at > at else None


def rows(reading: Reading) -> List[Row]:
    """The registers to show: those written, wanted or broken off."""
    written, moved, reads = reading.touched, moved_bits(reading), confirmed(reading)
    broken = {event.record.address for event in reading.events() if event.is_cut() and event.in_data()}
    waits = set(waiting(reading))
    shown = written | waits | set(reading.unit.wanted()) | broken
    return [Row(register, reading.active[register.address], reading.buffer[register.address] if register.address in waits else None,
                register.address in written, moved.get(register.address, 0), reads.get(register.address))
            for register in map(reading.unit.register, sorted(shown)) if keeps_a_value(register)]


def counts(reading: Reading) -> Dict[str, int]:
    """How many of each kind there were; an older part has no soft reset, and a chip alone no other select."""
    events = list(reading.events())
    writes = [event.record.byte5 for event in events if event.record.kind == WRITE]
    found = {
        'frames': len(reading.frames),
        'bytes written': len(writes),
        'in force at once': writes.count(ACTIVE),
        'needing a transfer': writes.count(WAITING),
        'bytes read': sum(event.record.kind == READ for event in events),
        'reads that disagreed': sum(event.disagrees() for event in events),
        CONTENDED_READS: sum(event.is_contended() for event in events),
        'transfers': writes.count(TRANSFER),
        RESETS: writes.count(RESET),
        'broken bytes': sum(event.is_cut() and event.in_data() for event in events),
        'broken commands': sum(event.is_cut() and not event.in_data() for event in events),
        'ignored writes': writes.count(IGNORED),
        'interface settings': writes.count(SETTING),
    }
    left_out = [RESETS] * (reading.unit.part is not None) + [CONTENDED_READS] * (not reading.capture.others)
    return {name: count for name, count in found.items() if name not in left_out}


def slow_requests(reading: Reading) -> List[Event]:
    """The writes that ask for the slow setting, which there is not. On an older part their register is an ordinary one."""
    return [event for event in reading.events() if reading.unit.part is None
            and event.record.kind == WRITE and event.record.address == SLOW_ADDRESS and event.record.byte3 & SLOW_BIT]
