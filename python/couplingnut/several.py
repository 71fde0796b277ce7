"""Several chips on the same wires, read together."""
import ctypes

from ._handed import lent_bytes, registers, wide
from ._library import LIBRARY, LentChip, accept
from .reading import open as open_chip
from .reading import records_of
from .values import CHIP_RECORD_SIZE, Chip, ChipRecord, Session


def _lent_chips(chips):
    """Chips that a call may change, and how many they are; at least one, so that there is a pointer."""
    lent = (LentChip * max(len(chips), 1))()
    for place, chip in zip(lent, chips):
        ranges = [wide(number, name) for number, name in zip(chip[2:], Chip._fields[2:])]
        place.session[:] = bytes(chip.session)
        place.contended = bool(chip.contended)
        place.active_start, place.active_length, place.buffer_start, place.buffer_length = ranges
    return lent, len(chips)


def _chip_records_of(data, count):
    rows = (data[at:at + CHIP_RECORD_SIZE] for at in range(0, CHIP_RECORD_SIZE * count, CHIP_RECORD_SIZE))
    return [ChipRecord(row[0], records_of(row[1:], 1)[0]) for row in rows]


def read_several(map, chips, memory, samples, room=None):
    """Reads samples of several chips on the same wires, at most 65,536: the next chips, and a list of `ChipRecord`, by sample and then by
    chip. The memory, in which each `Chip` has the ranges of its banks, changes in place.

    A sample is two bytes: the selects, bit i for chip i, low where it is selected and high where there is no chip; then the other lines,
    bit 1 SCLK, bit 2 SDIO, bit 3 SDO. `room` is how many records there is room for. Each chip is read as if it were alone, with its select
    as CSB, but that a read is `contended` where another select was low. Refused: 17, 1 to 6.
    """
    map, samples, chips = bytes(map), bytes(samples), list(chips)
    lent, length = _lent_chips(chips)
    records = bytearray(CHIP_RECORD_SIZE * (len(chips) * (len(samples) // 6 + 1) if room is None else room))
    count = ctypes.c_uint64()
    accept(LIBRARY.couplingnut_read_several(map, len(map), lent, length, *lent_bytes(memory), samples, len(samples), *lent_bytes(records),
                                            ctypes.byref(count)))
    after = [Chip(Session(place.session), bool(place.contended), *chip[2:]) for place, chip in zip(lent, chips)]
    return after, _chip_records_of(records, count.value)


class Several:
    """Several newer chips of one map on the same wires, from their opening on: `chips`, a list of `Chip`, and `memory`, which has the banks
    of all of them one after the other. Refused: 2, 3."""

    def __init__(self, map, count):
        self.map, size = bytes(map), registers(map)
        self.memory = bytearray(2 * size * count)
        self.chips = []
        for number in range(count):
            start = 2 * size * number
            view = memoryview(self.memory)[start:start + 2 * size]
            session = open_chip(self.map, view[:size], view[size:])
            self.chips.append(Chip(session, False, start, size, start + size, size))

    def read(self, samples, room=None):
        """Reads on, at most 65,536 samples of two bytes, as `read_several` takes them: a list of `ChipRecord`. Refused: 17, 5, 6."""
        self.chips, records = read_several(self.map, self.chips, self.memory, samples, room)
        return records

    def active(self, chip):
        """What is in force on a chip."""
        start, length = self.chips[chip][2:4]
        return bytes(self.memory[start:start + length])

    def buffer(self, chip):
        """What waits on a chip, or equals what is in force."""
        start, length = self.chips[chip][4:]
        return bytes(self.memory[start:start + length])
