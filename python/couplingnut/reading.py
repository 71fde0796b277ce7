"""One chip: its banks, opening, reading, the next record."""
import ctypes

from ._handed import by_chip, lent_bytes, lent_words, registers
from ._library import accept
from .touching import touched_words
from .values import RECORD_SIZE, SESSION_SIZE, Record, Session


def banks(map):
    """Two banks as long as a map has registers, for `open` to fill."""
    n = registers(map)
    return bytearray(n), bytearray(n)


def _lent_banks(active, buffer):
    """Two banks, which may not overlap, with their lengths."""
    (first, first_length), (second, second_length) = lent_bytes(active), lent_bytes(buffer)
    a, b = ctypes.addressof(first), ctypes.addressof(second)
    if a < b + second_length and b < a + first_length:
        raise ValueError('the two banks overlap')
    return first, first_length, second, second_length


def _lent_touched(words, map):
    """The words of touched registers; where the caller has none, such as a map needs."""
    return lent_words(touched_words(map) if words is None else words)


def records_of(data, count):
    """The first records of these bytes."""
    rows = (data[at:at + RECORD_SIZE] for at in range(0, RECORD_SIZE * count, RECORD_SIZE))
    return [Record(row[0], row[1] * 256 + row[2], *row[3:]) for row in rows]


def open(map, active, buffer, part=None, top=None):
    """Puts a map's defaults in both banks, and gives the opened session. Refused: 2, 3, 4; of a part also 12."""
    map, room = bytes(map), (ctypes.c_uint8 * SESSION_SIZE)()
    call, first = by_chip('open', part, top, map)
    accept(call(*first, map, len(map), room, *_lent_banks(active, buffer)))
    return Session(room)


def read(map, session, active, buffer, samples, room=None, part=None, top=None, touched=None):
    """Reads samples, at most 65,536: the next session, and a list of records. The banks change in place, and so do the words of touched
    registers, `touched`, if they are given: `touched_words` makes them.

    `room` is how many records there is room for; as many as there can be, if it isn't given. Refused: 1 to 6, 16; of a part also 12.
    """
    map, samples = bytes(map), bytes(samples)
    call, first = by_chip('read', part, top, map)
    state = (ctypes.c_uint8 * SESSION_SIZE)(*bytes(session))
    records = bytearray(RECORD_SIZE * (len(samples) // 3 + 1 if room is None else room))
    count = ctypes.c_uint64()
    accept(call(*first, map, len(map), state, *_lent_banks(active, buffer), *_lent_touched(touched, map), samples, len(samples),
                *lent_bytes(records), ctypes.byref(count)))
    return Session(state), records_of(records, count.value)


def next_record(map, session, active, buffer, samples, part=None, top=None, touched=None):
    """Reads samples up to and with the first that gives a record, or all of them: the next session, the record or None, and how many
    samples were read. Refused: 1 to 5, 16; of a part also 12."""
    map, samples = bytes(map), bytes(samples)
    call, first = by_chip('next_record', part, top, map)
    state = (ctypes.c_uint8 * SESSION_SIZE)(*bytes(session))
    records = bytearray(RECORD_SIZE)
    count, taken = ctypes.c_uint64(), ctypes.c_uint64()
    accept(call(*first, map, len(map), state, *_lent_banks(active, buffer), *_lent_touched(touched, map), samples, len(samples),
                *lent_bytes(records), ctypes.byref(count), ctypes.byref(taken)))
    return Session(state), next(iter(records_of(records, count.value)), None), taken.value
