"""Register maps: the test, the two versions, mending."""
import ctypes

from ._handed import by_chip, lent_bytes
from ._library import LIBRARY, accept
from .values import ALTERED_SIZE, MOST_ALTERED, MOST_MAP, Altered


def map_test(map, part=None, top=None):
    """Refuses bytes that are no good register map (2, 3; of a part also 12)."""
    map = bytes(map)
    call, first = by_chip('map_test', part, top, map)
    accept(call(*first, map, len(map)))


def _converted(call, map, room):
    map, out, length = bytes(map), bytearray(room), ctypes.c_uint64()
    accept(call(map, len(map), *lent_bytes(out), ctypes.byref(length)))
    return bytes(out[:length.value])


def to_version_1(map, room=MOST_MAP):
    """A map of either version as one of version 1. Refused: 2, 3; 13, where it has a flag set; 11."""
    return _converted(LIBRARY.couplingnut_to_version_1, map, room)


def to_version_2(map, room=MOST_MAP):
    """A map of either version as one of version 2, with flags 0 if it has none. Refused: 2, 3, 11."""
    return _converted(LIBRARY.couplingnut_to_version_2, map, room)


def mend(map, room=MOST_ALTERED):
    """A map corrected so that the map test accepts it, and a list of `Altered`, by rising address. The map handed in stays as it was.

    `room` is how many altered entries there is room for. Refused: 2; 18, where the product number is 0x0000 or 0xFFFF; 6.
    """
    mended, listed_bytes, length = bytearray(map), bytearray(ALTERED_SIZE * room), ctypes.c_uint64()
    accept(LIBRARY.couplingnut_mend(*lent_bytes(mended), *lent_bytes(listed_bytes), ctypes.byref(length)))
    rows = (listed_bytes[at:at + ALTERED_SIZE] for at in range(0, length.value, ALTERED_SIZE))
    return bytes(mended), [Altered(row[0] * 256 + row[1], *row[2:]) for row in rows]
