"""What is handed to the library: memory, numbers that cross whole, and the call that a chip takes."""
import ctypes

from ._library import LIBRARY
from .values import PARTS


def lent_bytes(memory):
    """Memory that a call may write, and its length. It is at least one byte, so that there is a pointer to hand over."""
    length = len(memory)
    return (ctypes.c_uint8 * length).from_buffer(memory) if length else (ctypes.c_uint8 * 1)(), length


def lent_words(words):
    """Words of 64 bits that a call may write, and how many they are; at least one, as above."""
    view = memoryview(words)
    if view.itemsize != 8 or view.format.lstrip('@=<') not in ('Q', 'L'):
        raise TypeError("the words are no numbers of 64 bits, as array('Q') has them")
    length = len(view)
    lent = (ctypes.c_uint64 * length).from_buffer(words) if length else (ctypes.c_uint64 * 1)()
    if ctypes.addressof(lent) % 8:
        raise ValueError('the words are not aligned to 8 bytes')
    return lent, length


def wide(number, name):
    """A number that crosses whole, since ctypes would cut it in silence."""
    if not 0 <= number < 2 ** 64:
        raise ValueError(f'{name} is no number of 64 bits')
    return number


def registers(map):
    """How many registers a map says that it has."""
    return int.from_bytes(bytes(map)[3:5], 'big')


def by_chip(name, part, top, map):
    """The library's call of this name for a newer chip, where no part is named, or for the part; and what stands before its other words."""
    if part is None:
        if top is not None:
            raise ValueError('only a part has a top')
        return getattr(LIBRARY, 'couplingnut_' + name), ()
    if part not in PARTS:
        raise ValueError(f'{part!r} is none of the older chips, which are {" and ".join(PARTS)}')
    if top is None:
        top = max(registers(map) - 1, 0)
    return getattr(LIBRARY, f'couplingnut_{name}_{part.lower()}'), (wide(top, 'top'),)
