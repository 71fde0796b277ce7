"""The words of touched registers. A module named `touched` would be taken for the function."""
import ctypes
from array import array

from ._handed import lent_words, registers, wide
from ._library import LIBRARY, accept


def touched_words(map):
    """Words with a bit for each register of a map, all clear: bit a mod 64 of word a // 64 is that of address a."""
    return array('Q', bytes(8 * ((registers(map) + 63) // 64)))


def touched_mark(words):
    """Clears every bit of the words, in place. Refused: 16, for more than 128 of them."""
    accept(LIBRARY.couplingnut_touched_mark(*lent_words(words)))


def touched_count(words):
    """How many bits of the words are set. Refused: 16."""
    count = ctypes.c_uint64()
    accept(LIBRARY.couplingnut_touched_count(*lent_words(words), ctypes.byref(count)))
    return count.value


def touched_next(words, start=0):
    """The first address from a start on, that one included, whose bit is set; 64 times the number of words if none is. Refused: 16."""
    address = ctypes.c_uint64()
    accept(LIBRARY.couplingnut_touched_next(*lent_words(words), wide(start, 'start'), ctypes.byref(address)))
    return address.value


def touched(words):
    """Each address whose bit is set, by rising address. Refused: 16."""
    address = touched_next(words)
    while address < 64 * len(words):
        yield address
        address = touched_next(words, address + 1)
