"""The sender: an order, a list of orders, the fewest frames."""
import ctypes

from ._handed import lent_bytes, wide
from ._library import LIBRARY, accept
from .values import LISTED_VERSION, MOST_FRAMES, MOST_ORDERS, MOST_SAMPLES, MOST_SETUP, PARTS


def _lent_addresses(numbers):
    """Addresses as numbers of 16 bits, each of which crosses whole, and how many they are; with one more for the pointer's sake."""
    numbers = list(numbers)
    if not all(0 <= number < 2 ** 16 for number in numbers):
        raise ValueError('an address is no number of 16 bits')
    return (ctypes.c_uint16 * (len(numbers) + 1))(*numbers), len(numbers)


def send(direction, settings, start, count, data=b'', room=MOST_SAMPLES, part=None, top=None):
    """The samples of a run: `count` bytes from `start` on, which `data` has for a write. Refused: 7 to 11. To a part, whose top is always
    named: up to 3 bytes are counted, more stream; refused: 12, 7, 8, 9, 11. The samples are the same for both parts."""
    if (part is None) != (top is None) or part is not None and part not in PARTS:
        raise ValueError(f'an older chip is a part, {" or ".join(PARTS)}, and a top')
    data, out, samples = bytes(data), bytearray(room), ctypes.c_uint64()
    order = (wide(direction, 'direction'), wide(settings, 'settings'), wide(start, 'start'), wide(count, 'count'), data, len(data),
             *lent_bytes(out), ctypes.byref(samples))
    accept(LIBRARY.couplingnut_send(*order) if part is None else LIBRARY.couplingnut_send_older(wide(top, 'top'), *order))
    return bytes(out[:samples.value])


def listed(direction, start, count, data=b''):
    """An order as it stands in a list for `send_setup`. Join several with b''.join."""
    data = bytes(data)
    length = (6 + len(data)).to_bytes(2, 'big')
    return length + bytes([LISTED_VERSION, direction]) + start.to_bytes(2, 'big') + count.to_bytes(2, 'big') + data


def send_setup(settings, orders, room=MOST_SETUP):
    """The samples of up to 64 orders, each sent after the one before it: `orders` are the bytes of a list. Refused: 7 to 11, 14, 15."""
    orders, out, samples = bytes(orders), bytearray(room), ctypes.c_uint64()
    accept(LIBRARY.couplingnut_send_setup(wide(settings, 'settings'), orders, len(orders), *lent_bytes(out), ctypes.byref(samples)))
    return bytes(out[:samples.value])


def fewest_frames(ascending, addresses, data, room=MOST_FRAMES):
    """The fewest streaming write orders that write each listed register once with its byte and no other: the bytes of a list, by rising
    start. `data` has a byte for each of the addresses, which rise. Send them with ASCENDING or without it, as `ascending` says, and
    never with SINGLE_INSTRUCTION; more than 64 by `cut_orders`. Refused: 19, 11."""
    data, out, length = bytes(data), bytearray(room), ctypes.c_uint64()
    accept(LIBRARY.couplingnut_fewest_frames(bool(ascending), *_lent_addresses(addresses), data, len(data), *lent_bytes(out),
                                             ctypes.byref(length)))
    return bytes(out[:length.value])


def cut_orders(orders, most=MOST_ORDERS):
    """A list of orders cut into lists of at most so many, which `send_setup` takes."""
    start = end = count = 0
    while end < len(orders):
        end += 2 + int.from_bytes(orders[end:end + 2], 'big')
        count += 1
        if count == most or end >= len(orders):
            yield orders[start:end]
            start, count = end, 0
