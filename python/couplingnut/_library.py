"""The shared library: where it is found, the types of its calls, its refusals."""
import ctypes
import os

from .values import PARTS, SESSION_SIZE


class LentChip(ctypes.Structure):
    """couplingnut_chip."""
    _fields_ = [('session', ctypes.c_uint8 * SESSION_SIZE), ('contended', ctypes.c_uint8),
                ('active_start', ctypes.c_uint64), ('active_length', ctypes.c_uint64),
                ('buffer_start', ctypes.c_uint64), ('buffer_length', ctypes.c_uint64)]


def _library():
    """The shared library."""
    here = os.path.dirname(os.path.dirname(os.path.abspath(__file__)))  # the folder that the package stands in
    named = os.environ.get('COUPLINGNUT_LIBRARY')
    near = [os.path.join(here, *place, 'libcouplingnut.so.0') for place in (('..', '..'), ('..', 'target', 'lib'))]
    return ctypes.CDLL(named or next(filter(os.path.exists, near), 'libcouplingnut.so.0'))


def _declared(library):
    """The library with the types of its calls, as couplingnut.h has them."""
    given, lent, size = ctypes.c_char_p, ctypes.c_void_p, ctypes.c_size_t
    wide, told = ctypes.c_uint64, ctypes.POINTER(ctypes.c_uint64)
    opening = [given, size, lent, lent, size, lent, size]
    reading = opening + [lent, size, given, size, lent, size, told]
    converting = [given, size, lent, size, told]
    sending = [wide, wide, wide, wide, given, size, lent, size, told]
    by_chip = [('map_test', [given, size]), ('open', opening), ('read', reading), ('next_record', reading + [told])]
    older = [(f'{name}_{part.lower()}', [wide] + types) for name, types in by_chip for part in PARTS]
    for name, types in by_chip + older + [('to_version_1', converting), ('to_version_2', converting),
                                          ('mend', [lent, size, lent, size, told]),
                                          ('send', sending), ('send_older', [wide] + sending),
                                          ('send_setup', [wide, given, size, lent, size, told]),
                                          ('fewest_frames', [wide, ctypes.POINTER(ctypes.c_uint16), size, given, size, lent, size, told]),
                                          ('touched_mark', [lent, size]), ('touched_count', [lent, size, told]),
                                          ('touched_next', [lent, size, wide, told]),
                                          ('read_several', [given, size, ctypes.POINTER(LentChip), size, lent, size, given, size,
                                                            lent, size, told])]:
        call = getattr(library, 'couplingnut_' + name)
        call.argtypes, call.restype = types, ctypes.c_uint32
    library.couplingnut_message.argtypes, library.couplingnut_message.restype = [ctypes.c_uint32], ctypes.c_char_p
    return library


LIBRARY = _declared(_library())


def message(number):
    """The words for a number."""
    return LIBRARY.couplingnut_message(number).decode()


class Refused(Exception):
    """A call that was refused: `number` says why, and the text has its words."""

    def __init__(self, number):
        super().__init__(f'refused {number}: {message(number)}')
        self.number = number


def accept(number):
    """Raises what a number refuses."""
    if number != 0:
        raise Refused(number)
