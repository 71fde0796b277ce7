"""The numbers and values of the calls: records, sessions, settings, chips."""
from typing import NamedTuple

# The direction of an order, and what its settings number is the sum of.
WRITE, READ = 0, 1
LSB_FIRST, ASCENDING, SINGLE_INSTRUCTION = 1, 2, 4

# The older chips, and what a session has for the bytes left of a run that streams.
PARTS = ('AD9557', 'AD9508')
STREAMS = 4

SESSION_SIZE = 21
RECORD_SIZE = 7
CHIP_RECORD_SIZE = 1 + RECORD_SIZE  # of several chips: the chip's number, and its record
CONTENDED = 2  # what byte 5 of a read's record has then
MOST_SAMPLES = 48003  # No order gives more.
MOST_MAP = 24582  # No map is longer.
ALTERED_SIZE = 5  # The bytes of an altered entry in mending's list.
MOST_ALTERED = 8192  # No map has more registers.
MOST_SETUP = 65536  # No list of orders gives more.
MOST_ORDERS = 64  # No list has more.
MOST_FRAMES = 9000  # No orders for single registers take more bytes.
LISTED_VERSION = 1  # The version of the form of an order in a list.
PHASES = ('rest', 'instruction', 'data')


class Settings(NamedTuple):
    """The five settings of a session."""
    lsb_first: bool
    ascending: bool
    sdo_active: bool
    single_instruction: bool
    buffer_readback: bool


class SettingsInUse(NamedTuple):
    """The four settings that the instruction under way was started with."""
    lsb_first: bool
    ascending: bool
    sdo_active: bool
    single_instruction: bool


class Record(NamedTuple):
    """What one record says: bytes 3 to 5 depend on the kind, and `moved` has the bits that a write moved (couplingnut(3))."""
    kind: int
    address: int
    byte3: int
    byte4: int
    byte5: int
    moved: int

    def __str__(self):
        """The line that busread prints."""
        return f'{"?WRC"[self.kind]} {self.address:04X} {self.byte3:02X} {self.byte4:02X} {self.byte5} {self.moved:02X}'


class ChipRecord(NamedTuple):
    """A record of several chips: the number of its chip, counted from 0, and the record itself."""
    chip: int
    record: Record

    @property
    def contended(self):
        """Whether it is a read with another select low at one of its byte's edges; then it doesn't say whether the byte agreed."""
        return self.record.kind == 2 and self.record.byte5 == CONTENDED

    def __str__(self):
        return f'{self.chip} {self.record}'


class Altered(NamedTuple):
    """An entry that mending altered: its address, and what it was before."""
    address: int
    kind: int
    mask: int
    default: int


class Session:
    """What the reader keeps between calls, as a value of 21 bytes. Any such bytes make one; the reader refuses those that are none."""
    __slots__ = ('_bytes',)

    def __init__(self, data):
        data = bytes(data)
        if len(data) != SESSION_SIZE:
            raise ValueError(f'a session has {SESSION_SIZE} bytes, and not {len(data)}')
        self._bytes = data

    def __bytes__(self):
        return self._bytes

    def __eq__(self, other):
        return isinstance(other, Session) and self._bytes == other._bytes

    def __hash__(self):
        return hash(self._bytes)

    def __repr__(self):
        return f'Session(bytes.fromhex({self._bytes.hex()!r}))'

    @property
    def version(self):
        """The version of the layout."""
        return self._bytes[0]

    @property
    def last_csb(self):
        """The last level of the select."""
        return self._bytes[1]

    @property
    def last_sclk(self):
        """The last level of the clock."""
        return self._bytes[2]

    @property
    def phase(self):
        """'rest', 'instruction' or 'data'; the number itself where it is none of them."""
        number = self._bytes[3]
        return PHASES[number] if number < len(PHASES) else number

    @property
    def bits(self):
        """How many bits of the instruction or byte under way were taken."""
        return self._bytes[4]

    @property
    def value(self):
        """The value of these bits."""
        return int.from_bytes(self._bytes[5:7], 'big')

    @property
    def address(self):
        """The address of the byte under way."""
        return int.from_bytes(self._bytes[7:9], 'big')

    @property
    def direction(self):
        """WRITE or READ."""
        return self._bytes[9]

    @property
    def settings(self):
        """The settings, which the next instruction starts with."""
        return Settings(*map(bool, self._bytes[10:15]))

    @property
    def settings_in_use(self):
        """The settings that this instruction started with."""
        return SettingsInUse(*map(bool, self._bytes[15:19]))

    @property
    def left(self):
        """Of an older chip in data: how many bytes of its run are left, 1 to 3, or STREAMS; else 0."""
        return self._bytes[19]

    @property
    def armed(self):
        """Whether the end of this frame moves the buffered registers: the map has the flag, and a byte went to one of them."""
        return self._bytes[20] == 1

    @property
    def stalled(self):
        """Whether an older chip's run stalls: the next frame is the rest of it, and no new instruction."""
        return self.phase == 'data' and self.last_csb == 1


class Chip(NamedTuple):
    """One of several chips: its session; whether another select was low at an edge of the byte that it is being read; and where its two
    banks stand in the memory that all of them share."""
    session: Session
    contended: bool
    active_start: int
    active_length: int
    buffer_start: int
    buffer_length: int
