"""Which channel of a capture is which of the chip's lines, and the samples of those lines alone.

A capture has its channels in any order, with others among them. A line is found by its channel's name; where that is not clear, the
user has to say, because exchanged lines can give believable writes that nobody sent.
"""
from __future__ import annotations

from typing import Dict, List, Mapping, Optional, Sequence

from .ends import Wrong

# The lines, in the order of a sample's bits.
LINES = ('csb', 'sclk', 'sdio', 'sdo')
CALLED = {'csb': 'select', 'sclk': 'clock', 'sdio': 'data', 'sdo': 'answer'}
MOST_SELECTS = 8  # which can be read together
# A chip with three wires answers on its data line.
OPTIONAL = ('sdo',)
# Channel names, without case and signs, that are taken for a line.
USUAL = {
    'csb': ('csb', 'cs', 'ncs', 'csn', 'ss', 'nss', 'ssn', 'ssb', 'select', 'chipselect'),
    'sclk': ('sclk', 'sck', 'clk', 'clock', 'spiclk', 'serialclock'),
    'sdio': ('sdio', 'sdi', 'mosi', 'copi', 'dio', 'din', 'data'),
    'sdo': ('sdo', 'miso', 'cipo', 'dout', 'answer'),
}


def _bare(name: str) -> str:
    return ''.join(letter for letter in name.lower() if letter.isalnum())


def _asked(line: str, why: str, channels: Sequence[str]) -> Wrong:
    return Wrong(f'{why}; name the {CALLED[line]} line with --{line} NAME. The channels are: {", ".join(channels)}')


def _chosen(line: str, name: str, channels: Sequence[str]) -> int:
    """The channel that the user named: just so, or alike but for case."""
    found = [at for at, channel in enumerate(channels) if channel == name]
    found = found or [at for at, channel in enumerate(channels) if channel.lower() == name.lower()]
    if len(found) != 1:
        raise _asked(line, f'{"no channel is" if not found else "several channels are"} called "{name}"', channels)
    return found[0]


def _usual(line: str, channels: Sequence[str]) -> Optional[int]:
    """The one channel with a usual name of this line."""
    found = [at for at, channel in enumerate(channels) if _bare(channel) in USUAL[line]]
    if len(found) > 1:
        names = ' or '.join(channels[at] for at in found)
        raise _asked(line, f'the {CALLED[line]} line may be {names}', channels)
    if not found and line not in OPTIONAL:
        raise _asked(line, f'no channel has a usual name of the {CALLED[line]} line', channels)
    return found[0] if found else None


def lines_of(channels: Sequence[str], named: Mapping[str, Optional[str]]) -> Dict[str, int]:
    """Which channel each line is, by its place in the list of channels. A line that the user has not named is found by its name."""
    found: Dict[str, int] = {}
    for line in LINES:
        name = named.get(line)
        at = _usual(line, channels) if name is None else _chosen(line, name, channels)
        if at is None:
            continue
        for other, taken in found.items():
            if taken == at:
                raise _asked(line, f'channel "{channels[at]}" can\'t be both the {CALLED[other]} and the {CALLED[line]} line', channels)
        found[line] = at
    return found


def selects_of(channels: Sequence[str], named: Mapping[str, Optional[str]], selects: Sequence[str]) -> List[Dict[str, int]]:
    """The lines of each of several chips: its own select, and the others, which they share."""
    if len(selects) > MOST_SELECTS:
        raise Wrong(f'--csb is given {len(selects)} times: at most {MOST_SELECTS} chips can be read together; leave some selects out')
    found: List[Dict[str, int]] = []
    for select in selects:
        lines = lines_of(channels, {**named, 'csb': select})
        if any(other['csb'] == lines['csb'] for other in found):
            raise Wrong(f'--csb names channel "{channels[lines["csb"]]}" twice: name each select once')
        found.append(lines)
    return found


def _moved(bits: Mapping[int, int]) -> bytes:
    """The table for bytes.translate that puts each of these bits of a byte at its new place, and clears the rest."""
    return bytes(sum(1 << to for bit, to in bits.items() if byte >> bit & 1) for byte in range(256))


def samples_of(units: bytes, width: int, bits: Mapping[str, int]) -> bytes:
    """One byte a sample, by the rules, from units of `width` bytes in which each line has this bit."""
    units = units[:len(units) - len(units) % width]
    columns: Dict[int, Dict[int, int]] = {}
    for line, bit in bits.items():
        columns.setdefault(bit // 8, {})[bit % 8] = LINES.index(line)
    return _together([units[column::width].translate(_moved(moved)) for column, moved in columns.items()])


def _together(parts: Sequence[bytes]) -> bytes:
    """Bytes that have a bit where one of the parts has it."""
    if len(parts) == 1:
        return parts[0]
    whole = 0
    for part in parts:
        whole |= int.from_bytes(part, 'little')
    return whole.to_bytes(len(parts[0]), 'little')


def shared_samples(chips: Sequence[bytes]) -> bytes:
    """Two bytes a sample, by the rules for several chips, from the samples of each of them: the selects, bit i for chip i, with those of
    absent chips high; then the lines that they share."""
    absent = 0xFF & ~((1 << len(chips)) - 1)
    selects = [chip.translate(bytes((byte & 1) << at | absent for byte in range(256))) for at, chip in enumerate(chips)]
    shared = bytearray(2 * len(chips[0]))
    shared[0::2] = _together(selects)
    shared[1::2] = chips[0].translate(bytes(byte & 0x0E for byte in range(256)))
    return bytes(shared)
