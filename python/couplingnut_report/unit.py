"""A unit's table: mkmap's, with a name for each register and, after a bar, the value that is wanted in force.

    0010 buffered FF 16  Caption channel, low byte | 2D
    0018 plain    FF 40  Output level |
"""
from __future__ import annotations

import hashlib
import os
from dataclasses import dataclass
from typing import Dict, Optional

from . import neighbours
from .ends import Unreadable, Wrong
from .parts import Chip, test_map
from .sentences import place, readable, short

BLANK, READ_ONLY, PLAIN, BUFFERED, CONTROL, ABSENT = 'blank', 'read-only', 'plain', 'buffered', 'control', 'absent'
COLUMN = '|'


@dataclass(frozen=True)
class Register:
    """What the table says of one register."""
    address: int
    kind: str
    default: int = 0
    name: str = ''
    wanted: Optional[int] = None

    def called(self) -> str:
        """The name, or what stands for one."""
        return self.name or {ABSENT: 'Register that is not in the map', BLANK: 'Blank register'}.get(self.kind, 'Register')

    def titled(self) -> str:
        """The name with the address."""
        return f'{self.called()} ({place(self.address)})'


@dataclass(frozen=True)
class Unit:
    """A unit's table, and its map for the library; of an older chip the part, whose top is the map's last address."""
    name: str
    file: str
    sha256: str
    map: bytes
    size: int
    listed: Dict[int, Register]
    part: Optional[str] = None

    def register(self, address: int) -> Register:
        """The register at an address; those that the table leaves out are blank, and beyond the map there is none."""
        return self.listed.get(address) or Register(address, BLANK if address < self.size else ABSENT)

    def wanted(self) -> Dict[int, int]:
        """The wanted values, by address."""
        return {address: register.wanted for address, register in self.listed.items() if register.wanted is not None}


def _wanted_of(line, text: str) -> Optional[int]:
    """The wanted value of a line of the table, which the register must be able to hold."""
    mkmap = neighbours.mkmap()
    if not text:
        return None
    wanted = mkmap.hex_number(text, 0xFF, 'wanted value')
    if line.kind in (BLANK, CONTROL):
        raise mkmap.Bad(f'{place(line.address)} is {line.kind}, and such a register keeps no value that could be wanted')
    fixed = 0xFF & ~line.mask
    if wanted & fixed != line.default & fixed:
        raise mkmap.Bad(f'the wanted value {short(wanted)} of {place(line.address)} can never be in force: outside the mask '
                        f'{line.mask:02X} the default {short(line.default)} stays')
    return wanted


def _register_of(line) -> Register:
    name, _, rest = line.comment.partition(COLUMN)
    return Register(line.address, line.kind, line.default, name.strip(), _wanted_of(line, rest.strip()))


def unit_of(data: bytes, file: str, name: str, chip: Chip = Chip()) -> Unit:
    """The unit that a table's bytes describe; every line that is wrong is told."""
    mkmap = neighbours.mkmap()
    try:
        lines = mkmap.registers_of(data)
        mkmap.check_rules(lines, chip.flags, chip.part)
    except mkmap.Bad as bad:
        raise Wrong('\n'.join(f'{file}: {words}' for words in str(bad).split('\n'))) from None
    listed, wrong = {}, []
    for line in lines:
        try:
            listed[line.address] = _register_of(line)
        except mkmap.Bad as bad:
            wrong.append(f'{file}: line {line.line}: {bad}')
    if wrong:
        raise Wrong('\n'.join(wrong))
    map_bytes, size = mkmap.map_of(lines, chip.flags), lines[-1].address + 1
    test_map(map_bytes, chip, file, size)
    return Unit(name, file, hashlib.sha256(data).hexdigest(), map_bytes, size, listed, chip.part)


def read_unit(path: str, name: Optional[str] = None, chip: Chip = Chip()) -> Unit:
    """The unit of a file; its name is the file's, unless another is given."""
    try:
        with open(path, 'rb') as source:
            data = source.read()
    except OSError as error:
        raise Unreadable(f'{path}: {error.strerror}') from None
    file = readable(os.path.basename(path))
    return unit_of(data, file, name or os.path.splitext(file)[0], chip)
