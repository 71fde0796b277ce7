"""Which chip a unit has: a newer one, or one of the older parts, which is named with its highest address, the top."""
from __future__ import annotations

from dataclasses import dataclass
from typing import Optional

import couplingnut as cn

from . import neighbours
from .ends import Wrong
from .sentences import joined, place

BAD_TOP = 12  # the library's number for a top that does not fit


@dataclass(frozen=True)
class Chip:
    """What the user said of a chip: the flag byte of its map; of an older chip its part and, if it is to be tested, its top."""
    flags: Optional[int] = None
    part: Optional[str] = None
    top: Optional[int] = None


def _top_of(text: str) -> int:
    mkmap = neighbours.mkmap()
    try:
        return mkmap.hex_number(text, mkmap.MOST - 1, 'the top')
    except mkmap.Bad as bad:
        raise Wrong(f'--top: {bad}; it is the highest address that the part has, as 2C') from None


def chip_of(part: Optional[str], top: Optional[str], flags: Optional[int] = None) -> Chip:
    """The chip that a command line names."""
    if part is not None and part not in cn.PARTS:
        raise Wrong(f'--part is {joined(cn.PARTS, "or")}, and not {part}; leave it out for every other chip')
    if part is None and top is not None:
        raise Wrong(f'--top goes with --part: it is the highest address of an {joined(cn.PARTS, "or")}')
    return Chip(flags, part, None if top is None else _top_of(top))


def bad_top(file: str, chip: Chip, size: int) -> Wrong:
    """What is said of a top that is not the last address of a table or a map."""
    return Wrong(f'{file}: its last address is {place(size - 1)}, and not {place(chip.top or 0)} as --top says; name the highest address '
                 f'that the {chip.part} has, and give {file} an entry for it')


def test_map(map_bytes: bytes, chip: Chip, file: str, size: int) -> None:
    """Refuses a map of so many registers by the library's map test."""
    try:
        cn.map_test(map_bytes, part=chip.part, top=chip.top)
    except cn.Refused as refused:
        raise bad_top(file, chip, size) if refused.number == BAD_TOP else Wrong(f'{file}: {refused}') from None
