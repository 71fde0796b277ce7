"""`couplingnut read --follow`: each record as soon as its last sample has come, for a live acquisition.

Lines and statuses are busread's."""
from __future__ import annotations

import os
import sys
from typing import Callable, Iterator, List, Mapping, Optional

import couplingnut as cn

from . import facts, output
from .captures import RAW_CHANNELS, STANDARD_INPUT
from .ends import Unreadable
from .lines import lines_of, samples_of
from .parts import BAD_TOP, Chip, bad_top
from .reading import PIECE, WRITE

DONE, REFUSED = 0, 1
MOST_AT_ONCE = 65536


class _Follower:
    """The reader's state, and the counts of the last line."""

    def __init__(self, map_bytes: bytes, chip: Chip):
        self.map, self.part = map_bytes, chip.part
        self.active, self.buffer = cn.banks(map_bytes)
        self.session = cn.open(map_bytes, self.active, self.buffer, part=chip.part, top=chip.top)
        self.samples = self.records = self.slow = 0

    def take(self, samples: bytes) -> List[str]:
        """The lines of all records that these samples complete."""
        lines = []
        while samples:
            piece = samples[:PIECE]
            self.session, record, taken = cn.next_record(self.map, self.session, self.active, self.buffer, piece, part=self.part)
            self.samples += taken
            samples = samples[taken:]
            if record is not None:
                self.records += 1
                self.slow += record.kind == WRITE and record.address == facts.SLOW_ADDRESS and record.byte3 & facts.SLOW_BIT != 0
                lines.append(str(record))
        return lines

    def last_line(self) -> str:
        """The counts; an older part has no slow setting to ask for."""
        return f'records {self.records} samples {self.samples}' + (f' slow {self.slow}' if self.part is None else '')


def _print(lines: List[str]) -> None:
    output.write_out(''.join(line + '\n' for line in lines))


def _portions(path: str, chosen: Callable[[bytes], bytes]) -> Iterator[bytes]:
    """What has come, whenever something has; it need not be much."""
    try:
        handle = 0 if path == STANDARD_INPUT else os.open(path, os.O_RDONLY)
        while True:
            portion = os.read(handle, MOST_AT_ONCE)
            if not portion:
                return
            yield chosen(portion)
    except OSError as error:
        raise Unreadable(f'{"standard input" if path == STANDARD_INPUT else path}: {error.strerror}') from None


def _map_bytes(path: str) -> bytes:
    try:
        with open(path, 'rb') as source:
            return source.read()
    except OSError as error:
        raise Unreadable(f'{path}: {error.strerror}') from None


def follow(map_path: str, samples_path: str, named: Mapping[str, Optional[str]], chip: Chip) -> int:
    """Reads to the end of the samples, and prints what passed as it passes."""
    bits = lines_of(RAW_CHANNELS, named) if any(named.values()) else None
    map_bytes, follower = _map_bytes(map_path), None
    try:
        follower = _Follower(map_bytes, chip)
        _print([f'map {len(follower.active)}'])
        for portion in _portions(samples_path, lambda data: samples_of(data, 1, bits) if bits else data):
            _print(follower.take(portion))
    except cn.Refused as refused:
        if refused.number == BAD_TOP:
            raise bad_top(map_path, chip, len(cn.banks(map_bytes)[0])) from None
        _print([f'refused {refused.number}'])
        where = f'; it is among the samples from number {follower.samples} on, counted from 0' if follower else ''
        print(f'couplingnut: {refused}{where}', file=sys.stderr)
        return REFUSED
    _print([follower.last_line()])
    return DONE
