"""A report: all that its pages show, found once and put into words once; text, JSON and HTML only set it."""
from __future__ import annotations

import bisect
import functools
from dataclasses import dataclass
from typing import Dict, List, Optional, Sequence, Tuple, Union

from . import ends, facts, neighbours, several
from .captures import Capture
from .findings import BROKEN, Finding, Verdict, judged
from .reading import RESET, TRANSFER, Event, Reading, Refusal, read
from .sentences import Sentence, Strong, at_place, counted, number, place, short
from .unit import BUFFERED, Register, Unit

READY, NOT_READY = 'READY TO SIGN OUT', 'DO NOT SIGN OUT'
REFUSED = 'refused'  # the cause of a refused report's one reason
ASSUMED = 'Assumed at the start: the chip had just been reset, so that every register held its default value.'
PRODUCT_LOW, PRODUCT_HIGH, GRADE = 0x0004, 0x0005, 0x0006


@dataclass(frozen=True)
class Filled:
    """The fields that a person fills in, on the page or on the command line."""
    date: Optional[str] = None
    technician: Optional[str] = None


@dataclass(frozen=True)
class Report:
    """What every report has. It is either Judged or Refused."""
    unit: Unit
    capture: Capture
    filled: Filled
    version: str
    verdict: Verdict

    def status(self) -> int:
        """The status that the command ends with."""
        raise NotImplementedError

    def headline(self) -> str:
        """The verdict in a few words."""
        return READY if self.status() == ends.READY else NOT_READY

    def underline(self) -> str:
        """The sentence that goes with the verdict."""
        raise NotImplementedError


@dataclass(frozen=True)
class Judged(Report):
    """The report of a recording that was read."""
    reading: Reading
    rows: List[facts.Row]
    counts: Dict[str, int]

    def status(self) -> int:
        return ends.READY if self.verdict.ready() else ends.NOT_READY

    def underline(self) -> str:
        if not self.verdict.ready():
            return f'{counted(len(self.verdict.reasons), "reason")}. Put it right, record the unit again and make a new report.'
        _, wanted = self.in_force()
        start = 'No values are wanted' if not wanted else (
            f'{"All " if wanted > 1 else ""}{counted(wanted, "wanted value is", "wanted values are")} in force')
        return f'{start}, nothing waits, nothing is left broken off.'

    def in_force(self) -> Tuple[int, int]:
        """How many of the wanted values are in force, and how many there are."""
        return sum(row.ok() is True for row in self.rows), len(self.unit.wanted())

    @functools.cached_property
    def _numbers(self) -> Dict[int, List[int]]:
        found: Dict[int, List[int]] = {}
        for at, reason in enumerate(self.verdict.reasons, 1):
            for address in reason.addresses:
                found.setdefault(address, []).append(at)
        return found

    def numbers_of(self, address: int) -> List[int]:
        """The reasons that name a register, by their numbers."""
        return self._numbers.get(address, [])

    @functools.cached_property
    def missed(self) -> Dict[int, Register]:
        """For a transfer, by its sample, the last buffered register whose byte broke off between the transfer before and this one."""
        transfers = [event.at for event in self.reading.events() if event.is_write(TRANSFER)]
        found = {}
        for reason in self.verdict.reasons:
            if reason.cause == BROKEN and not reason.listed:
                register, after = self.unit.register(reason.addresses[0]), bisect.bisect(transfers, reason.events[-1].at)
                if register.kind == BUFFERED and after < len(transfers):
                    found[transfers[after]] = register
        return found

    def wholeness(self) -> Tuple[str, str]:
        """Whether the recording begins and ends between frames, and why."""
        if not self.reading.frames:
            return 'NO', 'the select never went low'
        levels = (('begins', self.reading.begins_high()), ('ends', self.reading.ends_high()))
        low = [words for words, high in levels if not high]
        if low:
            return 'NO', f'{" and ".join(low)} with the select low'
        return ('NO', 'ends in a run that is not finished') if self.reading.session.stalled else (
            'Yes', 'begins and ends with the select high')


@dataclass(frozen=True)
class Refused(Report):
    """The report of a recording that the library refused: nothing is known of the unit."""
    refusal: Refusal

    def status(self) -> int:
        return ends.REFUSED

    def underline(self) -> str:
        return 'The recording could not be read, so that nothing is known of this unit.'


def make(unit: Unit, capture: Capture, filled: Filled) -> Union[Judged, Refused]:
    """Reads a recording and judges it."""
    return _of(read(unit, capture), filled)


def make_all(unit: Unit, captures: Sequence[Capture], filled: Filled) -> List[Union[Judged, Refused]]:
    """A report for each chip of a recording."""
    return [_of(reading, filled) for reading in several.read_chips(unit, captures)] if len(captures) > 1 else [
        make(unit, captures[0], filled)]


def _of(reading: Union[Reading, Refusal], filled: Filled) -> Union[Judged, Refused]:
    known = (reading.unit, reading.capture, filled, neighbours.version())
    if isinstance(reading, Refusal):
        return Refused(*known, Verdict([_refused(reading)], []), reading)
    return Judged(*known, judged(reading), reading, facts.rows(reading), facts.counts(reading))


def _refused(refusal: Refusal) -> Finding:
    """The one reason of a recording that was refused."""
    if refusal.at is None:
        return Finding(REFUSED, [Strong(f'Refusal {refusal.number}'), f': {refusal.words}.'])
    level = refusal.capture.samples[refusal.at]
    extra = [str(bit + 1) for bit in range(4, 8) if level >> bit & 1]
    lines = f'{"line" if len(extra) == 1 else "lines"} {", ".join(extra)}'
    return Finding(REFUSED, [Strong(f'Sample {number(refusal.at)}'),
                             f' has a level on {lines} ({short(level)}); a sample has the chip\'s four lines and no other.'])


def chip(unit: Unit) -> Tuple[str, str]:
    """What is known of the chip, and from where: an older part is named by the user, and a newer chip's map has its product number."""
    if unit.part is not None:
        return 'Chip, as named', f'{unit.part}, highest address {place(unit.size - 1)}'
    low, high, grade = (unit.register(address).default for address in (PRODUCT_LOW, PRODUCT_HIGH, GRADE))
    return 'Chip, by the map', f'Product {place(high * 256 + low)}, grade {short(grade)}'


def named_counts(report: Judged) -> List[Tuple[str, int]]:
    """The counts with their nouns, of one in the singular."""
    single = {'frames': 'frame', 'bytes written': 'byte written', 'bytes read': 'byte read', 'reads that disagreed': 'read that disagreed',
              facts.CONTENDED_READS: 'read with another select low', 'transfers': 'transfer', facts.RESETS: 'soft reset',
              'broken bytes': 'broken byte', 'broken commands': 'broken command',
              'ignored writes': 'ignored write', 'interface settings': 'interface setting'}
    return [(single.get(name, name) if count == 1 else name, count) for name, count in report.counts.items()]


def is_milestone(event: Event) -> bool:
    """Whether an event is a transfer or a soft reset."""
    return event.is_write(TRANSFER, RESET)


def milestone(report: Judged, event: Event) -> Sentence:
    """A transfer or a soft reset with its place and what it did."""
    where = f', {at_place(event.at, report.capture.rate)}: '
    if event.is_write(RESET):
        return [Strong('Soft reset'), where + 'all defaults in force.']
    came = counted(event.came_in_force, 'register')
    words = f'{came} took a new value in force' if event.came_in_force else 'no register took a new value'
    if event.at in report.missed:
        words += f'; {report.missed[event.at].called()} was not among them'
    return [Strong('Transfer'), where + words + '.']


def looked_for(report: Judged) -> str:
    """What was looked for and not found."""
    counts = {**report.counts, 'waiting values': len(facts.waiting(report.reading))}
    names = ('broken bytes', 'broken commands', 'waiting values', 'reads that disagreed', facts.CONTENDED_READS, 'ignored writes')
    absent = [name for name in names if counts.get(name) == 0]
    return f'Looked for and not found: {", ".join(absent)}.' if absent else ''
