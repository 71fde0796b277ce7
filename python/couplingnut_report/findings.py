"""The verdict: what stands against signing a unit out, each as a sentence, and what is only remarked.

A unit is ready when the list of reasons is empty. The rule is written out in docs/rules/programs.md, "The verdict of a report"; each function
below is one of its conditions.
"""
from __future__ import annotations

from dataclasses import dataclass
from typing import Dict, List, Sequence, Tuple

from . import facts
from .reading import IGNORED, Event, Reading
from .sentences import Sentence, Strong, Value, Words, at_place, counted, joined, number, place, some, when
from .unit import ABSENT, BLANK, CONTROL, READ_ONLY, Register

# Causes of a reason or a remark.
COMMAND, BROKEN, WAITS, READ, CONTENDED, IGNORED_WRITE, NOWHERE, WANTED, RECORDING, FRAME, SLOW = (
    'command', 'broken', 'waits', 'read', 'contended', 'ignored', 'nowhere', 'wanted', 'recording', 'frame', 'slow')
# So many of a kind are told one by one; more share one reason, or are listed below the first of them.
MANY = 3
BITS = {True: 8, False: 16}


@dataclass(frozen=True)
class Finding:
    """One reason or remark: its cause, a sentence, the registers that it names and the events behind it, or the samples at which the frames
    behind it begin. Of several registers that share one, `listed` is true."""
    cause: str
    sentence: Sentence
    addresses: Tuple[int, ...] = ()
    events: Tuple[Event, ...] = ()
    listed: bool = False
    starts: Tuple[int, ...] = ()

    def places(self) -> List[int]:
        """The samples at which it happened."""
        return [event.at for event in self.events] or list(self.starts)


@dataclass(frozen=True)
class Verdict:
    """Why the unit is not ready, if it isn't, and what is worth knowing beside."""
    reasons: List[Finding]
    remarks: List[Finding]

    def ready(self) -> bool:
        """Whether the unit may be signed out."""
        return not self.reasons


def bits_of(event: Event) -> str:
    """How much of a broken byte or command had arrived."""
    return f'{event.record.byte3} of {BITS[event.in_data()]} bits'


def is_read(event: Event) -> bool:
    """Of a broken byte: whether the chip was answering."""
    return event.in_data() and event.before.direction == 1


def _subject(register: Register) -> Words:
    return [Strong(register.called()), f' ({place(register.address)}): ']


def _names(reading: Reading, addresses: Sequence[int]) -> str:
    return some([reading.unit.register(address).name or place(address) for address in addresses])


def _is_wanted_in_force(reading: Reading, register: Register) -> bool:
    return register.wanted is not None and reading.active[register.address] == register.wanted


def _still(reading: Reading, register: Register, still: str) -> Words:
    """What is in force of a register, and what is wanted instead."""
    words: Words = [Value(reading.active[register.address]), f' is {still}in force']
    if register.wanted is not None and not _is_wanted_in_force(reading, register):
        words += [', ', Value(register.wanted), ' is wanted']
    return words


def _broken_sentence(reading: Reading, register: Register, events: Sequence[Event]) -> Sentence:
    """Of a byte that broke off and stands against signing."""
    often = '' if len(events) == 1 else f' ({counted(len(events), "time")}; this is the first)'
    words = _subject(register)
    if is_read(events[0]):
        words.append(f'a read of it broke off after {bits_of(events[0])}{often}, so what the chip answered is not known')
        if register.wanted is not None:
            words += [', and ', *_still(reading, register, '')]
        return words + ['.']
    if not facts.keeps_a_value(register) or register.kind == READ_ONLY:
        return words + [f'a byte for it broke off after {bits_of(events[0])}{often} and did nothing.']
    words.append(f'the new value broke off after {bits_of(events[0])}{often} and was not written; ')
    if facts.written_after(reading, register.address, events[-1].at) is None:
        return words + _still(reading, register, 'still ') + ['.']
    words += ['a whole byte came later, and ', *_still(reading, register, '')]
    return words + ['.' if register.wanted is not None else '; no value is wanted of it that could show this to be right.']


def _mended_sentence(reading: Reading, register: Register, events: Sequence[Event]) -> Sentence:
    """Of a byte that broke off, though the wanted value is in force."""
    rate = reading.capture.rate
    later = facts.written_after(reading, register.address, events[-1].at)
    whole = f' and written whole at {when(later.at, rate)}; ' if later else '; '
    return [*_subject(register), f'was broken off at {when(events[0].at, rate)}{whole}', Value(reading.active[register.address]),
            ', the wanted value, is in force.']


def _cuts(reading: Reading) -> List[Tuple[Event, ...]]:
    """The cuts in order of time: each command alone, the bytes of one register together."""
    groups: Dict[object, List[Event]] = {}
    for event in reading.events():
        if event.is_cut():
            groups.setdefault(event.record.address if event.in_data() else ('command', event.at), []).append(event)
    return [tuple(group) for group in groups.values()]


def _cut_findings(reading: Reading) -> Tuple[List[Finding], List[Finding]]:
    """Broken commands and bytes: those that stand against signing, and those that came right."""
    reasons, remarks = [], []
    for events in _cuts(reading):
        address = events[0].record.address
        register = reading.unit.register(address)
        if not events[0].in_data():
            words = [Strong('A command broke off'), f' after {bits_of(events[0])}: what it was to do was not done.']
            reasons.append(Finding(COMMAND, words, (), events))
        elif _is_wanted_in_force(reading, register):
            remarks.append(Finding(BROKEN, _mended_sentence(reading, register, events), (address,), events))
        else:
            reasons.append(Finding(BROKEN, _broken_sentence(reading, register, events), (address,), events))
    return _gathered_cuts(reading, reasons), remarks


def _gathered_cuts(reading: Reading, reasons: List[Finding]) -> List[Finding]:
    """The first few as they are, and the rest as one reason for commands and one for bytes."""
    first, rest = reasons[:MANY], reasons[MANY:]
    for cause in (COMMAND, BROKEN):
        group = [reason for reason in rest if reason.cause == cause]
        addresses = tuple(address for reason in group for address in reason.addresses)
        title, rest_of_it = (f'{counted(len(group), "more command")} broke off', '. Nothing of it was done.') if cause == COMMAND else (
            f'Bytes for {counted(len(group), "more register")} broke off', f': {_names(reading, addresses)}. None of them was written.')
        words = [Strong(title), rest_of_it]
        events = tuple(event for reason in group for event in reason.events)
        first += [Finding(cause, words, addresses, events, True)] * bool(group)
    return first


def _waits(reading: Reading) -> List[Finding]:
    """Values that wait for a transfer."""
    addresses = facts.waiting(reading)
    if len(addresses) > MANY:
        title = f'{counted(len(addresses), "register")} wait for a transfer'
        told = [Strong(title), f': {_names(reading, addresses)}. What waits is not in force.']
        return [Finding(WAITS, told, tuple(addresses), (), True)]
    found = []
    for address in addresses:
        register, value = reading.unit.register(address), reading.buffer[address]
        words = _subject(register)
        words += [Value(value), ' waits for a transfer; ', Value(reading.active[address]), ' is in force']
        if register.wanted is not None and register.wanted not in (value, reading.active[address]):
            words += [', ', Value(register.wanted), ' is wanted']
        last = facts.written_after(reading, address, -1)
        found.append(Finding(WAITS, words + ['.'], (address,), (last,) if last else ()))
    return found


def _by_register(events: Sequence[Event]) -> List[Tuple[Event, ...]]:
    groups: Dict[int, List[Event]] = {}
    for event in events:
        groups.setdefault(event.record.address, []).append(event)
    return [tuple(group) for group in groups.values()]


def _reads(reading: Reading) -> List[Finding]:
    """Reads that carried another byte than was due."""
    found = []
    for events in _by_register([event for event in reading.events() if event.disagrees()]):
        record, register = events[0].record, reading.unit.register(events[0].record.address)
        often = '' if len(events) == 1 else f' ({counted(len(events), "read")} disagreed; this is the first)'
        words = [*_subject(register), 'when read, ', Value(record.byte3), ' was due and the line carried ', Value(record.byte4), often, '.']
        found.append(Finding(READ, words, (register.address,), events))
    return _gathered(reading, found, READ, 'reads of {} registers disagreed', 'What was due and what came is listed below.')


def selects_low(event: Event) -> str:
    """The other selects that were low in a contended read."""
    names = joined([low.select for low in event.low])
    return f'select {names} was' if len(event.low) == 1 else f'selects {names} were'


def _contended(reading: Reading) -> List[Finding]:
    """Reads with another chip's select low."""
    found = []
    for events in _by_register([event for event in reading.events() if event.is_contended()]):
        register = reading.unit.register(events[0].record.address)
        often = '' if len(events) == 1 else f' ({counted(len(events), "read")} like this; it is the first)'
        where = at_place(events[0].low[0].at, reading.capture.rate)
        words = [*_subject(register), f'while it was read, {selects_low(events[0])} low too, at {where}{often}; more than one chip may '
                 'have answered, so the byte read says nothing.']
        found.append(Finding(CONTENDED, words, (register.address,), events))
    return _gathered(reading, found, CONTENDED, '{} registers were read while another select was low', 'Each read is listed below.')


def why_ignored(register: Register) -> str:
    """Why the chip ignores writes to a register."""
    return {ABSENT: 'the map has no such register', BLANK: 'the register is blank', READ_ONLY: 'the register is read-only',
            CONTROL: 'its two halves do not agree'}[register.kind]


def _is_harmless(reading: Reading, event: Event) -> bool:
    """0 to a blank register: it holds 0 anyway."""
    return event.record.byte3 == 0 and reading.unit.register(event.record.address).kind == BLANK


def _ignored(reading: Reading) -> Tuple[List[Finding], List[Finding]]:
    """Ignored writes: those that stand against signing, and 0 to blank registers."""
    events = [event for event in reading.events() if event.is_write(IGNORED)]
    found = []
    for group in _by_register([event for event in events if not _is_harmless(reading, event)]):
        register = reading.unit.register(group[0].record.address)
        often = '' if len(group) == 1 else f' ({counted(len(group), "write")} were; this is the first)'
        words = [*_subject(register), 'a write of ', Value(group[0].record.byte3), f' was ignored, since {why_ignored(register)}{often}.']
        found.append(Finding(IGNORED_WRITE, words, (register.address,), group))
    harmless = tuple(event for event in events if _is_harmless(reading, event))
    blank = sorted({event.record.address for event in harmless})
    remark = f'0 was written to {counted(len(blank), "blank register")} ({some([place(address) for address in blank])}), and ignored.'
    return (_gathered(reading, found, IGNORED_WRITE, 'writes to {} registers were ignored', 'They changed nothing.'),
            [Finding(IGNORED_WRITE, [remark], tuple(blank), harmless)] * bool(harmless))


def _wanted(reading: Reading, told: Sequence[int]) -> List[Finding]:
    """Wanted values that are not in force, but for those that a reason above has told."""
    found = []
    for address, wanted in sorted(reading.unit.wanted().items()):
        value = reading.active[address]
        if value != wanted and address not in told:
            words = [*_subject(reading.unit.register(address)), Value(value), ' is in force; ', Value(wanted), ' is wanted.']
            last = facts.written_after(reading, address, -1)
            found.append(Finding(WANTED, words, (address,), (last,) if last else ()))
    return _gathered(reading, found, WANTED, '{} registers are not as wanted', 'The table below has what is in force and what is wanted.')


def _gathered(reading: Reading, found: List[Finding], cause: str, title: str, rest: str) -> List[Finding]:
    """Findings of one cause: one by one, or all as one if they are many."""
    if len(found) <= MANY:
        return found
    addresses = tuple(finding.addresses[0] for finding in found)
    title = title.format(number(len(found)))
    words = [Strong(title[0].upper() + title[1:]), f': {_names(reading, addresses)}. {rest}']
    return [Finding(cause, words, addresses, tuple(event for finding in found for event in finding.events), True)]


def _whole(reading: Reading) -> List[Finding]:
    """That the recording is one from which something can be said."""
    subject = Strong('The recording')
    if not reading.capture.samples:
        return [Finding(RECORDING, [subject, ' is empty.'])]
    if not reading.frames:
        return [Finding(RECORDING, [subject, ' holds no frame: the select never went low.'])]
    found = []
    if all(frame.took_no_bit() for frame in reading.frames):
        found.append(Finding(RECORDING, [subject, ' holds no clock: it never rose while the select was low, so nothing passed.']))
    if not reading.begins_high():
        found.append(Finding(RECORDING, [subject, ' is not whole: it begins with the select low, in the middle of a frame.']))
    if not reading.ends_high():
        found.append(Finding(RECORDING, [subject, ' is not whole: it ends with the select low, in the middle of a frame.']))
    if reading.session.stalled:
        found.append(Finding(RECORDING, [subject, *_stall(reading)], starts=(reading.frames[-1].start,)))
    return found


def _stall(reading: Reading) -> Words:
    """That a run of an older chip is not finished, though the select is high."""
    session = reading.session
    left = f'{counted(session.left, "byte is", "bytes are")} still to come, from {reading.unit.register(session.address).titled()} on'
    return [f' is not whole: it ends in a run that is not finished. The select is high, but {left}; the chip takes the next frame for '
            'the rest of this run.']


def _nowhere(reading: Reading) -> List[Finding]:
    """Commands to an older chip that name an address which it does not have."""
    starts = tuple(frame.start for frame in reading.frames if frame.led_nowhere())
    often = '' if len(starts) == 1 else f' ({counted(len(starts), "command")} did; this is the first)'
    words = [Strong('A command'), f' named an address above {place(reading.unit.size - 1)}, which is the highest of the {reading.unit.part}'
             f'{often}: nothing was written or read by it.']
    return [Finding(NOWHERE, words, starts=starts)] * bool(starts)


def _idle_frames(reading: Reading) -> List[Finding]:
    """Frames that ended without a byte."""
    found, rate = [], reading.capture.rate
    for name, test in (('no clock came', 'took_no_bit'), ('the command came, and no byte after it', 'carried_no_byte')):
        frames = [frame for frame in reading.frames if getattr(frame, test)()]
        if frames:
            places = some([at_place(frame.start, rate) for frame in frames])
            found.append(Finding(FRAME, [f'In {counted(len(frames), "frame")} {name}: {places}.']))
    return found


def _slow(reading: Reading) -> List[Finding]:
    events = facts.slow_requests(reading)
    words = [f'{counted(len(events), "write")} to 0x0001 asked for the slow setting, which the chips do not have.']
    return [Finding(SLOW, words, (facts.SLOW_ADDRESS,), tuple(events))] * bool(events)


def judged(reading: Reading) -> Verdict:
    """The verdict on a unit, from its recording."""
    cuts, mended = _cut_findings(reading)
    waits = _waits(reading)
    ignored, harmless = _ignored(reading)
    told = [address for finding in cuts + waits for address in finding.addresses]
    reads = _reads(reading) + _contended(reading)
    reasons = _whole(reading) + cuts + waits + reads + ignored + _nowhere(reading) + _wanted(reading, told)
    return Verdict(reasons, mended + harmless + _idle_frames(reading) + _slow(reading))
