"""The title of each reason, its details, and what to do about it."""
from __future__ import annotations

from typing import Callable, Dict, List

from . import facts
from .findings import BROKEN, COMMAND, CONTENDED, IGNORED_WRITE, NOWHERE, READ, RECORDING, WAITS, WANTED, Finding, is_read
from .reading import RESET, TRANSFER, Reading
from .report import Judged
from .sentences import at_place, counted, number, short, value
from .unit import ABSENT, BUFFERED, CONTROL, READ_ONLY, Register

TITLES = {COMMAND: 'Broken off', BROKEN: 'Broken off', WAITS: 'Waits', READ: 'Read disagreed', CONTENDED: 'Read with another select low',
          IGNORED_WRITE: 'Ignored write',
          NOWHERE: 'Address that the chip does not have', WANTED: 'Not as wanted', RECORDING: 'Recording not whole'}

ALONE = 'see that one select is low at a time, in the setting list and by the wiring of the selects; then read again.'


def title(report: Judged, finding: Finding) -> str:
    """The title of a reason, without its number."""
    if finding.cause == COMMAND:
        return f'{TITLES[COMMAND]}: {"more commands" if finding.listed else "a command"}'
    if finding.listed:
        return f'{TITLES[finding.cause]}: {counted(len(finding.addresses), "register")}'
    if finding.addresses:
        return f'{TITLES[finding.cause]}: {report.unit.register(finding.addresses[0]).titled()}'
    return TITLES[finding.cause]


def to_do(report: Judged, finding: Finding) -> str:
    """What the workshop should do."""
    if finding.cause == COMMAND:
        return 'find in the setting list what was to be sent here, and send it again.'
    if finding.cause == RECORDING:
        return _to_do_recording(report.reading, finding)
    if finding.cause == NOWHERE:
        return 'correct the address in the setting list; or give the table all addresses that the chip has.'
    if finding.listed:
        return _to_do_for_many(finding)
    register = report.unit.register(finding.addresses[0])
    advices: Dict[str, Callable[[Reading, Register, Finding], str]] = {
        BROKEN: _to_do_broken, WAITS: _to_do_waits, WANTED: _to_do_wanted, READ: _to_do_read, CONTENDED: _to_do_contended,
        IGNORED_WRITE: _to_do_ignored}
    return advices[finding.cause](report.reading, register, finding)


def _to_do_recording(reading: Reading, finding: Finding) -> str:
    if finding.starts:
        return 'send the bytes that are left of this run before anything new, or reset the chip; then record the whole set-up again.'
    if reading.frames and all(frame.took_no_bit() for frame in reading.frames):
        return 'see that the clock line is connected, and is the one that was named; then record again.'
    if not reading.frames:
        return 'see that the recorder was started in time, and that the select line is the one that was named; then record again.'
    return 'record again; start before the select first goes low, and stop only after it has gone high for the last time.'


def _to_do_for_many(finding: Finding) -> str:
    return {BROKEN: 'send these settings again, with a transfer after those that need one.', WAITS: 'send a transfer.',
            READ: 'check the wiring of the line that answers, then read again.', CONTENDED: ALONE,
            WANTED: 'send these values, and then a transfer.',
            IGNORED_WRITE: 'correct the addresses in the setting list.'}[finding.cause]


def _to_do_broken(reading: Reading, register: Register, finding: Finding) -> str:
    if is_read(finding.events[0]):
        return 'read this register again.'
    if register.kind != BUFFERED:
        return 'send this setting again.' if facts.keeps_a_value(register) else 'send this byte again, if it was meant.'
    words = 'send this setting again, then a transfer.'
    late = any(event.is_write(TRANSFER) and event.at > finding.events[-1].at for event in reading.events())
    return words + (' The transfer that was sent moves whole bytes only, so not this one.' if late else '')


def _to_do_waits(reading: Reading, register: Register, _finding: Finding) -> str:
    if register.wanted is not None and register.wanted != reading.buffer[register.address]:
        return f'send {short(register.wanted)} to this register, then a transfer.'
    return 'send a transfer.'


def _to_do_wanted(_reading: Reading, register: Register, _finding: Finding) -> str:
    if register.kind == READ_ONLY:
        return 'see whether chip and table belong together: no write changes this register.'
    return f'send {short(register.wanted or 0)} to this register{", then a transfer" if register.kind == BUFFERED else ""}.'


def _to_do_read(_reading: Reading, _register: Register, _finding: Finding) -> str:
    return 'check the wiring of the line that answers, then read again.'


def _to_do_contended(_reading: Reading, _register: Register, _finding: Finding) -> str:
    return ALONE


def _to_do_ignored(_reading: Reading, register: Register, _finding: Finding) -> str:
    if register.kind == CONTROL:
        return 'send a byte to 0x0000 that reads the same from both ends.'
    if register.kind == ABSENT:
        return 'correct the address in the setting list.'
    return 'take this write out of the setting list, or correct it.'


def details(report: Judged, finding: Finding) -> List[str]:
    """Where it happened, and what explains it; of broken bytes their pictures tell."""
    rate = report.capture.rate
    if finding.cause == RECORDING and not finding.starts:
        return ['What passed before or after it is not known.'] if report.reading.frames else []
    if finding.listed:
        return []
    places = [at_place(at, rate) for at in finding.places()[:4]]
    more = f' and {number(len(finding.places()) - 4)} more' if len(finding.places()) > 4 else ''
    if finding.cause == WAITS:
        return [f'Last written at {places[0]}.'] if places else ['Not written in this recording.']
    if finding.cause == WANTED:
        return [_history(report, finding)]
    if finding.cause in (RECORDING, NOWHERE):
        return [f'In {"the frame that begins" if len(finding.starts) == 1 else "frames that begin"} at {", ".join(places)}{more}.']
    if finding.cause == CONTENDED:
        record = finding.events[0].record
        carried = f'{value(record.byte3)} was due, and the line carried {value(record.byte4)}'
        return [f'The byte was whole at {", ".join(places)}{more}. {carried}.']
    return [f'At {", ".join(places)}{more}.' + (' Nothing changed.' if finding.cause == IGNORED_WRITE else '')]


def _history(report: Judged, finding: Finding) -> str:
    """How the value in force came to be, of a register that is not as wanted."""
    rate = report.capture.rate
    if not finding.events:
        return 'Not written in this recording.'
    last = finding.events[0]
    resets = [event for event in report.reading.events() if event.is_write(RESET) and event.at > last.at]
    if resets:
        return f'Written at {at_place(last.at, rate)}; a soft reset at {at_place(resets[-1].at, rate)} put the default back.'
    return f'Last written at {at_place(last.at, rate)}, with {short(last.record.byte3)}.'
