"""The report for other programs: one JSON object, with every record and both stages in full."""
from __future__ import annotations

import hashlib
import json
from typing import Any, Dict, Union

from .captures import Capture
from .facts import Row
from .findings import Finding
from .report import Judged, Refused
from .sentences import place, plain

VERDICTS = ('ready', 'not ready', 'refused')


def _finding(finding: Finding) -> Dict[str, Any]:
    return {'cause': finding.cause, 'text': plain(finding.sentence), 'registers': [place(address) for address in finding.addresses],
            'samples': finding.places()}


def _row(row: Row) -> Dict[str, Any]:
    return {'address': place(row.register.address), 'name': row.register.name, 'kind': row.register.kind, 'in_force': row.in_force,
            'waiting': row.waiting, 'wanted': row.register.wanted, 'ok': row.ok(), 'written': row.written, 'moved': row.moved,
            'confirmed_at': row.confirmed_at}


def _recording(capture: Capture) -> Dict[str, Any]:
    return {'file': capture.file, 'sha256': capture.sha256, 'samples': len(capture.samples), 'rate': capture.rate,
            'seconds': len(capture.samples) / capture.rate if capture.rate else None, 'lines': capture.lines,
            'other_selects': list(capture.others)}


def as_object(report: Union[Judged, Refused]) -> Dict[str, Any]:
    """The report as values that JSON can hold."""
    told: Dict[str, Any] = {
        'couplingnut': report.version, 'unit': report.unit.name, 'verdict': VERDICTS[report.status()], 'status': report.status(),
        'reasons': [_finding(finding) for finding in report.verdict.reasons],
        'remarks': [_finding(finding) for finding in report.verdict.remarks],
        'date': report.filled.date, 'technician': report.filled.technician, 'recording': _recording(report.capture),
        'part': report.unit.part, 'table': {'file': report.unit.file, 'sha256': report.unit.sha256},
        'map_sha256': hashlib.sha256(report.unit.map).hexdigest()}
    if isinstance(report, Refused):
        return {**told, 'refused': report.refusal.number, 'bad_sample': report.refusal.at}
    reading = report.reading
    return {**told, 'begins_high': reading.begins_high(), 'ends_high': reading.ends_high(), 'ends_in_run': reading.session.stalled,
            'counts': report.counts,
            'registers': [_row(row) for row in report.rows],
            'stages': {'active': reading.active.hex(), 'buffer': reading.buffer.hex()},
            'frames': [[frame.start, frame.end] for frame in reading.frames],
            'records': [[event.at, str(event.record)] for event in reading.events()]}


def json_page(report: Union[Judged, Refused]) -> str:
    """The object, on one line."""
    return json.dumps(as_object(report), ensure_ascii=False) + '\n'
