"""The words of a page, explained in plain ones."""
from __future__ import annotations

from typing import List

from .captures import Capture
from .sentences import Sentence, Strong
from .unit import Unit

_REGISTERS: List[Sentence] = [
    [Strong('Register'), ': a numbered place in the chip that keeps one setting of 8 bits. 0x2D is the workshop\'s way to write 45.'],
    [Strong('In force'), ': what the chip works with. ', Strong('Waiting'), ': it has arrived, but is in force only after a ',
     Strong('transfer'), '.'],
    [Strong('Broken off'), ': the select line, which is low while the chip listens, rose too early. Nothing of that byte was written.'],
]
_DUE: Sentence = [Strong('Read'), ': ', Strong('due'), ' is what the chip had to answer, ', Strong('carried'), ' what was on the line.']
_NEWER: List[Sentence] = [
    [*_DUE, ' ', Strong('Soft reset'), ': puts all defaults in force.'],
    [Strong('Ignored'),
     ': a write to a register that is blank, read-only or absent, or to 0x0000 with halves that differ. It changes nothing.'],
]
_OLDER: List[Sentence] = [
    _DUE,
    [Strong('Ignored'), ': a write to a register that is blank or read-only. It changes nothing.'],
    [Strong('Run'), ': a command and its bytes. Between those of a short one the select may be high; it goes on when the select falls.'],
]
_SELECTS: List[Sentence] = [
    [Strong('Another select low'), ': each chip has a select of its own. With two of them low at once, two chips answer on one line.'],
]
_MOVED: List[Sentence] = [
    [Strong('Bits that moved'), ': bit 7 left to bit 0 right; a filled one changed in at least one write. ', Strong('Read back'),
     ': the chip answered with this value.'],
]
REFUSED: List[Sentence] = [
    [Strong('Sample'), ': the levels of all lines at one instant. The first sample has number 0.'],
    [Strong('Select'), ': low while the chip listens. ', Strong('Clock'), ': each rise takes one bit. ', Strong('Data'), ': to the chip. ',
     Strong('Answer'), ': from the chip.'],
    [Strong('Refused'), ': the recording breaks a rule that reading rests on, so that nothing said about the unit would be safe.'],
]


def of(unit: Unit, capture: Capture) -> List[Sentence]:
    """The words of a page that was read; what the unit's chip does not have is not among them."""
    return _REGISTERS + (_NEWER if unit.part is None else _OLDER) + (_SELECTS if capture.others else []) + _MOVED
