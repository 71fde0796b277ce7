"""Couplingnut from Python: read and send on an ADI-SPI bus by the calls of libcouplingnut, which are proved.

    import couplingnut as cn

    chip = open('unit.map', 'rb').read()
    active, buffer = cn.banks(chip)                     # two bytearrays, which the calls change in place
    session = cn.open(chip, active, buffer)
    for piece in pieces:                                # a recording may be cut anywhere
        session, records = cn.read(chip, session, active, buffer, piece)
        for record in records:
            print(record)

The older clock chips are named as `part`, 'AD9557' or 'AD9508', with `top`, the highest address that the part has; without a top it is
the map's last one. One recording is read with one part and top:

    session = cn.open(chip, active, buffer, part='AD9508')
    session, records = cn.read(chip, session, active, buffer, piece, part='AD9508')
    samples = cn.send(cn.WRITE, 0, 0x15, 2, [0x10, 0x20], part='AD9508', top=0x2C)

Up to eight newer chips on the same wires, each with a select of its own, are read together:

    chips = cn.Several(chip, 3)                         # three of the same map, just opened
    for piece in pieces:                                # two bytes a sample: the selects, and the other lines
        for record in chips.read(piece):
            print(record.chip, record.record, record.contended)

A call that the library refuses raises `Refused`, with the number and its words, and leaves all that it was lent as it was. A session is
a value: calls give back a new one. A sample is one byte: bit 0 CSB, bit 1 SCLK, bit 2 SDIO, bit 3 SDO.

The library is found beside the module as `make install` puts it, in the build's folder, or by the system; the environment variable
COUPLINGNUT_LIBRARY names another one.
"""
from ._library import Refused, message
from .maps import map_test, mend, to_version_1, to_version_2
from .reading import banks, next_record, open, read
from .sending import cut_orders, fewest_frames, listed, send, send_setup
from .several import Several, read_several
from .touching import touched, touched_count, touched_mark, touched_next, touched_words
from .values import (ALTERED_SIZE, ASCENDING, CHIP_RECORD_SIZE, CONTENDED, LISTED_VERSION, LSB_FIRST, MOST_ALTERED, MOST_FRAMES, MOST_MAP,
                     MOST_ORDERS, MOST_SAMPLES, MOST_SETUP, PARTS, PHASES, READ, RECORD_SIZE, SESSION_SIZE, SINGLE_INSTRUCTION, STREAMS,
                     WRITE, Altered, Chip, ChipRecord, Record, Session, Settings, SettingsInUse)

__all__ = ['PARTS', 'Altered', 'Chip', 'ChipRecord', 'Record', 'Refused', 'Session', 'Settings', 'SettingsInUse', 'Several', 'banks',
           'cut_orders', 'fewest_frames', 'listed', 'map_test', 'mend', 'message', 'next_record', 'open', 'read', 'read_several', 'send',
           'send_setup', 'to_version_1', 'to_version_2', 'touched', 'touched_count', 'touched_mark', 'touched_next', 'touched_words',
           'WRITE', 'READ', 'LSB_FIRST', 'ASCENDING', 'SINGLE_INSTRUCTION', 'STREAMS']

# Tracebacks and pickles name the classes as a user does.
for _class in (Altered, Chip, ChipRecord, Record, Refused, Session, Settings, SettingsInUse, Several):
    _class.__module__ = __name__
