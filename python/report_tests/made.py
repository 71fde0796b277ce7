"""Recordings for tests: runs by the library's sender, answers and cuts put in by hand; sampled more often, with jitter; as files."""
import io
import os
import random
import sys
import zipfile

HERE = os.path.dirname(os.path.abspath(__file__))
ROOT = os.path.normpath(os.path.join(HERE, '..', '..'))
sys.path.insert(0, os.path.join(ROOT, 'python'))

import couplingnut as cn  # noqa: E402 (the module of this tree)
from couplingnut_report import captures, parts, report, unit  # noqa: E402
from couplingnut_report.sentences import plain  # noqa: E402,F401 (for the tests)

IDLE = b'\x01' * 6
HEAD = """0000 control   00 00  Interface configuration A
0001 control   00 00  Interface configuration B
0003 read-only 00 05  Chip type
0004 read-only 00 34  Product number, low
0005 read-only 00 12  Product number, high
0006 read-only 00 01  Grade
000A plain     FF 00  Scratch pad
000B read-only 00 01  Interface revision
000C read-only 00 56  Vendor, low
000D read-only 00 04  Vendor, high
000F control   00 00  Transfer
"""
TABLE = HEAD + """0010 buffered  FF 16  Channel, low byte | 2D
0011 buffered  FF 00  Channel, high byte |
0018 plain     FF 40  Output level | 5A
0019 plain     0F 08  Standby level
"""
TRANSFER, RESET = (0x000F, 0x01), (0x0000, 0x81)
# The older parts, each with addresses up to 0x002C.
TOP = 0x2C
OLDER_HEAD = {'AD9557': '0000 control 00 00  Serial port\n0004 control 00 00  Read back\n0005 control 00 00  Update\n',
              'AD9508': '0000 control 00 00  Serial port\n0004 plain FF 00  Spare\n0005 control 00 00  Update\n'}
OLDER_BODY = """0010 buffered  FF 16  Divider A | 22
0015 plain     FF 40  Divider B | 10
0016 plain     FF 00  Phase |
002C read-only 00 05  Chip
"""
OLDER_TABLES = {part: head + OLDER_BODY for part, head in OLDER_HEAD.items()}


def write(address, *data):
    """The frame of a write run; addresses go down."""
    return cn.send(cn.WRITE, 0, address, len(data), bytes(data)) + IDLE


def read(address, *answers, line=2):
    """The frame of a read run, with what the chip answers on one line."""
    return answered(cn.send(cn.READ, 0, address, len(answers)), answers, line)


def answered(sent, answers, line):
    """The frame of a read run with these answers."""
    samples = bytearray(sent)
    bits = [byte >> bit & 1 for byte in answers for bit in range(7, -1, -1)]
    for at, bit in enumerate(bits):
        samples[33 + 2 * at] |= bit << line
        samples[34 + 2 * at] |= bit << line
    return bytes(samples) + IDLE


def older(address, *data, settings=0, top=TOP):
    """The frame of a write run to an older chip; addresses go down, or with LSB_FIRST up."""
    return cn.send(cn.WRITE, settings, address, len(data), bytes(data), part=cn.PARTS[0], top=top) + IDLE


def older_read(address, *answers):
    """The frame of a read run of an older chip, which answers on the data line."""
    return answered(cn.send(cn.READ, 0, address, len(answers), part=cn.PARTS[0], top=TOP), answers, 2)


def stalled(frame, *places):
    """A counted run in frames: the select is high before these of its bytes, counted from 0."""
    starts = [0] + [33 + 16 * place for place in places]
    pieces = [frame[start:end] for start, end in zip(starts, starts[1:] + [len(frame)])]
    return [(b'\0' if at else b'') + piece + (IDLE if at < len(pieces) - 1 else b'') for at, piece in enumerate(pieces)]


def cut(frame, bits):
    """A frame whose select rises after so many bits, the other lines going on."""
    after = 1 + 2 * bits
    return frame[:after] + bytes(sample | 1 for sample in frame[after:])


def recording(*frames):
    """Frames with quiet before and after."""
    return IDLE + b''.join(frames)


def capture(samples, rate=None, file='made.samples'):
    """A capture with these samples."""
    return captures.Capture(file, '0' * 64, bytes(samples), rate, {'csb': 'D0', 'sclk': 'D1', 'sdio': 'D2', 'sdo': 'D3'})


def made_unit(table=TABLE, name='CT-1', flags=None, part=None):
    """The unit of a table."""
    return unit.unit_of(table.encode(), f'{name}.txt', name, parts.Chip(flags, part))


def older_unit(part):
    """The unit of an older part's table."""
    return made_unit(OLDER_TABLES[part], part=part)


def reported(samples, table=TABLE, rate=1_000_000, flags=None, part=None):
    """The report of a recording."""
    return report.make(made_unit(table, flags=flags, part=part), capture(samples, rate), report.Filled())


def oversampled(samples, times, jitter=0, seed=1):
    """The same levels sampled more often: each stays for `times` samples, a few more or less."""
    chance = random.Random(seed)
    return b''.join(bytes([sample]) * (times + (chance.randint(-jitter, jitter) if jitter else 0)) for sample in samples)


def selects(count):
    """The lines of several chips, in the order of the bits of `shared`."""
    return ('SCLK', 'SDIO', 'SDO', *(f'CS{chip}' for chip in range(count)))


def shared(count, *frames):
    """Frames on the wires of several chips: each with the chips whose selects go by it. A sample has a bit for each of `selects`."""
    out = [0x7F8] * len(IDLE)
    for chips, frame in frames:
        out += [sample >> 1 & 7 | sum((sample & 1 if chip in chips else 1) << 3 + chip for chip in range(8)) for sample in frame]
    return [sample & (1 << 3 + count) - 1 for sample in out]


def lowered(samples, chip, start, end):
    """The same with the select of a chip low from one sample to another."""
    return [sample & ~(1 << 3 + chip) if start <= at < end else sample for at, sample in enumerate(samples)]


def alone(samples, chip):
    """One chip's samples of several's."""
    return bytes((sample & 7) << 1 | sample >> 3 + chip & 1 for sample in samples)


def chip_captures(samples, count, rate=1_000_000):
    """A capture for each chip."""
    names = [f'CS{chip}' for chip in range(count)]
    lines = {'sclk': 'SCLK', 'sdio': 'SDIO', 'sdo': 'SDO'}
    others = [tuple(names[:chip] + names[chip + 1:]) for chip in range(count)]
    return [captures.Capture('made.sr', '0' * 64, alone(samples, chip), rate, {'csb': name, **lines}, others[chip])
            for chip, name in enumerate(names)]


class Channels:
    """Where the lines stand among the channels of an analyser, and what the others do."""

    def __init__(self, names, width, seed=1, moves=0.3, lines=('CSB', 'SCLK', 'SDIO', 'SDO')):
        self.names, self.width, self.chance, self.moves, self.lines = names, width, random.Random(seed), moves, lines

    def units(self, samples):
        """The analyser's bytes: each line at the bit of its channel, all other channels moving."""
        places = [(self.names.index(line), bit) for bit, line in enumerate(self.lines) if line in self.names]
        busy = [at for at, name in enumerate(self.names) if name not in self.lines]
        out, noise = bytearray(), 0
        for sample in samples:
            if busy and self.chance.random() < self.moves:
                noise ^= 1 << self.chance.choice(busy)
            level = noise | sum((sample >> bit & 1) << at for at, bit in places)
            out += level.to_bytes(self.width, 'little')
        return bytes(out)


def session_file(samples, channels, rate='1 MHz', piece=4096):
    """A .sr file's bytes, by the layout that sigrok gives it."""
    units = channels.units(samples)
    probes = ''.join(f'probe{at}={name}\n' for at, name in enumerate(channels.names, 1))
    metadata = (f'[global]\nsigrok version=0.5.2\n\n[device 1]\ncapturefile=logic-1\ntotal probes={len(channels.names)}\n'
                f'samplerate={rate}\ntotal analog=0\n{probes}unitsize={channels.width}\n')
    size = piece * channels.width
    files = [('version', b'2'), ('metadata', metadata.encode())]
    files += [(f'logic-1-{at // size + 1}', units[at:at + size]) for at in range(0, len(units), size)]
    out = io.BytesIO()
    with zipfile.ZipFile(out, 'w', zipfile.ZIP_DEFLATED) as archive:
        for name, content in files:
            archive.writestr(zipfile.ZipInfo(name, (2026, 1, 1, 0, 0, 0)), content, zipfile.ZIP_DEFLATED)
    return out.getvalue()


def vcd_file(samples, channels, timescale='1 us'):
    """A VCD file's text with these channels."""
    units, width = channels.units(samples), channels.width
    marks = [chr(ord('!') + at) for at in range(len(channels.names))]
    lines = [f'$timescale {timescale} $end', '$scope module made $end']
    lines += [f'$var wire 1 {mark} {name} $end' for mark, name in zip(marks, channels.names)]
    lines += ['$upscope $end', '$enddefinitions $end']
    last = None
    for at in range(len(units) // width):
        level = int.from_bytes(units[at * width:(at + 1) * width], 'little')
        changed = [f'{level >> bit & 1}{mark}' for bit, mark in enumerate(marks) if last is None or (level ^ last) >> bit & 1]
        if changed:
            lines.append(f'#{at} {" ".join(changed)}')
        last = level
    return '\n'.join([*lines, f'#{len(units) // width}', ''])
