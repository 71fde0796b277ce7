"""What the tests share: the example's map and a write to it, maps of older parts, and how a refusal is looked for."""
import os
import unittest

import couplingnut as cn

ROOT = os.path.join(os.path.dirname(os.path.abspath(__file__)), '..', '..')
with open(os.path.join(ROOT, 'examples', 'scratch.map'), 'rb') as example:
    MAP = example.read()
SCRATCH_WRITE = cn.send(cn.WRITE, 0, 0x000A, 1, [0x3C])
WRITTEN = cn.Record(1, 0x000A, 0x3C, 0x3C, 1, 0x3C)
WRITTEN_AGAIN = WRITTEN._replace(moved=0)


def older_map(*control):
    """A map of addresses up to 0x2C: control at these places, a buffered register at 0x0010 with default 0x11, and plain ones."""
    entries = [b'\4\0\0' if a in control else b'\3\xFF\x11' if a == 0x10 else b'\2\xFF\0' for a in range(0x2D)]
    return (3 + 3 * 0x2D).to_bytes(2, 'big') + b'\1\0\x2D' + b''.join(entries)


AD9557_MAP, AD9508_MAP = older_map(0x00, 0x04, 0x05), older_map(0x00, 0x05)


def opened_part(map, part):
    """A session of this part, with its banks."""
    active, buffer = cn.banks(map)
    return cn.open(map, active, buffer, part=part), active, buffer


def opened():
    """A session of the example's map, with its banks."""
    active, buffer = cn.banks(MAP)
    return cn.open(MAP, active, buffer), active, buffer


def on_wires(samples, *chips):
    """Samples of several chips, two bytes each: the selects of these chips go by the given ones, all others are high."""
    selected = 0xFF & ~sum(1 << chip for chip in chips)
    return b''.join(bytes([0xFF if sample & 1 else selected, sample & 0x0E]) for sample in samples)


class Calls(unittest.TestCase):
    """Tests of calls that may be refused."""

    def assert_refused(self, number, call, *words, **named):
        with self.assertRaises(cn.Refused) as caught:
            call(*words, **named)
        self.assertEqual(caught.exception.number, number)
        self.assertIn(cn.message(number), str(caught.exception))
