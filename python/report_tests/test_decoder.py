"""The decoder for PulseView, run on captures by sigrok-cli and by a stand-in for it: what it shows is what the library records."""
import os
import re
import shutil
import subprocess
import unittest

from couplingnut_report.captures import Wish, read_capture
from couplingnut_report.reading import CUT, READ, WRITE, read
from report_tests import made, open_day, stand_in
from report_tests.folder import Folder
from report_tests.made import RESET, TRANSFER, cut, older, recording, write

DECODERS = os.path.join(made.ROOT, 'sigrok')
NAMES = ['SDO', 'x', 'SCLK', 'CSB', 'SDIO']
COMMANDS = '(goes on: )?(read|write) '
PASSED_OVER = 'command to an address that the chip does not have: passed over'
KINDS = recording(write(*RESET), write(0x0018, 0x5A), write(0x0010, 0x2D), cut(write(0x0010, 0x2D), 21), cut(write(0x0010, 0x2D), 9),
                  write(*TRANSFER), write(0x0400, 0x11), made.read(0x0018, 0x58), made.read(0x0018, 0x5A), write(0x0001, 0x80),
                  cut(write(0x0019, 0x01), 16), write(0x000A, *range(100)))


def annotations(event, unit):
    """What has to be shown for a record, without its place."""
    record = event.record
    name = unit.register(record.address).name
    full = f'{name} (0x{record.address:04X})' if name else f'0x{record.address:04X}'
    if record.kind == CUT:
        what, most = (f'byte for {full}', 8) if record.byte4 else ('command', 16)
        return [f'{what} broken off after {record.byte3} of {most} bits']
    byte = record.byte4 if record.kind == READ else record.byte3
    shown = [f'{full}: 0x{byte:02X}']
    if record.kind == READ:
        return shown + [f'0x{record.byte3:02X} was due, the line carried 0x{byte:02X}'] * (record.byte5 == 1)
    assert record.kind == WRITE
    return shown + [['ignored: nothing changed', f'0x{record.byte4:02X} in force', f'0x{record.byte4:02X} waits', 'interface setting',
                     'transfer: what waited is in force', 'soft reset: all defaults in force'][record.byte5]]


class Shown(Folder):
    """What the decoder shows, whoever runs it."""

    def assert_records(self, capture, table_text):
        """That the annotations, but for commands, are those of the records, each up to its record's sample."""
        unit = made.made_unit(table_text)
        reading = read(unit, read_capture(capture, Wish({})))
        table = self.put('unit.txt', table_text)
        shown = [(end, words) for _, end, words in self.shown(capture, table) if not re.match(COMMANDS, words)]
        expected = [(event.at, words) for event in reading.events() for words in annotations(event, unit)]
        self.assertEqual([words for _, words in shown], [words for _, words in expected])
        for (end, _), (at, _) in zip(shown, expected):
            self.assertTrue(at <= end, (at, end))

    def test_kinds(self):
        """the decoder shows every kind of record"""
        for times in (1, 5):
            content = made.session_file(made.oversampled(KINDS, times), made.Channels(NAMES, 1), '1 MHz')
            self.assert_records(self.put('kinds.sr', content), made.TABLE)

    def test_open_day(self):
        """the decoder shows the open day as the report does"""
        with open(os.path.join(made.ROOT, 'examples', 'open-day.txt'), encoding='utf-8') as table:
            self.assert_records(os.path.join(made.ROOT, 'examples', 'open-day.sr'), table.read())

    def test_commands(self):
        """the decoder shows commands, also of a frame that ends after one, and of single instructions"""
        single = made.cn.send(made.cn.WRITE, made.cn.SINGLE_INSTRUCTION, 0x0018, 2, b'\x01\x02') + made.IDLE
        samples = recording(cut(write(0x0018, 0x01), 16), made.read(0x0004, 0x34), write(0x0001, 0x80), single)
        capture = self.put('commands.sr', made.session_file(samples, made.Channels(NAMES, 1)))
        commands = [words for _, _, words in self.shown(capture, self.put('unit.txt', made.TABLE)) if re.match(COMMANDS, words)]
        self.assertEqual(commands, ['write Output level (0x0018)', 'read Product number, low (0x0004)',
                                    'write Interface configuration B (0x0001)', 'write Output level (0x0018)', 'write 0x0017'])

    def test_open_end(self):
        """the decoder shows the whole bytes of a frame that is not finished"""
        samples = recording() + made.cn.send(made.cn.WRITE, 0, 0x0019, 2, b'\x01\x5A')[:60]
        capture = self.put('end.sr', made.session_file(samples, made.Channels(NAMES, 1)))
        self.assertIn('Standby level (0x0019): 0x01', [words for _, _, words in self.shown(capture, self.put('unit.txt', made.TABLE))])

    def test_map_without_names(self):
        """with a map there are addresses, and three wires do"""
        capture = self.put('kinds.sr', made.session_file(KINDS, made.Channels(NAMES[1:], 1)))
        unit_map = self.put('unit.map', made.made_unit().map)
        self.assertIn('0x0018: 0x5A', [words for _, _, words in self.shown(capture, unit_map, wires=3)])

    def test_bad_options(self):
        """without a good map the decoder says so, and nothing else"""
        capture = self.put('kinds.sr', made.session_file(KINDS, made.Channels(NAMES, 1)))
        for path, words in (('', 'name the unit'), (self.place('none'), 'No such file'),
                            (self.put('bad.txt', 'red'), 'line 1'), (self.put('short.txt', made.TABLE[:200]), 'missing')):
            shown = self.shown(capture, path)
            self.assertEqual((len(shown), words in shown[0][2]), (1, True), shown)

    def test_older(self):
        """the decoder shows an older part's records, runs that go on after a stall, and commands above the top"""
        frames = [older(0x15, 0x10, 0x20), *made.stalled(older(0x16, 1, 2, 3), 1, 2), older(0x10, 0x22), older(0x05, 1), older(0x04, 1),
                  made.older_read(0x10, 0x22), older(0x40, 1, top=0x1FFF), cut(older(0x15, 0x10), 20)]
        capture = self.put('older.sr', made.session_file(recording(*frames), made.Channels(NAMES[1:], 1)))
        for part in made.cn.PARTS:
            table = made.OLDER_TABLES[part]
            shown = [words for _, _, words in self.shown(capture, self.put('unit.txt', table), wires=3, part=part, top='2C')]
            records = [words for words in shown if not re.match(COMMANDS, words) and words != PASSED_OVER]
            reading = read(made.made_unit(table, part=part), read_capture(capture, Wish({})))
            self.assertEqual(records, [words for event in reading.events() for words in annotations(event, reading.unit)])
            self.assertEqual([words for words in shown if words.startswith('goes on') or words == PASSED_OVER],
                             ['goes on: write Divider B (0x0015)', 'goes on: write 0x0014', PASSED_OVER])

    def test_bad_parts(self):
        """another part, or a top that does not fit, is told and nothing else"""
        capture = self.put('kinds.sr', made.session_file(KINDS, made.Channels(NAMES, 1)))
        part = 'AD9508'
        table, unit_map = self.put('unit.txt', made.OLDER_TABLES[part]), self.put('unit.map', made.older_unit(part).map)
        for path, options, words in ((table, {'part': 'AD9558'}, 'AD9557 or AD9508'), (table, {'top': '2C'}, 'goes with'),
                                     (table, {'part': part, 'top': 'top'}, 'in hexadecimal'), (table, {'part': 'AD9557'}, '0004'),
                                     (table, {'part': part, 'top': '2B'}, 'its last address is 0x002C'),
                                     (unit_map, {'part': part, 'top': '0x2D'}, 'its last address is 0x002C')):
            shown = self.shown(capture, path, **options)
            self.assertEqual((len(shown), words in shown[0][2]), (1, True), shown)


@unittest.skipIf(shutil.which('sigrok-cli') is None, 'sigrok-cli is not installed')
class BySigrok(Shown, unittest.TestCase):
    """By sigrok-cli."""

    def shown(self, capture, unit_map, wires=4, **options):
        """What sigrok-cli prints: first and last sample, and the longest words of each annotation."""
        pins = ''.join(f':{line}={line.upper()}' for line in stand_in.LINES[:wires])
        given = ''.join(f':{name}={word}' for name, word in options.items())
        words = ['-P', f'couplingnut:map={unit_map}{given}{pins}', '--protocol-decoder-samplenum']
        ended = subprocess.run(['sigrok-cli', '-i', capture, *words], env={**os.environ, 'SIGROKDECODE_DIR': DECODERS}, capture_output=True,
                               check=True, timeout=300)
        self.assertNotIn(b'Traceback', ended.stderr)
        found = re.findall(r'^(\d+)-(\d+) couplingnut-1: (.*)$', ended.stdout.decode(), re.M)
        return [(int(start), int(end), words) for start, end, words in found]


class ByStandIn(Shown, unittest.TestCase):
    """By the stand-in, whether sigrok-cli is there or not."""

    def shown(self, capture, unit_map, wires=4, **options):
        """What the stand-in keeps. A line that is not there is low, as three wires leave the fourth."""
        assert wires in (3, 4)
        return stand_in.shown(capture, {'map': unit_map, **options})


class Example(unittest.TestCase):
    def test_noise(self):
        """the example's other channels move"""
        units = made.Channels(open_day.CHANNELS, 1, seed=5, moves=0.005).units(open_day.samples()[:5000])
        self.assertGreater(len({unit & 0b10010101 for unit in units}), 4)
