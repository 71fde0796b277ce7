"""Captures: raw samples, sigrok's files, and what sigrok-cli turns into one; lines by name, in any order, with others moving."""
import os
import random
import shutil
import subprocess
import unittest

from couplingnut_report import captures, ends
from couplingnut_report.lines import lines_of, samples_of
from couplingnut_report.reading import read
from report_tests import made, open_day
from report_tests.folder import Folder

SIGROK = shutil.which('sigrok-cli')
WITHOUT = 'sigrok-cli is not installed'
NO_LINES = {line: None for line in ('csb', 'sclk', 'sdio', 'sdo')}
SET_UP = made.recording(made.write(0x0010, 0x2D), made.read(0x0018, 0x40), made.cut(made.write(0x0018, 0x5A), 21),
                        made.write(*made.TRANSFER))


def wish(**named):
    lines = {name: named.get(name) for name in NO_LINES}
    return captures.Wish(lines, named.get('rate'), named.get('form'))


def told(capture):
    """The records and both stages, without their places."""
    reading = read(made.made_unit(), capture)
    return [str(event.record) for event in reading.events()], reading.active, reading.buffer


class Files(Folder, unittest.TestCase):
    def assert_end(self, kind, words, path, **named):
        with self.assertRaises(kind) as caught:
            captures.read_capture(path, wish(**named))
        for word in words:
            self.assertIn(word, str(caught.exception))

    def test_raw(self):
        """raw samples, as they are and with lines by bit"""
        plain = captures.read_capture(self.put('a.samples', SET_UP), wish(rate=5))
        self.assertEqual((plain.samples, plain.rate, plain.lines['sdo']), (SET_UP, 5, 'D3'))
        turned = bytes(int(f'{sample:08b}'[::-1], 2) | 8 for sample in SET_UP)
        by_name = captures.read_capture(self.put('b.samples', turned), wish(csb='D7', sclk='d6', sdio='D5', sdo='D4'))
        self.assertEqual(by_name.samples, SET_UP)

    def test_session_files(self):
        """.sr files of 4, 8, 16 and 32 channels in any order, others moving"""
        chance = random.Random(3)
        for count in (4, 8, 13, 16, 32):
            names = ['CSB', 'SCLK', 'SDIO', 'SDO'] + [f'D{at}' for at in range(count - 4)]
            chance.shuffle(names)
            content = made.session_file(SET_UP, made.Channels(names, -(-count // 8), count), '10 MHz', piece=100)
            capture = captures.read_capture(self.put(f'{count}.sr', content), wish())
            self.assertEqual((capture.samples, capture.rate), (SET_UP, 10_000_000))
            self.assertEqual(set(capture.lines.values()), {'CSB', 'SCLK', 'SDIO', 'SDO'})

    def test_oversampled(self):
        """sampled 4, 10 and 16 times as often, with jitter, the same is told"""
        expected = told(made.capture(SET_UP))
        for times, jitter in ((4, 0), (4, 2), (10, 4), (16, 7)):
            often = made.oversampled(SET_UP, times, jitter, times)
            content = made.session_file(often, made.Channels(['SDO', 'x', 'SCLK', 'CSB', 'SDIO'], 1))
            self.assertEqual(told(captures.read_capture(self.put('o.sr', content), wish())), expected)

    def test_three_wires(self):
        """three wires: no answer line is asked for"""
        content = made.session_file(SET_UP, made.Channels(['SCLK', 'SDIO', 'CSB'], 1))
        capture = captures.read_capture(self.put('three.sr', content), wish())
        self.assertEqual((capture.samples, sorted(capture.lines)), (SET_UP, ['csb', 'sclk', 'sdio']))

    def test_usual_names(self):
        """the usual names of lines, whatever their case and signs"""
        for names in (['CS#', 'SCK', 'MOSI', 'MISO'], ['/CS', 'Clock', 'sdi', 'sdo'], ['nSS', 'SPI_CLK', 'COPI', 'CIPO'],
                      ['cs_n', 'clk', 'DATA', 'x']):
            found = lines_of(names, NO_LINES)
            self.assertEqual([found['csb'], found['sclk'], found['sdio']], [0, 1, 2])
            self.assertEqual(found.get('sdo'), None if names[3] == 'x' else 3)

    def test_unclear(self):
        """an unclear choice is asked for, with the channels"""
        for names, named, words in ((['D0', 'D1', 'D2', 'D3'], {}, ['--csb NAME', 'D0, D1, D2, D3']),
                                    (['CSB', 'CS', 'SCLK', 'SDIO'], {}, ['may be CSB or CS', '--csb']),
                                    (['CSB', 'SCLK', 'SDIO', 'MOSI'], {}, ['SDIO or MOSI', '--sdio']),
                                    (['CSB', 'SCLK', 'SDIO', 'SDO'], {'csb': 'CS2'}, ['no channel is called "CS2"']),
                                    (['CSB', 'SCLK', 'SDIO', 'SDO'], {'sclk': 'CSB'}, ["can't be both"]),
                                    (['A', 'a', 'SCLK', 'SDIO'], {'csb': 'A'}, [])):
            if words:
                with self.assertRaises(ends.Wrong) as caught:
                    lines_of(names, {**NO_LINES, **named})
                for word in words:
                    self.assertIn(word, str(caught.exception))
            else:
                self.assertEqual(lines_of(names, {**NO_LINES, **named})['csb'], 0)

    def test_bits_across_bytes(self):
        """lines in several bytes of a unit"""
        wide = [sample & 1 | (sample & 2) << 12 | (sample & 4) << 20 | (sample & 8) << 27 for sample in SET_UP]
        units = b''.join(unit.to_bytes(4, 'little') for unit in wide)
        self.assertEqual(samples_of(units + b'\xFF', 4, {'csb': 0, 'sclk': 13, 'sdio': 22, 'sdo': 30}), SET_UP)

    def test_bad_files(self):
        """files that are no captures are told in a sentence"""
        whole = made.session_file(SET_UP, made.Channels(['CSB', 'SCLK', 'SDIO', 'SDO'], 1))
        self.assert_end(ends.Unreadable, ['No such file'], self.place('none.sr'))
        self.assert_end(ends.Unreadable, ['Is a directory'], self.folder.name)
        self.assert_end(ends.Unreadable, ['no whole capture'], self.put('other.sr', made.session_file(b'', made.Channels([], 1)).replace(
            b'metadata', b'metadatb')))
        self.assert_end(ends.Wrong, ['no logic channels'], self.put('bare.sr', made.session_file(b'', made.Channels([], 1))))
        self.assert_end(ends.Unreadable, ['broken.sr'], self.put('broken.sr', whole[:len(whole) // 2]))

    def test_damaged(self):
        """a capture with any byte damaged is read, or told in a sentence"""
        whole = made.session_file(SET_UP[:200], made.Channels(['CSB', 'SCLK', 'SDIO', 'SDO'], 1))
        ended = 0
        for at in range(len(whole)):
            damaged = whole[:at] + bytes([whole[at] ^ 0x55]) + whole[at + 1:]
            path = self.put('damaged.sr', damaged)
            try:
                captures.read_capture(path, wish(form=None))
            except ends.End:
                ended += 1
        self.assertGreater(ended, len(whole) // 4)

    @unittest.skipIf(SIGROK is None, WITHOUT)
    def test_by_sigrok(self):
        """VCD and CSV files come in through sigrok-cli"""
        channels = ['x', 'SDIO', 'CSB', 'SDO', 'SCLK']
        expected = told(made.capture(SET_UP))
        vcd = captures.read_capture(self.put('a.vcd', made.vcd_file(made.oversampled(SET_UP, 4, 1), made.Channels(channels, 1))), wish())
        self.assertEqual((told(vcd), vcd.rate), (expected, 1_000_000))
        rows = [','.join(f'{sample >> bit & 1}' for bit in (1, 0, 3, 2)) for sample in SET_UP]
        csv = captures.read_capture(self.put('a.csv', '\n'.join(['SCLK,CSB,SDO,SDIO', *rows, ''])), wish(rate=7))
        self.assertEqual((csv.samples, csv.rate), (SET_UP, 7))
        named = captures.read_capture(self.put('raw.bin', SET_UP), wish(form='binary:numchannels=8', csb='0', sclk='1', sdio='2', sdo='3'))
        self.assertEqual(named.samples, SET_UP)

    @unittest.skipIf(SIGROK is None, WITHOUT)
    def test_of_sigrok(self):
        """a .sr file that sigrok-cli made"""
        raw = self.put('raw', SET_UP)
        path = self.place('made.sr')
        form, lines = 'binary:numchannels=8:samplerate=2000000', '0=CSB,1=SCLK,2=SDIO,3=SDO'
        subprocess.run(['sigrok-cli', '-I', form, '-i', raw, '-C', lines, '-o', path], check=True)
        capture = captures.read_capture(path, wish())
        self.assertEqual((capture.samples, capture.rate), (SET_UP, 2_000_000))

    @unittest.skipIf(SIGROK is None, WITHOUT)
    def test_unreadable_by_sigrok(self):
        """what sigrok-cli can't read is told with its words"""
        self.assert_end(ends.Unreadable, ['sigrok-cli can\'t read it'], self.put('noise.vcd', bytes(range(256))))
        self.assert_end(ends.Unreadable, ['sigrok-cli can\'t read it'], self.put('a.vcd', made.vcd_file(SET_UP, made.Channels(['CSB'], 1))),
                        form='no-such-format')

    def test_without_sigrok(self):
        """without sigrok-cli a sentence says that it is needed"""
        path, saved = self.put('a.vcd', '$timescale 1 us $end'), os.environ['PATH']
        os.environ['PATH'] = self.folder.name
        self.addCleanup(os.environ.__setitem__, 'PATH', saved)
        self.assert_end(ends.Unreadable, ['sigrok-cli is not installed'], path)

    def test_open_day(self):
        """the example capture is what its program makes"""
        path = os.path.join(made.ROOT, 'examples', 'open-day.sr')
        again = self.put('open-day.sr', open_day.session_file())
        first, second = (captures.read_capture(place, wish()) for place in (path, again))
        self.assertEqual((first.samples, first.rate, first.lines), (second.samples, second.rate, second.lines))
