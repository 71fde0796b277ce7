"""Units with an older chip: the verdict by its rules, what its pages say and leave out, and the options that name it."""
import json
import os
import subprocess
import unittest

from couplingnut_report.htmlpage import html_page
from couplingnut_report.jsonpage import json_page
from couplingnut_report.textpage import text_page
from report_tests import made, test_command
from report_tests.made import OLDER_TABLES, TOP, cut, older, older_read, recording, stalled
from report_tests.test_pages import checked, squeezed

PARTS = made.cn.PARTS
UPDATE = older(0x0005, 0x01)
GOOD = [older(0x0010, 0x22), older(0x0015, 0x10), UPDATE]


def reported(part, *frames, rate=1_000_000):
    return made.reported(recording(*frames), OLDER_TABLES[part], rate, part=part)


class Verdict(unittest.TestCase):
    def assert_ready(self, *frames, remarks=()):
        for part in PARTS:
            report = reported(part, *frames)
            self.assertEqual([made.plain(finding.sentence) for finding in report.verdict.reasons], [], part)
            self.assertEqual([remark.cause for remark in report.verdict.remarks], list(remarks))
            self.assertEqual(report.status(), 0)

    def assert_not_ready(self, causes, words, *frames):
        for part in PARTS:
            report = reported(part, *frames)
            self.assertEqual([finding.cause for finding in report.verdict.reasons], causes, part)
            said = ' / '.join(made.plain(finding.sentence) for finding in report.verdict.reasons)
            for part_of in words:
                self.assertIn(part_of, said)
            for page in (text_page, html_page, json_page):
                self.assertIn(report.headline() if page is not json_page else 'not ready', page(report))

    def test_ready(self):
        """an older part whose wanted values are all in force is ready"""
        self.assert_ready(*GOOD)
        self.assert_ready(*GOOD, older_read(0x0015, 0x10), older_read(0x002C, 0x05))
        self.assert_ready(older(0x0016, 0x01, 0x10), older(0x0010, 0x22), UPDATE)

    def test_lsb_first(self):
        """an older part set to lowest bit first"""
        lsb = made.cn.LSB_FIRST
        self.assert_ready(older(0x0000, 0x40), older(0x0010, 0x22, settings=lsb), older(0x0015, 0x10, 0x07, settings=lsb),
                          older(0x0005, 0x01, settings=lsb))

    def test_reasons(self):
        """an older part's values that wait, bytes that break off, reads that disagree and writes that are ignored block"""
        self.assert_not_ready(['waits'], ['0x22 (34) waits for a transfer'], older(0x0010, 0x22), older(0x0015, 0x10))
        self.assert_not_ready(['broken'], ['Divider B (0x0015)', '5 of 8 bits'], older(0x0010, 0x22), cut(older(0x0015, 0x10), 21), UPDATE)
        self.assert_not_ready(['command'], ['after 9 of 16 bits'], cut(older(0x0015, 0x10), 9), *GOOD)
        self.assert_not_ready(['read'], ['0x10 (16) was due and the line carried 0x12 (18)'], *GOOD, older_read(0x0015, 0x12))
        self.assert_not_ready(['ignored'], ['the register is read-only'], *GOOD, older(0x002C, 0x01))
        self.assert_not_ready(['wanted'], ['Divider B'], older(0x0010, 0x22), UPDATE)

    def test_stalls(self):
        """a run that stalls between its bytes, and goes on, is a run like another"""
        run = older(0x0016, 0x01, 0x10)
        for places in ((0,), (1,), (0, 1)):
            self.assert_ready(older(0x0010, 0x22), *stalled(run, *places), UPDATE)

    def test_stalled_at_the_end(self):
        """a recording that ends in a run which is not finished is no ready end, though the select is high"""
        run = stalled(older(0x0016, 0x01, 0x02, 0x03), 0, 1, 2)
        for kept, words in ((1, '3 bytes are still to come, from Phase (0x0016) on'), (3, '1 byte is still to come')):
            changed = [] if kept == 1 else ['wanted']
            self.assert_not_ready(['recording', *changed], ['ends in a run that is not finished. The select is high', words,
                                                            'takes the next frame for the rest'], *GOOD, *run[:kept])
        report = reported('AD9508', *GOOD, run[0])
        self.assertEqual(report.wholeness(), ('NO', 'ends in a run that is not finished'))
        self.assertEqual([json.loads(json_page(report))[name] for name in ('ends_high', 'ends_in_run', 'status')], [True, True, 1])
        self.assertIn('send the bytes that are left of this run', text_page(report))
        self.assertIn('not finished', squeezed(checked(html_page(report)).words))

    def test_streaming_is_no_stall(self):
        """a streaming run that stops before a byte is over"""
        run = older(0x0016, 0x01, 0x10, 0x00, 0x00)
        self.assert_ready(*GOOD, cut(run, 16), remarks=['frame'])
        self.assert_ready(*GOOD, cut(run, 16 + 8))

    def test_ends_low(self):
        """a recording that ends with the select low, in a byte or after the last one of a run, is not whole"""
        run = older(0x0016, 0x01)
        for kept in (5, 33, 40, 49):
            self.assert_not_ready(['recording'], ['ends with the select low'], *GOOD, run[:kept])

    def test_no_such_address(self):
        """a command to an address above the top blocks, since the library has no record of it"""
        beyond = older(0x0030, 0x01, top=0x1FFF)
        self.assert_not_ready(['nowhere'], ['above 0x002C', 'nothing was written or read'], *GOOD, beyond)
        self.assert_not_ready(['nowhere'], ['2 commands did'], beyond, *GOOD, beyond)
        report = reported('AD9508', *GOOD, beyond)
        self.assertEqual(json.loads(json_page(report))['reasons'][0]['samples'], [report.reading.frames[-1].start])

    def test_idle_frames(self):
        """frames without a clock are remarked, also one inside a run"""
        self.assert_ready(*GOOD, cut(older(0x0016, 0x01), 0), remarks=['frame'])
        first, second = stalled(older(0x0016, 0x01, 0x10), 1)
        self.assert_ready(*GOOD, first, b'\0\0' + made.IDLE, second, remarks=['frame'])


class Pages(unittest.TestCase):
    def words(self, part, *frames):
        report = reported(part, *frames)
        return text_page(report), squeezed(checked(html_page(report)).words), json.loads(json_page(report))

    def test_names_the_part(self):
        """the pages say which part it is, and its highest address"""
        for part in PARTS:
            text, page, told = self.words(part, *GOOD)
            self.assertIn(f'Chip, as named    {part}, highest address 0x002C\n', text)
            self.assertIn(f'{part}, highest address 0x002C', page)
            self.assertEqual((told['part'], told['verdict']), (part, 'ready'))
        self.assertEqual(json.loads(json_page(made.reported(recording())))['part'], None)

    def test_not_spoken_of(self):
        """soft reset, mirror, slow setting and product number are not spoken of"""
        for part in PARTS:
            for said in self.words(part, *GOOD, older(0x0000, 0x81), older(0x0001, 0x00))[:2]:
                for word in ('soft reset', 'halves', 'slow', 'roduct', 'absent'):
                    self.assertNotIn(word, said.lower())
        self.assertIn('oft reset', text_page(made.reported(recording())))

    def test_ordinary_register(self):
        """0x0001 of an older part is an ordinary register, which asks for nothing"""
        table = OLDER_TABLES['AD9508'].replace('0004 plain', '0001 plain FF 00  Mode | 10\n0004 plain')
        report = made.reported(recording(*GOOD, older(0x0001, 0x10)), table, part='AD9508')
        self.assertEqual((report.status(), report.verdict.remarks), (0, []))

    def test_read_back(self):
        """an AD9557 reads back what waits while its setting is on, which confirms nothing; an AD9508 has no such setting"""
        for part, on in (('AD9557', False), ('AD9508', True)):
            frames = [*GOOD, older(0x0004, 0x01), older_read(0x0010, 0x22)]
            rows = self.words(part, *frames)[2]['registers']
            self.assertEqual([row['confirmed_at'] is not None for row in rows if row['address'] == '0x0010'], [on])

    def test_same_records(self):
        """JSON has the records that the part's call gives"""
        for part in PARTS:
            unit, samples = made.older_unit(part), recording(*GOOD, *stalled(older(0x0016, 1, 2, 3), 0, 2), older(0x0004, 1))
            active, buffer = made.cn.banks(unit.map)
            session = made.cn.open(unit.map, active, buffer, part=part)
            _, records = made.cn.read(unit.map, session, active, buffer, samples, part=part)
            told = json.loads(json_page(made.reported(samples, OLDER_TABLES[part], part=part)))
            self.assertEqual([line for _, line in told['records']], [str(record) for record in records])
            self.assertEqual(told['stages'], {'active': active.hex(), 'buffer': buffer.hex()})


class Options(test_command.Files):
    def setUp(self):
        super().setUp()
        self.tables = {part: self.put(f'{part}.txt', table) for part, table in OLDER_TABLES.items()}
        self.good = self.put('older.samples', recording(*GOOD))

    def test_report(self):
        """--part and --top of report"""
        for part in PARTS:
            for words in (['--part', part], [f'--part={part}', '--top', '2C'], ['--part', part, '--top', '0x2c', '--flags', '1']):
                ended, out, said = self.run_it('report', *words, self.tables[part], self.good)
                self.assertEqual((ended, said), (0, ''))
                self.assertIn(part, out)

    def test_wrong(self):
        """another part, a top that does not fit and a table of another chip are told in a sentence, with status 2"""
        table = self.tables['AD9508']
        unit_map = self.put('older.map', made.older_unit('AD9508').map)
        for words, said in ((['--part', 'AD9558'], '--part is AD9557 or AD9508, and not AD9558'),
                            (['--part', 'ad9508'], 'and not ad9508'),
                            (['--top', '2C'], '--top goes with --part'),
                            (['--part', 'AD9508', '--top', 'high'], "the top 'high' is no hexadecimal number"),
                            (['--part', 'AD9508', '--top', '2000'], 'is above 0x1FFF'),
                            (['--part', 'AD9508', '--top', '2B'], 'its last address is 0x002C, and not 0x002B as --top says'),
                            (['--part', 'AD9508', '--top', '0'], 'and not 0x0000 as --top says')):
            for command in (['report', *words, table, self.good], ['read', '--follow', *words, unit_map, self.good]):
                ended, out, told = self.run_it(*command)
                self.assertEqual((ended, out, told.count('\n'), said in told), (2, '', 1, True), (command, told))
        self.assert_end(2, '0004 is plain: it must be control', 'report', '--part', 'AD9557', table, self.good)
        self.assert_end(2, '0001 is missing', 'report', table, self.good)
        self.assert_end(2, '0005 is read-only: it must be control', 'report', '--part', 'AD9508', self.table, self.good)

    def test_follow_is_busread(self):
        """read --follow of a part prints what busread prints"""
        samples = recording(*GOOD, *stalled(older(0x0016, 1, 2, 3), 1, 2), older(0x0001, 0x10), older(0x0030, 1, top=0x1FFF))
        for part in PARTS:
            unit_map = self.put(f'{part}.map', made.older_unit(part).map)
            busread = subprocess.run([os.path.join(test_command.HOST, 'busread'), '--part', part, unit_map, '-'], input=samples,
                                     capture_output=True, check=True)
            for words in ([], ['--top', f'{TOP:X}']):
                told = self.run_it('read', '--follow', '--part', part, *words, unit_map, '-', input=samples)
                self.assertEqual(told[:2], (0, busread.stdout.decode()))
            self.assertEqual(self.run_it('read', '--part', part, unit_map, '-', input=samples)[:2], (0, busread.stdout.decode()))

    def test_all(self):
        """--all of an older part"""
        day, site = self.place('day'), self.place('site')
        os.mkdir(day)
        self.put(os.path.join('day', 'C-1.txt'), OLDER_TABLES['AD9508'])
        self.put(os.path.join('day', 'C-1 a.samples'), recording(*GOOD))
        self.put(os.path.join('day', 'C-1 b.samples'), recording(*GOOD, *stalled(older(0x0016, 1, 2), 1)[:1]))
        ended, out, said = self.run_it('report', '--all', day, '--part', 'AD9508', '--top', '2C', '-o', site)
        self.assertEqual((ended, said, [line[:10].strip() for line in out.splitlines()]), (1, '', ['ready', 'NOT READY']))
        with open(os.path.join(site, 'index.html'), encoding='utf-8') as source:
            index = source.read()
        self.assertIn('ends in a run that is not finished', index)
        self.assertIn('read as AD9508', index)
        self.assertEqual(self.run_it('report', '--all', day, '-o', site)[0], 2)
