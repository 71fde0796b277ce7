"""Several chips in one capture: their lines, their records, contention as a reason, and a page for each."""
import json
import os
import random
import unittest

from couplingnut_report import captures, ends, report, several
from couplingnut_report.htmlpage import html_page
from couplingnut_report.jsonpage import as_object
from couplingnut_report.lines import selects_of, shared_samples
from couplingnut_report.reading import Low, read as read_alone, rises_before
from couplingnut_report.site import page_names
from couplingnut_report.textpage import text_page
from report_tests import made, test_command
from report_tests.folder import Folder
from report_tests.made import RESET, TRANSFER, cut, lowered, read, shared, write
from report_tests.test_pages import checked, squeezed

GOOD = [write(*RESET), write(0x0010, 0x2D), write(0x0018, 0x5A), write(*TRANSFER)]
BOTH = [((0, 1), frame) for frame in GOOD]
NAMES = {'sclk': 'SCLK', 'sdio': 'SDIO', 'sdo': None}


def told(samples, count=2, rate=1_000_000):
    """The reports of the chips, by the library."""
    return report.make_all(made.made_unit(), made.chip_captures(samples, count, rate), report.Filled())


def reasons(one):
    return [(reason.cause, made.plain(reason.sentence)) for reason in one.verdict.reasons]


def traffic(seed, count, frames=30):
    """Runs of all kinds to some of the chips, with selects that are low for a while."""
    chance = random.Random(seed)
    kinds = [lambda: write(chance.choice((0x10, 0x11, 0x18, 0x19, 0x30)), chance.randrange(256)), lambda: write(*TRANSFER),
             lambda: write(*RESET), lambda: read(chance.choice((0x10, 0x18)), chance.choice((0x2D, 0x5A, 0x16, 0x40))),
             lambda: cut(write(0x18, 0x5A), chance.randrange(1, 24)), lambda: read(0x18, 0x5A, 0x00), lambda: write(0x0001, 0x20)]
    chips = [tuple(chance.sample(range(count), 2 if chance.random() < 0.2 else 1)) for _ in range(frames)]
    samples = shared(count, *[(who, chance.choice(kinds)()) for who in chips])
    for _ in range(frames // 3):
        start = chance.randrange(len(samples))
        samples = lowered(samples, chance.randrange(count), start, start + chance.randrange(1, 40))
    return samples


class Lines(Folder, unittest.TestCase):
    """What needs no call for several chips."""

    def test_samples(self):
        """two bytes a sample: the selects, absent ones high, and the lines that the chips share"""
        for count in (1, 2, 3, 8):
            samples = traffic(count, count) if count > 1 else shared(1, ((0,), GOOD[0]))
            chips = [made.alone(samples, chip) for chip in range(count)]
            expected = []
            for sample in samples:
                expected += [sum((sample >> 3 + chip & 1 if chip < count else 1) << chip for chip in range(8)), (sample & 7) << 1]
            self.assertEqual(shared_samples(chips), bytes(expected))
        self.assertEqual(shared_samples([b'', b'']), b'')

    def test_selects(self):
        """selects by name, with the lines that they share; three wires too"""
        channels = ['SDIO', 'CS1', 'CS0', 'SCLK', 'MISO']
        self.assertEqual(selects_of(channels, NAMES, ['CS0', 'cs1']), [{'csb': 2, 'sclk': 3, 'sdio': 0, 'sdo': 4},
                                                                      {'csb': 1, 'sclk': 3, 'sdio': 0, 'sdo': 4}])
        self.assertEqual([sorted(lines) for lines in selects_of(channels[:4], NAMES, ['CS0', 'CS1'])], [['csb', 'sclk', 'sdio']] * 2)
        for selects, words in ((['CS0', 'CS0'], 'names channel "CS0" twice'), (['CS0', 'cs0'], 'twice'), (['CS0', 'CS2'], 'no channel'),
                               (['CS0', 'SCLK'], "can't be both"), (['CS0', 'MISO'], "can't be both"), (['CS0'] * 9, 'at most 8 chips')):
            with self.assertRaises(ends.Wrong) as caught:
                selects_of(channels, NAMES, selects)
            self.assertIn(words, str(caught.exception))

    def test_captures(self):
        """a capture for each select, from channels in any order with others moving"""
        for count, wires in ((2, 4), (3, 3), (8, 4)):
            samples, lines = traffic(7, count, 6), made.selects(count)
            names = [name for name in lines if name != 'SDO' or wires == 4] + ['x', 'y']
            random.Random(count).shuffle(names)
            channels = made.Channels(names, -(-len(names) // 8), lines=lines)
            path = self.put('several.sr', made.session_file(samples, channels, piece=100))
            selects = tuple(f'CS{chip}' for chip in range(count))
            found = captures.read_captures(path, captures.Wish({}, selects=selects))
            mask = 0xFF if wires == 4 else 0xF7
            self.assertEqual([capture.samples for capture in found],
                             [bytes(sample & mask for sample in made.alone(samples, chip)) for chip in range(count)])
            self.assertEqual([(capture.lines['csb'], *capture.others) for capture in found],
                             [(selects[at], *selects[:at], *selects[at + 1:]) for at in range(count)])

    def test_page_names(self):
        """pages are named after selects; no two are the same, and none is the index"""
        self.assertEqual(page_names('CT-1', ['CSB']), ['CT-1.html'])
        self.assertEqual(page_names('', ['CS0', '/CS 1#']), ['CS0.html', '_CS_1_.html'])
        self.assertEqual(page_names('CT-1', ['CS0', 'CS-1']), ['CT-1-CS0.html', 'CT-1-CS_1.html'])
        self.assertEqual(page_names('', ['CS#', 'CS+']), ['1_CS_.html', '2_CS_.html'])
        self.assertEqual(page_names('', ['Index', 'b']), ['1_Index.html', '2_b.html'])

    def test_rises(self):
        """the edges of a byte are the last rises of the clock with the select low"""
        frame = b'\1' * 3000 + read(0x0018, 0x5A)
        self.assertEqual(rises_before(frame, 3049, 8), list(range(3034, 3049, 2)))
        self.assertEqual(rises_before(made.oversampled(frame, 9), 3048 * 9 + 1, 8), [9 * at for at in range(3034, 3049, 2)])
        self.assertEqual(rises_before(frame, 3100, 30), list(range(3002, 3049, 2)))

    def matching(self):
        samples = shared(2, *BOTH, ((0,), read(0x0018, 0x5A)), ((0,), write(0x0019, 0x01)))
        samples = lowered(samples, 1, len(samples) - 2 * 57 + 37, len(samples) - 2 * 57 + 41)
        chips = made.chip_captures(samples, 2)
        reading = read_alone(made.made_unit(), chips[0])
        return reading, [event.record for event in reading.events()], chips

    def test_matched(self):
        """a chip's own records are set beside those of the chip alone, in order; a contended read gets its select and sample"""
        reading, records, chips = self.matching()
        self.assertEqual(several.matched(reading, records, chips, 0), reading)
        at = next(at for at, record in enumerate(records) if record.kind == 2)
        marked = records[:at] + [records[at]._replace(byte5=2)] + records[at + 1:]
        events = list(several.matched(reading, marked, chips, 0).events())
        self.assertEqual([event.record for event in events], marked)
        self.assertEqual([event.is_contended() for event in events], [place == at for place in range(len(events))])
        first = next(edge for edge in rises_before(chips[0].samples, events[at].at + 1, 8) if not chips[1].samples[edge] & 1)
        self.assertEqual(events[at].low, (Low('CS1', first),))

    def test_not_matched(self):
        """records that are not the chip's own end the report"""
        reading, records, chips = self.matching()
        changed = [records[0]._replace(byte3=0), *records[1:]], [records[0]._replace(byte5=2), *records[1:]], records[:-1], records * 2
        for wrong in changed:
            self.assertRaises(AssertionError, several.matched, reading, wrong, chips, 0)


class Pages(unittest.TestCase):
    """By the library's call for several chips."""

    def test_ready(self):
        """two chips that are set one after the other, each ready, named after their selects"""
        samples = shared(2, *[((chip,), frame) for chip in (0, 1) for frame in [*GOOD, read(0x0018, 0x5A)]])
        found = told(samples)
        self.assertEqual([(one.status(), one.unit.name, one.verdict.remarks) for one in found],
                         [(0, 'CT-1, chip CS0', []), (0, 'CT-1, chip CS1', [])])
        for one, other in zip(found, ('CS1', 'CS0')):
            text = text_page(one)
            self.assertTrue(text.startswith(f'READY TO SIGN OUT: unit {one.unit.name}\n'))
            self.assertIn(f'Other selects     {other}\n', text)
            self.assertIn('reads with another select low', text)
            self.assertIn(f'other selects {other}', squeezed(checked(html_page(one)).words))

    def test_one_is_not(self):
        """each chip is judged by its own records"""
        found = told(shared(3, *BOTH, ((2,), GOOD[1])), 3)
        self.assertEqual([one.status() for one in found], [0, 0, 1])
        self.assertEqual([cause for cause, _ in reasons(found[2])], ['waits', 'wanted'])

    def test_contended(self):
        """a read with another select low blocks, and says which, when, and of which register"""
        samples = shared(2, *BOTH, ((0,), read(0x0018, 0x5A)))
        start = len(samples) - 57
        first, second = told(lowered(samples, 1, start + 40, start + 42))
        event = next(event for event in first.reading.events() if event.is_contended())
        edge = event.low[0].at
        self.assertTrue(start + 40 <= edge < start + 42)
        self.assertEqual(reasons(first), [('contended', 'Output level (0x0018): while it was read, select CS1 was low too, at '
                                           f'{edge / 1000:.3f} ms (sample {edge}); more than one chip may have answered, so the byte read '
                                           'says nothing.')])
        self.assertEqual((first.status(), as_object(first)['reasons'][0]['samples']), (1, [event.at]))
        self.assertEqual((reasons(second), [remark.cause for remark in second.verdict.remarks]), ([], ['frame']))
        for page in (text_page(first), squeezed(checked(html_page(first)).words)):
            self.assertIn('see that one select is low at a time', page)
            self.assertIn('Read with another select low: Output level (0x0018)', page)

    def test_no_edge(self):
        """a select that is low between the edges, in the command or in a write is no contention"""
        for frame, low in ((read(0x0018, 0x5A), (0, 33)), (read(0x0018, 0x5A), (37, 38)), (write(0x0018, 0x5A), (0, 51)),
                           (read(0x0018, 0x5A), (49, 51))):
            samples = shared(2, *BOTH, ((0,), frame))
            start = len(samples) - 57
            found = told(lowered(samples, 1, start + low[0], start + low[1]))
            self.assertNotIn('contended', [cause for cause, _ in reasons(found[0])], low)

    def test_both_read(self):
        """two chips that are read at once are both contended; what they answered is neither wrong nor read back"""
        for answer in (0x5A, 0x58):
            found = told(shared(2, *BOTH, ((0, 1), read(0x0018, answer))))
            for one in found:
                self.assertEqual([cause for cause, _ in reasons(one)], ['contended'])
                row = next(row for row in one.rows if row.register.address == 0x0018)
                counts = [one.counts[name] for name in ('reads that disagreed', 'reads with another select low')]
                self.assertEqual((row.confirmed_at, counts), (None, [0, 1]))

    def test_many(self):
        """many contended reads share a reason, and one register often is one"""
        frames = [((0, 1), read(address, 0)) for address in (0x0003, 0x0004, 0x0005, 0x0006, 0x000B)]
        first = told(shared(2, *BOTH, *frames))[0]
        self.assertEqual([(reason.cause, len(reason.addresses)) for reason in first.verdict.reasons], [('contended', 5)])
        self.assertIn('select CS1 was', squeezed(checked(html_page(first)).words))
        often = told(shared(3, *BOTH, *[((0, 1, 2), read(0x0018, 0x5A))] * 3), 3)[0]
        self.assertIn('selects CS1 and CS2 were low too', reasons(often)[0][1])
        self.assertIn('3 reads like this', reasons(often)[0][1])

    def test_as_if_alone(self):
        """but for contended reads each chip's facts are those of a report on it alone"""
        contended = 0
        for seed, count in ((1, 2), (2, 3), (3, 5), (4, 8)):
            samples = traffic(seed, count)
            chips = made.chip_captures(samples, count)
            for chip, one in enumerate(told(samples, count)):
                alone = report.make(made.made_unit(), chips[chip], report.Filled())
                self.assertEqual((one.reading.active, one.reading.buffer, one.reading.session, one.reading.touched),
                                 (alone.reading.active, alone.reading.buffer, alone.reading.session, alone.reading.touched))
                for event, other in zip(one.reading.events(), alone.reading.events()):
                    edges = rises_before(chips[chip].samples, event.at + 1, 8)
                    low = any(not chips[place].samples[edge] & 1 for place in range(count) if place != chip for edge in edges)
                    self.assertEqual(event.is_contended(), event.record.kind == 2 and low)
                    self.assertEqual((event.at, event.record._replace(byte5=0)), (other.at, other.record._replace(byte5=0)))
                    contended += event.is_contended()
                for page in (text_page, html_page):
                    self.assertIn(one.headline(), page(one))
        self.assertGreater(contended, 10)

    def test_long(self):
        """a recording that takes several calls"""
        samples = made.shared(2, *BOTH, *[((at % 2,), read(0x0018, 0x5A)) for at in range(40)])
        often = [sample for sample in samples for _ in range(60)]
        self.assertGreater(len(often), 65536)
        self.assertEqual([one.counts['bytes read'] for one in told(often)], [20, 20])


class Command(test_command.Files):
    def setUp(self):
        super().setUp()
        samples = shared(2, *BOTH, ((0,), read(0x0018, 0x5A)), ((1,), read(0x0018, 0x5A)))
        self.clean = self.put('clean.sr', self.file(samples))
        self.clash = self.put('clash.sr', self.file(lowered(samples, 1, len(samples) - 114 + 37, len(samples) - 114 + 41)))
        self.two = ['--csb', 'CS0', '--csb', 'CS1']

    def file(self, samples, names=('CS1', 'SDO', 'x', 'SCLK', 'CS0', 'SDIO')):
        return made.session_file(samples, made.Channels(list(names), 1, lines=made.selects(2)))

    def test_folder(self):
        """-o: a page for each chip, an index, lines of JSON; the status is the highest"""
        for capture, status in ((self.clean, 0), (self.clash, 1)):
            site = self.place('site')
            ended, out, said = self.run_it('report', *self.two, self.table, capture, '-o', site)
            self.assertEqual((ended, said, out.count('\n')), (status, '', 2))
            self.assertEqual(sorted(os.listdir(site)), ['CS0.html', 'CS1.html', 'index.html', 'report.jsonl'])
        with open(os.path.join(site, 'index.html'), encoding='utf-8') as source:
            index = source.read()
        for words in ('all chips of clash.sr', '2 chips', 'href="CS0.html"', 'CT-1, chip CS0', 'select CS1 was low too'):
            self.assertIn(words, index)
        with open(os.path.join(site, 'CS0.html'), encoding='utf-8') as source:
            self.assertIn('<title>CT-1, chip CS0: do not sign out</title>', source.read())

    def test_output(self):
        """without -o: the pages as text one after the other, or a line of JSON each"""
        ended, out, _ = self.run_it('report', *self.two, self.table, self.clash)
        self.assertEqual((ended, out.count('SIGN OUT: unit CT-1, chip CS')), (1, 2))
        self.assertIn('while it was read, select CS1 was low too, at ', out)
        ended, out, _ = self.run_it('report', '--json', *self.two, self.table, self.clash, '-o', '-')
        lines = [json.loads(line) for line in out.splitlines()]
        self.assertEqual((ended, [line['recording']['other_selects'] for line in lines]), (1, [['CS1'], ['CS0']]))
        self.assertEqual(lines[0]['reasons'][0]['cause'], 'contended')

    def test_raw(self):
        """raw samples with several selects, with four wires and with three"""
        samples = bytes(shared(2, *BOTH, ((0,), read(0x0018, 0x5A))))
        for named in (['--sdo', 'D2'], []):
            words = ['--csb', 'D3', '--csb', 'D4', '--sclk', 'D0', '--sdio', 'D1', *named]
            self.assertEqual(self.run_it('report', *words, self.table, '-', input=samples)[0], 0)
        site = self.place('raw')
        self.assertEqual(self.run_it('report', *words, self.table, '-', '-o', site, '--unit', 'U', input=samples)[0], 0)
        self.assertEqual(sorted(os.listdir(site)), ['D3.html', 'D4.html', 'index.html', 'report.jsonl'])

    def test_wrong(self):
        """what is wrong with several selects is told in a sentence, with status 2, and nothing is written"""
        files = [self.table, self.clean]
        for words, said in ((['--csb', 'CS0', '--csb', 'CS0', *files], 'twice'),
                            (['--csb', 'CS0', '--csb', 'CS7', *files], 'no channel is called "CS7"'),
                            (['--csb', 'x'] * 9 + files, 'at most 8 chips'),
                            ([*self.two, *files, '-o', self.place('page.html')], 'is the name of one page'),
                            ([*self.two, '--html', *files], '-o FOLDER'),
                            ([*self.two, '--part', 'AD9508', *files], 'make a report for each --csb'),
                            ([*self.two, *files, '--csb', 'SCLK', '-o', self.place('site')], "can't be both")):
            ended, out, told_so = self.run_it('report', *words)
            self.assertEqual((ended, out, told_so.count('\n'), said in told_so), (2, '', 1, True), told_so)
        self.assert_end(3, 'File exists', 'report', *self.two, *files, '-o', self.good)
        self.assertFalse(os.path.exists(self.place('site')))

    def test_all(self):
        """--all with several selects: a page for each chip of each recording"""
        day, site = self.place('day'), self.place('site')
        os.mkdir(day)
        for name, source in (('CT-1 a.sr', self.clean), ('CT-1 b.sr', self.clash)):
            with open(source, 'rb') as content:
                self.put(os.path.join('day', name), content.read())
        self.put(os.path.join('day', 'CT-1 c.sr'), made.session_file(b'\1', made.Channels(['CSB', 'SCLK', 'SDIO'], 1)))
        ended, out, said = self.run_it('report', '--all', day, self.table, *self.two, '-o', site)
        self.assertEqual((ended, said, out.count('\n')), (2, '', 5))
        self.assertEqual([name for name in sorted(os.listdir(site)) if name.startswith('CT')],
                         ['CT-1 a-CS0.html', 'CT-1 a-CS1.html', 'CT-1 b-CS0.html', 'CT-1 b-CS1.html'])
