"""The pages: that text, JSON and HTML say the same, that HTML is whole and safe, and that a browser shows it on one or two sheets."""
import html.parser
import json
import os
import re
import shutil
import subprocess
import tempfile
import unittest

from couplingnut_report import report
from couplingnut_report.htmlpage import html_page
from couplingnut_report.jsonpage import json_page
from couplingnut_report.textpage import text_page
from report_tests import made, open_day
from report_tests.made import RESET, TRANSFER, cut, oversampled, read, recording, reported, write

BROWSER = next(filter(shutil.which, ('chromium', 'chromium-browser', 'google-chrome')), None)
GOOD = [write(*RESET), write(0x0010, 0x2D), write(0x0018, 0x5A), write(*TRANSFER)]
# Every kind of finding once, with remarks, and an unfinished last frame.
KINDS = [write(*RESET), write(0x0018, 0x5B), cut(write(0x0010, 0x2D), 11), cut(write(0x0010, 0x2D), 21), write(*TRANSFER),
         write(0x0011, 0x07), read(0x0019, 0x0F), write(0x0400, 0x11), write(0x0012, 0x00), write(0x0001, 0x10),
         cut(write(0x0019, 0x01), 16), write(0x0019, 0x01)[:40]]
VOID = ('meta', 'br')


class _Checker(html.parser.HTMLParser):
    """Whether every element is closed in order; all words, identities and links."""

    def __init__(self):
        super().__init__()
        self.open, self.words, self.ids, self.links, self.tags = [], [], [], [], set()

    def handle_starttag(self, tag, attrs):
        self.tags.add(tag)
        given = dict(attrs)
        self.ids += [given['id']] if 'id' in given else []
        self.links += [given['href']] if 'href' in given else []
        assert not any(name.startswith('on') for name in given), given
        if tag not in VOID:
            self.open.append(tag)

    def handle_endtag(self, tag):
        assert self.open and self.open[-1] == tag, f'{tag} closes {self.open[-3:]}'
        self.open.pop()

    def handle_startendtag(self, tag, attrs):
        self.handle_starttag(tag, attrs)
        if tag not in VOID:
            self.open.pop()

    def handle_data(self, data):
        if not self.open or self.open[-1] != 'style':
            self.words.append(data)


def checked(page):
    checker = _Checker()
    checker.feed(page)
    checker.close()
    assert not checker.open, checker.open
    return checker


def squeezed(words):
    return re.sub(r'\s+', ' ', ' '.join(words))


class Pages(unittest.TestCase):
    def all_reports(self):
        many = made.HEAD + ''.join(f'{at:04X} buffered FF 00  Setting {at} | {at & 0xFF:02X}\n' for at in range(0x10, 0x30))
        yield reported(recording(*GOOD))
        yield reported(recording(*KINDS))
        yield reported(oversampled(recording(*KINDS), 10, 3), rate=None)
        yield reported(recording(*GOOD) + b'\x12')
        yield reported(b'')
        yield reported(b'\1\3' * 20)
        yield reported(recording(*[cut(write(at, 1), 17 + at % 7) for at in range(0x10, 0x18)], *[write(at, 1) for at in range(0x18, 0x1F)],
                                 *[read(at, 1) for at in range(0x20, 0x28)], *[write(at, 1) for at in range(0x400, 0x408)],
                                 *[cut(write(0x10, 1), bits) for bits in range(1, 8)], *[write(*TRANSFER)] * 20), many)

    def test_html_is_whole(self):
        """every HTML page is closed in order, has no script, and its links have ends"""
        for made_report in self.all_reports():
            found = checked(html_page(made_report))
            self.assertFalse(found.tags & {'script', 'link', 'img', 'iframe', 'object'})
            self.assertEqual(len(found.ids), len(set(found.ids)))
            for link in found.links:
                self.assertTrue(link.startswith('#') and link[1:] in found.ids, link)
            self.assertEqual(found.tags >= {'main', 'h1', 'h2'}, True)

    def test_same_words(self):
        """text, JSON and HTML give the same verdict and the same reasons, in the same order"""
        for made_report in self.all_reports():
            text, told, page = text_page(made_report), json.loads(json_page(made_report)), squeezed(checked(html_page(made_report)).words)
            self.assertEqual(text.split('\n')[0], f'{made_report.headline()}: unit CT-1')
            self.assertIn(made_report.headline(), page)
            for at, reason in enumerate(told['reasons'], 1):
                self.assertIn(f'{at}. {reason["text"]}\n', text)
                self.assertIn(re.sub(r'\s', '', f'{at}{reason["text"]}'), re.sub(r'\s', '', page))

    def test_first_lines(self):
        """the first two lines answer the manager: may it go out, and why not"""
        lines = text_page(reported(recording(*KINDS))).split('\n')
        self.assertEqual(lines[0], 'DO NOT SIGN OUT: unit CT-1')
        self.assertTrue(lines[1].startswith('1. '))
        self.assertEqual(text_page(reported(recording(*GOOD))).split('\n')[:2],
                         ['READY TO SIGN OUT: unit CT-1', 'All 2 wanted values are in force, nothing waits, nothing is left broken off.'])

    def test_foreign_words(self):
        """names with signs of HTML are shown and not obeyed"""
        bad = '<script>alert("1")</script>&'
        table = made.HEAD + f'0010 buffered FF 16  {bad} | 2D\n'
        filled = report.Filled(bad, bad)
        capture = made.capture(recording(cut(write(0x0010, 0x2D), 21)), 10, bad)
        page = html_page(report.make(made.made_unit(table, bad), capture, filled))
        self.assertNotIn('script', checked(page).tags)
        self.assertNotIn('<script', page)
        self.assertGreater(squeezed(checked(page).words).count('alert("1")'), 5)

    def test_numbers_lead(self):
        """the numbers of reasons lead to their items, and stand in the table"""
        page = html_page(reported(recording(cut(write(0x0010, 0x2D), 21), write(0x0018, 0x5A), read(0x0018, 0x00), write(*TRANSFER))))
        self.assertIn('NO, see 1', squeezed(checked(page).words))
        self.assertIn('yes, see 2', squeezed(checked(page).words))
        for at in (1, 2):
            self.assertIn(f'href="#a{at}"', page)
            self.assertIn(f'id="a{at}"', page)

    def test_json_in_full(self):
        """JSON has every record with its sample, both stages and every row"""
        samples = recording(*KINDS)
        told = json.loads(json_page(reported(samples)))
        active, buffer = made.cn.banks(made.made_unit().map)
        session = made.cn.open(made.made_unit().map, active, buffer)
        _, records = made.cn.read(made.made_unit().map, session, active, buffer, samples)
        self.assertEqual([line for _, line in told['records']], [str(record) for record in records])
        self.assertEqual(told['stages'], {'active': active.hex(), 'buffer': buffer.hex()})
        self.assertEqual([row['address'] for row in told['registers'] if row['written']], ['0x0011', '0x0018'])
        self.assertEqual((told['verdict'], told['status']), ('not ready', 1))

    def test_confirmed(self):
        """confirmed by a read only with buffer readback off, and after the last change"""
        def confirmed(*frames):
            rows = json.loads(json_page(reported(recording(*frames))))['registers']
            return [row['confirmed_at'] is not None for row in rows if row['address'] == '0x0010'][0]
        self.assertTrue(confirmed(*GOOD, read(0x0010, 0x2D)))
        self.assertFalse(confirmed(*GOOD, write(0x0001, 0x20), read(0x0010, 0x2D)))
        self.assertFalse(confirmed(*GOOD, read(0x0010, 0x2C)))
        self.assertFalse(confirmed(read(0x0010, 0x16), *GOOD))
        self.assertFalse(confirmed(*GOOD, read(0x0010, 0x2D), write(*TRANSFER)))
        self.assertFalse(confirmed(*GOOD, read(0x0010, 0x2D), write(0x0010, 0x2D)))
        self.assertTrue(confirmed(*GOOD, read(0x0010, 0x2D), write(0x0018, 0x5A)))

    def test_confirmed_at_a_rise(self):
        """a read before the rise that moves the value confirms nothing; one in a later frame does"""
        single = write(0x0001, 0x80)
        written = made.cn.send(made.cn.WRITE, made.cn.SINGLE_INSTRUCTION, 0x0010, 1, b'\x2D')
        old = bytearray(made.cn.send(made.cn.READ, made.cn.SINGLE_INSTRUCTION, 0x0010, 1))
        for at, bit in enumerate(f'{0x16:08b}'):
            old[33 + 2 * at] |= int(bit) << 2
            old[34 + 2 * at] |= int(bit) << 2
        both = written[:-2] + bytes(old[1:]) + made.IDLE

        def confirmed(*frames):
            rows = json.loads(json_page(reported(recording(single, both, *frames), flags=1)))['registers']
            return [(row['in_force'], row['confirmed_at'] is not None) for row in rows if row['address'] == '0x0010'][0]
        in_force, before_the_rise = confirmed()
        self.assertEqual((in_force, before_the_rise), (confirmed(read(0x0010, 0x2D))[0], False))
        self.assertTrue(confirmed(read(0x0010, 0x2D))[1])

    def test_moved(self):
        """the bits that moved are those of all writes of a register"""
        rows = json.loads(json_page(reported(recording(write(0x0018, 0x41), write(0x0018, 0x01), write(0x0018, 0x01)))))['registers']
        self.assertEqual([row['moved'] for row in rows if row['address'] == '0x0018'], [0x41])

    def test_without_rate(self):
        """without a rate there are sample numbers and no times"""
        text = text_page(reported(recording(*KINDS), rate=None))
        self.assertNotIn(' ms', text)
        self.assertIn('sample ', text)

    def test_filled(self):
        """date and technician are fields, or as given"""
        made_unit, capture = made.made_unit(), made.capture(recording(*GOOD))
        blank, given = (html_page(report.make(made_unit, capture, report.Filled(*filled))) for filled in ((), ('13 Nov', 'A. Weber')))
        self.assertEqual((blank.count('blank, to fill in by hand'), given.count('blank, to fill in by hand')), (2, 0))
        self.assertIn('A. Weber', given)


@unittest.skipIf(BROWSER is None, 'no chromium is installed')
class Browser(unittest.TestCase):
    def seen(self, page, *words):
        """What the browser makes of a page."""
        with tempfile.TemporaryDirectory() as folder:
            path = os.path.join(folder, 'page.html')
            with open(path, 'w', encoding='utf-8') as out:
                out.write(page)
            given = [word.replace('FOLDER', folder) for word in words]
            ended = subprocess.run([BROWSER, '--headless', '--no-sandbox', '--disable-gpu', f'--user-data-dir={folder}/profile', *given,
                                    f'file://{path}'], capture_output=True, check=True, timeout=120)
            sheet = os.path.join(folder, 'page.pdf')
            if os.path.exists(sheet):
                with open(sheet, 'rb') as made_sheet:
                    return made_sheet.read()
            return ended.stdout.decode()

    def sheets(self, page):
        """How many sheets a page prints on."""
        return len(re.findall(rb'/Type\s*/Page\b', self.seen(page, '--no-pdf-header-footer', '--print-to-pdf=FOLDER/page.pdf')))

    def test_open_day(self):
        """a browser shows the open-day page, on two sheets"""
        page = html_page(reported(open_day.samples(), open(os.path.join(made.ROOT, 'examples', 'open-day.txt'), encoding='utf-8').read()))
        document = self.seen(page, '--dump-dom')
        first = r'<li><a class="num" href="#a1"[^>]*>1</a><span><b>Channel, low byte</b>'
        self.assertRegex(document, r'<h1 id="v">DO NOT SIGN OUT</h1><ol>\s*' + first)
        self.assertEqual(self.sheets(page), 2)

    def test_other_sheets(self):
        """ready and refused pages fit their sheets"""
        for samples, sheets in ((recording(*GOOD), 2), (recording(*GOOD) + b'\x12', 1)):
            self.assertLessEqual(self.sheets(html_page(reported(samples))), sheets)
