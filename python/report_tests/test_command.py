"""The command: its subcommands, statuses and words; bad input of every kind gets a sentence."""
import json
import os
import pty
import select
import shutil
import subprocess
import sys
import time
import unittest

from report_tests import made
from report_tests.folder import Folder
from report_tests.made import RESET, TRANSFER, cut, read, recording, write

COMMAND = os.path.join(made.ROOT, 'tools', 'couplingnut')
HOST = os.path.join(made.ROOT, 'target', 'host')
GOOD = recording(write(*RESET), write(0x0010, 0x2D), write(0x0018, 0x5A), write(*TRANSFER))
BROKEN = recording(write(0x0018, 0x5A), cut(write(0x0010, 0x2D), 21), write(*TRANSFER))


class Files(Folder, unittest.TestCase):
    """A folder with a unit's table and recordings."""

    def setUp(self):
        super().setUp()
        self.table = self.put('CT-1.txt', made.TABLE)
        self.good, self.broken = self.put('good.samples', GOOD), self.put('broken.samples', BROKEN)

    def run_it(self, *words, **given):
        ended = subprocess.run([sys.executable, COMMAND, *words], capture_output=True, timeout=120, check=False, **given)
        self.assertNotIn(b'Traceback', ended.stderr)
        return ended.returncode, ended.stdout.decode(), ended.stderr.decode()

    def assert_end(self, status, words, *command, **given):
        ended, out, said = self.run_it(*command, **given)
        self.assertEqual((ended, words in said), (status, True), f'{command}: {ended} {said}')
        return out


class Report(Files):
    def test_statuses(self):
        """status 0 ready, 1 not ready, 2 refused, 3 failed"""
        self.assertEqual(self.run_it('report', self.table, self.good)[0], 0)
        self.assertEqual(self.run_it('report', self.table, self.broken)[0], 1)
        self.assertEqual(self.run_it('report', self.table, self.put('bad.samples', GOOD + b'\x90'))[0], 2)
        self.assert_end(3, 'No such file', 'report', self.table, self.place('none.samples'))

    def test_pages(self):
        """-o by its ending, and each page by its option"""
        starts = {'--text': 'DO NOT SIGN OUT: unit CT-1\n1. Channel', '--json': '{"couplingnut"', '--html': '<!DOCTYPE html>'}
        for option, start in starts.items():
            self.assertTrue(self.run_it('report', option, self.table, self.broken)[1].startswith(start))
            out = self.place('page' + {'--text': '.txt', '--json': '.json', '--html': '.html'}[option])
            self.assertEqual(self.run_it('report', self.table, self.broken, '-o', out)[:2], (1, ''))
            with open(out, encoding='utf-8') as page:
                self.assertTrue(page.read().startswith(start))
        for words in ([], ['-o', '-']):
            self.assertTrue(self.run_it('report', self.table, self.broken, *words)[1].startswith(starts['--text']))

    def test_options(self):
        """unit, date, technician and rate by options"""
        given = ['--unit', 'CT-9', '--date', 'today', '--technician', 'Mr. B', '--rate', '10 MHz']
        told = json.loads(self.run_it('report', '--json', *given, self.table, self.good)[1])
        found = [told[name] for name in ('unit', 'date', 'technician')]
        self.assertEqual([*found, told['recording']['rate']], ['CT-9', 'today', 'Mr. B', 10 ** 7])

    def test_standard_input(self):
        """raw samples on standard input"""
        self.assertEqual(self.run_it('report', self.table, '-', input=GOOD)[0], 0)
        self.assertEqual(self.run_it('report', self.table, '-', input=BROKEN)[0], 1)

    def test_wrong_commands(self):
        """wrong commands are told with status 2"""
        files = [self.table, self.good]
        for words, said in ((['report'], 'name the unit'),
                            (['report', self.table], 'name the unit'),
                            (['report', '--json', '--html', *files], 'not allowed'),
                            (['report', '--jso', *files], 'unrecognized'),
                            (['report', '--rate', 'fast', *files], 'is no rate'),
                            (['report', '--rate', '0', *files], 'above 0'),
                            (['report', '--flags', '2', *files], 'flags'),
                            (['report', '-j', '0', *files], 'from 1 to 64'),
                            (['report', '--all', self.folder.name], '-o SITE'),
                            (['report', '--all', self.folder.name, *files], 'no CAPTURE'),
                            (['report', *files, '-o', self.good], 'is to be read'),
                            (['report', '--csb', 'X', *files], 'D0, D1, D2'),
                            (['read', '--follow'], 'MAP'),
                            (['read', '--follow', '--csb', 'D0', '--csb', 'D1', *files], 'reads one chip'),
                            (['nothing'], 'invalid choice'),
                            ([], 'usage')):
            self.assert_end(2, said, *words)

    def test_bad_tables(self):
        """a table that is wrong is told line by line, with status 2"""
        with_words = made.TABLE.replace
        for text, said in (('', 'missing'),
                           (with_words('| 2D', '| 2G'), "wanted value '2G'"),
                           (with_words('| 2D', '| 12D'), 'above 0xFF'),
                           (made.TABLE + '0019 plain 00 00', 'line 16'),
                           (with_words('00 00  Transfer', '00 00  Transfer | 01'), 'control'),
                           (with_words('0F 08  Standby level', '0F 08  Standby level | 18'), 'never be in force'),
                           (b'\xFF\xFE', 'UTF-8')):
            self.assert_end(2, said, 'report', self.put('bad.txt', text), self.good)
        self.assert_end(3, 'No such file', 'report', self.place('none.txt'), self.good)
        self.assert_end(3, 'directory', 'report', self.folder.name, self.good)

    def test_failing_output(self):
        """output that can't be written is told, with status 3"""
        with open('/dev/full', 'wb') as full:
            ended = subprocess.run([sys.executable, COMMAND, 'report', self.table, self.good], stdout=full, stderr=subprocess.PIPE,
                                   check=False)
        self.assertEqual((ended.returncode, ended.stderr), (3, b'couplingnut: standard output: No space left on device\n'))
        self.assert_end(3, 'No such file', 'report', self.table, self.good, '-o', self.place('none', 'page.html'))
        self.assert_end(3, 'directory', 'report', self.table, self.good, '-o', self.folder.name)
        self.assert_end(3, 'No space left', 'report', self.table, self.good, '-o', '/dev/full')
        self.assertEqual([name for name in os.listdir(self.folder.name) if name.startswith('.')], [])

    def test_help(self):
        """--help of each command, and --version"""
        with open(os.path.join(made.ROOT, 'VERSION'), encoding='ascii') as version:
            self.assertEqual(self.run_it('--version')[:2], (0, f'couplingnut {version.read()}'))
        for words in ([], ['report'], ['read'], ['read', '--follow'], ['send'], ['map']):
            ended, out, said = self.run_it(*words, '--help')
            self.assertEqual((ended, said), (0, ''), words)
            self.assertGreater(len(out), 100)

    def test_missing_library(self):
        """a missing library is told in a sentence"""
        missing = {**os.environ, 'COUPLINGNUT_LIBRARY': self.place('none.so')}
        self.assert_end(3, 'the library is not there', 'report', self.table, self.good, env=missing)


class Tools(Files):
    def test_tools(self):
        """read, send and map are the programs of today, statuses and all"""
        scratch = os.path.join(made.ROOT, 'examples', 'scratch')
        def output_of(*words):
            return subprocess.run([sys.executable, COMMAND, *words], capture_output=True, check=True).stdout
        sent = output_of('send', 'write', '0x000A', '0x3C')
        self.assertEqual(sent, made.cn.send(made.cn.WRITE, 0, 0x000A, 1, b'\x3C'))
        lines = 'map 16\nW 000A 3C 3C 1 3C\nrecords 1 samples 51 slow 0\n'
        self.assertEqual(self.run_it('read', f'{scratch}.map', '-', input=sent)[:2], (0, lines))
        with open(f'{scratch}.map', 'rb') as expected:
            self.assertEqual(output_of('map', f'{scratch}.txt'), expected.read())
        self.assertEqual(self.run_it('read', f'{scratch}.map', '-', input=b'\x10')[:2], (1, 'map 16\nrefused 5\n'))

    def test_follow_is_busread(self):
        """read --follow prints what busread prints"""
        unit_map = self.put('unit.map', made.made_unit().map)
        slow = recording(write(0x0001, 0x10), read(0x0018, 0x41), write(0x0400, 0x01))
        for samples in (GOOD, BROKEN, slow, b'', made.oversampled(GOOD * 3, 40)):
            busread = subprocess.run([os.path.join(HOST, 'busread'), unit_map, '-'], input=samples, capture_output=True, check=True)
            self.assertEqual(self.run_it('read', '--follow', unit_map, '-', input=samples)[:2], (0, busread.stdout.decode()))
        self.assertEqual(self.run_it('read', '--follow', unit_map, self.broken)[:1], (0,))
        turned = bytes((sample & 1) << 4 | (sample & 14) >> 1 | 0x80 for sample in BROKEN)
        named = ['--csb', 'D4', '--sclk', 'D0', '--sdio', 'D1', '--sdo', 'D2']
        plain = self.run_it('read', '--follow', unit_map, '-', input=BROKEN)
        self.assertEqual(self.run_it('read', '--follow', *named, unit_map, '-', input=turned), plain)

    def test_follow_bad_input(self):
        """read --follow tells bad input as busread does"""
        unit_map = self.put('unit.map', made.made_unit().map)
        self.assertEqual(self.run_it('read', '--follow', unit_map, '-', input=GOOD + b'\x10')[0], 1)
        self.assertEqual(self.run_it('read', '--follow', self.good, '-', input=GOOD)[:2], (1, 'refused 2\n'))
        self.assert_end(3, 'No such file', 'read', '--follow', self.place('none'), '-')
        self.assert_end(3, 'No such file', 'read', '--follow', unit_map, self.place('none'))

    def test_follow_at_once(self):
        """read --follow prints a record as soon as its last sample has come"""
        unit_map = self.put('unit.map', made.made_unit().map)
        frame = made.cn.send(made.cn.WRITE, 0, 0x0018, 1, b'\x5A')
        words = [sys.executable, COMMAND, 'read', '--follow', unit_map, '-']
        with subprocess.Popen(words, stdin=subprocess.PIPE, stdout=subprocess.PIPE) as follower:
            self.assertEqual(follower.stdout.readline(), b'map 26\n')
            for _ in range(3):
                follower.stdin.write(frame[:48])
                follower.stdin.flush()
                self.assertEqual(select.select([follower.stdout], [], [], 0.3)[0], [])
                follower.stdin.write(frame[48:49])
                follower.stdin.flush()
                self.assertEqual(select.select([follower.stdout], [], [], 10)[0], [follower.stdout])
                self.assertIn(b'W 0018 5A', follower.stdout.readline())
                follower.stdin.write(frame[49:])
                follower.stdin.flush()
            self.assertEqual(follower.communicate()[0], b'records 3 samples 153 slow 0\n')


class Site(Files):
    def setUp(self):
        super().setUp()
        self.day = self.place('day')
        os.mkdir(self.day)
        self.site = self.place('site')
        for name, content in (('CT-1.txt', made.TABLE), ('CT-1-0900.samples', GOOD), ('CT-1-1000.samples', BROKEN),
                              ('CT-10.txt', made.TABLE), ('CT-10.samples', GOOD), ('CT-2.samples', GOOD),
                              ('CT-1 bad.samples', GOOD + b'\x80'), ('CT-1-junk.sr', b'PK\3\4 junk')):
            self.put(os.path.join('day', name), content)

    def lines(self):
        with open(os.path.join(self.site, 'report.jsonl'), encoding='utf-8') as source:
            return {told['recording']['file']: (told['unit'], told['verdict']) for told in map(json.loads, source)}

    def test_all(self):
        """--all: a page for each recording, an index, lines of JSON; no recording ends the rest"""
        ended, out, said = self.run_it('report', '--all', self.day, '-o', self.site, '-j', '2')
        self.assertEqual((ended, said), (3, ''))
        self.assertEqual(out.count('\n'), 6)
        self.assertEqual(self.lines(), {'CT-1 bad.samples': ('CT-1', 'refused'), 'CT-1-0900.samples': ('CT-1', 'ready'),
                                        'CT-1-1000.samples': ('CT-1', 'not ready'), 'CT-1-junk.sr': ('CT-1', 'unreadable'),
                                        'CT-10.samples': ('CT-10', 'ready'), 'CT-2.samples': ('CT-2', 'unreadable')})
        pages = ['CT-1 bad.html', 'CT-1-0900.html', 'CT-1-1000.html', 'CT-10.html']
        self.assertEqual(sorted(os.listdir(self.site)), [*pages, 'index.html', 'report.jsonl'])
        with open(os.path.join(self.site, 'index.html'), encoding='utf-8') as source:
            index = source.read()
        for words in ('6 recordings', 'href="CT-1%20bad.html"', 'Do not sign out (1)', 'recording not read (3)', 'Ready to sign out (2)',
                      'no table of the folder'):
            self.assertIn(words, index)

    def test_shared_table(self):
        """--all with a table for recordings that have none"""
        self.assertEqual(self.run_it('report', '--all', self.day, self.table, '-o', self.site)[0], 3)
        self.assertEqual(self.lines()['CT-2.samples'], ('CT-2', 'ready'))

    def test_strange_names(self):
        """--all with names that are no UTF-8, have signs of HTML, or are the index's own"""
        for name in (b'CT-1 \xFF.samples', b'CT-1 <b>&"%.samples', b'index.samples'):
            with open(os.path.join(os.fsencode(self.day), name), 'wb') as out:
                out.write(GOOD)
        self.assertEqual(self.run_it('report', '--all', self.day, self.table, '-o', self.site)[0], 3)
        self.assertIn(b'CT-1 \xFF.html', os.listdir(os.fsencode(self.site)))
        self.assertIn('index.samples.html', os.listdir(self.site))
        with open(os.path.join(self.site, 'index.html'), encoding='utf-8') as source:
            index = source.read()
        self.assertIn('href="CT-1%20%FF.html"', index)
        self.assertIn('CT-1 &lt;b&gt;&amp;', index)
        self.assertIn('9 recordings', index)

    def test_same_pages(self):
        """one at a time or four, the same pages"""
        self.run_it('report', '--all', self.day, '-o', self.site)
        self.run_it('report', '--all', self.day, '-o', self.place('again'), '-j', '4')
        for name in os.listdir(self.site):
            with open(os.path.join(self.site, name), 'rb') as one, open(self.place('again', name), 'rb') as other:
                self.assertEqual(one.read(), other.read(), name)

    def test_lines_alone(self):
        """--all --json prints the lines and writes nothing"""
        ended, out, _ = self.run_it('report', '--all', self.day, '--json')
        self.assertEqual((ended, len([json.loads(line) for line in out.splitlines()]), os.path.exists(self.site)), (3, 6, False))

    def test_bad_folders(self):
        """folders that are none, or have no recording, and sites that can't be"""
        os.mkdir(self.place('empty'))
        self.assert_end(2, 'no recording', 'report', '--all', self.place('empty'), '-o', self.site)
        self.assert_end(3, 'No such file', 'report', '--all', self.place('none'), '-o', self.site)
        self.assert_end(3, 'File exists', 'report', '--all', self.day, '-o', self.table)

    def test_progress(self):
        """a progress bar on a terminal"""
        ours, theirs = pty.openpty()
        words = [sys.executable, COMMAND, 'report', '--all', self.day, '-o', self.site]
        with subprocess.Popen(words, stdout=subprocess.DEVNULL, stderr=theirs) as run:
            self.assertEqual(run.wait(60), 3)
        os.close(theirs)
        shown, until = b'', time.monotonic() + 5
        while time.monotonic() < until and b'6 of 6' not in shown:
            shown += os.read(ours, 4096)
        os.close(ours)
        self.assertIn(b'[' + b'#' * 30 + b'] 6 of 6', shown)

    @unittest.skipIf(shutil.which('parallel') is None, 'GNU parallel is not installed')
    def test_parallel(self):
        """README's line for GNU parallel, run on this machine"""
        with open(os.path.join(made.ROOT, 'README.md'), encoding='utf-8') as readme:
            line = next(line.strip() for line in readme if line.startswith('    parallel '))
        for name, samples in (('one.sr', GOOD), ('two.sr', BROKEN)):
            self.put(name, made.session_file(samples, made.Channels(['CSB', 'SCLK', 'SDIO', 'SDO'], 1)))
        os.rename(self.table, self.place('unit.txt'))
        path = os.path.dirname(COMMAND) + os.pathsep + os.environ['PATH']
        ended = subprocess.run(line.replace('host1,host2', ':'), shell=True, cwd=self.folder.name, env={**os.environ, 'PATH': path},
                               capture_output=True, check=False)
        self.assertEqual(ended.returncode, 1, ended.stderr)
        for name, start in (('one', 'ready to sign out'), ('two', 'do not sign out')):
            with open(self.place(f'{name}.html'), encoding='utf-8') as page:
                self.assertIn(f'<title>unit: {start}</title>', page.read())
