#!/usr/bin/env python3
"""Tests of tools/audit: that it finds what has to be believed, and complains of what names no section and of files of rules that are not listed. Each prints
a line that begins with ok."""
import importlib.machinery
import importlib.util
import os
import re
import shutil
import subprocess
import sys
import tempfile
import unittest
from pathlib import Path

from counted import runner

ROOT = Path(__file__).resolve().parent.parent
TOOL = str(ROOT / 'tools/audit')
loader = importlib.machinery.SourceFileLoader('audit', TOOL)
sys.dont_write_bytecode = True
audit = importlib.util.module_from_spec(importlib.util.spec_from_loader('audit', loader))
loader.exec_module(audit)

RULES = audit.rule_files(ROOT / 'docs/RULES.md')
SECTIONS = audit.sections_of('# Rules\n\n## The map\n\nBytes.\n\n## Several chips\n\nAsked for by document 02, Ask 10.\n\n## Known results (a star)\n\nNone.\n')

FILE = '''-- Document 01, "The map": a file for a test.
use Rattle.other.specs.Place.{far}

-- one that goes on
abbrev pub near : ℕ
near = far

-- Document 02, Ask 10: a record
pub record Pair : Type 0 where
  pub one : ℕ
  pub two : near
'''


def made_file(text, crate='made'):
    with tempfile.TemporaryDirectory() as folder:
        path = Path(folder) / crate / 'specs' / 'Test.antt'
        path.parent.mkdir(parents=True)
        path.write_text(text)
        return audit.File(path)


def copied(folder):
    """A copy of the tool in this folder, with a copy of the documents, and the crates as they are."""
    shutil.copytree(ROOT / 'docs', Path(folder) / 'docs')
    for name in ('crates', 'crates.txt'):
        (Path(folder) / name).symlink_to(ROOT / name)
    (Path(folder) / 'tools').mkdir()
    return shutil.copy(TOOL, Path(folder) / 'tools')


class Audit(unittest.TestCase):
    def test_declarations(self):
        """a file's definitions, each with its comment and its text"""
        first, second = made_file(FILE).definitions
        self.assertEqual((first.name, first.comment, first.lines), ('near', 'one that goes on', 2))
        self.assertEqual((second.name, second.lines), ('Pair', 3))

    def test_named(self):
        """what a definition names: its own file's, and what is imported"""
        file = made_file(FILE)
        known = {d.key: d for d in file.definitions} | {('other', 'Place', 'far'): None}
        self.assertEqual(list(audit.named_by(file.definitions[0].text.split('\n')[1], file, known))[-1], ('other', 'Place', 'far'))
        self.assertIn(('made', 'Test', 'near'), list(audit.named_by(file.definitions[1].text, file, known)))

    def test_crates(self):
        """the crates of a list: each by its name alone, a static library too"""
        listed = '# ground: floor\nlow:\nwide staticlib: low\nhigh: low wide # above: all\n'
        self.assertEqual(audit.crate_names(listed), ['low', 'wide', 'high'])

    def test_sections(self):
        """a section by its heading in quotes, by its request, or by the heading of the file"""
        file = made_file(FILE)
        audit.place({1: file}, SECTIONS, audit.sections_of_requests(SECTIONS))
        self.assertEqual([d.section for d in file.definitions], ['The map', 'Several chips'])

    def test_unnamed(self):
        """a definition without a section is complained of, and a section without a definition"""
        file = made_file(FILE.replace('Document 01, "The map": ', '').replace('Document 02, Ask 10: ', ''))
        audit.place({1: file}, SECTIONS, audit.sections_of_requests(SECTIONS))
        said = list(audit.complaints({d.key: d for d in file.definitions}, SECTIONS))
        self.assertEqual(len(said), 2 + 3)
        self.assertIn('made/specs/Test.antt:Pair names no section', ' '.join(said))
        self.assertIn('no definition names the section "Several chips"', ' '.join(said))

    def test_unlisted(self):
        """a file of docs/rules/ that RULES does not list is complained of"""
        with tempfile.TemporaryDirectory() as folder:
            tool = copied(folder)
            (Path(folder) / 'docs/rules/forgotten.md').write_text('# Forgotten\n')
            ended = subprocess.run([sys.executable, tool], capture_output=True, text=True)
        said = 'audit: docs/rules/forgotten.md is not in the list of contents of docs/RULES.md\n'
        self.assertEqual((ended.returncode, ended.stderr), (1, said))

    def test_missing(self):
        """a file that RULES lists and that is not there is complained of"""
        with tempfile.TemporaryDirectory() as folder:
            tool = copied(folder)
            (Path(folder) / 'docs/rules/sending.md').unlink()
            ended = subprocess.run([sys.executable, tool], capture_output=True, text=True)
        said = 'audit: docs/RULES.md lists docs/rules/sending.md, which is not there'
        self.assertEqual((ended.returncode, ended.stderr.split('\n')[0]), (1, said))

    def test_contents(self):
        """the list of contents of RULES has every section of every file, in order"""
        contents = ' '.join(RULES[0].read_text().split('\n## ')[0].split())
        self.assertEqual(re.findall(r'"([^"]+)"', contents.split(' - this page: ')[1]), list(audit.all_sections(RULES)))

    def test_page(self):
        """the page of this repository is written, and has every section that says rules, and every exported call"""
        with tempfile.TemporaryDirectory() as folder:
            path = os.path.join(folder, 'deep', 'audit.html')
            ended = subprocess.run([sys.executable, TOOL, '-o', path], capture_output=True, text=True)
            self.assertEqual((ended.returncode, ended.stderr), (0, ''))
            page = Path(path).read_text()
        for title in audit.all_sections(RULES):
            self.assertEqual(f'<h2>{title}</h2>' in page, title not in audit.PLAIN, title)
        for word in ('couplingnut_read_several', 'step_of c s x =', 'StoppedRun', '</html>'):
            self.assertIn(word, page)
        self.assertNotIn('<script', page)


if __name__ == '__main__':
    unittest.main(testRunner=runner('audit'))
