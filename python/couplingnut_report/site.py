"""Several pages: of every recording of a folder (`couplingnut report --all`), and of several chips in a recording (`--csb` more than once);
with an index of them, and a line of JSON for each.

A recording belongs to the table whose name its own begins with: CT-017-1452.sr to CT-017.txt. Whatever happens to one recording is a
row of the index and never the end of the others.
"""
from __future__ import annotations

import concurrent.futures
import json
import os
import re
import sys
import time
from dataclasses import dataclass, field
from typing import Any, Dict, List, Optional, Sequence, Union

from . import ends, output, report
from .captures import Wish, read_captures
from .htmlpage import html_page
from .indexpage import Row, index_page
from .jsonpage import as_object
from .parts import Chip
from .sentences import marked, readable
from .unit import read_unit

TABLE_END = '.txt'
# What stands in a folder of recordings and is none.
OTHERS = (TABLE_END, '.map', '.html', '.json', '.jsonl', '.pvs', '.md', '.pdf', '.png')
LINES_FILE, INDEX_FILE = 'report.jsonl', 'index.html'
# What a line of JSON leaves out: a folder's lines are for an overview.
LEFT_OUT = ('records', 'frames', 'stages')


@dataclass(frozen=True)
class Folder:
    """What is asked: a folder, the table for recordings that have none of their own, where the pages go, how many at a time."""
    path: str
    table: Optional[str]
    out: Optional[str]
    jobs: int
    to_output: bool
    wish: Wish
    filled: report.Filled
    chip: Chip


@dataclass(frozen=True)
class _Task:
    """One recording. The name of its unit, if it is empty, is the table's; `page` is what the names of its pages begin with."""
    folder: Folder
    file: str
    table: Optional[str]
    unit: str
    page: str

    def path(self) -> str:
        """Its file."""
        return os.path.join(self.folder.path, self.file)


@dataclass
class _Done:
    """What came of it: a row for the index, and its line of JSON."""
    row: Row
    told: Dict[str, Any] = field(default_factory=dict)


def _listed(path: str) -> List[str]:
    try:
        names = sorted(name for name in os.listdir(path) if not name.startswith('.') and os.path.isfile(os.path.join(path, name)))
    except OSError as error:
        raise ends.Unreadable(f'{path}: {error.strerror}') from None
    return names


def _table_of(recording: str, tables: List[str]) -> Optional[str]:
    """The table with the longest name that the recording's begins with."""
    stem = os.path.splitext(recording)[0]
    fitting = [table for table in tables if _begins(stem, os.path.splitext(table)[0])]
    return max(fitting, key=len) if fitting else None


def _begins(stem: str, start: str) -> bool:
    return stem.startswith(start) and not stem[len(start):len(start) + 1].isalnum()


def _tasks(folder: Folder) -> List[_Task]:
    names = _listed(folder.path)
    tables = [name for name in names if name.endswith(TABLE_END)]
    recordings = [name for name in names if not name.lower().endswith(OTHERS)]
    if not recordings:
        raise ends.Wrong(f'{folder.path}: there is no recording in it')
    stems = [os.path.splitext(name)[0] for name in recordings]
    tasks = []
    for name, stem in zip(recordings, stems):
        table = _table_of(name, tables)
        path = os.path.join(folder.path, table) if table else folder.table
        page = stem if stems.count(stem) == 1 and stem != 'index' else name
        tasks.append(_Task(folder, name, path, readable(os.path.splitext(table)[0] if table else stem), page))
    return tasks


def _reports(task: _Task) -> List[Union[report.Judged, report.Refused]]:
    """The reports of one recording: one, or one for each chip."""
    folder = task.folder
    if task.table is None:
        raise ends.Wrong(f'no table of the folder has a name that {task.file} begins with, and none was given')
    unit = read_unit(task.table, task.unit, folder.chip)
    return report.make_all(unit, read_captures(task.path(), folder.wish), folder.filled)


def page_names(start: str, selects: Sequence[str]) -> List[str]:
    """The files of a recording's pages: one, or one for each chip, named after its select. No two are the same, and none is the index."""
    if len(selects) == 1:
        return [f'{start}.html']
    names = [re.sub(r'\W', '_', select) for select in selects]
    if len({'index', *(name.lower() for name in names)}) <= len(names):
        names = [f'{at}_{name}' for at, name in enumerate(names, 1)]
    return [f'{start}-{name}.html' if start else f'{name}.html' for name in names]


def _kept(task: _Task, reports: Sequence[Union[report.Judged, report.Refused]]) -> List[_Done]:
    """What came of a recording, its pages written."""
    pages = page_names(task.page, [made.capture.lines['csb'] for made in reports])
    if task.folder.out is not None:
        for made, page in zip(reports, pages):
            output.write_file(os.path.join(task.folder.out, page), html_page(made))
    return [_done(task, made, page) for made, page in zip(reports, pages)]


def _done(task: _Task, made: Union[report.Judged, report.Refused], page: str) -> _Done:
    told = {name: value for name, value in as_object(made).items() if name not in LEFT_OUT}
    reasons = [marked(reason.sentence) for reason in made.verdict.reasons]
    in_force = made.in_force() if isinstance(made, report.Judged) else (0, 0)
    return _Done(Row(made.unit.name, readable(task.file), _written(task), made.status(), reasons, in_force, page), told)


def _written(task: _Task) -> str:
    """When the file was last written, by its folder."""
    try:
        moment = os.stat(task.path()).st_mtime
    except OSError:
        return '–'
    return time.strftime('%Y-%m-%d %H:%M', time.localtime(moment))


def _lost(task: _Task, status: int, words: str) -> List[_Done]:
    """A recording that gave no report."""
    file, words = readable(task.file), readable(words)
    told = {'unit': task.unit, 'verdict': 'unreadable', 'status': status, 'recording': {'file': file}, 'text': words}
    return [_Done(Row(task.unit, file, _written(task), status, [marked([words.replace('\n', '; ')])], (0, 0), None), told)]


def one(task: _Task) -> List[_Done]:
    """One recording, whatever it is."""
    try:
        return _kept(task, _reports(task))
    except ends.End as end:
        return _lost(task, end.status, str(end))
    except Exception as error:  # pylint: disable=broad-except
        # A slip of ours in one recording is told in its row too.
        return _lost(task, ends.FAILED, f'this program failed: {type(error).__name__}: {error}')


def _show_progress(done: int, total: int) -> None:
    """A bar, where somebody sees it."""
    if sys.stderr is None or not sys.stderr.isatty():
        return
    wide = 30 * done // total
    print(f'\r[{"#" * wide}{"." * (30 - wide)}] {done} of {total}', end='\n' if done == total else '', file=sys.stderr, flush=True)


def _pooled(tasks: List[_Task], jobs: int, found: Dict[str, List[_Done]], total: int) -> None:
    """Adds what a pool of processes finds; a process that dies takes its pool with it, and those tasks are then missing."""
    with concurrent.futures.ProcessPoolExecutor(jobs) as pool:
        waiting = {pool.submit(one, task): task for task in tasks}
        for future in concurrent.futures.as_completed(waiting):
            if future.exception() is None:
                found[waiting[future].file] = future.result()
                _show_progress(len(found), total)


def _in_parallel(tasks: List[_Task], jobs: int) -> List[List[_Done]]:
    """All tasks, so many at a time, each in a process of a pool. One that kills its process is tried once more alone."""
    found: Dict[str, List[_Done]] = {}
    _show_progress(0, len(tasks))
    _pooled(tasks, jobs, found, len(tasks))
    for task in tasks:
        if task.file not in found:
            _pooled([task], 1, found, len(tasks))
    return [found.get(task.file) or _lost(task, ends.FAILED, 'reading it ended the program') for task in tasks]


def make_site(folder: Folder) -> int:
    """All pages of a folder, and the index."""
    tasks = _tasks(folder)
    if folder.out is not None:
        output.make_folder(folder.out)
    done = [one(task) for task in tasks] if len(tasks) == 1 else _in_parallel(tasks, folder.jobs)
    name = os.path.basename(os.path.abspath(folder.path))
    return _finished(folder, name, [item for items in done for item in items])


def make_chips(folder: Folder, file: str, unit: str) -> int:
    """The pages of the chips of one recording, and their index. What is wrong with the recording ends the command."""
    task = _Task(folder, file, folder.table, unit, '')
    reports = _reports(task)
    if folder.out is not None:
        output.make_folder(folder.out)
    return _finished(folder, readable(file), _kept(task, reports))


def _finished(folder: Folder, name: str, done: List[_Done]) -> int:
    """Index, lines of JSON and summary of all pages. The status is the highest of theirs."""
    lines = ''.join(json.dumps(item.told, ensure_ascii=False) + '\n' for item in done)
    if folder.out is not None:
        noun = 'chip' if folder.wish.selects else 'recording'
        output.write_file(os.path.join(folder.out, LINES_FILE), lines)
        output.write_file(os.path.join(folder.out, INDEX_FILE), index_page(name, [item.row for item in done], folder.chip.part, noun))
    output.write_out(lines if folder.to_output else summary([item.row for item in done]))
    return max(item.row.status for item in done)


def summary(rows: List[Row]) -> str:
    """A line for each recording."""
    words = ('ready', 'NOT READY', 'NOT READ', 'NOT READ')
    return ''.join(f'{words[row.status]:10} {row.unit}  {row.file}\n' for row in rows)
