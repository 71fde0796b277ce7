"""Writing: pages to files that are whole or not there, and to standard output to the last byte."""
from __future__ import annotations

import os
import sys
import tempfile

from .ends import Unreadable


def write_file(path: str, content: str) -> None:
    """Writes a file beside its place first, so that no half of a page is ever found there."""
    folder = os.path.dirname(path) or '.'
    try:
        handle, draft = tempfile.mkstemp(prefix='.couplingnut-', dir=folder)
        try:
            with os.fdopen(handle, 'w', encoding='utf-8') as out:
                out.write(content)
            os.chmod(draft, 0o666 & ~_umask())
            if os.path.exists(path) and not os.path.isfile(path):
                _write_through(path, content)
                os.unlink(draft)
            else:
                os.replace(draft, path)
        except BaseException:
            if os.path.exists(draft):
                os.unlink(draft)
            raise
    except OSError as error:
        raise Unreadable(f'{path}: {error.strerror}') from None


def _umask() -> int:
    mask = os.umask(0)
    os.umask(mask)
    return mask


def _write_through(path: str, content: str) -> None:
    """Into a device or a pipe, which can't be replaced."""
    with open(path, 'w', encoding='utf-8') as out:
        out.write(content)


def write_out(content: str) -> None:
    """Writes to standard output."""
    if sys.stdout is None:
        raise Unreadable('standard output: it is closed')
    try:
        sys.stdout.buffer.write(content.encode('utf-8'))
        sys.stdout.buffer.flush()
    except OSError as error:
        # What is left in the buffer can't be written later either.
        sys.stdout = open(os.devnull, 'w', encoding='ascii')
        raise Unreadable(f'standard output: {error.strerror}') from None


def make_folder(path: str) -> None:
    """A folder, which may be there already."""
    try:
        os.makedirs(path, exist_ok=True)
    except OSError as error:
        raise Unreadable(f'{path}: {error.strerror}') from None
