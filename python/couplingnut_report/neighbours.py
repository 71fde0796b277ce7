"""The other programs of the project: where they stand, in the source tree or installed, and mkmap as a module."""
from __future__ import annotations

import functools
import os
import shutil
import types

from .ends import Unreadable

HERE = os.path.dirname(os.path.abspath(__file__))
# From this package: the tree's tools, the tree's programs, what `make install` puts beside the Python folder.
PLACES = (('..', '..', 'tools'), ('..', '..', 'target', 'host'), ('..', '..', '..', '..', 'bin'))


def tool(name: str) -> str:
    """The path of a program that came with this one, or else of that name on the PATH."""
    for place in PLACES:
        path = os.path.join(HERE, *place, name)
        if os.access(path, os.X_OK) and not os.path.isdir(path):
            return os.path.normpath(path)
    found = shutil.which(name)
    if found is None:
        raise Unreadable(f'{name} is not there; `make` builds it, `make install` installs it')
    return found


@functools.lru_cache(maxsize=None)
def mkmap() -> types.ModuleType:
    """mkmap, whose table this program reads too. It is a script, so that it is run under a module's name."""
    path = tool('mkmap')
    module = types.ModuleType('mkmap')
    module.__file__ = path
    with open(path, encoding='utf-8') as source:
        exec(compile(source.read(), path, 'exec'), module.__dict__)  # pylint: disable=exec-used
    return module


def version() -> str:
    """The version of the project."""
    return mkmap().version()
