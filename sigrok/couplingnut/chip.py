"""The library with one chip's map, session and registers, and the words for what it says. This folder's name is the library module's own,
so that module and mkmap are loaded by their files."""
import importlib.util
import os
import sys
import types

HERE = os.path.dirname(os.path.abspath(__file__))
# From this folder: the source tree, and what `make install` puts under one prefix.
ROOTS = [os.path.join(HERE, '..', '..'), os.path.join(HERE, '..', '..', '..', '..'), '/usr/local', '/usr']
MODULE = ('python/couplingnut/__init__.py', 'lib/python3/dist-packages/couplingnut/__init__.py')
MKMAP = ('tools/mkmap', 'bin/mkmap')
WRITE, READ, CUT = 1, 2, 3
EFFECTS = {0: 'ignored', 1: 'in force', 2: 'waits', 3: 'setting', 4: 'transfer', 5: 'soft reset'}
COLUMN = '|'
PIECE = 4096  # samples for one call
BAD_TOP = 12  # the library's number for a top that does not fit


class Unusable(Exception):
    """Why nothing can be read, in words for the user."""


def _found(name, places):
    for root in ROOTS:
        for place in places:
            path = os.path.join(root, place)
            if os.path.exists(path):
                return os.path.normpath(path)
    raise Unusable(f'{name} is not there: install couplingnut')


def _library():
    spec = importlib.util.spec_from_file_location('couplingnut_library', _found('the Python module', MODULE))
    module = importlib.util.module_from_spec(spec)
    sys.modules[spec.name] = module  # where its files look for one another
    try:
        spec.loader.exec_module(module)
    except (OSError, AttributeError) as error:
        raise Unusable(f'libcouplingnut is not there, or is an older one: {error}') from None
    return module


def _mkmap():
    path = _found('mkmap', MKMAP)
    module = types.ModuleType('mkmap')
    module.__file__ = path
    with open(path, encoding='utf-8') as source:
        exec(compile(source.read(), path, 'exec'), module.__dict__)  # pylint: disable=exec-used
    return module


def _read(path):
    if not path:
        raise Unusable('name the unit\'s table or its map in the option "map"')
    try:
        with open(path, 'rb') as source:
            return source.read()
    except OSError as error:
        raise Unusable(f'{path}: {error.strerror}') from None


def _top_of(text):
    """The top that the option names, if it does."""
    try:
        return int(text, 16) if text else None
    except ValueError:
        raise Unusable(f'the option "top" is an address in hexadecimal, as 2C, and not "{text}"') from None


class Chip:
    """A chip as the library sees it, from its opening on: a newer one, or an older part, whose top is the map's last address."""

    def __init__(self, path, part='', top=''):
        self.library = _library()
        if part and part not in self.library.PARTS:
            raise Unusable(f'the option "part" is {" or ".join(self.library.PARTS)}, and not "{part}"; leave it empty for every other chip')
        if top and not part:
            raise Unusable('the option "top" goes with the option "part"')
        self.part, self.top, self.names = part or None, _top_of(top), {}
        data = _read(path)
        try:
            self._test(path, data)
        except self.library.Refused:
            data = self._made(path, data)
        self.map = data
        self.active, self.buffer = self.library.banks(data)
        self.session = self.library.open(data, self.active, self.buffer, part=self.part)

    def _test(self, path, data):
        """The library's map test; a good map with another top than the option names is not usable."""
        try:
            self.library.map_test(data, part=self.part, top=self.top)
        except self.library.Refused as refused:
            if refused.number == BAD_TOP:
                last = len(self.library.banks(data)[0]) - 1
                raise Unusable(f'{os.path.basename(path)}: its last address is 0x{last:04X}, and not 0x{self.top:04X} as the option "top" '
                               'says') from None
            raise

    def _made(self, path, data):
        """The map of a table, whose names are kept."""
        mkmap = _mkmap()
        try:
            lines = mkmap.registers_of(data)
            mkmap.check_rules(lines, part=self.part)
            made = mkmap.map_of(lines)
            self._test(path, made)
        except mkmap.Bad as bad:
            raise Unusable(f'{os.path.basename(path)}: {str(bad).splitlines()[0]}') from None
        except self.library.Refused as refused:
            raise Unusable(f'{os.path.basename(path)}: {refused}') from None
        self.names = {line.address: line.comment.partition(COLUMN)[0].strip() for line in lines}
        return made

    def next_record(self, samples):
        """The record that these samples complete, or none. They are handed over as soon as there can be one, so none are left."""
        record = None
        while samples and record is None:
            self.session, record, taken = self.library.next_record(self.map, self.session, self.active, self.buffer, samples[:PIECE],
                                                                   part=self.part)
            samples = samples[taken:]
        assert not samples
        return record

    def name(self, address):
        """A register's name with its address, its name, its address."""
        name = self.names.get(address)
        return [f'{name} (0x{address:04X})', name, f'0x{address:04X}'] if name else [f'0x{address:04X}']


def effect_words(record):
    """What a whole byte did, longest first."""
    word = EFFECTS[record.byte5]
    if record.byte5 in (1, 2):
        return [f'0x{record.byte4:02X} {word}', word]
    return [{0: 'ignored: nothing changed', 3: 'interface setting', 4: 'transfer: what waited is in force',
             5: 'soft reset: all defaults in force'}[record.byte5], word]
