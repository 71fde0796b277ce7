"""A capture as samples of the chip's lines: raw samples, sigrok's own files, and whatever sigrok-cli can turn into one.

sigrok-cli's own choice of channels neither masks nor reorders the bytes of a saved capture. So every other form is made a .sr file,
whose names and bits are then read here.
"""
from __future__ import annotations

import configparser
import hashlib
import os
import re
import shutil
import subprocess
import sys
import tempfile
import zipfile
import zlib
from dataclasses import dataclass
from typing import Dict, List, Mapping, Optional, Tuple

from .ends import Unreadable, Wrong
from .lines import LINES, lines_of, samples_of, selects_of
from .sentences import readable

RAW_END = '.samples'
STANDARD_INPUT = '-'
RAW_CHANNELS = [f'D{bit}' for bit in range(8)]
# What reading a damaged .sr file can raise.
DAMAGED = (zipfile.BadZipFile, zlib.error, configparser.Error, KeyError, ValueError, OSError, NotImplementedError, EOFError, RuntimeError)
RATES = {'hz': 1, 'khz': 10 ** 3, 'mhz': 10 ** 6, 'ghz': 10 ** 9, '': 1, 'k': 10 ** 3, 'm': 10 ** 6, 'g': 10 ** 9}


@dataclass(frozen=True)
class Wish:
    """What the user said of a capture: names of lines, samples a second, sigrok-cli's input format; of several chips their selects."""
    lines: Mapping[str, Optional[str]]
    rate: Optional[int] = None
    form: Optional[str] = None
    selects: Tuple[str, ...] = ()


@dataclass(frozen=True)
class Capture:
    """The samples of a recording, one byte each, with what is known of it; and the selects of other chips that are read with this one."""
    file: str
    sha256: str
    samples: bytes
    rate: Optional[int]
    lines: Dict[str, str]
    others: Tuple[str, ...] = ()


def rate_of(text: str) -> Optional[int]:
    """Samples a second from words like `1 MHz`; none where it says 0."""
    words = re.fullmatch(r'\s*([0-9]+(?:\.[0-9]+)?)\s*([a-z]*)\s*', text.lower())
    if not words or words[2] not in RATES:
        raise ValueError(f'"{text}" is no rate, like 1000000 or 10 MHz')
    return round(float(words[1]) * RATES[words[2]]) or None


def _contents(path: str) -> bytes:
    try:
        if path == STANDARD_INPUT:
            if sys.stdin is None:
                raise Unreadable('standard input: it is closed')
            return sys.stdin.buffer.read()
        with open(path, 'rb') as source:
            return source.read()
    except OSError as error:
        raise Unreadable(f'{"standard input" if path == STANDARD_INPUT else path}: {error.strerror}') from None


def _chosen(channels: List[str], wish: Wish) -> List[Dict[str, int]]:
    """The lines of each chip, by the places of their channels."""
    return selects_of(channels, wish.lines, wish.selects) if wish.selects else [lines_of(channels, wish.lines)]


def _raw(path: str, wish: Wish) -> List[Capture]:
    """Raw samples: as they are, or with lines by the names D0 to D7."""
    data = _contents(path)
    name = 'standard input' if path == STANDARD_INPUT else readable(os.path.basename(path))
    chips, samples = [{line: bit for bit, line in enumerate(LINES)}], [data]
    if any(wish.lines.values()) or wish.selects:
        chips = _chosen(RAW_CHANNELS, wish)
        samples = [samples_of(data, 1, bits) for bits in chips]
    lines = [{line: RAW_CHANNELS[bit] for line, bit in bits.items()} for bits in chips]
    return _captures(name, hashlib.sha256(data).hexdigest(), samples, wish.rate, lines)


def _captures(name: str, sha256: str, samples: List[bytes], rate: Optional[int], lines: List[Dict[str, str]]) -> List[Capture]:
    """A capture for each chip, which knows the selects of the others."""
    selects = [line['csb'] for line in lines]
    return [Capture(name, sha256, samples[at], rate, lines[at], tuple(selects[:at] + selects[at + 1:])) for at in range(len(lines))]


def _described(archive: zipfile.ZipFile) -> Mapping[str, str]:
    """What a .sr file says of its one device."""
    words = configparser.ConfigParser(interpolation=None, strict=False, delimiters=('=',))
    words.read_string(archive.read('metadata').decode('utf-8', 'replace'))
    return words['device 1']


def _channels(device: Mapping[str, str]) -> List[Tuple[str, int]]:
    """The logic channels with their bits. Analog ones have numbers beyond the logic ones, and are left out."""
    most = int(device.get('total probes', '0'))
    found = []
    for key, name in device.items():
        probe = re.fullmatch(r'probe([0-9]+)', key)
        if probe and 1 <= int(probe[1]) <= most:
            found.append((name, int(probe[1]) - 1))
    return sorted(found, key=lambda channel: channel[1])


def _pieces(archive: zipfile.ZipFile, stem: str) -> List[str]:
    """The files with the samples, in order: `logic-1`, or `logic-1-1`, `logic-1-2`, .."""
    named = [name for name in archive.namelist() if re.fullmatch(re.escape(stem) + r'(-[0-9]+)?', name)]
    return sorted(named, key=lambda name: int(name[len(stem) + 1:] or 0))


def _session(path: str, wish: Wish) -> Tuple[List[bytes], Optional[int], List[Dict[str, str]]]:
    """Samples, rate and lines of a .sr file: samples and lines of each chip."""
    with zipfile.ZipFile(path) as archive:
        device = _described(archive)
        channels = _channels(device)
        width = int(device.get('unitsize', '0'))
        if not channels or width < 1:
            raise Wrong('the capture has no logic channels')
        lines = _chosen([name for name, _ in channels], wish)
        bits = [{line: channels[at][1] for line, at in chip.items()} for chip in lines]
        if max(bit for chip in bits for bit in chip.values()) >= 8 * width:
            raise ValueError('a channel without samples')
        samples: List[List[bytes]] = [[] for _ in bits]
        for name in _pieces(archive, device.get('capturefile', 'logic-1')):
            units = archive.read(name)
            for chip, places in zip(samples, bits):
                chip.append(samples_of(units, width, places))
    named = [{line: channels[at][0] for line, at in chip.items()} for chip in lines]
    return [b''.join(chip) for chip in samples], wish.rate or rate_of(device.get('samplerate', '0')), named


def _header(path: str) -> List[str]:
    """What sigrok-cli has to be told of a CSV file whose first line has names."""
    with open(path, encoding='utf-8', errors='replace') as source:
        first = next((line for line in source if line.strip() and not line.startswith(';')), '')
    return ['-I', 'csv:header=yes'] if re.search('[A-Za-z]', first) else []


def _converted(path: str, to: str, wish: Wish) -> None:
    """Has sigrok-cli make a .sr file of a capture."""
    if shutil.which('sigrok-cli') is None:
        raise Unreadable(f'{path}: sigrok-cli is not installed; it is needed for all captures but .sr and {RAW_END} files')
    form = ['-I', wish.form] if wish.form else _header(path) if path.lower().endswith('.csv') else []
    ended = subprocess.run(['sigrok-cli', *form, '-i', path, '-o', to], stdin=subprocess.DEVNULL, capture_output=True, check=False)
    if ended.returncode != 0 or not os.path.exists(to):
        words = ended.stderr.decode('utf-8', 'replace').strip().split('\n')[-1]
        raise Unreadable(f'{path}: sigrok-cli can\'t read it{": " + words if words else ""}')


def read_capture(path: str, wish: Wish) -> Capture:
    """The capture of a file, or of standard input, with one chip."""
    return read_captures(path, wish)[0]


def read_captures(path: str, wish: Wish) -> List[Capture]:
    """The capture of a file, or of standard input: of several chips once for each, with its select."""
    if path == STANDARD_INPUT or path.lower().endswith(RAW_END):
        return _raw(path, wish)
    sha256 = hashlib.sha256(_contents(path)).hexdigest()
    with tempfile.TemporaryDirectory(prefix='couplingnut-') as place:
        session = path
        if wish.form or not zipfile.is_zipfile(path):
            session = os.path.join(place, 'capture.sr')
            _converted(path, session, wish)
        try:
            samples, rate, lines = _session(session, wish)
        except Wrong as wrong:
            raise Wrong(f'{path}: {wrong}') from None
        except DAMAGED as error:
            raise Unreadable(f'{path}: this is no whole capture of sigrok ({error})') from None
    return _captures(readable(os.path.basename(path)), sha256, samples, rate, lines)
