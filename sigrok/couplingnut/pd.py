"""The decoder for libsigrokdecode: it hands the lines to the library, piece by piece, and shows what the library says."""
import sigrokdecode as srd

from .chip import CUT, READ, Chip, Unusable, effect_words

COMMAND, BYTE, IN_FORCE, WAITS, OTHER, IGNORED, BROKEN, MISMATCH, NOTE = range(9)
CSB, SCLK, SDIO, SDO = range(4)
EFFECT_CLASS = {0: IGNORED, 1: IN_FORCE, 2: WAITS}
COMMAND_BITS, BYTE_BITS = 16, 8
# Samples that are waited for at once when nothing can be read.
FAR = 1 << 30


def _rises(last, level):
    """Whether the clock rises to this level with the select low, after the last one, if there is one."""
    return bool(last) and last[0] & 3 == 0 and level & 3 == 2


class Decoder(srd.Decoder):
    """ADI-SPI registers, read by libcouplingnut."""
    api_version = 3
    id = 'couplingnut'
    name = 'Couplingnut'
    longname = 'ADI-SPI registers by a proved reader'
    desc = 'Which registers were written and read, what is in force, what waits, what broke off.'
    license = 'unknown'
    inputs = ['logic']
    outputs = []
    tags = ['Clock/timing', 'IC']
    channels = (
        {'id': 'csb', 'name': 'CSB', 'desc': 'Select, low while the chip listens'},
        {'id': 'sclk', 'name': 'SCLK', 'desc': 'Clock'},
        {'id': 'sdio', 'name': 'SDIO', 'desc': 'Data to the chip, and with three wires from it'},
    )
    optional_channels = ({'id': 'sdo', 'name': 'SDO', 'desc': 'Answers of the chip'},)
    options = (
        {'id': 'map', 'desc': 'Table of the unit, or its map', 'default': ''},
        {'id': 'part', 'desc': 'Older chip, if it is one', 'default': '', 'values': ('', 'AD9557', 'AD9508')},
        {'id': 'top', 'desc': 'Highest address of the older chip', 'default': ''},
    )
    annotations = (
        ('command', 'Command'), ('byte', 'Byte'), ('in-force', 'In force'), ('waits', 'Waits'), ('other', 'Setting, transfer or reset'),
        ('ignored', 'Ignored write'), ('broken', 'Broken off'), ('mismatch', 'Read disagreed'), ('note', 'Note'),
    )
    annotation_rows = (
        ('commands', 'Commands', (COMMAND,)),
        ('bytes', 'Registers', (BYTE,)),
        ('effects', 'Effect', (IN_FORCE, WAITS, OTHER)),
        ('warnings', 'Warnings', (IGNORED, BROKEN, MISMATCH, NOTE)),
    )

    def __init__(self):
        self.out = self.chip = None
        self.reset()

    def reset(self):
        """Forgets the command or byte under way."""
        self.samples, self.places = bytearray(), []
        self.handed, self.missing = 0, COMMAND_BITS

    def start(self):
        """Called before the first sample of a run."""
        self.out = self.register(srd.OUTPUT_ANN)

    def decode(self):
        """Collects the samples at which the select or, with the select low, the clock changes: by the rules (docs/RULES.md, "Samples and
        edges") the others do nothing. They go to the library as soon as a command or a byte can be whole, or the select has risen."""
        try:
            self.chip = Chip(self.options['map'], self.options['part'], self.options['top'])
        except Unusable as unusable:
            self._tell_only(str(unusable))
        pins = self.wait({'skip': 0})
        while True:
            self._take(pins)
            pins = self.wait({CSB: 'f'} if pins[CSB] else [{CSB: 'e'}, {SCLK: 'e'}])

    def _tell_only(self, words):
        """Says why nothing can be read, and lets the rest of the capture pass."""
        self.wait({'skip': 0})
        start = self.samplenum
        self.wait({'skip': 1})
        self._put(start, self.samplenum, NOTE, [words])
        while True:
            self.wait({'skip': FAR})

    def _take(self, pins):
        level = pins[CSB] | pins[SCLK] << 1 | pins[SDIO] << 2 | (pins[SDO] == 1) << 3
        self.missing -= _rises(self.samples[-1:], level)
        self.samples.append(level)
        self.places.append(self.samplenum)
        if pins[CSB] or self.missing == 0:
            self._hand_over()

    def _hand_over(self):
        """Has the library read what was collected, and shows what that completed."""
        before = self.chip.session
        record = self.chip.next_record(bytes(self.samples[self.handed:]))
        session = self.chip.session
        if before.stalled and not session.stalled:
            self._show_command('goes on: ', before)
        if record is not None:
            self._show(record)
        elif before.phase != 'data' and session.phase == 'data':
            self._show_command('', session)
        elif before.last_csb == 1 and session.phase == 'rest' and session.last_csb == 0:
            self._put(*self._span(), IGNORED, ['command to an address that the chip does not have: passed over', 'passed over'])
        # The last sample stays, since the next one may rise from it.
        self.samples, self.places, self.handed = self.samples[-1:], self.places[-1:], 1
        self.missing = (COMMAND_BITS if session.phase != 'data' else BYTE_BITS) - session.bits

    def _span(self):
        """From the first rise of the clock to half a bit behind the last sample."""
        rises = [at for at in range(1, len(self.samples)) if _rises(self.samples[at - 1:at], self.samples[at])]
        half = self.places[-1] - self.places[-2] if len(self.places) > 1 and not self.samples[-1] & 1 else 0
        return self.places[rises[0] if rises else 0], self.places[-1] + half

    def _put(self, start, end, kind, words):
        self.put(start, end, self.out, [kind, words])

    def _show_command(self, start, session):
        """The command of a run, or that an older chip's run goes on after a stall."""
        word = 'read' if session.direction == 1 else 'write'
        names = self.chip.name(session.address)
        self._put(*self._span(), COMMAND, [f'{start}{word} {name}' for name in names] + [word[0].upper()])

    def _show(self, record):
        """One record in its rows."""
        start, end = self._span()
        if record.kind == CUT:
            what = 'byte' if record.byte4 else 'command'
            name = f' for {self.chip.name(record.address)[0]}' if record.byte4 else ''
            after = f'broken off after {record.byte3} of {BYTE_BITS if record.byte4 else COMMAND_BITS} bits'
            self._put(start, end, BROKEN, [f'{what}{name} {after}', after, 'broken off'])
            return
        byte = record.byte4 if record.kind == READ else record.byte3
        self._put(start, end, BYTE, [f'{name}: 0x{byte:02X}' for name in self.chip.name(record.address)] + [f'{byte:02X}'])
        if record.kind == READ:
            if record.byte5:
                self._put(start, end, MISMATCH, [f'0x{record.byte3:02X} was due, the line carried 0x{byte:02X}', 'disagrees'])
        else:
            self._put(start, end, EFFECT_CLASS.get(record.byte5, OTHER), effect_words(record))
