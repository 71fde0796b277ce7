"""A stand-in for libsigrokdecode, so that the decoder can be run without it: the lines of a capture, and what is waited for."""
import importlib.util
import os
import sys
import types

from couplingnut_report.captures import Wish, read_capture
from report_tests import made

LINES = ('csb', 'sclk', 'sdio', 'sdo')
FOLDER = os.path.join(made.ROOT, 'sigrok', 'couplingnut')


class Decoder:
    """What a decoder has from libsigrokdecode."""

    def register(self, output):
        """The output, which has no number here."""
        return output

    def put(self, start, end, _output, annotation):
        """Keeps an annotation with its longest words."""
        self.shown.append((start, end, annotation[1][0]))

    def wait(self, conditions):
        """Goes on to the next sample for which one of the conditions holds; `skip` 0 is the sample at hand."""
        conditions = [conditions] if isinstance(conditions, dict) else conditions
        start = self.samplenum
        while {'skip': 0} not in conditions:
            self.samplenum += 1
            if self.samplenum >= len(self.capture):
                raise EOFError
            if any(self._holds(key, asked, start) for condition in conditions for key, asked in condition.items()):
                break
        return tuple(self.capture[self.samplenum] >> line & 1 for line in range(len(LINES)))

    def _holds(self, key, asked, start):
        if key == 'skip':
            return self.samplenum - start >= asked
        before, now = (self.capture[self.samplenum - ago] >> key & 1 for ago in (1, 0))
        return before != now and (asked == 'e' or asked == 'fr'[now])


def _loaded():
    """The decoder, whose folder has the name of the library's module."""
    sys.modules['sigrokdecode'] = types.SimpleNamespace(Decoder=Decoder, OUTPUT_ANN=0)
    spec = importlib.util.spec_from_file_location('couplingnut_decoder', os.path.join(FOLDER, '__init__.py'),
                                                  submodule_search_locations=[FOLDER])
    module = importlib.util.module_from_spec(spec)
    sys.modules['couplingnut_decoder'] = module
    spec.loader.exec_module(module)
    return module.Decoder


def shown(path, options):
    """What the decoder shows of a capture: first and last sample, and the longest words of each annotation."""
    decoder = _loaded()()
    decoder.capture = read_capture(path, Wish({})).samples
    decoder.options = {**{option['id']: option['default'] for option in decoder.options}, **options}
    decoder.samplenum, decoder.shown = 0, []
    decoder.start()
    try:
        decoder.decode()
    except EOFError:
        pass
    return decoder.shown
