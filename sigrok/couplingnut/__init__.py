"""ADI-SPI registers by name, as the proved library libcouplingnut reads them: commands, bytes with the names of their registers, what
each write did (in force, waits, transfer, ignored), what broke off, and reads that carried another byte than was due.

The option `map` names the unit's table, as `couplingnut report` takes it, or a map made by mkmap, which has no names. For an older chip
the option `part` is AD9557 or AD9508; `top`, its highest address in hexadecimal, is tested if it is given.
"""
from .pd import Decoder  # noqa: F401 (libsigrokdecode looks for it here)
