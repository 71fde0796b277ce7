"""The names that the module gives."""
import unittest

import couplingnut as cn


class Names(unittest.TestCase):
    def test_names(self):
        """every public name is there, and the classes are named as the module's own"""
        for name in cn.__all__:
            value = getattr(cn, name)
            if isinstance(value, type):
                self.assertEqual((value.__module__, value.__name__), ('couplingnut', name))
