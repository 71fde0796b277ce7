"""Runs tests as the gate counts them: a line that begins with ok for each that passes, and with skipped where a tool is missing."""
import os
import sys
import unittest

HERE = os.path.dirname(os.path.abspath(__file__))


def runner(subject):
    """Runs tests of a subject, which the lines name."""

    class Lines(unittest.TextTestResult):
        """Results as lines."""

        def addSuccess(self, test):
            super().addSuccess(test)
            print(f'ok {subject}: {test.shortDescription()}', flush=True)

        def addSkip(self, test, reason):
            super().addSkip(test, reason)
            print(f'skipped: {test.shortDescription()}, since {reason}', flush=True)

    return unittest.TextTestRunner(verbosity=0, resultclass=Lines)


def run_folder(subject, folder):
    """Runs the test files of a folder, or those that the command names, and ends the program."""
    names = sys.argv[1:] or sorted(name[:-3] for name in os.listdir(os.path.join(HERE, folder)) if name.startswith('test_'))
    suite = unittest.defaultTestLoader.loadTestsFromNames([f'{folder}.{name}' for name in names])
    sys.exit(not runner(subject).run(suite).wasSuccessful())
