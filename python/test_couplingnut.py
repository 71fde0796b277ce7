#!/usr/bin/env python3
"""Tests of the module couplingnut, and through it of the shared library: a line that begins with 'ok' for each that passes."""
from counted import run_folder

if __name__ == '__main__':
    run_folder('python', 'module_tests')
