#!/usr/bin/env python3
"""Tests of the bench report: a line that begins with ok for each that passes, and with skipped where a tool is missing."""
from counted import run_folder

if __name__ == '__main__':
    run_folder('report', 'report_tests')
