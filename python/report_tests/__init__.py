"""Tests of the bench report, over the shared library."""
