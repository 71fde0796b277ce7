"""Tests of the module couplingnut, and through it of the shared library."""
