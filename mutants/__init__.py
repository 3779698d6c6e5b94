"""Mutants: from a program in FORTRAN 77 and its tests to what a suite kills, with the proved program mothra."""

__version__ = "0.1.0"
