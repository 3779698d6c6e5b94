"""Texts that are read and written: sources, jobs, printed programs, lists and reports."""
