"""Classes: the suites of many for the same programs, run side by side, with a table and a page."""
