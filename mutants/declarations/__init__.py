"""Mutants that are declared equivalent: entries that are tied to the texts they were said of."""
