"""The check of a program and its tests: the job run in parts, and what is said of it."""
