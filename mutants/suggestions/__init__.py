"""Tests that kill survivors: rows made, run, chosen, made simpler, and shown."""
