"""Hostile use: jobs that are damaged or at the limits, streams that fail, memory that is short or refused."""
