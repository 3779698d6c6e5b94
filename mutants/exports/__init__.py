"""What other programs read of a check: mutation reports in JSON, tables, reports of tests."""
