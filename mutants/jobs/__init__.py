"""Jobs made of a program and a table of its tests."""
