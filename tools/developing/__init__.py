"""What developers of Mothra call: the files of tools/ name its modules."""
