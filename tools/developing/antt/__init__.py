"""Where definitions stand: which of them public contracts reach, which private code, which proofs."""
