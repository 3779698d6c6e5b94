"""Two states of a program and its tests compared: what was killed and survives, what survived and is killed."""
