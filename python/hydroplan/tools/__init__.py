"""Commands in Python beside the program, and what the package shares with them.

All of it stands outside the proved core: nothing here is proved, and the program does not rest on it. The standard library is
enough for it, but for the drawings of `plot`.
"""
