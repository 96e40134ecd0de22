"""Limits and words of the whole-number profile that the program reads, as the page on the problem file has them.

Outside the proved core.
"""
from __future__ import annotations

MOST_NUMBER = 1 << 40
MOST_WEIGHT = 65_535
MOST_NODES = 1_000
MOST_SUBPROBLEMS = 1_000
MOST_SCENARIOS = 1_000
MOST_REALIZATIONS = 100
MOST_DECISIONS = 200
MOST_ROWS = 200
MOST_STATES = 50
MOST_RANDOMS = 50
MOST_NAME_BYTES = 128
MOST_FILE_BYTES = 1 << 24
SCALE = 1 << 24

SETS = {
    "EqualTo": ("value",),
    "GreaterThan": ("lower",),
    "LessThan": ("upper",),
    "Interval": ("lower", "upper"),
}
