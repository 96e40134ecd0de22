"""Tables in wide form from a folder of results: a row for each date, a column for each element, to be put into a spreadsheet.

docs/use/TOOLS.md shows it. It needs Debian's python3-numpy and python3-pandas.
"""
from __future__ import annotations

from .pivots import COLUMN_NUMBERS, WHAT, Choice, wide_table

__all__ = ["COLUMN_NUMBERS", "WHAT", "Choice", "wide_table"]
