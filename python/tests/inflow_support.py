"""What the tests of inflows share beside `model_support`: small records, and which packages are there."""
from __future__ import annotations

from fractions import Fraction
from pathlib import Path

import model_support  # it makes the package importable
from model_support import TOP, needs, needs_numpy, needs_pandas

from hydroplan.inflows import Record, read_record

TWO_STATIONS = Path(__file__).parent / "data" / "record_two_stations.csv"

needs_scipy, needs_matplotlib = needs("scipy"), needs("matplotlib")

__all__ = ["TOP", "TWO_STATIONS", "Folder", "needs_matplotlib", "needs_numpy", "needs_pandas", "needs_scipy", "record_of", "two_stations"]


class Folder(model_support.Folder):
    """A folder for the files of a test."""

    def written(self, text):
        """A file of this text."""
        path = self.folder / "record.csv"
        path.write_text(text, encoding="utf-8")
        return path


def record_of(*years, stations="a", first=2001):
    """A record of numbered steps in hm3: for each year its steps, each a number or a row of numbers for several stations."""
    values = tuple(tuple(tuple(map(Fraction, it if isinstance(it, tuple) else (it,))) for it in year) for year in years)
    return Record(tuple(stations), "step", tuple(range(first, first + len(years))), values, "hm3")


def two_stations():
    """Ten years of months at two stations, of a synthetic record."""
    return read_record(TWO_STATIONS, "hm3")
