"""What the tests of studies share: a small study in a folder, edits of it, and its results as rows."""
from __future__ import annotations

import contextlib
import csv
import io
import json

from model_support import Folder
from hydroplan.study import main, read_study

LAKE = """\
title = "One lake"

[calendar]
start = 2026-01-01
stages = 3
hours = 1

[inflow]
method = "listed"
outcomes = [{ lake = 0 }, { lake = 50 }, { lake = 100 }]

[bus.city]
demand = 150

[thermal.gas]
bus = "city"
maximum = 150
cost = [50, 100, 150]

[reservoir.lake]
bus = "city"
maximum = 200
initial = 200
inflow = { random = "lake" }
turbine = 150
productivity = 1
spill = 300

[stop]
iterations = 20

[simulation]
scenarios = 20
"""


class StudyFolder(Folder):
    """A folder in which a test writes a study."""

    def write(self, text=LAKE, **files):
        """Writes study.toml and other files, whose names have _ in the place of the point."""
        (self.folder / "study.toml").write_text(text, encoding="utf-8")
        for name, content in files.items():
            (self.folder / ".".join(name.rsplit("_", 1))).write_text(content, encoding="utf-8")

    def edited(self, *edits, text=LAKE, **files):
        """Writes the small study with some of its text replaced; each text has to be there."""
        for old, new in edits:
            self.assertIn(old, text)
            text = text.replace(old, new, 1)
        self.write(text, **files)

    def study(self, *overrides):
        """The study."""
        return read_study(self.folder, overrides)

    def run_study(self, *words):
        """Runs the command: its status, standard output and standard error."""
        with contextlib.redirect_stdout(io.StringIO()) as out, contextlib.redirect_stderr(io.StringIO()) as errors:
            status = main([str(self.folder), "--quiet", *words])
        return status, out.getvalue(), errors.getvalue()

    def results(self, *words):
        """Runs the command, which has to end well; what summary.json has."""
        status, _, errors = self.run_study(*words)
        self.assertEqual(status, 0, errors)
        return json.loads((self.folder / "results" / "summary.json").read_text(encoding="utf-8"))

    def rows(self, name):
        """The rows of a file of results."""
        with (self.folder / "results" / name).open(newline="", encoding="utf-8") as file:
            return list(csv.DictReader(file))
