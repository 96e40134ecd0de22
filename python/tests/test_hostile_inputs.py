"""Inputs that no user means, made by a generator with a seed: each ends soon, with a sentence and its status, and touches no other folder."""
from __future__ import annotations

import json
import os
import random
import resource
import subprocess
import sys
import unittest
from pathlib import Path

from model_support import TOP, Folder, needs_numpy, needs_pandas
from study_support import LAKE
from tool_support import DATA, EXAMPLES

MOST_SECONDS = 20
MOST_MEMORY = 4 << 30
LISTED = 'method = "listed"\noutcomes = [{ lake = 0 }, { lake = 50 }, { lake = 100 }]'
CITY, DEMAND, MONTHS = "[bus.city]", "demand = 150", ("hours = 1\n", "")
RECORD = "year,month,lake\n" + "".join(f"{year},{month},{month}\n" for year in (1990, 1991) for month in range(1, 13))
PROBLEM = (EXAMPLES / "one_reservoir.json").read_text(encoding="utf-8")
NEWS = (DATA / "newsvendor.sof.json").read_text(encoding="utf-8")
BOUNDS = (DATA / "newsvendor.bounds.json").read_text(encoding="utf-8")
CHECK, WATCH = ["study", "--check", "."], ["watch", "--once"]
CONVERT = ["convert", "problem", "p", "--bounds", "b", "--negate-max", "--write-scales", "s"]
PLOTS = (["plot", "bounds", "r"], ["plot", "storage", "r"])
EXPORT = ["export", "r", "--what", "storage"]
STORED = "stage,date,reservoir,unit,mean,least,p05,p10,p25,p50,p75,p90,p95,greatest\n1,2026-01-01,lake,hm3" + ",1" * 10 + "\n"
RESULTS = {
    "title": "t", "units": {"money": "EUR", "money_scale": 1}, "calendar": [{"stage": 1, "date": "2026-01-01", "hours": {"all": 1}}],
    "estimated": {"mean": 1, "half_width": 1, "scenarios": 2},
}
CONTROLS = "\x1b[31m", "\x07", "\x9b2J", "\u202e", "\x7f", "\r"


class Link(str):
    """The end of a symbolic link, in the place of a file's content."""


class Pipe:
    """In the place of a file's content: a pipe into which nobody writes."""


class Length(int):
    """The length of a file of zeros, in the place of its content."""


def put(path: bytes, content: object) -> None:
    """Writes a file, or what stands in its place."""
    os.makedirs(os.path.dirname(path), exist_ok=True)
    if isinstance(content, Link):
        os.symlink(content, path)
    elif isinstance(content, Pipe):
        os.mkfifo(path)
    elif isinstance(content, Length):
        with open(path, "wb") as file:
            file.truncate(content)
    else:
        with open(path, "wb") as file:
            file.write(content if isinstance(content, bytes) else str(content).encode("utf-8"))


def edited(*edits: tuple[str, str]) -> str:
    """The small study with some of its text replaced."""
    text = LAKE
    for old, new in edits:
        assert old in text, old
        text = text.replace(old, new, 1)
    return text


def results(name: str = "", content: object = "", **members: object) -> dict[str, object]:
    """A small folder of results with some members of its summary, and one file, replaced."""
    files = {"r/summary.json": json.dumps({**RESULTS, **members}), "r/bounds.csv": "iteration,bound\n1,2\n", "r/storage_quantiles.csv": STORED}
    return {**files, **({f"r/{name}": content} if name else {})}


class Maker:
    """Makes inputs with the parts that a seed draws: words, files, standard input, the status, and a part of what standard error has."""

    def __init__(self, seed: int) -> None:
        self.draw = random.Random(seed)

    def digits(self) -> str:
        """A very long number."""
        return "".join(self.draw.choices("123456789", k=self.draw.randint(4301, 9000)))

    def special(self) -> object:
        """What is no regular file."""
        return self.draw.choice((Link("/dev/zero"), Pipe()))

    def controls(self) -> str:
        """A name with what a terminal would obey."""
        return "x".join(self.draw.sample(CONTROLS, 3))

    def numbers(self):
        """Long numbers in a study: in its text, in a column, in a table of elements and in a record."""
        digits = self.digits()
        for place in (DEMAND.partition("=")[2], "3\nhours", "[50, 100, 150]"):
            yield CHECK, {"study.toml": edited((place, place.replace(place.strip().split("\n")[0], digits)))}, "study.toml:.* at most 300 digits"
        column = edited((DEMAND, 'demand = { file = "d.csv", column = "load" }'))
        for long in (digits, f"1/{digits}", f"{digits}.5", f"1e{self.draw.randint(300, 999)}"):
            yield CHECK, {"study.toml": column, "d.csv": f"load\n1\n{long}\n3\n"}, 'd.csv:3: the column "load" has .* no number'
        table = edited((CITY, '[tables]\nthermal = "t.csv"\n' + CITY))
        yield CHECK, {"study.toml": table, "t.csv": f"name,bus,maximum,cost\ncoal,city,{digits},3\n"}, 't.csv:2: "thermal.coal.maximum"'
        record = edited((LISTED, 'record = "record.csv"'), MONTHS)
        row = f"1991,{self.draw.randint(1, 9)},"
        for old, new, words in ((row, row + digits, "the value of lake"), (row, digits + row, "the year is no whole number")):
            yield CHECK, {"study.toml": record, "record.csv": RECORD.replace(old, new, 1)}, f"record.csv, line .*{words}"
        rows = "year,step,lake\n0,1,1\n9999,9999,1\n"
        yield CHECK, {"study.toml": record, "record.csv": rows}, "99989998 rows behind this row"

    def texts(self):
        """A study that is deep, has long keys, or leads behind the last year."""
        levels = self.draw.randint(1000, 50_000)
        for text in ("a = " + "[" * levels + "]" * levels, "a = " + "{a=" * levels + "1" + "}" * levels):
            yield CHECK, {"study.toml": LAKE + text}, "study.toml:34: brackets stand at most 32 deep"
        for text in (".".join(["a"] * levels) + " = 1\n", "[" + " . ".join(['"a"'] * levels) + "]\n"):
            yield CHECK, {"study.toml": LAKE + text}, "study.toml:34: a key has at most 32 parts"
        yield [*CHECK, "--set", "stop.gap=" + "[" * 999], {"study.toml": LAKE}, "--set:1:1: brackets"
        for step in ("", 'step = "week"\n', f"hours = {self.draw.randint(10**6, 10**9)}\n", "hours = 1e200\n"):
            text = edited(("hours = 1\n", step), ("2026-01-01", f"9999-{self.draw.choice((11, 12))}-01"), ("stages = 3", "stages = 30"))
            yield CHECK, {"study.toml": text}, "study.toml:5: .* the year 9999"

    def files(self):
        """Files that a study names and that are none, too long, or elsewhere."""
        def study(name: str) -> str:
            return edited((LISTED, f'record = "{name}"'), MONTHS)

        for name in ("/dev/zero", "../precious", "a/../../precious", "/etc/passwd"):
            yield CHECK, {"study.toml": study(name)}, "a file in the folder of the study"
        yield CHECK, {"study.toml": study("record.csv"), "record.csv": Link("/dev/zero")}, "record.csv: no regular file"
        yield CHECK, {"study.toml": study("record.csv"), "record.csv": Pipe()}, "record.csv: no regular file"
        yield CHECK, {"study.toml": study("record.csv"), "record.csv": Length((64 << 20) + 1)}, "longer than 67,108,864 bytes"
        yield CHECK, {"study.toml": study("re\\u0000cord.csv")}, "no name of a file"
        yield CHECK, {"study.toml": self.special()}, "study.toml: no regular file"
        yield CHECK, {"study.toml": Length((4 << 20) + 1)}, "longer than 4,194,304 bytes"

    def names(self):
        """Names as a spreadsheet's formulas, with control characters, and in other bytes than UTF-8."""
        def study(name: str) -> str:
            return LAKE.replace('"city"', json.dumps(name)).replace(CITY, f"[bus.{json.dumps(name)}]")

        for sign in "=+-@\t":
            yield CHECK, {"study.toml": study(sign + "cmd|' /C calc'!A0")}, "study.toml:12: .*formula"
        yield CHECK, {"study.toml": edited((CITY, f'[blocks]\n"{self.draw.choice("=+-@")}a" = "rest"\n' + CITY))}, "study.toml:13: .*formula"
        yield CHECK, {"study.toml": edited((CITY, f'[units]\nmoney = "{self.draw.choice("=+-@")}a"\n' + CITY))}, "study.toml:13: .*formula"
        name = self.controls()
        twice = LAKE.replace("[thermal.gas]", f"[thermal.{json.dumps(name)}]").replace("[reservoir.lake]", f"[reservoir.{json.dumps(name)}]")
        yield CHECK, {"study.toml": twice}, "has the name of a reservoir"
        yield ["study", "--check", name], {}, "no such folder"
        yield ["study", "--check", b"\xff"], {}, "no such folder"
        yield ["study", "--check", b"\xff"], {b"\xff/study.toml": LAKE}, "is in UTF-8"
        yield [*CHECK, name], {"study.toml": LAKE}, "unrecognized arguments", 2
        yield CHECK, {"study.toml": LAKE.encode("utf-8") + b"# \xff"}, "no UTF-8: .*, in line 34"
        for words in (["convert", "problem", name, "--write-scales", "s"], ["explain", name], ["plot", "bounds", name]):
            yield words, {}, "cannot open"
        yield ["plot", "bounds", b"\xff"], {}, "cannot open"

    def tools(self):
        """Files and words of convert, explain and watch."""
        digits = self.digits()
        for content, words in ((self.special(), "no regular file"), (Length((64 << 20) + 1), "longer than"), ("[" * 9999, "127 levels"), (b"\xff", "UTF-8")):
            yield CONVERT, {"p": content, "b": BOUNDS}, words
            yield ["explain", "p", "--keys"], {"p": content}, words if content != "[" * 9999 and content != b"\xff" else "", None
        yield CONVERT, {"p": NEWS.replace("14.5", digits), "b": BOUNDS}, "line 9, .*too large"
        for tolerance in ("1/0", "1e999999999", digits):
            yield [*CONVERT, "--tolerance", tolerance], {"p": NEWS, "b": BOUNDS}, "--tolerance", 2
        for form in ("problem refused: Shape at node {} 0 0", "range: iteration {} node 1 realization 2", "too much: formula 1 gives {}"):
            yield ["explain", "p", "--line", "hydroplan: " + form.format(digits)], {"p": PROBLEM}, "", 0
        for journal in ("-x", "--problem"):
            yield [*WATCH, "--", journal, "p"], {"p": PROBLEM, journal: ""}, "", 0
        yield [*WATCH, b"j\xff", "p"], {"p": PROBLEM, b"j\xff": ""}, "is in UTF-8"
        yield [*WATCH, "j", "p"], {"p": PROBLEM, "j": self.special()}, ""
        yield [*WATCH, "j", "p"], {"p": Pipe(), "j": ""}, "p is not there"

    def reports(self):
        """Reports of plot, and folders of results of plot and export."""
        for content, words in ((self.special(), "no regular file"), (b"\xff", "no UTF-8"), ("hydroplan-user 1\niteration 1 bound 1e99999999\n", "line 2")):
            yield PLOTS[0], {"r": content}, words
        for value in ("1/0", "1e99999999"):
            yield ["plot", "water-values", "r", "--state", f"x={value}"], {"r": "hydroplan 1\n"}, ""
        cell = self.draw.choice((self.digits(), "1e99999999", "1/0", "nan"))
        last = [{"stage": 1, "date": "9999-12-31", "hours": {"all": 1e9}}]
        for words, name in zip((*PLOTS, EXPORT), ("bounds.csv", "storage_quantiles.csv", "storage_quantiles.csv")):
            fine = str(results()[f"r/{name}"])
            yield words, results(name, self.special()), "no regular file"
            yield words, results("summary.json", self.special()), "", None
            yield words, results("summary.json", "[" * 99_999), "r/summary.json"
            yield words, results(name, fine[:-2] + cell + "\n"), f"r/{name}"
            yield words, results(name, "a\n1\n"), f"r/{name}"
            yield words, results(name, fine.replace("lake", f'"{self.controls()}"')), "", 0
        yield EXPORT, results(calendar=last), "r/summary.json"
        yield EXPORT, results("storage_quantiles.csv", STORED + "1\n"), "storage_quantiles.csv: the rows of .* have no number"


def limit_memory() -> None:
    """Has a process that takes very much memory end."""
    resource.setrlimit(resource.RLIMIT_AS, (MOST_MEMORY, MOST_MEMORY))


def seen(folder: Path) -> dict[str, tuple[int, int]]:
    """The files beside the folder of a run, with their sizes and times."""
    return {str(it): (it.stat().st_size, it.stat().st_mtime_ns) for it in folder.iterdir() if not it.name.startswith("run")}


@needs_numpy
@needs_pandas
class HostileInputs(Folder):
    def each(self, kind: str, seed: int = 7) -> None:
        """Runs the inputs of a kind: status 1 and these words on standard error, where nothing else is given."""
        (self.folder / "precious").write_text("1\n", encoding="utf-8")
        before = seen(self.folder)
        for number, (words, files, said, *status) in enumerate(getattr(Maker(seed), kind)()):
            with self.subTest(kind=kind, number=number, words=[str(it)[:60] for it in words]):
                place = os.fsencode(self.folder / f"run{number}")
                os.makedirs(place)
                for name, content in files.items():
                    put(os.path.join(place, os.fsencode(name)), content)
                self.one(words, place, said, status[0] if status else 1)
                self.assertEqual(seen(self.folder), before)

    def one(self, words, place, said, status):
        """Runs a command in a folder."""
        ended = subprocess.run(
            [sys.executable, str(TOP / "python" / "__main__.py"), *words], cwd=place, stdin=subprocess.DEVNULL, capture_output=True,
            timeout=MOST_SECONDS, check=False, preexec_fn=limit_memory, env={**os.environ, "OPENBLAS_NUM_THREADS": "1"},
        )
        output, errors = (it.decode("utf-8", "backslashreplace") for it in (ended.stdout, ended.stderr))
        self.assertNotIn("Traceback", errors)
        self.assertIn(ended.returncode, (0, 1) if status is None else (status,), errors[-300:])
        if said:
            self.assertRegex(errors, said)
        self.assertEqual([it for it in output + errors if not it.isprintable() and it not in "\n\t"], [])

    def test_numbers(self):
        self.each("numbers")

    def test_texts(self):
        self.each("texts")

    def test_files(self):
        self.each("files")

    def test_names(self):
        self.each("names")

    def test_tools(self):
        self.each("tools")

    def test_reports(self):
        self.each("reports")


if __name__ == "__main__":
    unittest.main()
