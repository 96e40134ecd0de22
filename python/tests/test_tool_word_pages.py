"""The table of words against the program's own, and what is made of it: the completion of bash and the page of the manual."""
import re
import shutil
import subprocess
import tempfile
import unittest
from pathlib import Path

from tool_support import REPOSITORY
from hydroplan.tools.word_pages import pages
from hydroplan.tools.word_table import read_table

TABLE = read_table()
COMPLETION = REPOSITORY / "bin" / "completion.bash"


class Table(unittest.TestCase):
    def test_has_the_forms_of_the_program(self):
        usage = (REPOSITORY / "tests/program/data/usage.txt").read_text(encoding="utf-8")
        forms = usage.strip().partition("usage: ")[2].split(", ")
        own = [it.form().partition(" < ")[0] for it in TABLE.commands if it.is_of_the_program()]
        self.assertEqual(sorted(own), sorted(forms))

    def test_has_the_ranges_of_the_crates(self):
        limits = (REPOSITORY / "crates/problem/src/limits.rt").read_text(encoding="utf-8")
        most = {name: int(number.replace("_", "")) for name, number in re.findall(r"pub const (MOST_\w+): \w+ = ([\d_]+);", limits)}
        rows = {
            ("COUNT", "train"): (0, most["MOST_ITERATIONS"]), ("COUNT", "simulate"): (0, most["MOST_SIMULATIONS"]), ("SEED", "gen"): (0, 2**64 - 1),
            ("BATCH", "train"): (1, most["MOST_PATHS"]), ("STAGES", "gen"): (1, most["MOST_GENERATED_STAGES"]),
            ("RESERVOIRS", "gen"): (1, most["MOST_GENERATED_RESERVOIRS"]),
        }
        for (name, command), limits in rows.items():
            self.assertEqual(TABLE.word(name, command).range(), limits)

    def test_has_all_words_and_statuses(self):
        for command in (it for it in TABLE.commands if it.is_of_the_program()):
            for word in command.words:
                self.assertIsNotNone(TABLE.word(word.strip("[]"), command.name), word)
            self.assertIn(command.source, ("", "PROBLEM", "DESCRIPTION"))
        rows = (REPOSITORY / "tests/program/row_runner/expectation.py").read_text(encoding="utf-8")
        told = [int(number) for number in re.findall(r'^    "[a-z].*": (\d+),$', rows, re.M)]
        self.assertEqual(sorted({0, 1, *told}), [number for number, _ in TABLE.statuses()])


class Pages(unittest.TestCase):
    def test_are_up_to_date(self):
        for path, text in pages().items():
            self.assertEqual(path.read_text(encoding="utf-8"), text, f"{path.name}: bin/write-pages writes it anew")

    @unittest.skipUnless(shutil.which("groff"), "groff is not there")
    def test_the_page_of_the_manual_is_read_without_a_warning(self):
        ended = subprocess.run(["groff", "-man", "-Tutf8", "-ww", REPOSITORY / "docs/hydroplan.1"], capture_output=True, check=True)
        self.assertEqual(ended.stderr, b"")
        self.assertIn("COUNT of simulate", re.sub(".\x08", "", re.sub("\x1b\\[[0-9;]*m", "", ended.stdout.decode())))


class Completion(unittest.TestCase):
    def completed(self, *words):
        """What bash offers for the last of these words, in a folder with two files."""
        with tempfile.TemporaryDirectory() as folder:
            (Path(folder) / "a plan.journal").touch()
            (Path(folder) / "problem.json").touch()
            script = 'source "$1"; shift; COMP_WORDS=(hydroplan "$@"); COMP_CWORD=$#; _hydroplan; printf "%s\\n" "${COMPREPLY[@]}"'
            ended = subprocess.run(["bash", "-c", script, "bash", COMPLETION, *words], cwd=folder, capture_output=True, check=True)
        self.assertEqual(ended.stderr, b"")
        return ended.stdout.decode().split("\n")[:-1]

    def test_offers_what_may_stand_there(self):
        rows = [
            (["tr"], ["train"]), (["e"], ["evaluate", "export", "explain"]), (["--v"], ["--version"]), (["train", "a"], ["a plan.journal"]),
            (["train", "J", "7", ""], ["--problem", "--workers", "--scheduler", "--timeout"]), (["train", "J", "7", "20", "--workers", ""], [""]), (
                ["train", "J", "--problem", "p"], ["problem.json"],
            ), (["--problem", "x", "ch"], ["check"]),
            (["check", "--problem", "x", "a"], ["a plan.journal"]), (["gen", "1", ""], [""]), (["help", "si"], ["simulate"]), (
                ["plot", "wa"], ["water-values"],
            ), (["study", "p"], ["problem.json"]), (["join", "all", "a"], ["a plan.journal"]),
            (["plot", "bounds", "--c"], ["--cost"]), (["plot", "bounds", "p"], ["problem.json"]), (["convert", "back", "--s"], ["--scales"]),
            (["watch", "J", "--o"], ["--once"]), (
                ["simulate", "--workers", "4", "a"], ["a plan.journal"],
            ), (["join", "J", "--p"], ["--problem"]), (["nothing", ""], [""]),
        ]
        for words, offered in rows:
            with self.subTest(words):
                self.assertEqual(self.completed(*words), offered)


if __name__ == "__main__":
    unittest.main()
