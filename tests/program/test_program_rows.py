"""Rows over programs that stand in for the built one: what is as expected passes, and each difference is reported."""
from __future__ import annotations

import re
import subprocess
import tempfile
import unittest
from pathlib import Path
from typing import Optional

from row_runner.expectation import STATUSES, expectation, status_of
from row_runner.kinds import tried
from row_runner.rows import FOLDER, TOP, BadRow, bytes_of, lines_of, parsed, place_of

TEXT = "hydroplan 1\nscale 16777216\nbound 3\n"

# Trains twenty iterations, a byte of the journal each; `check` tells as many as there are bytes.
TRAINS = """#!/bin/sh
iterations() {{ n=0; while [ $n -lt $1 ]; do n=$((n + 1)); echo "iteration $n bound 0"; done; }}
size=0; [ -e J ] && size=$(wc -c < J)
if [ "$1" = check ]; then echo "hydroplan 1"; iterations $size; echo "rest 0"; exit; fi
letter=x; [ $size = 0 ] || letter={resumed}
while [ $size -lt 20 ]; do printf $letter >> J; size=$((size + 1)); sleep 0.01; done
echo "hydroplan 1"; iterations 20
"""


class InFolder(unittest.TestCase):
    """A folder with a program that stands in for the built one, and with the files of a row."""

    def setUp(self) -> None:
        room = tempfile.TemporaryDirectory()
        self.addCleanup(room.cleanup)
        self.folder = Path(room.name)
        (self.folder / "problem.json").write_text("{}")

    def program(self, text: str) -> Path:
        path = self.folder / "program"
        path.write_text(text)
        path.chmod(0o755)
        return path

    def fault(self, program: str, expected: str, kind: str = "run", options: str = "") -> Optional[str]:
        """Returns the fault of a row with this expectation over a program that is the lines of a shell."""
        (self.folder / "expected.txt").write_text(expected)
        line = f"{kind} {self.folder}/expected.txt problem={self.folder}/problem.json {options} : base"
        return tried(parsed(line), self.program(f"#!/bin/sh\n{program}\n")).fault


class Runs(InFolder):
    def test_as_expected(self) -> None:
        says = f"printf '{TEXT}'"
        self.assertIsNone(self.fault(says, TEXT))
        self.assertIsNone(self.fault("cat", "{}"))
        self.assertIsNone(self.fault(f"{says}; printf '\\1H' > J", f"{TEXT}journal 0148\n"))
        self.assertIsNone(self.fault("echo 'hydroplan: memory' >&2; exit 12", "hydroplan: memory\n"))
        self.assertIsNone(self.fault("echo 'hydroplan: memory' >&2; : > J; exit 12", "hydroplan: memory\njournal \n"))

    def test_another_status(self) -> None:
        self.assertEqual(self.fault(f"printf '{TEXT}'; exit 5", TEXT), "ends with 5, expected 0; standard error has ''")
        fault = self.fault("echo 'hydroplan: memory' >&2; exit 0", "hydroplan: memory\n")
        self.assertEqual(fault, "ends with 0, expected 12; standard error has 'hydroplan: memory\\n'")
        self.assertEqual(self.fault("kill -9 $$", TEXT), "is ended by signal 9, expected 0; standard error has ''")

    def test_another_line(self) -> None:
        fault = self.fault("echo 'hydroplan: output failed' >&2; exit 12", "hydroplan: memory\n")
        self.assertEqual(fault, "standard error, line 1: gives 'hydroplan: output failed', expected 'hydroplan: memory'")
        fault = self.fault(f"printf '{TEXT}'; echo so >&2", TEXT)
        self.assertEqual(fault, "standard error, line 1: gives 'so', expected '' (where it ends)")

    def test_another_text(self) -> None:
        fault = self.fault(f"printf '{TEXT.replace('3', '4')}'", TEXT)
        self.assertEqual(fault, "standard output, line 3: gives 'bound 4', expected 'bound 3'")
        fault = self.fault(f"printf '{TEXT}x'", TEXT)
        self.assertEqual(fault, "standard output, line 4: gives 'x', expected '' (where it ends)")
        fault = self.fault("", TEXT)
        self.assertEqual(fault, "standard output, line 1: gives '' (where it ends), expected 'hydroplan 1'")

    def test_another_journal(self) -> None:
        fault = self.fault("printf '\\1H' > J", "journal 0149\n")
        self.assertEqual(fault, "journal of 2 bytes, expected 2: from byte 1 on it holds 48, expected 49")
        fault = self.fault("printf '\\1' > J", "journal 0149\n")
        self.assertEqual(fault, "journal of 1 bytes, expected 2: from byte 1 on it holds the end, expected 49")
        self.assertEqual(self.fault("", "journal 0149\n"), "journal: leaves none, expected one of 2 bytes")
        self.assertEqual(self.fault(": > J", ""), "journal: leaves one of 0 bytes, expected none")
        self.assertEqual(self.fault("rm J", "", options="journal=empty"), "journal: leaves none, expected one of 0 bytes")

    def test_files_that_are_not_there(self) -> None:
        row = f"run {self.folder}/none.txt problem={self.folder}/problem.json : base"
        self.assertIn("No such file", tried(parsed(row), self.program("#!/bin/sh\n")).fault or "")
        self.assertIn("No such file", self.fault("", "", options="journal=none.hex") or "")
        self.assertIn("is not there", self.fault("", "", options="problem=none.json") or "")

    def test_rows_that_are_none(self) -> None:
        for line in ("run a.txt", "run a.txt base", "run a.txt colour=blue : base", 'run "a.txt : base'):
            with self.subTest(line), self.assertRaises((BadRow, ValueError)):
                parsed(line)
        self.assertEqual(self.fault("", "", kind="walk"), "there is no kind `walk`")
        self.assertIn("expected 'hydroplan: what'", self.fault("", "hydroplan: what\n") or "")
        self.assertIn("is no number", self.fault("", "", options="memory=much") or "")

    def test_streams(self) -> None:
        self.assertIsNone(self.fault("cat || exit 3", "", options="problem=/dev/null"))
        reads = "cat > /dev/null 2>&1 || { echo 'hydroplan: problem could not be read' >&2; exit 3; }"
        for problem in ("closed", "/"):
            self.assertIsNone(self.fault(reads, "hydroplan: problem could not be read\n", options=f"problem={problem}"))
        writes = "trap '' PIPE; echo x 2> /dev/null || { echo 'hydroplan: output failed' >&2; exit 11; }"
        for output in ("closed", "broken", "/dev/full"):
            self.assertIsNone(self.fault(writes, "hydroplan: output failed\n", options=f"output={output}"))
        self.assertIsNone(self.fault("echo lost >&2 || :", "", options="errors=closed"))
        self.assertIsNone(self.fault("echo 'hydroplan: memory' >&2; exit 12", "hydroplan: memory\n", options="errors=open"))
        self.assertEqual(self.fault("exit 12", "hydroplan: memory\n", options="errors=closed"), None)
        self.assertIsNone(self.fault("wc -c", "10\n", options="padded=10"))
        self.assertIsNone(self.fault("test -p /dev/stdin && cat", "{}", options="piped=yes"))
        self.assertIsNone(self.fault("ulimit -v", "5000\n", options="memory=5000"))


class Journals(InFolder):
    def test_held(self) -> None:
        program = "flock -n J true && exit 0; echo 'hydroplan: journal device failed' >&2; exit 10"
        self.assertIsNone(self.fault(program, "hydroplan: journal device failed\n", options="journal=empty held=yes"))
        self.assertIsNone(self.fault(program, "", options="journal=empty"))

    def test_pipe(self) -> None:
        self.assertIsNone(self.fault("test -p J", "", options="journal=pipe"))


class Bounds(InFolder):
    def test_between(self) -> None:
        for least, greatest in ((3, 3), (-1, 4)):
            self.assertIsNone(self.fault(f"printf '{TEXT}'", f"between {least} {greatest}\n", kind="between"))
        for least, greatest in ((4, 9), (0, 2)):
            fault = self.fault(f"printf '{TEXT}'", f"between {least} {greatest}\n", kind="between")
            self.assertEqual(fault, f"the bound is 3, expected between {least} and {greatest}")

    def test_upper(self) -> None:
        says = "if [ $1 = evaluate ]; then echo 'upper 30'; else echo 'bound 20'; fi"
        self.assertIsNone(self.fault(says, "upper 30 31", "upper"))
        self.assertEqual(self.fault(says, "upper 31 40", "upper"), "the policy costs 30, expected between 31 and 40")
        self.assertRegex(self.fault("echo 'bound 20'", "upper 1 2", "upper") or "", "without a cost")

    def test_no_bound(self) -> None:
        self.assertIn("without a bound", self.fault("", "between 1 2\n", kind="between") or "")
        self.assertIn("ends with 12", self.fault(f"printf '{TEXT}'; exit 12", "between 1 9\n", kind="between") or "")


class Refuted(InFolder):
    """no-stage.json: a node whose plants give at most 28, where 40 are asked for."""

    def fault_of(self, line: str, status: int = 9) -> Optional[str]:
        program = self.program(f"#!/bin/sh\necho 'hydroplan: no stage solution: {line}' >&2\nexit {status}\n")
        return tried(parsed("refuted 1 problem=no-stage.json : train J 7 1"), program).fault

    def test_multipliers_that_refute(self) -> None:
        self.assertIsNone(self.fault_of("run 1 node 0 values 1 state 67108864 rows -1 1"))

    def test_multipliers_that_do_not(self) -> None:
        nothing = "the multipliers refute nothing: 0 is not above 0"
        self.assertEqual(self.fault_of("run 1 node 0 values 1 state 67108864 rows 0 0"), nothing)
        self.assertRegex(self.fault_of("run 1 node 0 values 1 state 67108864 rows 1 -1") or "", "refute nothing: -")

    def test_another_place(self) -> None:
        self.assertEqual(self.fault_of("run 2 node 0 values 1 state 67108864 rows -1 1"), "ends in iteration 2, expected 1")
        self.assertEqual(self.fault_of("run 1 node 7 values 1 state 67108864 rows -1 1"), "there is no node 7")
        self.assertEqual(self.fault_of("run 1 node 0 values 3 state 67108864 rows -1 1"), "no realization of node 0 has the values [3]")
        self.assertEqual(self.fault_of("run 1 node 0 values 1 state 67108864 rows -1"), "there is not one multiplier a row")

    def test_no_such_line(self) -> None:
        self.assertRegex(self.fault_of("run 1 node 0", 9) or "", "^ends with 9; ")
        self.assertRegex(self.fault_of("run 1 node 0 values 1 state 67108864 rows -1 1", 0) or "", "^ends with 0; ")


class Tables(InFolder):
    """The program prints its problem, or the journal, as its last line."""

    def edited(self, table: str, program: str = "cat") -> Optional[str]:
        (self.folder / "problem.json").write_text("seven hills\n")
        return self.fault(program, table, kind="edits")

    def test_edits(self) -> None:
        self.assertIsNone(self.edited("hills => dales -> seven dales\nseven => 9 ; hills => <x*3><yz*2> -> 9 xxxyzyz\n"))
        fault = self.edited("hills => dales -> seven dales\nseven => nine -> seven hills\n")
        self.assertEqual(fault, "at 'seven => nine': the last line, line 1: gives 'nine hills', expected 'seven hills'")
        self.assertEqual(self.edited("lakes => dales -> seven dales\n"), "'lakes => dales' is no edit of this problem")
        self.assertIn("is not `QUESTION -> ANSWER`", self.edited("hills => dales\n") or "")
        self.assertEqual(self.edited(""), "the table is empty")

    def test_statuses_of_edits(self) -> None:
        refuses = "echo 'hydroplan: memory' >&2; exit"
        self.assertIsNone(self.edited("hills => dales -> hydroplan: memory\n", f"{refuses} 12"))
        fault = self.edited("hills => dales -> hydroplan: memory\n", f"{refuses} 11")
        self.assertEqual(fault, "at 'hills => dales': ends with 11, expected 12")
        fault = self.edited("hills => dales -> seven dales\n", "cat; exit 5")
        self.assertEqual(fault, "at 'hills => dales': ends with 5, expected 0")

    def test_journals(self) -> None:
        self.assertIsNone(self.fault("cat J; echo", "- - 0 6162 -> ab\n- - 1 61 -> a\0 short reads true\n", kind="journals"))
        fault = self.fault("cat J; echo", "- - 0 6162 -> ab\n- - 0 61 -> b\n", kind="journals")
        self.assertEqual(fault, "at '- - 0 61': the last line, line 1: gives 'a', expected 'b'")
        self.assertIn("was changed", self.fault("cat J; echo; echo >> J", "- - 0 61 -> a\n", kind="journals") or "")
        self.assertIn("for proved programs", self.fault("cat J; echo", "1 - 0 61 -> a\n", kind="journals") or "")

    def test_each(self) -> None:
        (self.folder / "problem.json").write_text("one\ntwo\n")
        self.assertIsNone(self.fault("cat; echo", "one\ntwo\n", kind="each"))
        fault = self.fault("cat; echo", "one\nthree\n", kind="each")
        self.assertEqual(fault, "at 'two': the last line, line 1: gives 'two', expected 'three'")
        self.assertEqual(self.fault("cat; echo", "one\n", kind="each"), "2 problems, and 1 lines of what has to come")


class Rising(InFolder):
    def followed(self, *bounds: int) -> Optional[str]:
        trains = "".join(f"iteration {n} bound {bound}\\n" for n, bound in enumerate(bounds, 1))
        follows = "scenario 0\\nstage 0\\nstage 1\\n"
        program = f'[ "$1" = simulate ] && printf "hydroplan 1\\n{follows}" || printf "hydroplan 1\\n{trains}"'
        return self.fault(program, "hydroplan 1\niterations 2 rising true\nscenarios 1 stages 2\n", kind="rising")

    def test_bounds(self) -> None:
        self.assertIsNone(self.followed(3, 3))
        self.assertIn("rising false", self.followed(3, 2) or "")
        self.assertIn("iterations 3", self.followed(1, 2, 3) or "")


class Kills(InFolder):
    def trained(self, resumed: str) -> Optional[str]:
        program = self.program(TRAINS.format(resumed=resumed))
        row = f"kills - problem={self.folder}/problem.json kills=4 seed=1 : train J 7 20"
        verdict = tried(parsed(row), program)
        self.assertIn("kills in", verdict.note)
        return verdict.fault

    def test_training_that_goes_on(self) -> None:
        self.assertIsNone(self.trained("x"))

    def test_training_that_goes_on_otherwise(self) -> None:
        self.assertRegex(self.trained("y") or "", "after [1-4] kills: journal of 20 bytes")


class Harms(InFolder):
    """Trains twenty iterations, a byte of the journal each. One notices that the file of this name has another length; one does not."""

    SAYS = "hydroplan: journal device failed\\nhydroplan: the journal was removed or changed while it was written\\n"
    GROWS = "size=0; exec 3> J\nwhile [ $size -lt 20 ]; do printf x >&3; size=$((size + 1)); sleep 0.02\n{then}done\n"
    LOOKS = "[ -e J ] && [ $(wc -c < J) = $size ] || {{ printf '{says}' >&2; exit 10; }}\n"

    def harmed(self, then: str, harm: str) -> Optional[str]:
        program = self.program("#!/bin/sh\n" + self.GROWS.format(then=then))
        (self.folder / "expected.txt").write_bytes(bytes_of("journal-changed.txt"))
        return tried(parsed(f"harms {self.folder}/expected.txt problem={self.folder}/problem.json harm={harm} : train J 7 20"), program).fault

    def test_training_that_looks(self) -> None:
        for harm in ("removed", "cut", "replaced"):
            with self.subTest(harm):
                self.assertIsNone(self.harmed(self.LOOKS.format(says=self.SAYS), harm))

    def test_training_that_does_not(self) -> None:
        for harm in ("removed", "cut", "replaced"):
            with self.subTest(harm):
                self.assertRegex(self.harmed("", harm) or "", "^ends with 0, expected 10")

    def test_training_that_spoils_what_is_there(self) -> None:
        spoils = "[ -e J ] && [ $(wc -c < J) = $size ] || {{ echo more >> J; printf '{says}' >&2; exit 10; }}\n"
        self.assertRegex(self.harmed(spoils.format(says=self.SAYS), "replaced") or "", "^journal of 35 bytes, expected 30")

    def test_rows_that_are_none(self) -> None:
        self.assertRegex(self.harmed("", "burnt") or "", "^a journal is harmed by")
        program = self.program("#!/bin/sh\n")
        line = f"harms journal-changed.txt problem={self.folder}/problem.json harm=cut : train J 7 20"
        self.assertRegex(tried(parsed(line), program).fault or "", "is through, or stuck")


class Index(unittest.TestCase):
    def test_statuses_are_those_of_the_table(self) -> None:
        page = (TOP / "docs" / "use" / "FORMAT.md").read_text(encoding="utf-8")
        table = page.partition("\n# Statuses\n")[2].partition("\n# ")[0]
        lines = {text: int(number) for number, text in re.findall(r"^\| (\d+) \| `([^`]*)` \|", table, re.M)}
        self.assertEqual(sorted(lines.values()), sorted(STATUSES.values()))
        for text, number in lines.items():
            self.assertEqual(status_of(f"hydroplan: {text}\n".encode()), number)

    def test_each_command_and_each_status_has_a_row(self) -> None:
        usage = bytes_of("usage.txt").decode("utf-8").partition("usage: ")[2]
        commands = {"--help", "--version", *(command.split()[0] for command in usage.split(", "))}
        runs = [row for row in map(parsed, lines_of(FOLDER / "rows.txt")) if row.kind == "run"]
        ends = [(row.words, status_of(expectation(row.expected, bytes_of(row.expected)).lines)) for row in runs]
        self.assertEqual({0, *STATUSES.values()}, {status for _, status in ends})
        self.assertLessEqual(commands, {words[0] for words, status in ends if status == 0})

    def test_each_file_is_of_some_row(self) -> None:
        rows = [parsed(line) for line in lines_of(FOLDER / "rows.txt")]
        names = [name for row in rows for name in (row.expected, *(row.options.get(option, "-") for option in ("problem", "journal")))]
        named = {place_of(name) for name in names}
        for path in (FOLDER / "data").iterdir():
            self.assertIn(path, named)

    def test_an_expectation(self) -> None:
        found = expectation("x", b"hydroplan: memory\nand journal 1\njournal 0aff\n")
        self.assertEqual((found.lines, found.text, found.journal), (b"hydroplan: memory\n", b"and journal 1\n", b"\n\xff"))
        found = expectation("x", b"hydroplan: memory\nhydroplan: of all kinds\nbound 3\n")
        self.assertEqual((found.lines, found.text), (b"hydroplan: memory\nhydroplan: of all kinds\n", b"bound 3\n"))
        self.assertEqual(expectation("x", b"hydroplan 1\n").lines, b"")
        self.assertIsNone(expectation("x", b"a\nb").journal)


class Script(InFolder):
    def test_last_line(self) -> None:
        program = self.program("#!/bin/sh\nprintf a\n")
        rows = self.folder / "rows.txt"
        (self.folder / "a.txt").write_text("a")
        (self.folder / "b.txt").write_text("b")
        rows.write_text(f"# a remark\n\nrun {self.folder}/a.txt : base\nrun {self.folder}/b.txt : base\n")
        words = [str(FOLDER / "run"), "--program", str(program), "--rows", str(rows)]
        ran = subprocess.run(words, stdout=subprocess.PIPE, check=False)
        self.assertEqual(ran.stdout.decode().splitlines(), [
            f"FAILED: run {self.folder}/b.txt : base",
            "    standard output, line 1: gives 'a', expected 'b'",
            "1 passed, 1 failed",
        ])
        self.assertEqual(ran.returncode, 1)
        ran = subprocess.run([*words, "--only", "a.txt"], stdout=subprocess.PIPE, check=False)
        self.assertEqual((ran.returncode, ran.stdout), (0, b"1 passed, 0 failed\n"))


if __name__ == "__main__":
    unittest.main()
