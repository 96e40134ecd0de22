"""A journal that grows, looked at by a program of a few lines in place of hydroplan."""
import os
import stat
import sys
import tempfile
import unittest
from fractions import Fraction as F
from pathlib import Path

from tool_support import S, run
from hydroplan.tools.watch_command import HEADING, Look, Units, Watch, clock_text, main, read_check, rows

# prints a check of as many iterations as the journal has bytes, iteration k with the bound k / 2; a journal that begins with x is refused
PROGRAM = f"""#!{sys.executable}
import sys
journal = open(sys.argv[2], "rb").read()
sys.stdin.read()
assert sys.argv[1] == "check"
if journal.startswith(b"x"):
    print("hydroplan: journal refused: NotAJournal", file=sys.stderr)
    sys.exit(6)
print("hydroplan 1\\nscale 16777216\\nnode 0 \\"n\\"\\ncut 0 0 0")
for k in range(1, len(journal) + 1):
    print(f"iteration {{k}} bound {{k * {S} // 2}}")
print(f"total iterations {{len(journal)}} unsettled 3\\nbound 0\\nrest 0")
"""


class Looks(unittest.TestCase):
    def test_what_check_says(self):
        text = "hydroplan 1\ncut 0 0 5\niteration 1 bound 7\niteration 2 bound -9\ntotal iterations 2 unsettled 4\nbound -9\nrest 6\n"
        self.assertEqual(read_check(0, text, ""), Look((7, -9), 4, 6))
        self.assertEqual(read_check(6, "", "hydroplan: journal refused: TooMany\n").fault, "hydroplan: journal refused: TooMany")
        self.assertEqual(read_check(1, "", "").fault, "the program ended with status 1")

    def test_rows(self):
        before, now = Look((S,)), Look((S, 3 * S // 2, 7 * S // 4), 2)
        found = [row.split() for row in rows(before, now, 3725, Units(), 10)]
        self.assertEqual(found, [["1:02:05", "2", "1.5", "0.5"], ["1:02:05", "3", "1.75", "0.25", "2"]])
        found = [row.split() for row in rows(Look(), now, 0, Units(), 1)]
        self.assertEqual(found, [["0:00:00", ".."], ["0:00:00", "3", "1.75", "0.25", "2"]])

    def test_units(self):
        self.assertEqual((Units().text(S + 1), Units().text(-S - 1)), ("1", "-1.000001"))
        own = Units(F(40), True)
        self.assertEqual((own.text(-100 * S - 1), own.gain(-200 * S, -100 * S)), ("2.500001", "-2.5"))

    def test_clock(self):
        self.assertEqual([clock_text(it) for it in (0, 59.9, 3600)], ["0:00:00", "0:00:59", "1:00:00"])


class Loop(unittest.TestCase):
    """The loop with a clock and a journal of its own: one byte, one iteration more at each listed time."""

    def watch(self, looks, marks):
        self.shown, self.waited, self.slept = [], [], []
        looks, marks, time = iter(looks), iter(marks), [0.0]

        def sleep(seconds):
            self.slept.append(seconds)
            time[0] += seconds

        def look():
            time[0] += 5
            return next(looks)

        return Watch(look, lambda: next(marks), lambda: time[0], sleep, self.shown.append, self.waited.append, Units())

    def test_a_look_at_each_change_until_enough_iterations(self):
        watch = self.watch([Look(), Look((S,)), Look((S, 2 * S))], [None, None, 60, 60, 90])
        self.assertEqual(watch.run(2, False), 0)
        self.assertEqual(self.shown[0], HEADING)
        self.assertEqual([row.split()[1:3] for row in self.shown[1:]], [["1", "1"], ["2", "2"]])
        # a look takes 5 seconds, and the pause is at least as long, so that looking takes half of a processor at most
        self.assertEqual(self.slept, [5, 2, 5, 2])
        self.assertEqual(self.waited[-1].split(), ["0:00:22", "at", "iteration", "1"])

    def test_a_fault_is_shown_once_and_does_not_end_the_watch(self):
        fault = Look(fault="hydroplan: journal refused: Short at 9")
        watch = self.watch([Look((S,)), fault, fault, Look((S, S))], [1, 2, 3, 4])
        self.assertEqual(watch.run(2, False), 0)
        self.assertEqual(self.shown.count(fault.fault), 1)
        self.assertEqual(self.shown[-1].split()[1], "2")

    def test_a_gate_that_opens_without_a_change_is_seen(self):
        watch = self.watch([Look((S,), 0, 40), Look((S, S), 0, 0)], [90, 90])
        self.assertEqual(watch.run(2, False), 0)

    def test_once(self):
        self.assertEqual(self.watch([Look((S,))], [1]).run(None, True), 0)
        self.assertEqual(self.watch([Look(fault="no")], [1]).run(None, True), 1)
        self.assertEqual(self.shown, [HEADING, "no"])


class Command(unittest.TestCase):
    def setUp(self):
        made = tempfile.TemporaryDirectory()
        self.addCleanup(made.cleanup)
        self.folder = Path(made.name)
        self.program, self.problem, self.journal = (self.folder / name for name in ("program", "problem.json", "journal"))
        self.program.write_text(PROGRAM, encoding="utf-8")
        self.program.chmod(self.program.stat().st_mode | stat.S_IXUSR)
        self.problem.write_text("{}", encoding="utf-8")

    def watch(self, *words):
        return run(main, self.journal, self.problem, "--program", self.program, *words)

    def test_the_program_is_asked(self):
        self.journal.write_bytes(b"ooo")
        status, out, err = self.watch("--once", "--last", "2")
        self.assertEqual((status, err), (0, ""))
        self.assertEqual([row.split()[1:] for row in out.splitlines()[1:]], [[".."], ["2", "1", "0.5"], ["3", "1.5", "0.5", "3"]])

    def test_a_program_in_the_folder_at_hand(self):
        self.journal.write_bytes(b"o")
        before = os.getcwd()
        self.addCleanup(os.chdir, before)
        os.chdir(self.folder)
        status, out, err = run(main, self.journal, self.problem, "--program", "program", "--once")
        self.assertEqual((status, err, len(out.splitlines())), (0, "", 2))

    def test_a_journal_that_is_refused(self):
        self.journal.write_bytes(b"x")
        status, out, _ = self.watch("--once")
        self.assertEqual((status, out.splitlines()[-1]), (1, "hydroplan: journal refused: NotAJournal"))

    def test_what_is_said_forges_no_row(self):
        program = self.folder / "program"
        program.write_text(PROGRAM.replace("NotAJournal", "NotAJournal\\nhydroplan: so\u202e\\r"), encoding="utf-8")
        self.journal.write_bytes(b"x")
        status, out, _ = self.watch("--once")
        self.assertEqual(out.split("\n")[-3:], ["hydroplan: journal refused: NotAJournal", "hydroplan: so\\u{202E}", ""])

    def test_scales(self):
        self.journal.write_bytes(b"o")
        scales = self.folder / "scales.json"
        scales.write_text('{"cost": "1/4", "negated": true}', encoding="utf-8")
        self.assertEqual(self.watch("--once", "--scales", scales)[1].splitlines()[1].split()[1:3], ["1", "-2"])
        scales.write_text("{}", encoding="utf-8")
        self.assertIn("no scale of costs", self.watch("--once", "--scales", scales)[2])

    def test_what_is_not_there(self):
        self.problem.unlink()
        status, _, err = self.watch("--once")
        self.assertEqual(status, 1)
        self.assertIn("problem.json is not there", err)


if __name__ == "__main__":
    unittest.main()
