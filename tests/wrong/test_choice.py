"""Which edits a run chooses by the ledger, and what it keeps in the ledger, over crates made for the test."""
import io
import os
import re
import sys
from contextlib import redirect_stderr, redirect_stdout
from types import SimpleNamespace
from unittest import mock

from support import Crates

from wrong_edits import command, kit, ledger
from wrong_edits.choice import chosen, digests_of
from wrong_edits.ledger import Entry
from wrong_edits.trying import Tried
from wrong_edits.verdicts import Verdict

EDIT = "file: src/lib.rt\nold: a\nnew: {0}\n"
NAMES = [f"{crate}/{edit}.edit" for crate in ("high", "low") for edit in ("one", "three", "two")]
DAY = "2026-11-01"


class Sources(Crates):
    """Two crates with three edits each, and a ledger of them as they are, each of ten seconds."""

    def setUp(self):
        super().setUp()
        for crate in ("low", "high"):
            self.write(f"crates/{crate}/src/lib.rt", f"a {crate}\n")
            self.write(f"crates/{crate}/specs/More.antt", "b\n")
            self.write(f"crates/{crate}/proofs/more/Answers.antt", "c\n")
        for name in NAMES:
            self.write(f"crates/{name.replace('/', '/wrong/')}", EDIT.format(name))
        self.entries = {name: Entry(digest, 10.0, DAY) for name, digest in self.digests().items()}

    def digests(self):
        """Returns the digests of the crates as they are now."""
        found = sorted(self.folder.glob("crates/*/wrong/*.edit"))
        return digests_of({f"{it.parents[1].name}/{it.name}": it for it in found})

    def changed(self):
        """Returns which edits differ from the ledger."""
        return chosen(self.digests(), self.entries, 1, 0).changed


class Changes(Sources):
    def test_the_same_tree_has_no_change(self):
        self.assertEqual(list(self.digests()), NAMES)
        self.assertEqual(self.changed(), [])

    def test_the_same_files_elsewhere_have_the_same_digests(self):
        before, twin = self.digests(), Sources("changed")
        twin.setUp()
        self.addCleanup(twin.doCleanups)
        self.assertNotEqual(twin.folder, self.folder)
        self.assertEqual(twin.digests(), before)

    def test_a_changed_byte_of_a_crate_is_a_change_of_all_its_edits_and_of_no_other(self):
        for path in ("src/lib.rt", "specs/More.antt", "proofs/more/Answers.antt"):
            text = (self.folder / "crates/low" / path).read_text(encoding="utf-8")
            self.write(f"crates/low/{path}", text.upper())
            self.assertEqual(self.changed(), NAMES[3:], path)
            self.write(f"crates/low/{path}", text)
            self.assertEqual(self.changed(), [], path)

    def test_a_file_that_comes_goes_or_is_moved_is_a_change(self):
        lib = self.folder / "crates/high/src/lib.rt"
        more = self.write("crates/high/src/more.rt", "")
        self.assertEqual(self.changed(), NAMES[:3])
        more.unlink()
        self.assertEqual(self.changed(), [])
        lib.rename(lib.with_name("main.rt"))
        self.assertEqual(self.changed(), NAMES[:3])

    def test_a_changed_edit_changes_alone(self):
        self.write("crates/low/wrong/two.edit", EDIT.format("another"))
        self.assertEqual(self.changed(), ["low/two.edit"])

    def test_other_files_are_no_change(self):
        for path in ("wrong/notes.md", "data/args", "out/rlib/format", "src/lib.rt.orig"):
            self.write(f"crates/low/{path}", "x")
        self.assertEqual(self.changed(), [])

    def test_an_edit_without_a_line_is_a_change(self):
        del self.entries["high/three.edit"]
        self.assertEqual(self.changed(), ["high/three.edit"])

    def test_without_a_ledger_all_are_changes(self):
        self.entries = ledger.read(self.folder / "none.txt")
        self.assertEqual(self.changed(), NAMES)


class Turns(Sources):
    def waiting(self, minutes, lanes=1):
        """Returns which edits a run of so many minutes takes in turn."""
        return chosen(self.digests(), self.entries, lanes, minutes).waiting

    def date(self, **days):
        """Puts edits of the crate low, which are named, on other days of the month."""
        for edit, day in days.items():
            self.entries[f"low/{edit}.edit"] = self.entries[f"low/{edit}.edit"]._replace(day=f"2026-11-{day:02}")

    def test_they_are_taken_until_the_time_is_used(self):
        self.assertEqual([len(self.waiting(it)) for it in (0, 0.1, 0.5, 0.6, 1, 9)], [0, 1, 3, 4, 6, 6])
        self.assertEqual(len(self.waiting(0.25, lanes=2)), 3)

    def test_the_longest_waiting_come_first(self):
        self.entries = {name: it._replace(day="2026-11-28") for name, it in self.entries.items()}
        self.date(one=9, two=3, three=27)
        self.assertEqual(self.waiting(0.5), ["low/two.edit", "low/one.edit", "low/three.edit"])

    def test_edits_of_one_day_go_crate_by_crate(self):
        self.assertEqual(len({it.partition("/")[0] for it in self.waiting(0.5)}), 1)
        self.assertEqual(self.waiting(1), self.waiting(9))

    def test_what_changed_uses_the_time_and_a_third_is_left(self):
        self.write("crates/low/src/lib.rt", "another\n")
        found = chosen(self.digests(), self.entries, 1, 0.6)
        self.assertEqual((found.changed, len(found.waiting), len(found.later)), (NAMES[3:], 2, 1))
        self.entries["low/one.edit"] = self.entries["low/one.edit"]._replace(seconds=9000.0)
        self.assertEqual(len(chosen(self.digests(), self.entries, 1, 0.9).waiting), 2)

    def test_all_have_their_turn_within_the_runs_that_are_told(self):
        found = chosen(self.digests(), self.entries, 1, 0.5)
        told = re.search(r"within (\d+) runs", found.reason(self.entries, 1, 0.5))
        self.assertEqual(told[1], "6")
        for day in range(2, 2 + int(told[1])):
            for name in self.waiting(0.1):
                self.entries[name] = self.entries[name]._replace(day=f"2026-11-{day:02}")
        self.assertTrue(all(it.day > DAY for it in self.entries.values()))

    def test_says_how_many_and_why(self):
        self.write("crates/low/wrong/two.edit", EDIT.format("another"))
        self.date(three=9)
        found = chosen(self.digests(), self.entries, 1, 0.5)
        self.assertRegex(found.reason(self.entries, 1, 0.5), "^1 changed, 2 waiting, 3 left for later, the oldest tried on 2026-11-01, ")


class Ledgers(Sources):
    def setUp(self):
        super().setUp()
        self.file = self.folder / "ledger.txt"

    def test_what_is_written_is_read(self):
        ledger.write(self.file, self.entries)
        self.assertEqual(ledger.read(self.file), self.entries)
        lines = self.file.read_text(encoding="utf-8").splitlines()
        self.assertEqual([it.partition(" ")[0] for it in lines], NAMES)
        ledger.write(self.file, ledger.read(self.file))
        self.assertEqual(self.file.read_text(encoding="utf-8").splitlines(), lines)

    def test_lines_that_are_none_count_for_nothing(self):
        good = f"low/one.edit {'0' * 20} 3.5 2026-11-30"
        bad = ("<<<<<<< ours", "low/two.edit 12 3.5 2026-11-30", f"low/two.edit {'0' * 20} 2026-11-30", "")
        self.file.write_text("\n".join((good, *bad)), encoding="utf-8")
        self.assertEqual(ledger.read(self.file), {"low/one.edit": Entry("0" * 20, 3.5, "2026-11-30")})

    def test_of_two_lines_the_later_day_counts(self):
        first, second = (f"low/one.edit {it * 20} 3.5 2026-11-{day}" for it, day in (("a", 30), ("b", 29)))
        for lines in ((first, second), (second, first)):
            self.file.write_text("\n".join(lines), encoding="utf-8")
            self.assertEqual(ledger.read(self.file)["low/one.edit"].digest, "a" * 20)

    def test_a_renewal_changes_what_was_tried_and_drops_what_is_gone(self):
        ledger.write(self.file, {**self.entries, "gone/one.edit": self.entries[NAMES[0]]})
        new = Entry("f" * 20, 1.0, "2026-12-01")
        ledger.renew(self.file, NAMES, NAMES[:2], {NAMES[0]: new})
        self.assertEqual(ledger.read(self.file), {NAMES[0]: new, **{name: self.entries[name] for name in NAMES[2:]}})

    def test_an_interrupted_rewrite_leaves_the_former_ledger(self):
        ledger.write(self.file, self.entries)
        with mock.patch("os.replace", side_effect=KeyboardInterrupt), self.assertRaises(KeyboardInterrupt):
            ledger.renew(self.file, NAMES, NAMES, {})
        self.assertEqual(ledger.read(self.file), self.entries)
        self.assertEqual([it.name for it in self.folder.iterdir() if it.is_file()], ["ledger.txt"])


class Runs(Sources):
    """The whole command, with a stand-in for the prover that refuses each edit whose name is not in `let_through`."""

    def setUp(self):
        super().setUp()
        self.file = self.folder / command.LEDGER
        self.file.parent.mkdir(parents=True)
        ledger.write(self.file, self.entries)
        self.asked, self.let_through, self.interrupted = [], (), ""

    def try_crate(self, crate, files):
        """Stands in for the prover, and stops the run at one crate."""
        if crate.name == self.interrupted:
            raise KeyboardInterrupt
        self.asked += [f"{crate.name}/{it.name}" for it in files]
        return [Tried(it.name, Verdict(f"{crate.name}/{it.name}" not in self.let_through, "said"), 4.25) for it in files]

    def run_command(self, *words, **environment):
        """Runs the command in an environment, and returns the status, the edits that it tried and what it printed."""
        crates = [SimpleNamespace(name=it, folder=str(self.folder / "crates" / it)) for it in ("low", "high")]
        self.asked, said = [], io.StringIO()
        with mock.patch.dict(os.environ, {"RT_JOBS": "1", "WRONG": "", "WRONG_MINUTES": "0", **environment}), redirect_stdout(said), \
                mock.patch("wrong_edits.kit.crates", lambda _: crates), mock.patch("wrong_edits.command.try_crate", self.try_crate), \
                mock.patch("wrong_edits.command.ROOT", self.folder):
            status = command.main(list(words))
        return status, sorted(self.asked), said.getvalue()

    def test_the_same_tree_tries_what_waits(self):
        self.assertEqual(self.run_command()[:2], (0, []))
        status, asked, said = self.run_command(WRONG_MINUTES="0.5")
        self.assertEqual((status, len(asked)), (0, 3))
        self.assertIn("wrong: 3 of 6 edits: 0 changed, 3 waiting, 3 left for later, the oldest tried on 2026-11-01", said)
        self.assertTrue(said.endswith("\n3 passed, 0 failed\n"))

    def test_all_and_named_crates(self):
        self.assertEqual(self.run_command(WRONG="all")[1], NAMES)
        self.assertEqual(self.run_command("high")[1], NAMES[:3])

    def test_the_tree_is_not_written_unasked(self):
        before = self.file.read_bytes()
        self.run_command(WRONG="all")
        self.assertEqual(self.file.read_bytes(), before)

    def test_keeps_what_was_refused(self):
        self.write("crates/low/src/lib.rt", "another\n")
        self.let_through = ("low/two.edit",)
        status, asked, _ = self.run_command("--keep")
        self.assertEqual((status, asked), (1, NAMES[3:]))
        kept = ledger.read(self.file)
        self.assertEqual({name: kept[name] for name in NAMES[:3]}, {name: self.entries[name] for name in NAMES[:3]})
        self.assertEqual({it.seconds for name, it in kept.items() if name in NAMES[3:]}, {4.2})
        self.assertTrue(kept["low/one.edit"].day > DAY)
        self.assertEqual(self.run_command()[1], ["low/two.edit"])

    def test_an_interrupted_run_keeps_the_crates_before(self):
        for name in NAMES[:3]:
            self.entries[name] = self.entries[name]._replace(seconds=99.0)
        ledger.write(self.file, self.entries)
        self.interrupted = "low"
        with self.assertRaises(KeyboardInterrupt):
            self.run_command("--keep", WRONG="all")
        kept = ledger.read(self.file)
        self.assertEqual([name for name in NAMES if kept[name].day > DAY], NAMES[:3])
        self.assertEqual([name for name in NAMES if kept[name] == self.entries[name]], NAMES[3:])

    def test_wrong_words_are_told(self):
        said = io.StringIO()
        with redirect_stderr(said):
            self.assertEqual(self.run_command("--keeps")[0], 2)
            self.assertEqual(self.run_command(WRONG_MINUTES="many")[0], 2)
            self.assertEqual(self.run_command("nowhere")[0], 2)
        self.assertRegex(said.getvalue(), r"(?s)usage: .*WRONG_MINUTES is many.*no crate is named nowhere")


class Seconds(Crates):
    def test_a_check_is_timed_by_its_own_processor_seconds(self):
        idle = kit.timed([sys.executable, "-c", "import time; time.sleep(0.6); print('no'); raise SystemExit(3)"], str(self.folder))
        busy = kit.timed([sys.executable, "-c", "import time\nwhile time.process_time() < 0.6: pass"], str(self.folder))
        self.assertEqual((idle.status, idle.said, busy.status), (3, "no\n", 0))
        self.assertTrue(idle.seconds < 0.5 and busy.seconds >= 0.5, (idle, busy))
