"""Each status of the program as an exception, with words: of the program itself, and of programs of a few lines in its place."""
import os
import time
import unittest
from unittest import mock

from model_support import TOP, Folder, one_reservoir, three_stages
from hydroplan import core
from hydroplan.errors import (
    JournalDeviceFailed, JournalRefused, NoStageSolution, OutOfMemory, OutOfRange, OutputFailed, ProblemRefused, ProblemTooLong,
    ProblemUnreadable, ProgramKilled, ProgramMissing, ProgramNotRun, RunFailed, TooMuch, WordsRefused,
)
from hydroplan.model import Model
from hydroplan.runs import check, evaluate, simulate, train


class Real(Folder):
    """Refusals by the program itself."""

    def train(self, model, **chosen):
        wanted = {"seed": 7, "iterations": 2, "progress": False, **chosen}
        return train(model.compile(), self.journal, **wanted)

    def test_no_stage_solution_in_the_users_units(self):
        model = Model({"tank": "0.5"})
        stage = model.stage("day")
        tank, rain, use = stage.state("tank", 0, 10), stage.random("rain"), stage.variable("use", 0, 4)
        stage.add(tank.outgoing + use == tank.incoming + rain, name="water")
        stage.add(use >= 2.5, name="need")
        model.node("monday", stage, [(1, {rain: "0.25"})])
        with self.assertRaises(NoStageSolution) as caught:
            self.train(model)
        failed = caught.exception
        self.assertEqual((failed.status, failed.node, failed.values, failed.state), (9, "monday", {"rain": 0.25}, {"tank": 0.5}))
        self.assertEqual(set(failed.rows), {"water", "need"})
        self.assertIn(
            'node "monday" has no decisions at rain = 0.25 with tank = 0.5 coming in; its rows water, need ask too much together', str(failed),
        )
        self.assertIn("give such rows a decision that takes up what is missing, at a cost", failed.words)
        self.assertTrue(failed.line.startswith("hydroplan: no stage solution: run 1 node 0"))

    def test_a_problem_that_is_refused(self):
        model = Model()
        stage = model.stage("s")
        x = stage.variable("x", 0, 10**12)
        stage.minimize(10**12 * x)
        stage.add(10**12 * x >= 10**12, name="great")
        model.node("n", stage, [(1, {})])
        with self.assertRaises(ProblemRefused) as caught:
            self.train(model)
        failed = caught.exception
        self.assertEqual((failed.status, failed.kind, failed.part), (5, "Range", 'realization 0 of node "n"'))
        self.assertIn('problem refused: Range at realization 0 of node "n"', str(failed))
        self.assertIn("what: numbers so large that the base cut leaves 128 bits", failed.words)
        self.assertRegex(failed.words[-1], r'made: node "n" \(.*test_run_failures\.py:\d+\)')

    def test_journals_of_others(self):
        self.train(three_stages())
        for reason, said, chosen in (
            ("OtherSeed", "made with SEED 7, and 8 was asked for: go on with 7, or name another JOURNAL", {"seed": 8}),
            ("OtherBatch", "made with BATCH 1, and 2 was asked for: leave BATCH out, or name another JOURNAL", {"batch": 2}),
        ):
            with self.assertRaisesRegex(JournalRefused, said) as caught:
                self.train(three_stages(), **chosen)
            self.assertEqual((caught.exception.reason, caught.exception.status), (reason, 6))
        with self.assertRaisesRegex(JournalRefused, "a model that was changed or compiled otherwise needs a new journal"):
            check(one_reservoir().compile(), self.journal)
        self.journal.write_bytes(b"no journal at all")
        with self.assertRaisesRegex(JournalRefused, "the file does not begin as a journal does"):
            check(three_stages().compile(), self.journal)

    def test_too_much(self):
        # 1,000 scenarios of 3 stages with 100 decisions and 3,000 random values or so pass 2^22 numbers
        model = Model()
        stage = model.stage("s")
        for at in range(150):
            stage.variable(f"x{at}", 0, 1)
        for at in range(100):
            stage.add(stage.all_variables["x0"] >= 0, name=f"row {at}")
        for at in range(1, 31):
            model.node(f"{at:02d}", stage, successors={f"{at + 1:02d}": 1} if at < 30 else {})
        compiled = model.compile()
        train(compiled, self.journal, seed=1, iterations=0, progress=False)
        # each of 1,000 scenarios has 30 stages with 150 decisions, 100 rows and 4 more numbers; 2^22 numbers are 550 of them
        said = "too much: formula 4 gives .*\n  what: a report of 7,620,000 numbers, limit 4,194,304\n  fits: at most 550 scenarios$"
        with self.assertRaisesRegex(TooMuch, said) as caught:
            simulate(compiled, self.journal, seed=1, scenarios=1000)
        self.assertEqual((caught.exception.status, caught.exception.formula, caught.exception.value), (7, 4, 1000 * 30 * 254))

    def test_no_folder(self):
        self.journal = self.folder / "nowhere" / "plan.journal"
        with self.assertRaises(JournalDeviceFailed) as caught:
            self.train(three_stages())
        self.assertIn("journal device failed", str(caught.exception))


class Stood(Folder):
    """Statuses of programs of a few lines."""

    def refused(self, status, line, kind, *said):
        program = self.program(f"print({line!r}, file=sys.stderr)\nsys.exit({status})")
        with self.assertRaises(kind) as caught:
            evaluate(three_stages().compile(), self.journal, program=program)
        self.assertEqual((caught.exception.status, caught.exception.line), (status, line))
        for part in said:
            self.assertIn(part, str(caught.exception))

    def test_statuses(self):
        self.refused(1, "hydroplan: the program was not run", ProgramNotRun, "the program was not run")
        self.refused(3, "hydroplan: problem could not be read", ProblemUnreadable, "problem could not be read")
        self.refused(4, "hydroplan: problem is longer than 16777216 bytes", ProblemTooLong, "longer than 16777216 bytes")
        self.refused(
            8, "hydroplan: range: iteration 3 node 1 realization 2", OutOfRange, 'realization 2 of node "2"', "use smaller costs or quantities",
        )
        self.refused(10, "hydroplan: journal device failed", JournalDeviceFailed, "journal device failed")
        self.refused(11, "hydroplan: output failed", OutputFailed, "output failed")
        self.refused(12, "hydroplan: memory", OutOfMemory, "memory")
        self.refused(2, "hydroplan: usage: base", WordsRefused, "usage: base")
        self.refused(99, "hydroplan: something new", RunFailed, "something new")
        self.refused(7, "hydroplan: too much: formula 5 gives 65537", TooMuch, "a policy of 65,537 branches", "`simulate` follows drawn scenarios")

    def test_what_is_too_much(self):
        for formula, said in enumerate(("cuts of 99,999,999 numbers", "a node's program", "a record of 99,999,999 bytes",
                                        "a report of 99,999,999 numbers",
                                        "99,999,999 branches", "a denominator of 99,999,999", "the greatest cost of a stage"), 1):
            self.refused(7, f"hydroplan: too much: formula {formula} gives 99999999", TooMuch, said)

    def test_what_is_no_journal_of_this_problem(self):
        for line, said in (
            ("NotAJournal", "does not begin as a journal does"), ("Short at 9", "ends inside the part that begins at byte 9"),
            ("TooMany", "behind 2,000 records stands one more"), ("OtherProblem kept 12 asked 34", "needs a new journal"),
            ("BadRecord iteration 1 at 9", "the record of iteration 1 is none of this problem, from byte 9 of its payload on"),
        ):
            self.refused(6, f"hydroplan: journal refused: {line}", JournalRefused, said)

    def test_a_program_that_says_nothing(self):
        program = self.program("sys.exit(3)")
        with self.assertRaisesRegex(ProblemUnreadable, "no line, status 3"):
            check(three_stages().compile(), self.journal, program=program)

    def test_places_in_the_users_names(self):
        self.refused(
            5, "hydroplan: problem refused: BoxGap at node 1 0 0", ProblemRefused, 'BoxGap at state "volume" as it comes into node "2"',
            "made: node \"2\"",
        )
        self.refused(
            5, "hydroplan: problem refused: TooLarge at constraint 0 1 1", ProblemRefused, 'constraint "energy" of stage "1"', "model_support.py",
        )
        self.refused(5, "hydroplan: problem refused: TooLarge at variable 2 4 0", ProblemRefused, 'variable "thermal" of stage "3"')
        self.refused(5, "hydroplan: problem refused: NotJson at whole 0 0 0", ProblemRefused, "the file as a whole")

    def test_a_certificate(self):
        self.refused(6, "hydroplan: journal refused: BadCertificate iteration 2 node 1 Sign 0 1", JournalRefused, "row 1 lacks the side")

    def test_a_second_line(self):
        program = self.program("print('hydroplan: journal device failed\\nhydroplan: another run writes it', file=sys.stderr)\nsys.exit(10)")
        with self.assertRaisesRegex(JournalDeviceFailed, "journal device failed\n  hydroplan: another run writes it"):
            check(three_stages().compile(), self.journal, program=program)

    def test_lines_of_the_script_are_not_the_program_s(self):
        kept = "hydroplan: warning: the journal has 1 record that counts\\nhydroplan: training cuts these bytes off"
        program = self.program(f"print('{kept}\\nhydroplan: memory', file=sys.stderr)\nsys.exit(12)")
        with self.assertRaises(OutOfMemory) as caught:
            check(three_stages().compile(), self.journal, program=program)
        self.assertEqual(caught.exception.line, "hydroplan: memory")
        program = self.program("print('hydroplan: there is no program', file=sys.stderr)\nsys.exit(1)")
        with self.assertRaisesRegex(ProgramNotRun, "^there is no program$"):
            check(three_stages().compile(), self.journal, program=program)

    def test_a_name_forges_no_line(self):
        failed = RunFailed("what\u202e", 99, "a line", ["two\nwords"])
        self.assertEqual((str(failed), failed.words), ("what\\u{202E}\n  two\\u{000A}words", ("two\nwords",)))

    def test_a_signal(self):
        program = self.program("import os\nos.kill(os.getpid(), 9)")
        with self.assertRaisesRegex(ProgramKilled, "the program was ended by signal 9"):
            check(three_stages().compile(), self.journal, program=program)


class Behind(Folder):
    """What a program starts beside itself, as the script `hydroplan` does."""

    def test_it_is_waited_for(self):
        late = f"import pathlib, time; time.sleep(0.5); pathlib.Path({str(self.journal)!r}).touch()"
        program = self.program(f"import subprocess\nsubprocess.Popen([sys.executable, '-c', {late!r}], close_fds=False)")
        core.run(program, ["check"], b"")
        self.assertTrue(self.journal.exists())

    def test_it_is_not_waited_for_without_end(self):
        program = self.program("import subprocess\nsubprocess.Popen(['sleep', '20'], close_fds=False)")
        begun = time.monotonic()
        with mock.patch.object(core, "LAST_SECONDS", 0.1):
            core.run(program, ["check"], b"")
        self.assertLess(time.monotonic() - begun, 15)


class Found(Folder):
    def test_where_the_program_is_found(self):
        self.assertEqual(core.find_program(), TOP / "hydroplan")
        program = self.program("")
        self.assertEqual(core.find_program(program), program.resolve())
        with self.assertRaisesRegex(ProgramMissing, "the program .*nothing is not there"):
            core.find_program(self.folder / "nothing")
        self.journal.write_text("no program", encoding="utf-8")
        with self.assertRaisesRegex(ProgramMissing, "the program .*plan.journal cannot be run: Permission denied"):
            check(three_stages().compile(), self.journal, program=self.journal)
        with mock.patch.object(core, "TOP", self.folder):
            with mock.patch.dict(os.environ, {"PATH": ""}), self.assertRaisesRegex(ProgramMissing, "hydroplan is not found: name the program"):
                core.find_program()
            program.rename(self.folder / "elsewhere")
            (self.folder / "bin").mkdir()
            (self.folder / "elsewhere").rename(self.folder / "bin" / "hydroplan")
            with mock.patch.dict(os.environ, {"PATH": str(self.folder / "bin")}):
                self.assertEqual(core.find_program(), (self.folder / "bin" / "hydroplan").resolve())


if __name__ == "__main__":
    unittest.main()
