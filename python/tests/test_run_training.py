"""Training from Python: to a number of iterations, by rules, with progress, and interrupted. Optima are known from outside."""
import os
import signal
import subprocess
import sys
import textwrap
import time
import unittest
from fractions import Fraction as F
from unittest import mock

from example_models import example, model_of
from model_support import TOP, Folder, needs_pandas, newsvendor, one_reservoir, three_stages
from hydroplan.errors import RuleError
from hydroplan.limits import sizes
from hydroplan.model import Model
from hydroplan.progress import ProgressPrinter
from hydroplan.results import GapCheck
from hydroplan.runs import BoundStalling, IterationLimit, Progress, Statistical, TimeLimit, TrainingInterrupted, check, train
from hydroplan.training import fresh_seed, kept_batch

SECONDS = 1.2


PATHS = 4


def long_training():
    """A year of 24 nodes, of which 2,000 iterations of four paths take many seconds of a processor, however quick the disk is."""
    return model_of(example("markov_year")).compile()


class Trained(Folder):
    def train(self, compiled, **chosen):
        return train(compiled, self.journal, seed=7, progress=False, **chosen)

    def test_three_stages(self):
        compiled = three_stages().compile()
        found = self.train(compiled, iterations=20)
        self.assertLessEqual(found.exact_bound, F(25000, 3))
        self.assertGreater(found.exact_bound, F(25000, 3) - F(1, 1000))
        self.assertLessEqual(F(found.bound), found.exact_bound)
        self.assertEqual((found.iterations, found.unanswered, found.stopped, found.checks), (20, 0, "the iteration limit", ()))
        self.assertEqual([(it.iteration, it.bound, it.mean) for it in found.rows()][19], (20, found.bound, None))
        self.assertEqual(list(found.bounds), sorted(found.bounds))

    def test_a_training_goes_on(self):
        compiled = three_stages().compile()
        first = self.train(compiled, iterations=3)
        again = self.train(compiled, iterations=6, batch=1)
        self.assertEqual((first.bounds, again.iterations), (again.bounds[:3], 6))
        self.assertEqual(self.train(compiled, iterations=4).iterations, 6)

    def test_a_damaged_journal_is_told_and_kept(self):
        compiled = three_stages().compile()
        self.train(compiled, iterations=3)
        damaged = bytearray(self.journal.read_bytes())
        # docs/use/FORMAT.md, The journal: the first commit byte of version 1 is byte 51
        damaged[51] = 7
        self.journal.write_bytes(damaged)
        with self.assertWarnsRegex(RuntimeWarning, "has 0 records that count, .*the gate at byte 51 holds 7.*\n.*stays in .*plan.journal.kept"):
            self.assertEqual(self.train(compiled, iterations=2).iterations, 2)
        self.assertEqual(self.journal.with_name("plan.journal.kept").read_bytes(), damaged)

    def test_a_bound_on_revenues_is_above(self):
        found = self.train(newsvendor().compile(), iterations=20)
        self.assertGreaterEqual(found.exact_bound, F(5, 2))
        self.assertLess(found.exact_bound, F(5, 2) + F(1, 1000))
        self.assertGreaterEqual(F(found.bound), found.exact_bound)
        self.assertTrue(found.maximizes)

    def test_two_reservoirs(self):
        # examples/two_reservoirs.json in Python: shared stages, a Markov summer, and a stop; the optimum there is 74.75
        model = Model({"lower": 30, "upper": 50})
        stage = model.stage("stage")
        upper, lower = stage.state("upper", 10, 80), stage.state("lower", 5, 60)
        rain, demand = stage.random("rain"), stage.random("demand")
        high, low = stage.variable("upper_turbine", 0, 30), stage.variable("lower_turbine", 0, 25)
        spill, coal = stage.variable("spill", 0, 100), stage.variable("coal", 2, 60)
        stage.add(upper.outgoing + high == upper.incoming + rain)
        stage.add(lower.outgoing + low + spill == lower.incoming + high)
        stage.add(high + low + coal >= demand)
        stage.minimize(7 * coal + spill + 12)
        model.node("spring", stage, [(1, {rain: 10, demand: 40}), (2, {rain: 25, demand: 40})], {"dry": 1, "wet": 3})
        model.node("dry", stage, [(1, {rain: 0, demand: 30})], {"autumn": 1}, stop=1)
        model.node("wet", stage, [(1, {rain: 15, demand: 30})], {"autumn": 1})
        model.node("autumn", stage, [(1, {rain: 20, demand: 50}), (1, {rain: 40, demand: 50})])
        found = self.train(model.compile(), iterations=20)
        self.assertLessEqual(found.exact_bound, F("74.75"))
        self.assertGreater(found.exact_bound, F("74.74"))

    @needs_pandas
    def test_the_table(self):
        table = self.train(three_stages().compile(), iterations=3, stop=Statistical(scenarios=10, every=2, relative=0)).table()
        self.assertEqual((list(table.columns), list(table.index)), (["bound", "mean", "half_width", "gap"], [1, 2, 3]))
        self.assertEqual(list(table["mean"].isna()), [True, False, False])


class Rules(Folder):
    def train(self, stop, **chosen):
        return train(three_stages().compile(), self.journal, seed=7, stop=stop, progress=False, **chosen)

    def test_a_bound_that_stalls(self):
        found = self.train([BoundStalling(iterations=6, every=4), IterationLimit(100)])
        self.assertEqual(found.stopped, "the bound moved by 0 over the last 6 iterations")
        self.assertLess(found.iterations, 30)
        self.assertEqual(found.iterations % 4, 0)

    def test_a_gap(self):
        found = self.train(Statistical(scenarios=30, every=5, confidence=0.9, relative=0.5), iterations=50)
        last = found.checks[-1]
        self.assertIn("the mean of 30 scenarios is within", found.stopped)
        self.assertLessEqual(last.gap + last.half_width, 0.5 * last.mean)
        self.assertAlmostEqual(last.mean - last.bound, last.gap)
        self.assertEqual((last.iteration, last.scenarios), (found.iterations, 30))
        self.assertEqual([it.iteration for it in found.checks], list(range(5, found.iterations + 1, 5)))
        self.assertEqual(found.rows()[-1].half_width, last.half_width)

    def test_a_gap_over_more_scenarios_than_a_report_holds(self):
        found = self.train(Statistical(scenarios=1100, every=5), iterations=5)
        self.assertEqual(found.checks[0].scenarios, 1100)

    def test_seeds_are_never_that_of_training(self):
        for seed in (0, 7, (1 << 64) - 1):
            seeds = [fresh_seed(seed, iteration, part) for iteration in range(0, 2001, 50) for part in range(3)]
            self.assertEqual(len(set(seeds)), len(seeds))
            self.assertNotIn(seed, seeds)
            self.assertTrue(all(0 <= it < 1 << 64 for it in seeds))

    def test_time(self):
        found = train(long_training(), self.journal, seed=7, batch=PATHS, stop=TimeLimit(SECONDS), progress=False)
        self.assertEqual(found.stopped, "the time limit")
        self.assertLess(found.seconds, SECONDS + 30)
        self.assertEqual(check(long_training(), self.journal).iterations, found.iterations)

    def test_no_time_for_one_iteration(self):
        found = self.train(TimeLimit(0.000001))
        self.assertEqual((found.stopped, found.exact_bound <= F(25000, 3)), ("the time limit", True))

    def test_the_size_of_the_problem(self):
        size = sizes(one_reservoir().compile())
        # 1 node on the longest path and 1 state: 2000 iterations of 64 paths are 256,000 of formula 1; 2 rows and 3 decisions
        self.assertEqual((size.longest, size.states, size.most_iterations(64), size.most_scenarios()), (1, 1, 2000, 1000))
        self.assertEqual((size.nodes[0].rows, size.nodes[0].decisions, size.nodes[0].randoms), (2, 3, 1))
        wide = sizes(three_stages().compile())
        # formula 3 with a batch of 64: 640 + 64 · (6 + 2 · 3 · (16 + 4 + 12 · (64 K + 1)) + 3 · 16) is at most 2^26 up to K = 227
        self.assertEqual((wide.longest, wide.most_iterations(64)), (3, 227))

    def test_the_batch_of_a_journal_counts(self):
        self.assertEqual(kept_batch(self.journal), 1)
        train(three_stages().compile(), self.journal, seed=7, iterations=1, batch=64, progress=False)
        self.assertEqual(kept_batch(self.journal), 64)
        found = self.train(BoundStalling(iterations=3, every=2), iterations=None)
        self.assertIn("the bound moved by 0", found.stopped)

    def test_a_journal_that_is_full(self):
        with mock.patch("hydroplan.tools.limits.MOST_ITERATIONS", 3):
            self.assertEqual(self.train(BoundStalling(iterations=3, every=2)).stopped, "a journal of this problem holds no more iterations")

    def test_rules_that_make_no_sense(self):
        for rule, said in (
            (BoundStalling(every=0), "each 1 or more iterations, not each 0"), (BoundStalling(iterations=0), "stalls over 1 or more"),
            (Statistical(confidence=1), "a confidence between 0 and 1"), (TimeLimit(0), "above 0 seconds"), (IterationLimit(2001), "0 to 2000"),
        ):
            with self.assertRaisesRegex(RuleError, said):
                self.train(rule)
        with self.assertRaisesRegex(ValueError, "train needs iterations, or a rule"):
            self.train(())
        with self.assertRaisesRegex(ValueError, "a batch is a whole number from 1 to 64, not 65"):
            self.train((), iterations=1, batch=65)
        with self.assertRaisesRegex(ValueError, "a seed is a whole number"):
            train(three_stages().compile(), self.journal, seed=-1, iterations=1)

    def test_reasons(self):
        rule = BoundStalling(iterations=2, relative=0, absolute=0.5)
        self.assertIsNone(rule.reason([1, 2]))
        self.assertIsNone(rule.reason([1, 2, 3]))
        self.assertIn("moved by 0.25", rule.reason([1, 2, 2.25, 2.25]))
        near = GapCheck(5, 90.0, 100.0, 4.0, 10.0, 30, 1, 0.0)
        self.assertIsNone(Statistical(relative=0.13).reason([near]))
        self.assertIn("within 14", Statistical(relative=0.14).reason([near]))
        self.assertIn("within 14", Statistical(relative=0, absolute=14).reason([near]))
        self.assertIsNone(Statistical().reason([]))
        better = GapCheck(5, 90.0, 80.0, 4.0, -10.0, 30, 1, 0.0)
        self.assertIsNone(Statistical(relative=0, absolute=5).reason([better]))
        self.assertIn("within -6", Statistical(relative=0, absolute=6).reason([better]))


class Seen(Folder):
    def test_progress_about_once_a_second(self):
        seen = []
        found = train(long_training(), self.journal, seed=7, batch=PATHS, stop=TimeLimit(2.5), progress=seen.append)
        self.assertGreaterEqual(len(seen), 1)
        self.assertEqual([it.iteration for it in seen], sorted({it.iteration for it in seen}))
        self.assertLessEqual(len(seen), 5)
        self.assertEqual((seen[-1].iteration, seen[0].moved), (found.iterations, 0))
        self.assertEqual([it.bound for it in seen], [found.bounds[it.iteration - 1] for it in seen])
        self.assertEqual([it.moved for it in seen[1:]], [after.bound - before.bound for before, after in zip(seen, seen[1:])])

    def test_the_printer(self):
        import io

        stream = io.StringIO()
        printer = ProgressPrinter(stream)
        printer(Progress(1, 10.5, 0.0, 0.4, 0))
        printer(Progress(40, 12.25, 1.75, 61.0, 2))
        printer(Progress(40, 12.25, 0.0, 62.0, 2, GapCheck(40, 12.25, 12.5, 0.5, 0.25, 100, 9, 62.0)))
        rows = [line.split() for line in stream.getvalue().splitlines()]
        self.assertEqual(rows[0], ["time", "iteration", "bound", "moved", "unanswered"])
        self.assertEqual(rows[1:3], [["0:00:00", "1", "10.500000", "0.000000", "0"], ["0:01:01", "40", "12.250000", "1.750000", "2"]])
        self.assertEqual(" ".join(rows[3]), "0:01:02 40 100 scenarios: mean 12.500000, half-width 0.500000, gap 0.250000")
        self.assertEqual(len(rows), 4)

    def test_an_interrupt_says_what_is_kept(self):
        def interrupt(progress):
            raise KeyboardInterrupt

        compiled = long_training()
        with self.assertRaisesRegex(
            TrainingInterrupted, r"interrupted: \d+ iterations are kept in .*with the bound 1.*this journal and seed 7",
        ) as caught:
            train(compiled, self.journal, seed=7, iterations=2000, batch=PATHS, progress=interrupt)
        kept = caught.exception.iterations
        self.assertEqual((check(compiled, self.journal).iterations, kept > 0), (kept, True))
        self.assertEqual(train(compiled, self.journal, seed=7, iterations=kept + 1, progress=False).iterations, kept + 1)

    def test_an_interrupt_that_the_program_sees_first(self):
        compiled = three_stages().compile()
        program = self.program("import os, signal\nif sys.argv[1] == 'train':\n    os.kill(os.getpid(), signal.SIGINT)\n"
                               f"os.execv({str(TOP / 'hydroplan')!r}, ['hydroplan', *sys.argv[1:]])")
        program.write_text(program.read_text().replace("sys.stdin.buffer.read()\n", ""))
        with self.assertRaisesRegex(TrainingInterrupted, "0 iterations are kept"):
            train(compiled, self.journal, seed=7, iterations=5, progress=False, program=program)

    def test_ctrl_c_ends_the_program(self):
        script = textwrap.dedent(f"""
            import sys
            sys.path[:0] = [{str(TOP / "python")!r}, {str(TOP / "python" / "tests")!r}]
            from test_run_training import PATHS, long_training
            from hydroplan import train
            compiled = long_training()
            print("begun", flush=True)
            train(compiled, {str(self.journal)!r}, seed=7, iterations=2000, batch=PATHS)
        """)
        process = subprocess.Popen(
            [sys.executable, "-c", script], stdout=subprocess.PIPE, stderr=subprocess.PIPE, text=True, start_new_session=True,
        )
        self.assertEqual(process.stdout.readline(), "begun\n")
        begun = time.monotonic()
        while time.monotonic() < begun + 30 and not (self.journal.is_file() and self.journal.stat().st_size > 500):
            time.sleep(0.1)
        os.killpg(process.pid, signal.SIGINT)  # as a terminal does: the program is interrupted too
        _, errors = process.communicate(timeout=60)
        self.assertNotEqual(process.returncode, 0)
        self.assertIn("iterations are kept in", errors)
        size = self.journal.stat().st_size
        time.sleep(0.3)
        self.assertEqual(self.journal.stat().st_size, size)


if __name__ == "__main__":
    unittest.main()
