"""A study run again: it goes on from its journal after a change of options, and begins anew after a change of data."""
import json
import types
import unittest
from unittest import mock

from model_support import needs_numpy
from study_support import StudyFolder
from extensive_plants import needs_scipy
from hydroplan.errors import TrainingInterrupted
from hydroplan.runs import WordsRefused, train
from hydroplan.study import command, training
from hydroplan.study.training import History
from hydroplan.training import TrainingRun

GOING_ON = "study: going on from the journal\n"


@needs_numpy
@needs_scipy
class Again(StudyFolder):
    def setUp(self):
        super().setUp()
        self.write()
        self.journal = self.folder / "study.journal"

    def said(self, *words):
        """What a run says on standard error."""
        status, _, errors = self.run_study("--set", "simulation.prices=0", *words)
        self.assertEqual(status, 0, errors)
        return errors

    def bounds(self):
        return [row["bound"] for row in self.rows("bounds.csv")]

    def test_more_iterations_go_on(self):
        self.assertTrue(self.said("--set", "stop.iterations=5").startswith("study: a new journal\n"))
        bounds = self.bounds()
        self.assertTrue(self.said("--set", "stop.iterations=9").startswith(GOING_ON))
        self.assertEqual((self.bounds()[:5], len(self.bounds())), (bounds, 9))
        seconds = [float(row["seconds"]) for row in self.rows("bounds.csv")]
        self.assertEqual(seconds, sorted(seconds))

    def test_other_options_leave_the_journal(self):
        self.said()
        before, digest = self.journal.read_bytes(), self.results()["data_digest"]
        for option in ("simulation.seed=99", "simulation.scenarios=30", "stop.gap=0.5", 'title="Another"'):
            self.assertTrue(self.said("--set", option).startswith(GOING_ON))
            self.assertEqual(self.journal.read_bytes(), before)
        found = self.results("--set", "simulation.seed=99")
        self.assertEqual(found["data_digest"], digest)
        self.assertNotEqual(found["options_digest"], self.results()["options_digest"])

    def test_comparisons_of_earlier_trainings_stay(self):
        options = ["--set", "stop.gap=0.000001", "--set", "stop.scenarios=10", "--set", "stop.every=4"]
        self.said(*options, "--set", "stop.iterations=4")
        self.said(*options, "--set", "stop.iterations=8")
        compared = {row["iteration"]: float(row["mean"]) - float(row["bound"]) - float(row["gap"]) for row in self.rows("bounds.csv") if row["mean"]}
        self.assertEqual(set(compared), {"4", "8"})
        for difference in compared.values():
            self.assertAlmostEqual(difference, 0, 4)

    def test_a_comparison_that_is_known_is_not_made_again(self):
        options = ["--set", "stop.gap=0.99", "--set", "stop.scenarios=10", "--set", "stop.every=4"]
        trained = "study: trained: the mean of 10 scenarios is within"
        self.assertIn(trained, self.said(*options))
        before, beside = self.rows("bounds.csv"), (self.folder / "study.journal.json").read_text(encoding="utf-8")
        with mock.patch.object(TrainingRun, "_compared", side_effect=AssertionError("compared again")):
            self.assertIn(trained, self.said(*options, "--set", "simulation.scenarios=30"))
            self.assertEqual(json.loads((self.folder / "study.journal.json").read_text(encoding="utf-8"))["checks"], json.loads(beside)["checks"])
            means = [[row["mean"] for row in rows] for rows in (before, self.rows("bounds.csv"))]
            self.assertEqual(means[0], means[1])
            for other in ("stop.scenarios=11", "stop.confidence=0.9"):
                with self.assertRaisesRegex(AssertionError, "compared again"):
                    self.said(*options, "--set", other)

    def test_other_data_begin_anew(self):
        self.said()
        before = self.journal.read_bytes()
        self.edited(("demand = 150", "demand = 149"))
        words = "study: the data have changed: training begins anew, and the old journal is kept as study.kept-1.journal\n"
        self.assertTrue(self.said().startswith(words))
        self.assertEqual((self.folder / "study.kept-1.journal").read_bytes(), before)
        self.assertNotEqual(self.journal.read_bytes(), before)
        self.edited(("demand = 150", "demand = 148"))
        self.assertIn("kept as study.kept-2.journal", self.said())

    def test_another_seed_and_batch_begin_anew(self):
        self.said()
        words = "study: the journal was made with seed 7 and batch 1: training begins anew, and the old journal is kept as study.kept-1.journal\n"
        self.assertTrue(self.said("--set", "training.seed=8", "--set", "simulation.seed=99").startswith(words))
        self.assertIn("was made with seed 8 and batch 1", self.said("--set", "training.batch=2"))

    def test_a_journal_of_which_nothing_is_known(self):
        self.said()
        (self.folder / "study.journal.json").write_text("[]", encoding="utf-8")
        self.assertTrue(self.said().startswith("study: what the journal is of is not known: training begins anew"))

    def test_a_journal_of_another_problem_in_its_place(self):
        self.said("--set", "stop.iterations=3")
        other = self.folder / "other.journal"
        train(self.study("bus.city.demand=140").compiled, other, seed=7, iterations=2, progress=False)
        other.replace(self.journal)
        said = self.said()
        self.assertRegex(said, "training begins anew, and the old journal is kept as study.kept-1.journal")
        self.assertEqual(len(self.bounds()), 20)

    def test_a_check_runs_nothing(self):
        status, said, _ = self.run_study("--check")
        self.assertEqual(status, 0)
        self.assertEqual([it.name for it in self.folder.iterdir()], ["study.toml"])
        for line in (
            "One lake: 3 stages, the first from 2026-01-01, the last from 2026-01-01", "elements: 1 bus, 1 reservoir, 1 thermal",
            "random values: listed, stations: lake", "at most 2000 iterations", "  0 numbers were rounded",
        ):
            self.assertIn(line, said.split("\n"))
        self.assertRegex(said, r"problem: [0-9,]+ bytes, 3 nodes, 1 states, at most 4 decisions, 2 rows and 3 realizations")

    def test_an_interrupt(self):
        stopped = TrainingInterrupted("training was interrupted: 3 iterations are kept", 3, 1.0)
        with mock.patch.object(training, "train", side_effect=stopped):
            status, _, errors = self.run_study()
        self.assertEqual((status, errors.split("\n")[1]), (130, "study: training was interrupted: 3 iterations are kept"))
        with mock.patch.object(training, "train", side_effect=KeyboardInterrupt):
            self.assertEqual(self.run_study()[0], 130)

    def test_a_page_is_made_where_dates_rise(self):
        pages = []
        hours = self.study()
        self.edited(("hours = 1", 'step = "month"'))
        months = self.study()
        report = types.SimpleNamespace(write=pages.append)
        with mock.patch.object(command.importlib.util, "find_spec", return_value=True), mock.patch.object(
            command.importlib, "import_module", return_value=report,
        ):
            command._write_report(hours, self.folder)
            self.assertEqual(pages, [])
            command._write_report(months, self.folder)
        self.assertEqual(pages, [self.folder])

    def test_workers(self):
        workers = ("--set", "training.workers=2", "--set", 'training.scheduler="tcp://here:1"')
        with mock.patch.object(training, "_shares", return_value=False):
            self.assertIn("study: training by one program: hydroplan.farm, which shares the work, is not there\n", self.said(*workers))
        asked = []

        def trained(compiled, journal, *, shared, **chosen):
            asked.append(shared)
            return train(compiled, journal, **chosen)

        with mock.patch.object(training, "_shares", return_value=True), mock.patch.object(training, "train", trained):
            self.assertNotIn("hydroplan.farm", self.said(*workers))
        self.assertEqual(asked, [["--workers", "2", "--scheduler", "tcp://here:1"]])

    def test_words_that_share_the_work_stand_behind_train(self):
        program = self.program("open(sys.argv[2] + '.words', 'w').write(' '.join(sys.argv[3:]))\nsys.exit(2)")
        with self.assertRaises(WordsRefused):
            train(self.study().compiled, self.folder / "a", seed=7, iterations=3, batch=2, progress=False, program=program, shared=["--workers", "2"])
        self.assertEqual((self.folder / "a.words").read_text(encoding="utf-8"), "7 3 2 --workers 2")


class Seconds(unittest.TestCase):
    def test_seconds_are_in_proportion_between_those_that_are_known(self):
        history = History("", 1, 1, {10: 2.0, 20: 8.0})
        self.assertEqual([history.at(it) for it in (5, 10, 15, 20, 30)], [1.0, 2.0, 5.0, 8.0, 8.0])
        self.assertEqual((history.spent, History("", 1, 1).at(4)), (8.0, 0.0))


if __name__ == "__main__":
    unittest.main()
