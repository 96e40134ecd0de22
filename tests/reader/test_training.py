"""Training and what follows a policy: stored texts and journals of rows are the second reading's, and some of its parts by hand.

The second reading shares no code with the program, which is held to the same stored files by its gate.
"""
import unittest

from command_rows import MEASURE, PROGRAM, TOP, command_rows, expected, measure_rows, measured, outcome
from second_reading.cuts import OutOfRange, base_pools, bound_of, cut_of
from second_reading.drawing import block, path_of, pick
from second_reading.journal import Kept, journal_of
from second_reading.node import UNIT
from second_reading.problem import problem_of
from second_reading.program import Cut
from second_reading.reports import Tree, policy_of
from second_reading.settling import Certificate, refutes
from second_reading.stages import NoDecision
from second_reading.training import Training

EXAMPLES = TOP / "examples"


def example(name):
    """An example's bytes."""
    return (EXAMPLES / f"{name}.json").read_bytes()


def trained(text, seed, count, batch=1):
    """Training over the bytes of a problem."""
    training = Training(problem_of(text), seed, batch)
    training.train(count)
    return training


class Rows(unittest.TestCase):
    maxDiff = None

    def test_there_are_rows(self):
        self.assertEqual(len(command_rows()), 45)
        self.assertEqual(len(measure_rows()), 7)

    def test_commands(self):
        for row in command_rows():
            with self.subTest(row.line):
                self.assertEqual(outcome(row), expected(row))

    def test_measures(self):
        stored = (MEASURE / "stdout").read_text(encoding="utf-8").splitlines()
        for line in measure_rows():
            begin, made = stored.index(line) + 1, measured(line)
            with self.subTest(line):
                self.assertEqual(stored[begin:begin + len(made)], made)

    def test_bounds(self):
        """The bound of an example and what its whole policy costs lie where rows of tests/program have them."""
        for name, count, upper in (("one_reservoir", 2, False), ("two_reservoirs", 20, True), ("three_stages", 20, True),
                                   ("farmer", 30, True)):
            training = trained(example(name), 7, count)
            found = {"": training.bounds[-1]}
            if upper:
                found["-upper"] = int(Tree(policy_of(training)).lines()[-2].split()[1])
            for part, number in found.items():
                _, least, greatest = (PROGRAM / "data" / f"{name}{part}.txt").read_text(encoding="utf-8").split()
                with self.subTest(name + part):
                    self.assertTrue(int(least) <= number <= int(greatest), number)

    def test_without_decisions(self):
        """Training ends in the first iteration, at a node whose multipliers show that it has no decisions."""
        text = (PROGRAM / "data" / "short-of-gas.json").read_bytes()
        for seed, batch in ((7, 1), (1, 4)):
            training = trained(text, seed, 60, batch)
            it = training.stopped.cause
            self.assertIsInstance(it, NoDecision)
            self.assertEqual((training.stopped.iteration, training.records), (1, []))
            self.assertTrue(refutes(training.problem.places[it.number].stage.node, it.values, it.state, it.rows))


class Parts(unittest.TestCase):
    def test_words(self):
        """The first words of ChaCha20 for the key of zeros (RFC 8439, appendix A.1, vector 1), and of its next block (vector 2)."""
        self.assertEqual(block(0, 0, 0)[:4], [0xADE0B876, 0x903DF1A0, 0xE56A5D40, 0x28BD8653])
        self.assertEqual(block(0, 0, 1)[:4], [0xBEE7079F, 0x7A385155, 0x7C97BA98, 0x0D082D73])

    def test_picks(self):
        """The word 2^30 of 2^32 is a quarter of the weight 4, which the first of the weights 1 and 3 has below it."""
        self.assertEqual([pick([1, 3], it) for it in ((1 << 30) - 1, 1 << 30)], [0, 1])
        self.assertEqual([pick([1, 3, 4], it) for it in ((1 << 31) - 1, 1 << 31)], [1, 2])
        self.assertEqual(pick([1], (1 << 32) - 1), 0)

    def test_cut(self):
        """docs/inside/THEORY.md works it out: y = -5, 5 in both realizations gives 35 - 5v, which is 15 at 4."""
        problem = problem_of(example("one_reservoir"))
        pools = base_pools(problem)
        self.assertEqual((pools, bound_of(problem, pools)), ([[Cut(0, (0,))]], 0))
        certificate = Certificate((-5 * UNIT, 5 * UNIT), ())
        pools[0].append(cut_of(problem.places[0], pools, [certificate] * 2))
        self.assertEqual(pools[0][1], Cut(35 * UNIT, (-5 * UNIT,)))
        self.assertEqual(bound_of(problem, pools), 15 * UNIT)

    def test_size(self):
        """Multipliers of 2^63 - 1 at sides below 2^40 leave 128 bits at a scale of 2^24 at some realization, the first that adds up."""
        problem = problem_of((PROGRAM / "data" / "range-trained.json").read_bytes())
        pools = base_pools(problem)
        count = len(problem.places[0].stage.node.rows)
        with self.assertRaises(OutOfRange) as raised:
            cut_of(problem.places[0], pools, [Certificate((UNIT,) * count, ())])
        self.assertEqual(raised.exception.realization, 0)

    def test_boxes(self):
        """Sides that are not given are of what can come in: the first stage has the initial volume, the others what may leave."""
        problem = problem_of(example("three_stages"))
        for number, place in enumerate(problem.places):
            for state, (low, high) in enumerate(place.box):
                with self.subTest(node=number, state=state):
                    coming = [it.stage.node.boxes[it.stage.outs[state]] for it in problem.places if number in dict(it.successors)]
                    self.assertTrue(all(low <= one and other <= high for one, other in coming))
                    self.assertTrue(number not in dict(problem.root) or low <= problem.initial[state] <= high)

    def test_paths(self):
        """A path goes from a successor of the root to one after another, and ends where there are none."""
        problem = problem_of(example("markov_year"))
        for stream in range(1, 9):
            path = path_of(problem, 7, stream)
            self.assertIn(path[0][0], dict(problem.root))
            for (number, realization), (follower, _) in zip(path, path[1:]):
                self.assertIn(follower, dict(problem.places[number].successors))
                self.assertLess(realization, len(problem.places[number].realizations))
            self.assertEqual(problem.places[path[-1][0]].successors, ())


class Journals(unittest.TestCase):
    def test_goes_on(self):
        """Training that goes on from what was kept has the bytes of training that was not stopped, of one path or of three."""
        for name, batch in (("two_reservoirs", None), ("three_stages", 3)):
            text = example(name)
            problem = problem_of(text)
            whole = trained(text, 11, 6, batch or 1)
            kept = Kept(journal_of(trained(text, 11, 4, batch or 1), text, batch), problem)
            self.assertEqual((kept.seed, kept.batch, len(kept.training.records)), (11, batch, 4))
            kept.training.train(6)
            with self.subTest(name):
                self.assertEqual(journal_of(kept.training, text, batch), journal_of(whole, text, batch))
                self.assertEqual((kept.training.pools, kept.training.bounds), (whole.pools, whole.bounds))

    def test_rising(self):
        """No bound of training is below the one before."""
        bounds = trained(example("markov_year"), 3, 8).bounds
        self.assertEqual(bounds, sorted(bounds))
