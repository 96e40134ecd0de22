"""Training in rounds over workers of this process: what comes is determined, and workers that lie are named and change nothing."""
from __future__ import annotations

import hashlib
import json
import tempfile
import unittest
from pathlib import Path
from typing import Callable, Dict, List

from farm_support import LEFT, Folder, PlainEngine, bound_of, copied, example, farmed, ran, trained

from hydroplan.farm import work
from hydroplan.farm.engine import FAILED, GONE, RUNNING
from hydroplan.farm.errors import FarmError
from hydroplan.farm.rounds import iterations_of_round, part_seed


class Rounds(unittest.TestCase):
    def test_seeds(self) -> None:
        """Part 0 has the seed itself. The others are the first eight bytes of a SHA-256, which `sha256sum` gave for this text."""
        self.assertEqual(part_seed(7, 0), 7)
        self.assertEqual(part_seed(7, 1), 0x8FF0AE33EE0D4B89)
        seeds = [part_seed(seed, part) for seed in (0, 7, 2 ** 64 - 1) for part in range(100)]
        self.assertEqual(len(set(seeds)), 300)
        self.assertTrue(all(0 <= it < 2 ** 64 for it in seeds))

    def test_iterations(self) -> None:
        """One iteration a part, and in the end what is left, the first parts first."""
        self.assertEqual(iterations_of_round(0, 100, 3), (1, 1, 1))
        self.assertEqual(iterations_of_round(98, 100, 3), (1, 1))
        self.assertEqual(iterations_of_round(100, 100, 3), ())

    def test_add_up(self) -> None:
        for parts in (1, 2, 3, 7, 64):
            records = 0
            while records < 1000:
                counts = iterations_of_round(records, 1000, parts)
                self.assertTrue(0 < len(counts) <= parts and min(counts) > 0)
                records += sum(counts)
            self.assertEqual(records, 1000)


class Training(Folder):
    def farm(self, name: str, engine: PlainEngine, count: int, parts: int, journal: str = "journal", **options):
        return farmed(example(name), self.room / journal, engine, count, parts, **options)

    def test_in_one_part_is_training_of_the_program(self) -> None:
        """With one part the journal and the report are those of the program alone, with a batch and without."""
        for name, batch in (("two_reservoirs", None), ("markov_year", None), ("three_stages", 4), ("cascade_plants", 1)):
            journal = self.room / name
            report, _ = farmed(example(name), journal, PlainEngine("a"), 17, 1, batch=batch)
            words = [] if batch is None else [str(batch)]
            alone = ran(example(name), "train", str(self.room / "alone"), "7", "17", *words)
            with self.subTest(name):
                self.assertEqual("\n".join(report) + "\n", alone)
                self.assertEqual(journal.read_bytes(), (self.room / "alone").read_bytes())
            (self.room / "alone").unlink()

    def test_is_determined_by_seed_parts_and_count(self) -> None:
        """Whoever does the parts, and however many workers there are: the same bytes, which `check` accepts and `train` goes on from."""
        for name, batch in (("five_reservoirs", None), ("markov_year", 3)):
            found = []
            for at, workers in enumerate(("a", "abc", "abcdefg")):
                journal = self.room / f"{name}-{at}"
                report, _ = farmed(example(name), journal, PlainEngine(workers), 30, 3, batch=batch)
                found.append((journal.read_bytes(), tuple(report)))
            self.assertEqual(len(set(found)), 1, name)
            self.assertIn("total iterations 30 unsettled", ran(example(name), "check", str(journal)))
            self.assertIn("total iterations 33 unsettled", ran(example(name), "train", str(journal), "7", "33"))

    def test_goes_on(self) -> None:
        """From a journal of the program, from its own, and in other parts: the first records stay."""
        journal = trained(example("five_reservoirs"), self.room / "journal", 7, 5)
        for count, parts in ((12, 2), (20, 4), (21, 3)):
            before = journal.read_bytes()
            self.farm("five_reservoirs", PlainEngine("ab"), count, parts)
            self.assertTrue(journal.read_bytes().startswith(before[:-1]))
            self.assertIn(f"total iterations {count} unsettled", ran(example("five_reservoirs"), "check", str(journal)))
        report, _ = self.farm("five_reservoirs", PlainEngine("ab"), 3, 3)
        self.assertIn("total iterations 21 unsettled", report[-2])

    def test_behind_what_an_interrupted_round_left(self) -> None:
        """Bytes of records behind the last commit byte, which is 0, are as if they were not there."""
        self.farm("five_reservoirs", PlainEngine("ab"), 20, 2, "whole")
        self.farm("five_reservoirs", PlainEngine("ab"), 6, 2)
        whole, journal = (self.room / "whole").read_bytes(), self.room / "journal"
        done = len(journal.read_bytes()) - 1
        for cut in (done + 2, done + 5, (done + len(whole)) // 2, len(whole)):
            copied(journal, self.room / "harmed").write_bytes(journal.read_bytes() + whole[done + 1:cut])
            (self.room / "harmed.farm").unlink(missing_ok=True)
            self.farm("five_reservoirs", PlainEngine("ab"), 20, 2, "harmed")
            self.assertEqual((self.room / "harmed").read_bytes(), whole, cut)

    def test_leaves_a_journal_and_a_plan(self) -> None:
        """Nothing else stays beside the journal."""
        self.farm("three_stages", PlainEngine("ab"), 5, 2)
        self.assertEqual(sorted(it.name for it in self.room.iterdir()), ["journal", "journal.farm"])

    def test_sends_each_worker_what_it_lacks_alone(self) -> None:
        """The whole journal goes to a worker once, and no record to whom it came from."""
        engine = PlainEngine("abc")
        self.farm("markov_year", engine, 60, 3)
        self.assertEqual([it["whole"] is not None for it in engine.orders], [True] * 3 + [False] * (len(engine.orders) - 3))
        for order in engine.orders[3:]:
            self.assertEqual([it is None for it in order["parts"]].count(True), 1)

    def test_limits_are_told_beforehand(self) -> None:
        """`gen 1 50 5` has room for 2,000 records of one path; in records of 4 paths formula 3 allows for fewer."""
        problem = ran(b"", "gen", "1", "50", "5").encode()
        with self.assertRaisesRegex(FarmError, "too much: formula 3 gives") as raised:
            farmed(problem, self.room / "journal", PlainEngine("ab"), 2000, 2, batch=4)
        self.assertEqual(raised.exception.status, 7)

    def test_what_the_program_refuses_is_refused_with_its_line_and_status(self) -> None:
        trained(example("three_stages"), self.room / "journal", 8, 1)
        for name, line, status in (("two_reservoirs", "journal refused: OtherProblem", 6), ("three_stages", "OtherSeed kept 8 asked 7", 6)):
            with self.assertRaisesRegex(FarmError, line) as raised:
                self.farm(name, PlainEngine("a"), 5, 1)
            self.assertEqual(raised.exception.status, status)
        with self.assertRaisesRegex(FarmError, "problem refused: NotJson at whole") as raised:
            farmed(b"", self.room / "other", PlainEngine("a"), 5, 1)
        self.assertEqual(raised.exception.status, 5)

    def test_a_stage_without_decisions_ends_it_as_the_program_ends(self) -> None:
        """The coordinator does the part itself before it believes that."""
        problem = (Path(__file__).resolve().parents[2] / "tests/program/data/short-of-gas.json").read_bytes()
        with self.assertRaisesRegex(FarmError, "no stage solution: run 1 node") as raised:
            farmed(problem, self.room / "journal", PlainEngine("ab"), 20, 2)
        self.assertEqual(raised.exception.status, 9)

    def test_another_run_writes_the_journal(self) -> None:
        from hydroplan.farm.journals import Growing
        trained(example("three_stages"), self.room / "journal", 7, 1)
        with Growing(self.room / "journal"):
            with self.assertRaisesRegex(FarmError, "another run|journal device failed") as raised:
                self.farm("three_stages", PlainEngine("a"), 5, 1)
            self.assertEqual(raised.exception.status, 10)


def tampered(at: int) -> Callable[[Dict[str, object], bytes], bytes]:
    """A lie that changes a byte of the records, so many from the front (or the end): the kind is byte 0, the first payload begins at byte 5."""
    def lie(order: Dict[str, object], answer: bytes) -> bytes:
        place = at % len(answer)
        return answer[:place] + bytes([answer[place] ^ 0x55]) + answer[place + 1:]
    return lie


def of_another_problem(order: Dict[str, object], answer: bytes) -> bytes:
    """A lie that sends the records of a problem that was trained elsewhere."""
    own = example("markov_year")
    return work.perform(dict(order, run="other", digest=hashlib.sha256(own).digest(), problem=own, whole=b"", base="", own="", parts=[],
                             most=1 << 24))


class Replay:
    """A lie that sends its first answer again and again."""

    def __init__(self) -> None:
        self.first = b""

    def __call__(self, order: Dict[str, object], answer: bytes) -> bytes:
        self.first = self.first or answer
        return self.first


class Liars(Folder):
    """A worker of three lies. The journal is that of honest workers, and the liar is named and asked three times at most."""

    NAME, COUNT, PARTS = "five_reservoirs", 18, 3
    honest = b""

    @classmethod
    def setUpClass(cls) -> None:
        with tempfile.TemporaryDirectory() as room:
            farmed(example(cls.NAME), Path(room) / "honest", PlainEngine("abc"), cls.COUNT, cls.PARTS)
            cls.honest = (Path(room) / "honest").read_bytes()

    def assert_named(self, lie: object, words: str, seconds: float = 600, refused: int = 3) -> List[str]:
        """Asserts that the liar changes nothing and is named with these words."""
        journal = self.room / "journal"
        for file in (journal, self.room / "journal.farm"):
            file.unlink(missing_ok=True)
        engine = PlainEngine(["honest one", "liar", "honest two"], {"liar": lie})
        _, said = farmed(example(self.NAME), journal, engine, self.COUNT, self.PARTS, seconds)
        named = [it for it in said if it.startswith("worker liar")]
        self.assertEqual(journal.read_bytes(), self.honest)
        self.assertEqual(len(named), refused, said)
        for line in named:
            self.assertRegex(line, words)
        self.assertEqual([it for it in said if "worker honest" in it and "iterations by" not in it], [])
        if refused == 3:
            self.assertRegex(named[-1], "3 times: it is not asked again")
            self.assertEqual(json.loads((self.room / "journal.farm").read_bytes())["refusals"], {"liar": 3})
        return named

    def test_bytes_that_are_no_answer(self) -> None:
        for lie in (b"", b"\xff" * 1000, None):
            with self.subTest(lie):
                self.assert_named(lambda order, answer: lie, "its answer is")

    def test_bytes_that_are_no_records(self) -> None:
        for lie in (b"T", b"T" + b"\x00" * 500, b"T\xff\xff\xff\xff", b"T" + b"\x00\x00\x00\x04abcd" * 2):
            with self.subTest(lie):
                self.assert_named(lambda order, answer: lie, "its answer is no . records|its record 1 is none of this problem")

    def test_records_that_were_changed(self) -> None:
        """The iteration, the number of steps, the node, a multiplier's first byte, the last multiplier; then what only `check` finds."""
        for at, words in ((8, "iteration"), (14, "a path of"), (16, "a step at node"), (-1, "check. says: journal refused: BadCertificate")):
            with self.subTest(at):
                self.assert_named(tampered(at), words)

    def test_any_byte_that_is_changed(self) -> None:
        """Wherever a byte is changed, the journal is one that `check` accepts: the change is refused, or is a certificate too."""
        for at in range(5, 400, 53):
            journal = self.room / f"journal-{at}"
            engine = PlainEngine("ab", {"b": tampered(at)})
            report, said = farmed(example(self.NAME), journal, engine, 6, 2)
            self.assertEqual(bound_of(ran(example(self.NAME), "check", str(journal))), bound_of("\n".join(report)))

    def test_a_multiplier_that_was_changed_and_still_holds(self) -> None:
        """Each record of a worker has a bit of a multiplier flipped: all are accepted, nobody is named, and the bound holds and is weaker."""
        for at, bit in ((19, 1), (40, 1), (40, 64), (103, 1)):
            def lie(order: Dict[str, object], answer: bytes, at: int = at, bit: int = bit) -> bytes:
                return answer[:at] + bytes([answer[at] ^ bit]) + answer[at + 1:]
            journal = self.room / f"journal-{at}-{bit}"
            report, said = farmed(example(self.NAME), journal, PlainEngine("ab", {"b": lie}), 6, 2)
            honest, _ = farmed(example(self.NAME), self.room / f"honest-{at}-{bit}", PlainEngine("ab"), 6, 2)
            self.assertEqual([it for it in said if it.startswith("worker b")], [])
            self.assertEqual(bound_of(ran(example(self.NAME), "check", str(journal))), bound_of("\n".join(report)))
            self.assertLess(bound_of("\n".join(report)), bound_of("\n".join(honest)))

    def test_records_of_another_problem(self) -> None:
        self.assert_named(of_another_problem, "is none of this problem|its answer is no")

    def test_the_same_records_again(self) -> None:
        """Its first answer is good; sent again for a later round it has other iterations than asked for."""
        self.assert_named(Replay(), "its answer is no|iteration 1 in place of")

    def test_too_few_and_too_many_records(self) -> None:
        self.assert_named(lambda order, answer: b"T" + (answer[1:] + b"\x01") * 2 + answer[1:], "its answer is no")

    def test_endless_data(self) -> None:
        self.assert_named(lambda order, answer: b"T" + bytes(int(str(order["most"])) + 1), "more than were asked for")

    def test_silence(self) -> None:
        """It is busy with its first order for ever, so it is asked once."""
        self.assert_named(lambda order, answer: RUNNING, "it is silent after", seconds=3, refused=1)

    def test_an_exception(self) -> None:
        self.assert_named(lambda order, answer: FAILED, "its answer is no bytes")

    def test_what_it_lacks(self) -> None:
        self.assert_named(lambda order, answer: b"L", "it lacks what it was sent")

    def test_that_the_program_fails(self) -> None:
        lie = b"F9 hydroplan: no stage solution: run 1 node 0 values state rows"
        self.assert_named(lambda order, answer: lie, "the program fails, which it does not here")

    def test_another_program_is_not_asked(self) -> None:
        self.assert_named(lambda order, answer: b"P", "is not asked: it has another program", refused=1)

    def test_a_worker_that_leaves_is_not_blamed(self) -> None:
        """It leaves with its first order, twice more when it is done, and comes back: no refusal is counted."""
        gone: List[int] = []

        def leave(order: Dict[str, object], answer: bytes) -> object:
            gone.append(1)
            return (GONE, LEFT, LEFT)[len(gone) - 1] if len(gone) < 4 else answer

        engine = PlainEngine("abc", {"b": leave})
        _, said = farmed(example(self.NAME), self.room / "journal", engine, self.COUNT, self.PARTS)
        self.assertEqual((self.room / "journal").read_bytes(), self.honest)
        self.assertEqual([it for it in said if it.startswith("worker")], ["worker b left"] * 3)
        self.assertEqual(json.loads((self.room / "journal.farm").read_bytes())["refusals"], {})

    def test_only_liars(self) -> None:
        """Nobody is left to ask: what was proved stays, and the run ends."""
        with self.assertRaisesRegex(FarmError, "no worker is left"):
            farmed(example(self.NAME), self.room / "journal", PlainEngine("ab", {"a": tampered(8), "b": tampered(8)}), 9, 2, seconds=3)
        self.assertIn("total iterations 0", ran(example(self.NAME), "check", str(self.room / "journal")))

    def test_refusals_are_kept(self) -> None:
        """Whoever was refused three times is not asked by the next run either."""
        self.assert_named(tampered(8), "iteration")
        engine = PlainEngine(["honest one", "liar"], {"liar": tampered(8)})
        farmed(example(self.NAME), self.room / "journal", engine, self.COUNT + 5, 2)
        self.assertNotIn("liar", engine.asked)


if __name__ == "__main__":
    unittest.main()
