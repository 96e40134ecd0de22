"""Joined journals: the program accepts them and goes on, they have the cuts of all, and what is faulty is refused beforehand."""
from __future__ import annotations

import json
import unittest
from itertools import permutations
from pathlib import Path
from typing import Dict, List, Sequence

from farm_support import EXAMPLES, UNIT, Folder, bound_of, cuts_of, example, journal_bytes, number, ran, trained, with_seed

from hydroplan.farm.errors import FarmError
from hydroplan.farm.joining import Joined, join
from hydroplan.farm.shape import shape_of


def chain(nodes: int) -> bytes:
    """Nodes one after another, without rows: each has one decision u in [0, 1] of cost 1, and one realization."""
    stage = {"variables": [{"name": "u"}], "objective": {"sense": "min", "function": {
        "type": "ScalarAffineFunction", "terms": [{"coefficient": 1, "variable": "u"}], "constant": 0}}, "constraints": [
        {"function": {"type": "Variable", "name": "u"}, "set": {"type": "Interval", "lower": 0, "upper": 1}}]}
    made = {f"n{it}": {"subproblem": "p", "realizations": [{"probability": 1}], "successors": {f"n{it + 1}": 1} if it + 1 < nodes else {}}
            for it in range(nodes)}
    return json.dumps({
        "version": {"major": 1, "minor": 0}, "root": {"successors": {"n0": 1}}, "nodes": made,
        "subproblems": {"p": {"subproblem": stage}},
    }).encode()


def entry(iteration: int, *pairs: Dict[int, int]) -> bytes:
    """An entry of a chain: at each node before the last one pairs of places and multipliers, the last such node first."""
    parts = [number(iteration, 4), number(0, 4), number(len(pairs) + 1, 2), number(len(pairs), 2)]
    for back, own in enumerate(pairs):
        parts += [number(len(pairs) - 1 - back, 2), number(len(own), 4)]
        parts += [number(place, 4) + number(multiplier, 8) for place, multiplier in own.items()]
    return b"".join(parts)


class ByHand(Folder):
    """Two nodes without rows: a record has the pairs of the first node alone."""

    PROBLEM = chain(2)

    def joined(self, *journals: Sequence[bytes], batch=None, kept=None) -> bytes:
        """The bytes of what is joined of journals with these records."""
        paths: List[Path] = []
        for at, payloads in enumerate(journals):
            paths.append(self.room / f"{at}.journal")
            paths[-1].write_bytes(journal_bytes(self.PROBLEM, 5 + at, payloads, kept))
            ran(self.PROBLEM, "check", str(paths[-1]))
        target = self.room / "joined"
        target.unlink(missing_ok=True)
        join(shape_of(self.PROBLEM), target, paths, batch)
        ran(self.PROBLEM, "check", str(target))
        return target.read_bytes()

    def test_in_turns_with_places_moved(self) -> None:
        """Cut 1 of the second journal stands behind that of the first, so it becomes cut 2, and cut 2 of the first becomes cut 3."""
        first = [entry(1, {1: UNIT}), entry(2, {1: 1, 2: UNIT - 1}), entry(3, {0: 2, 3: UNIT - 2})]
        second = [entry(1, {0: 3, 1: UNIT - 3}), entry(2, {0: 5, 1: 6, 2: UNIT - 11})]
        moved = [entry(1, {1: UNIT}), entry(2, {0: 3, 2: UNIT - 3}), entry(3, {1: 1, 3: UNIT - 1}), entry(4, {0: 5, 2: 6, 4: UNIT - 11}),
                 entry(5, {0: 2, 5: UNIT - 2})]
        self.assertEqual(self.joined(first, second), journal_bytes(self.PROBLEM, 5, moved))

    def test_after_a_record_in_common(self) -> None:
        """Cut 1 is in common; cut 2 of the second journal stands behind that of the first."""
        first = [entry(1, {1: UNIT}), entry(2, {1: 1, 2: UNIT - 1}), entry(3, {0: 2, 3: UNIT - 2})]
        second = [entry(1, {1: UNIT}), entry(2, {0: 5, 1: 6, 2: UNIT - 11})]
        moved = [*first[:2], entry(3, {0: 5, 1: 6, 3: UNIT - 11}), entry(4, {0: 2, 4: UNIT - 2})]
        self.assertEqual(self.joined(first, second), journal_bytes(self.PROBLEM, 5, moved))

    def test_packs_paths_into_records(self) -> None:
        """Three journals of one path each and one record make one record of three paths, and that again three records of one."""
        made = self.joined([entry(1, {1: UNIT})], [entry(1, {0: UNIT})], [entry(1, {0: 1, 1: UNIT - 1})], batch=3)
        packed = entry(1, {1: UNIT}) + entry(1, {0: UNIT}) + entry(1, {0: 1, 3: UNIT - 1})
        self.assertEqual(made, journal_bytes(self.PROBLEM, 5, [packed], 3))
        alone = [entry(1, {1: UNIT}), entry(2, {0: UNIT}), entry(3, {0: 1, 3: UNIT - 1})]
        self.assertEqual(self.joined([packed], batch=1, kept=3), journal_bytes(self.PROBLEM, 5, alone, 1))

    def test_refuses_what_leaves_paths_over(self) -> None:
        with self.assertRaisesRegex(FarmError, "3 paths make no whole records of 2: 1 would be left over"):
            self.joined([entry(1, {1: UNIT})], [entry(1, {0: UNIT})], [entry(1, {0: 1, 1: UNIT - 1})], batch=2)


class Refused(Folder):
    """Nothing is written where a journal is faulty, or where there are too many records."""

    PROBLEM = chain(2)

    def refusal(self, *journals: bytes, batch=None) -> FarmError:
        """Why journals of these bytes are not joined."""
        paths = [self.room / str(it) for it in range(len(journals))]
        for path, data in zip(paths, journals):
            path.write_bytes(data)
        with self.assertRaises(FarmError) as raised:
            join(shape_of(self.PROBLEM), self.room / "joined", paths, batch)
        self.assertEqual(sorted(self.room.glob("joined*")), [])
        return raised.exception

    def test_faulty_journals(self) -> None:
        good = journal_bytes(self.PROBLEM, 5, [entry(1, {1: UNIT}), entry(2, {0: UNIT})])
        place, node = entry(1, {2: UNIT}), bytearray(entry(1, {1: UNIT}))
        node[11] = 9
        faulty = {
            "Short at": good[:-1], "no journal": b"", "OtherVersion 3": good[:10] + b"\x03" + good[11:],
            "OtherProblem": journal_bytes(chain(3), 5, []), "a pair of cut 2 of node 1, which has 2": journal_bytes(self.PROBLEM, 5, [place]),
            "a step at node 9": journal_bytes(self.PROBLEM, 5, [bytes(node)]),
            "iteration 2 in place of 1": journal_bytes(self.PROBLEM, 5, [entry(2, {1: UNIT})]),
            "bytes behind the last entry": journal_bytes(self.PROBLEM, 5, [entry(1, {1: UNIT}) + b"\x00"]),
            "BadLength iteration 1": good[:51] + b"\x01\xff\xff\xff\xff", "BadBatch 65": journal_bytes(self.PROBLEM, 5, [], 65),
            "Short at 5": journal_bytes(self.PROBLEM, 5, [b""]),
        }
        for front in range(1, len(entry(1, {1: UNIT}))):
            faulty[f"BadRecord iteration 1: (?#{front})"] = journal_bytes(self.PROBLEM, 5, [entry(1, {1: UNIT})[:front]])
        for words, data in faulty.items():
            with self.subTest(words):
                fault = self.refusal(good, data)
                self.assertRegex(str(fault), words)
                self.assertEqual(fault.status, 6)

    def test_batches_that_differ(self) -> None:
        one = journal_bytes(self.PROBLEM, 5, [entry(1, {1: UNIT})])
        two = journal_bytes(self.PROBLEM, 5, [entry(1, {1: UNIT}) + entry(1, {0: UNIT})], 2)
        self.assertRegex(str(self.refusal(one, two)), "batches of several sizes")

    def test_too_many_records_are_told_beforehand(self) -> None:
        """1,500 and 1,500 records that differ are 3,000; in records of 2 paths they are 1,500."""
        first = journal_bytes(self.PROBLEM, 5, [entry(it, {0: UNIT}) for it in range(1, 1501)])
        second = journal_bytes(self.PROBLEM, 5, [entry(it, {1: UNIT}) for it in range(1, 1501)])
        fault = self.refusal(first, second)
        self.assertEqual(fault.status, 7)
        self.assertRegex(str(fault), "3,000 records, limit 2,000.* 3,000 paths fit into records of 2 paths")
        join(shape_of(self.PROBLEM), self.room / "joined", [self.room / "0", self.room / "1"], 2)
        self.assertIn("total iterations 1500 unsettled 0", ran(self.PROBLEM, "check", str(self.room / "joined")))

    def test_nothing_is_written_over(self) -> None:
        good = journal_bytes(self.PROBLEM, 5, [entry(1, {1: UNIT})])
        (self.room / "good").write_bytes(good)
        with self.assertRaisesRegex(FarmError, "is there already"):
            join(shape_of(self.PROBLEM), self.room / "good", [self.room / "good"])
        self.assertEqual((self.room / "good").read_bytes(), good)


class OfTrainings(Folder):
    """Journals that the program trained, with seeds of their own."""

    def journals(self, name: str, count: int, records: int = 6, *batch: str) -> List[Path]:
        """So many trainings of an example."""
        return [trained(example(name), self.room / f"{name}-{seed}", seed, records + seed % 3, *batch) for seed in range(1, count + 1)]

    def joined(self, name: str, target: str, journals: Sequence[Path], batch=None) -> Joined:
        return join(shape_of(example(name)), self.room / target, journals, batch)

    def test_of_each_example_are_accepted_and_go_on(self) -> None:
        """The joined journal has the cuts of all, and no bound is below one of theirs, since a bound is of the greatest cuts."""
        for name in (it.stem for it in EXAMPLES):
            problem, journals = example(name), self.journals(name, 8)
            reports = [ran(problem, "check", str(it)) for it in journals]
            for count in (2, 3, 8):
                target = self.room / f"{name}-joined-{count}"
                made = self.joined(name, target.name, journals[:count])
                report = ran(problem, "check", str(target))
                with self.subTest(name, count=count):
                    cuts = sorted(cut for it in reports[:count] for cut in cuts_of(it))
                    if made.shared == 0:
                        self.assertEqual(cuts_of(report), cuts)
                    self.assertGreaterEqual(bound_of(report), max(map(bound_of, reports[:count])))
                    more = ran(problem, "train", str(target), "1", str(made.records + 2))
                    self.assertIn(f"total iterations {made.records + 2} unsettled", more)
                    self.assertGreaterEqual(bound_of(more), bound_of(report))

    def test_with_first_records_in_common(self) -> None:
        """Three trainings that go on from one of five records, under seeds of their own: those five stand there once."""
        problem = example("markov_year")
        root = trained(problem, self.room / "root", 1, 5)
        journals = [trained(problem, with_seed(root, self.room / f"on-{seed}", seed), seed, 5 + seed) for seed in (2, 3, 4)]
        made = self.joined("markov_year", "joined", journals)
        self.assertEqual(made, Joined(5 + 2 + 3 + 4, 1, 5))
        shared = cuts_of(ran(problem, "check", str(root)))
        cuts = [cut for it in journals for cut in cuts_of(ran(problem, "check", str(it)))]
        for _ in range(2):
            for cut in shared:
                cuts.remove(cut)
        self.assertEqual(cuts_of(ran(problem, "check", str(self.room / "joined"))), sorted(cuts))
        data = (self.room / "joined").read_bytes()
        self.assertTrue(data.startswith(root.read_bytes()[:43] + number(2, 8) + root.read_bytes()[51:-1]))

    def test_in_any_order_and_brackets_are_of_the_same_cuts(self) -> None:
        """Joining is associative and commutative in cuts and in the bound of all of them; the order of records is that of the words."""
        problem, journals = example("five_reservoirs"), self.journals("five_reservoirs", 3)
        found = []
        for at, order in enumerate(permutations(journals)):
            self.joined("five_reservoirs", f"all-{at}", order)
            self.joined("five_reservoirs", f"two-{at}", order[:2])
            self.joined("five_reservoirs", f"left-{at}", [self.room / f"two-{at}", order[2]])
            self.joined("five_reservoirs", f"right-{at}", [order[2], self.room / f"two-{at}"])
            found += [ran(problem, "check", str(self.room / f"{kind}-{at}")) for kind in ("all", "left", "right")]
        self.assertEqual(len({(bound_of(it), tuple(cuts_of(it))) for it in found}), 1)

    def test_of_one_or_of_the_same_are_what_they_were(self) -> None:
        for name, batch in (("two_reservoirs", ()), ("three_stages", ("3",))):
            journal = self.journals(name, 1, 6, *batch)[0]
            for times in (1, 2, 5):
                self.joined(name, f"{name}-times-{times}", [journal] * times)
                self.assertEqual((self.room / f"{name}-times-{times}").read_bytes(), journal.read_bytes())

    def test_packed_and_unpacked_are_what_they_were(self) -> None:
        journal = trained(example("cascade_plants"), self.room / "journal", 3, 12)
        self.joined("cascade_plants", "packed", [journal], 4)
        self.joined("cascade_plants", "alone", [self.room / "packed"], 1)
        self.assertEqual((self.room / "alone").read_bytes()[53:], journal.read_bytes()[51:])
        reports = [ran(example("cascade_plants"), "check", str(self.room / it)) for it in ("journal", "packed")]
        self.assertEqual(*([line for line in it.splitlines() if line.startswith("cut ")] for it in reports))
        self.assertIn("total iterations 3 unsettled", reports[1])

    def test_with_batches(self) -> None:
        problem, journals = example("three_stages"), self.journals("three_stages", 3, 4, "5")
        made = self.joined("three_stages", "joined", journals)
        self.assertEqual((made.records, made.paths), (5 + 6 + 4, 5))
        cuts = sorted(cut for it in journals for cut in cuts_of(ran(problem, "check", str(it))))
        self.assertEqual(cuts_of(ran(problem, "check", str(self.room / "joined"))), cuts)


if __name__ == "__main__":
    unittest.main()
