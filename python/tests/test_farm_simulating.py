"""Scenarios by several workers: the text of one program for the seeds of the parts, and reports that are none are refused."""
from __future__ import annotations

import unittest
from typing import List

from farm_support import PROGRAM, Folder, Lie, PlainEngine, example, ran, trained

from hydroplan.farm.errors import FarmError
from hydroplan.farm.rounds import part_seed
from hydroplan.farm.shape import shape_of
from hydroplan.farm.simulate_command import SimulationWords, simulate
from hydroplan.farm.simulating import parts_of

NAME = "three_stages"


class Simulating(Folder):
    def setUp(self) -> None:
        super().setUp()
        self.journal = trained(example(NAME), self.room / "journal", 7, 8)

    def simulated(self, count: int, engine: PlainEngine) -> List[str]:
        """The lines of a simulation with seed 11; `said` has what was said."""
        self.said: List[str] = []
        words = SimulationWords(self.journal, 11, count, 600, PROGRAM)
        return list(simulate(words, example(NAME), self.said.append, lambda: engine))

    def wanted(self, count: int) -> List[str]:
        """The lines that the program writes for the seeds of the parts, with the scenarios numbered through and one head."""
        lines, end = [it for it in ran(example(NAME), "check", str(self.journal)).splitlines() if it.split()[0] in HEAD], ""
        for part, first in enumerate(range(0, count, 50)):
            own = ran(example(NAME), "simulate", str(self.journal), str(part_seed(11, part)), str(min(50, count - first))).splitlines()
            for line in own[:-1]:
                word, _, number = line.partition(" ")
                if word not in HEAD:
                    lines.append(f"scenario {int(number) + first}" if word == "scenario" else line)
            end = own[-1]
        return [*lines, end]

    def test_has_the_text_of_one_program(self) -> None:
        for count, workers in ((1, "a"), (50, "ab"), (130, "abc")):
            self.assertEqual(self.simulated(count, PlainEngine(workers)), self.wanted(count))

    def test_first_part_has_the_seed_itself(self) -> None:
        self.assertEqual(self.simulated(50, PlainEngine("a")), ran(example(NAME), "simulate", str(self.journal), "11", "50").splitlines())

    def test_no_scenarios(self) -> None:
        self.assertEqual(self.simulated(0, PlainEngine("a")), ran(example(NAME), "simulate", str(self.journal), "11", "0").splitlines())

    def test_reports_that_are_none_are_refused(self) -> None:
        lies: List[Lie] = [
            lambda order, answer: b"S", lambda order, answer: answer[:-1], lambda order, answer: answer + b"bound 1\n",
            lambda order, answer: answer.replace(b"scenario 1\n", b"scenario 7\n"), lambda order, answer: answer.replace(b"cost", b"lost", 1),
            lambda order, answer: answer.replace(b"node 0", b"node 9", 1), lambda order, answer: b"S\xff\xfe", lambda order, answer: b"T",
            lambda order, answer: answer.replace(b"\nend ", b"\nhydroplan: all is well\nend ", 1), lambda order, answer: b"F9 no stage solution",
        ]
        honest = self.wanted(200)
        for at, lie in enumerate(lies):
            with self.subTest(at):
                (self.room / "journal.farm").unlink(missing_ok=True)
                self.assertEqual(self.simulated(200, PlainEngine("ab", {"b": lie})), honest)
                self.assertTrue(self.said and all(it.startswith("worker b refused: its report") or "its answer is" in it or "fails" in it
                                                  for it in self.said), self.said)

    def test_a_journal_that_is_refused(self) -> None:
        self.journal.write_bytes(self.journal.read_bytes()[:-1])
        with self.assertRaisesRegex(FarmError, "Short at"):
            self.simulated(5, PlainEngine("a"))

    def test_parts(self) -> None:
        """At most 50 scenarios a part, and as few as formula 4 allows for; 2^22 over its value for one scenario."""
        shape = shape_of(example("twenty_plants"))
        parts = parts_of(shape, 3, 1234)
        self.assertEqual(sum(it.count for it in parts), 1234)
        self.assertEqual([it.first for it in parts], [50 * it for it in range(25)])
        self.assertEqual([it.seed for it in parts], [part_seed(3, it) for it in range(25)])


HEAD = ("hydroplan", "scale", "state", "node")

if __name__ == "__main__":
    unittest.main()
