"""Rounds that a process of `hydroplan_worker` joins: they are joined as Python joins them, and it ends over a record that it does not accept."""
from __future__ import annotations

import os
import signal
import time
import unittest
from typing import List, Sequence

from farm_support import Folder, example, journal_bytes, trained
from test_farm_living import LIVING

from hydroplan.farm.joined import Front, front_of, moved_round
from hydroplan.farm.joiner import Ended
from hydroplan.farm.journals import Growing
from hydroplan.farm.shape import shape_of
from hydroplan.farm.worker_joiner import Gone, WorkerJoiner

NAME = "five_reservoirs"


class JoiningByAWorker(Folder):
    """A round of two parts, one with two records and one with one, behind two records."""

    def setUp(self) -> None:
        super().setUp()
        problem = example(NAME)
        copy = trained(problem, self.room / "copy", 7, 2)
        self.scratch = Growing(copy, is_synced=False)
        self.addCleanup(self.scratch.__exit__, None, None, None)
        self.front: Front = front_of(shape_of(problem), self.scratch)
        self.before = list(self.scratch.read())
        self.parts = [self.more(copy.read_bytes(), 8, 2), self.more(copy.read_bytes(), 9, 1)]

    def more(self, front: bytes, seed: int, count: int) -> List[bytes]:
        """So many records that a part makes behind those that are there."""
        own = self.room / f"own-{seed}"
        own.write_bytes(front[:43] + seed.to_bytes(8, "big") + front[51:])
        with Growing(trained(example(NAME), own, seed, 2 + count)) as journal:
            return list(journal.read())[2:]

    def joiner(self, seconds: float = 600) -> WorkerJoiner:
        made = WorkerJoiner(LIVING, example(NAME), self.scratch, 1, seconds)
        self.addCleanup(made.end)
        return made

    def heard(self, joiner: WorkerJoiner, count: int) -> list:
        """So many things that it says."""
        found: list = []
        while len(found) < count:
            joiner.wait()
            found += joiner.come()
        return found

    def joined(self, parts: Sequence[Sequence[bytes]]) -> bytes:
        """The journal with a round, as Python joins it."""
        moved, _ = moved_round(shape_of(example(NAME)), self.front, parts, 1)
        return journal_bytes(example(NAME), 7, self.before + moved)

    def test_joins_as_python_does(self) -> None:
        joiner = self.joiner()
        joiner.give(self.parts)
        said = self.heard(joiner, 1)[0]
        self.assertEqual((said.records, said.end), (5, self.scratch.end))
        self.assertEqual((self.room / "copy").read_bytes(), self.joined(self.parts))

    def test_ends_over_a_record_that_is_not_accepted(self) -> None:
        """What was joined before stays."""
        joiner = self.joiner()
        joiner.give([self.parts[0][:1], []])
        self.assertIsInstance(self.heard(joiner, 1)[0], Ended)
        joiner.give([[], [self.parts[1][0][:-1]]])
        with self.assertRaisesRegex(Gone, "6: hydroplan_worker: part 2 record 1 is not accepted"):
            self.heard(joiner, 1)
        self.assertEqual((self.room / "copy").read_bytes(), self.joined([self.parts[0][:1], []]))

    def test_that_is_gone(self) -> None:
        joiner = self.joiner()
        os.kill(joiner._process.pid, signal.SIGKILL)
        with self.assertRaises(Gone):
            self.heard(joiner, 1)

    def test_that_is_silent(self) -> None:
        """It neither ends nor tells: it is as good as gone after so many seconds, and not before it has something to tell."""
        joiner = self.joiner(seconds=0.2)
        time.sleep(0.3)
        self.assertEqual(list(joiner.come()), [])
        os.kill(joiner._process.pid, signal.SIGSTOP)
        joiner.give(self.parts)
        with self.assertRaisesRegex(Gone, "it is silent"):
            self.heard(joiner, 1)


if __name__ == "__main__":
    unittest.main()
