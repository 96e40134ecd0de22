"""The process that joins rounds beside training: it leaves what joining leaves, says who is to blame, and ends with whoever began it."""
from __future__ import annotations

import os
import signal
import unittest
from typing import List, Optional

from farm_support import Folder, example, journal_bytes, number, ran, trained

from hydroplan.farm.errors import FarmError
from hydroplan.farm.joined import Front, PartFault, front_of, moved_round
from hydroplan.farm.joiner import Ended, Joiner
from hydroplan.farm.journals import Growing, framed
from hydroplan.farm.shape import Shape, shape_of

NAME = "five_reservoirs"


class Joining(Folder):
    """Rounds of two parts behind two records."""

    def setUp(self) -> None:
        super().setUp()
        self.shape: Shape = shape_of(example(NAME))
        self.scratch = Growing(trained(example(NAME), self.room / "copy", 7, 2), is_synced=False)
        self.addCleanup(self.scratch.__exit__, None, None, None)
        self.front: Front = front_of(self.shape, self.scratch)

    def joiner(self, front: Optional[Front]) -> Joiner:
        made = Joiner(self.shape, front, self.scratch, 1)
        self.addCleanup(made.end)
        return made

    def heard(self, joiner: Joiner, count: int) -> list:
        """So many things that it says."""
        found: list = []
        while len(found) < count:
            joiner.wait()
            found += joiner.come()
        return found

    def rounds(self, count: int) -> List[List[List[bytes]]]:
        """Rounds in which both parts do the same, each behind the rounds before."""
        made, front = [], self.front
        records = list(self.scratch.read())
        for _ in range(count):
            place = self.room / "whole"
            place.write_bytes(journal_bytes(example(NAME), 7, records))
            ran(example(NAME), "train", str(place), "7", str(len(records) + 1))
            with Growing(place) as journal:
                own = list(journal.read())[-1]
            made.append([[own], [own]])
            moved, front = moved_round(self.shape, front, made[-1], 1)
            records += moved
        self.wanted, self.after = records, front
        return made

    def test_leaves_what_joining_leaves(self) -> None:
        """Where the front is known, and where it is found out from the copy."""
        made, begin = self.rounds(3), (self.room / "copy").read_bytes()
        for front in (self.front, None):
            joiner = self.joiner(front)
            for it in made:
                joiner.give(it)
            said = self.heard(joiner, 3)
            self.assertEqual([it.records for it in said], [4, 6, 8])
            self.assertEqual((said[-1].end, (self.room / "copy").read_bytes()), (self.after.end, journal_bytes(example(NAME), 7, self.wanted)))
            (self.room / "copy").write_bytes(begin)

    def test_says_which_part_is_to_blame(self) -> None:
        good, second = self.rounds(2)
        joiner = self.joiner(self.front)
        joiner.give(good)
        joiner.give([second[0], [second[1][0][:-1]]])
        joiner.give(second)
        first, fault = self.heard(joiner, 2)
        self.assertIsInstance(first, Ended)
        self.assertIsInstance(fault, PartFault)
        self.assertEqual(fault.part, 1)
        self.assertRegex(str(fault), "its record 1 is none of this problem: the record ends within a certificate")
        self.assertEqual((self.room / "copy").read_bytes()[:-1], journal_bytes(example(NAME), 7, self.wanted[:4])[:-1])

    def test_more_than_a_pipe_holds(self) -> None:
        """What it does not take at once is left, and given when it takes more."""
        made = self.rounds(1)[0]
        joiner = self.joiner(self.front)
        os.kill(joiner._pid, signal.SIGSTOP)
        joiner.give([made[0] * 2_000, made[1]])
        self.assertTrue(joiner._left)
        os.kill(joiner._pid, signal.SIGCONT)
        fault = self.heard(joiner, 1)[0]
        self.assertRegex(str(fault), "its record 2 is none of this problem: iteration 3 in place of 4")

    def test_that_is_gone(self) -> None:
        joiner = self.joiner(self.front)
        os.kill(joiner._pid, signal.SIGKILL)
        with self.assertRaisesRegex(FarmError, "the process that joins rounds is gone"):
            self.heard(joiner, 1)

    def test_holds_no_other_file(self) -> None:
        """A pipe whose end is closed here is at its end, though the process goes on."""
        read, written = os.pipe()
        self.joiner(self.front)
        os.close(written)
        self.assertEqual(os.read(read, 1), b"")
        os.close(read)


class Put(Folder):
    def test_from_another_journal(self) -> None:
        records = [number(it, 4) * it for it in range(1, 6)]
        whole, journal = self.room / "whole", self.room / "journal"
        whole.write_bytes(journal_bytes(b"{}", 7, records))
        journal.write_bytes(journal_bytes(b"{}", 7, records[:2]))
        begin, end = (51 + sum(1 + len(framed(it)) for it in records[:count]) for count in (2, 4))
        with Growing(whole) as source, Growing(journal) as growing:
            self.assertEqual(len(list(growing.read())), 2)
            growing.append_from(source, begin, begin, 0)
            growing.append_from(source, begin, end, 2)
            self.assertEqual(growing.records, 4)
        self.assertEqual(journal.read_bytes(), journal_bytes(b"{}", 7, records[:4]))


if __name__ == "__main__":
    unittest.main()
