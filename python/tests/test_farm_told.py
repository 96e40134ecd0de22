"""Rounds that a worker tells as it joined them: they are those of other joiners, and whatever becomes of it, the journal is the same bytes."""
from __future__ import annotations

import time
import unittest
from typing import List, Optional, Sequence
from unittest import mock

from farm_support import PROGRAM, Folder, PlainEngine, example, farmed, trained
from test_farm_living import COUNT, LIVING, NAME, PARTS, TrainingTheSame

from hydroplan.farm.joined import front_of, moved_round
from hydroplan.farm.joiner import Ended
from hydroplan.farm.journals import Growing
from hydroplan.farm.living import Living, ProcessFault
from hydroplan.farm.local_engine import LocalEngine
from hydroplan.farm.shape import shape_of
from hydroplan.farm.told import Told
from hydroplan.farm.worker_joiner import Gone


class Telling(Folder):
    """A process behind two records, and a round of two parts."""

    def setUp(self) -> None:
        super().setUp()
        self.scratch = Growing(trained(example(NAME), self.room / "copy", 7, 2), is_synced=False)
        self.addCleanup(self.scratch.__exit__, None, None, None)
        self.front = front_of(shape_of(example(NAME)), self.scratch)
        self.before = list(self.scratch.read())
        self.parts = [self.trained(self.process(), seed) for seed in (8, 9)]

    def process(self) -> Living:
        made = Living(LIVING, example(NAME), 1)
        self.addCleanup(made.end)
        made.join([self.before])
        return made

    def trained(self, living: Living, seed: int) -> List[bytes]:
        """What a process answers to an order."""
        living.train(seed, 1, 1 << 20, 60)
        found = living.answer()
        while found is None:
            living.wait(1)
            found = living.answer()
        return found

    def told(self, living: Living) -> List[bytes]:
        """The round that a process tells."""
        found = living.told()
        while found is None:
            living.wait(1)
            found = living.told()
        return found

    def test_is_the_round_as_others_join_it(self) -> None:
        """Asked for at once or part by part, it stands before the answer to the order behind it, which is as without it."""
        moved, _ = moved_round(shape_of(example(NAME)), self.front, self.parts, 1)
        plain = self.process()
        plain.join(self.parts)
        wanted = self.trained(plain, 10)
        for ahead in (1, 2):
            living = self.process()
            living.ahead(self.parts[:ahead], 2, is_told=True)
            living.join(self.parts)
            self.assertTrue(living.is_telling())
            self.assertEqual(self.told(living) if ahead == 1 else moved, moved)
            self.assertEqual(self.trained(living, 10), wanted)
            self.assertEqual(self.told(living) if ahead == 2 else moved, moved)
            self.assertFalse(living.is_telling())

    def test_an_order_that_is_given_ahead(self) -> None:
        """It stands behind the last part, and is the only one that the process may have next; its answer may be there before the order is."""
        living, plain = self.process(), self.process()
        plain.join(self.parts)
        living.ahead(self.parts[:1], 2, is_told=True, then=(10, 1))
        self.assertFalse(living.is_ahead())
        living.ahead(self.parts, 2, is_told=True, then=(10, 1))
        self.assertTrue(living.is_ahead())
        self.assertEqual([living.may_begin(seed, count, False) for seed, count in ((10, 1), (11, 1), (10, 2))], [True, False, False])
        living.wait(60)
        self.told(living)
        while not living.has_come():
            living.wait(1)
            self.assertIsNone(living.told())
        living.join(self.parts)
        self.assertEqual(self.trained(living, 10), self.trained(plain, 10))
        self.assertFalse(living.has_come())
        self.assertTrue(living.is_idle() and living.may_begin(11, 1, False))

    def test_that_is_put_into_the_copy(self) -> None:
        moved, after = moved_round(shape_of(example(NAME)), self.front, self.parts, 1)
        living = self.process()
        living.ahead(self.parts, 2, is_told=True)
        told = Told(lambda name, parts: living, self.scratch, 60)
        told.give("round", self.parts)
        said: List[Ended] = []
        while not said:
            told.wait()
            said += told.come()
        self.assertEqual([(it.records, it.end) for it in said], [(4, after.end)])
        self.assertEqual(list(self.scratch.read()), self.before + moved)

    def test_that_nobody_tells(self) -> None:
        """Nobody was asked; whoever was has ended, or is silent for so long."""
        ended, silent = self.process(), mock.Mock()
        ended.end()
        silent.told.return_value = None
        for teller, words in ((None, "no worker tells"), (ended, "it was ended"), (silent, "it is silent")):
            told = Told(lambda name, parts, teller=teller: teller, self.scratch, 0.1)
            told.give("round", self.parts)
            time.sleep(0.2)
            with self.assertRaisesRegex(Gone, words):
                list(told.come())

    def test_of_other_lengths(self) -> None:
        living = self.process()
        living.ahead([[b"ab"], [b"c"]], 2, is_told=True)
        living._came += b"\0\0\0\1a\0\0\0\1b\0"
        with mock.patch.object(living, "_read", return_value=False), self.assertRaisesRegex(ProcessFault, "a round of other lengths"):
            living.told()


class Doubted(TrainingTheSame):
    """Nobody is named in any of these trainings."""

    def trained_with(self, engine: LocalEngine) -> List[str]:
        """What is said of a training by workers that go on, whose journal has the bytes of honest workers."""
        self.living(LIVING)
        said = self.trained_by(engine)
        self.assertEqual([it for it in said if it.startswith("worker")], [])
        return said

    def test_a_round_that_is_told_otherwise(self) -> None:
        """`check` refuses it; it is joined once more by another, and whose records it has is not named."""
        tell, calls = Living.told, []

        def lie(living: Living) -> Optional[List[bytes]]:
            found = tell(living)
            calls.append(found)
            return found if found is None else [it[:-1] + bytes([it[-1] ^ 0x55]) for it in found]

        with mock.patch.object(Living, "told", lie):
            self.trained_with(LocalEngine(PARTS, PROGRAM))
        self.assertTrue(any(calls))

    def test_rounds_that_are_not_told_any_more(self) -> None:
        """From some round on nobody is asked, or whoever is says nothing of it."""
        for fault in (None, mock.Mock(**{"told.side_effect": ProcessFault(-9, "gone")})):
            engine = LocalEngine(PARTS, PROGRAM)
            tell, asked = engine.tell, []

            def ask(run: str, name: str, parts: Sequence[Sequence[bytes]]) -> object:
                asked.append(name)
                return tell(run, name, parts) if len(asked) < 2 else fault

            with mock.patch.object(engine, "tell", ask):
                self.trained_with(engine)
            self.assertGreaterEqual(len(asked), 2)
            for name in ("journal", "journal.farm"):
                (self.room / name).unlink()

    def test_what_processors_took_is_said(self) -> None:
        said = self.trained_with(LocalEngine(PARTS, PROGRAM))
        self.assertRegex("\n".join(said), r"processors were busy \d+\.\d\d s with workers and .* joining and checking are 0\.\d{3} of all")
        _, said = farmed(example(NAME), self.room / "other", PlainEngine("ab"), COUNT, PARTS)
        self.assertNotIn("processors", "\n".join(said))


if __name__ == "__main__":
    unittest.main()
