"""Processes that begin before most modules are there: for which words that is so, and that what comes of them is the same."""
from __future__ import annotations

import io
import os
import subprocess
import sys
import tempfile
import unittest
from pathlib import Path
from typing import List
from unittest import mock

from cluster_support import environment
from farm_support import PROGRAM, Folder, PlainEngine, example, farmed, trained

from hydroplan.farm import command, early
from hydroplan.farm.early import BEGUN, Begun
from hydroplan.farm.living import MOST_JOINED
from hydroplan.farm.local_engine import LocalEngine
from hydroplan.farm.program import KEPT_WORKER, NEWER, NEWER_WORKER, WORKER_VARIABLE
from hydroplan.farm.shape import MOST_ITERATIONS, MOST_PATHS
from hydroplan.farm.train_command import Words, train
from hydroplan.repository import TOP

COMMAND = [sys.executable, str(TOP / "python" / "__main__.py")]
NAME, COUNT, PARTS = "three_stages", 11, 3
IS_PLAIN = KEPT_WORKER.is_file() and not NEWER.exists() and not NEWER_WORKER.exists() and WORKER_VARIABLE not in os.environ


class Plain(unittest.TestCase):
    def test_words(self) -> None:
        """Those of the script with good numbers; all others are left to whoever reads words."""
        for words, wanted in (
            ("train j 7 11 --workers 3", {"seed": 7, "count": 11, "--workers": 3}),
            ("train j 0 2000 64 --workers 64 --timeout 9", {"seed": 0, "count": 2000, "batch": 64, "--workers": 64, "--timeout": 9}),
            ("train j 7 0 --workers 3", None), ("train j 7 2001 --workers 3", None), ("train j 07 1 --workers 3", None),
            ("train j 7 11 --workers 65", None), ("train j 7 11 --workers 0", None), ("train j 7 11 65 --workers 2", None),
            ("train j 7 11", None), ("train j 7 11 --timeout 3", None), ("train j 7 11 --workers", None), ("train j 7 11 --workers=3", None),
            ("train j 7 11 --workers 3 --scheduler a", None), ("train -h --workers 3", None), ("join j 7 11 --workers 3", None), ("train", None),
            ("train j 7 11 --workers 3 -h", None), ("train j 18446744073709551616 11 --workers 3", None), ("train j -7 11 --workers 3", None),
        ):
            with self.subTest(words):
                self.assertEqual(early._plain(words.split()), wanted)

    def test_limits(self) -> None:
        """They are those of whoever reads the words."""
        self.assertEqual(early.MOST, {
            "seed": command.MOST_SEED, "count": MOST_ITERATIONS, "batch": MOST_PATHS, "--workers": MOST_JOINED, "--timeout": 1_000_000,
        })
        self.assertEqual(early.MOST_PROBLEM, command.MOST_PROBLEM)
        for name, most in (("SEED", "seed"), ("COUNT", "count"), ("BATCH", "batch")):
            given = {"SEED": "7", "COUNT": "1", "BATCH": "1", name: str(early.MOST[most])}
            command.parser().parse_args(["train", "j", *given.values(), "--workers", "64", "--timeout", str(early.MOST["--timeout"])])

    def test_places(self) -> None:
        """They are those that `built_program` and `built_worker` look at."""
        self.assertEqual((early.TOP, early.NEWER), (str(TOP), [str(NEWER), str(NEWER_WORKER)]))
        self.assertEqual((early.KEPT, early.KEPT_WORKER), (str(PROGRAM), str(KEPT_WORKER)))


@unittest.skipUnless(IS_PLAIN, "the programs in bin are not those that would run")
class Beginning(Folder):
    def setUp(self) -> None:
        super().setUp()
        self.addCleanup(BEGUN.end)
        self.journal = self.room / "journal"

    def words(self, *batch: str, workers: int = PARTS, count: int = COUNT) -> List[str]:
        return ["train", str(self.journal), "7", str(count), *batch, "--workers", str(workers)]

    def begin(self, words: List[str], begun: Begun = BEGUN) -> None:
        with mock.patch.object(sys, "stdin", io.TextIOWrapper(io.BytesIO(example(NAME)))):
            begun.begin(words)

    def honest(self, count: int = COUNT, parts: int = PARTS, batch=None) -> bytes:
        """What plain workers leave, without processes that live on."""
        with tempfile.TemporaryDirectory() as room, mock.patch.dict(os.environ, {WORKER_VARIABLE: ""}):
            farmed(example(NAME), Path(room) / "journal", PlainEngine("abc"), count, parts, batch=batch)
            return (Path(room) / "journal").read_bytes()

    def test_all_are_taken_with_their_first_orders(self) -> None:
        """No other process begins, and the workers are asked for nothing twice."""
        for batch in (None, 2):
            self.begin(self.words(*([] if batch is None else [str(batch)])))
            self.assertEqual([it.first is not None for it in BEGUN._workers], [True] * PARTS)
            with mock.patch("hydroplan.farm.living.Process", side_effect=AssertionError("another process")):
                train(Words(self.journal, 7, COUNT, batch, PARTS, None), BEGUN.problem, [].append, lambda _: LocalEngine(PARTS, PROGRAM))
            self.assertEqual((BEGUN._workers, BEGUN._making), ([], None))
            self.assertEqual(self.journal.read_bytes(), self.honest(batch=batch))
            for file in self.room.iterdir():
                file.unlink()

    def test_of_another_seed_have_another_order(self) -> None:
        """They are ended, and others begin in their place."""
        self.begin(["train", str(self.room / "other"), "8", str(COUNT), "--workers", str(PARTS)])
        train(Words(self.journal, 7, COUNT, None, PARTS, None), example(NAME), [].append, lambda _: LocalEngine(PARTS, PROGRAM))
        self.assertEqual(self.journal.read_bytes(), self.honest())

    def test_where_the_journal_is_there(self) -> None:
        trained(example(NAME), self.journal, 7, 2)
        self.begin(self.words())
        self.assertEqual((BEGUN.problem, BEGUN._workers), (None, []))

    def test_those_that_nobody_takes_are_ended(self) -> None:
        begun = Begun()
        self.begin(self.words(), begun)
        left = [it.process for it in begun._workers] + [begun._making[2]]
        begun.end()
        self.assertEqual([it.returncode is None for it in left], [False] * (PARTS + 1))

    def test_commands(self) -> None:
        """More workers than iterations, a problem that is longer than pipes, and one that is refused."""
        for problem, workers, count in ((example(NAME), 3, 2), (example(NAME) + b" " * 3_000_000, 2, 3)):
            ended = subprocess.run(
                [*COMMAND, *self.words(workers=workers, count=count)], input=problem, capture_output=True, env=environment(), check=True,
            )
            self.assertIn(f"total iterations {count} unsettled", ended.stdout.decode())
            if problem == example(NAME):
                self.assertEqual(self.journal.read_bytes(), self.honest(count, workers))
            for file in self.room.iterdir():
                file.unlink()
        ended = subprocess.run([*COMMAND, *self.words()], input=b"no problem", capture_output=True, env=environment(), check=False)
        self.assertEqual((ended.returncode, ended.stderr.decode()), (5, "hydroplan: problem refused: NotJson at whole 0 0 0\n"))


if __name__ == "__main__":
    unittest.main()
