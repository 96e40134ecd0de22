"""Workers whose process lives on between rounds: the same journal as without, whatever becomes of the process, and the engine of one machine.

The process is the one that HYDROPLAN_WORKER names, else the `hydroplan_worker` in bin, else a program in its place, `standin_worker`.
"""
from __future__ import annotations

import gc
import os
import random
import signal
import subprocess
import sys
import tempfile
import time
import unittest
from contextlib import contextmanager
from pathlib import Path
from typing import Dict, Iterator, List, Optional
from unittest import mock

from farm_support import PROGRAM, Folder, PlainEngine, example, farmed, ran, trained
from cluster_support import environment, farm_command

from hydroplan.farm import local_engine
from hydroplan.farm.engine import Call
from hydroplan.farm.errors import FarmError
from hydroplan.farm.living import Living
from hydroplan.farm.local_engine import LocalEngine
from hydroplan.farm.pieces import behind
from hydroplan.farm.program import KEPT_WORKER, WORKER_VARIABLE
from hydroplan.farm.simulate_command import SimulationWords, simulate
from hydroplan.farm.train_command import Words, train
from hydroplan.farm.work import Worker

STANDIN = Path(__file__).resolve().with_name("standin_worker")
LIVING = Path(os.environ.get(WORKER_VARIABLE) or (KEPT_WORKER if KEPT_WORKER.is_file() else STANDIN))
NAME, COUNT, PARTS = "three_stages", 11, 3


class Killing(LocalEngine):
    """An engine that kills processes of its workers at drawn waits for them, up to five of them."""

    MOST = 5

    def __init__(self, count: int, seed: int) -> None:
        super().__init__(count, PROGRAM)
        self._drawn = random.Random(seed)
        self._left = self._drawn.randint(0, 3)
        self.kills = 0

    def wait(self, calls: List[Call], seconds: float) -> None:
        busy = [it for it in (call.living() for call in calls) if it is not None]
        if busy and self.kills < self.MOST and self._left == 0:
            self._drawn.choice(busy)._process.kill()
            self.kills += 1
        if busy:
            self._left = self._left - 1 if self._left else self._drawn.randint(0, 3)
        super().wait(calls, seconds)


@contextmanager
def noted() -> Iterator[List[Living]]:
    """The processes that are begun."""
    begun: List[Living] = []
    begin = Living.__init__

    def begin_noted(living: Living, *words: object) -> None:
        begin(living, *words)
        begun.append(living)

    with mock.patch.object(Living, "__init__", begin_noted):
        yield begun


class TrainingTheSame(Folder):
    """All tests train the same: three stages, in three parts."""

    honest: Dict[Optional[int], bytes] = {}

    @classmethod
    def setUpClass(cls) -> None:
        with tempfile.TemporaryDirectory() as room, mock.patch.dict(os.environ, {WORKER_VARIABLE: ""}):
            for batch in (None, 2):
                farmed(example(NAME), Path(room) / f"honest-{batch}", PlainEngine("abc"), COUNT, PARTS, batch=batch)
                cls.honest[batch] = (Path(room) / f"honest-{batch}").read_bytes()

    def living(self, program: object) -> None:
        """Has all workers of a test take this program for the one that lives on."""
        patch = mock.patch.dict(os.environ, {WORKER_VARIABLE: str(program)})
        patch.start()
        self.addCleanup(patch.stop)

    def first(self, deed: str) -> Path:
        """A program whose first process does a deed, and whose others are good."""
        made = self.room / "living"
        made.write_text(f"#!/bin/sh\nif mkdir '{self.room}/begun' 2> /dev/null; then {deed}; fi\nexec '{LIVING}'\n", encoding="ascii")
        made.chmod(0o755)
        return made

    def trained_by(self, engine: object, seconds: float = 600, batch: Optional[int] = None) -> List[str]:
        """What is said of a training, whose journal has the bytes of honest workers without processes that live on."""
        journal = self.room / "journal"
        _, said = farmed(example(NAME), journal, engine, COUNT, PARTS, seconds, batch)
        self.assertEqual(journal.read_bytes(), self.honest[batch])
        return said


class OfOneMachine(TrainingTheSame):
    def test_leaves_the_same_bytes(self) -> None:
        """With paths one by one and in batches, with as many workers as parts and with fewer; nobody is named."""
        self.living(LIVING)
        for engine, batch in ((LocalEngine(3, PROGRAM), None), (LocalEngine(2, PROGRAM), 2), (PlainEngine("ab"), None)):
            said = self.trained_by(engine, batch=batch)
            self.assertEqual([it for it in said if it.startswith("worker")], [])
            for name in ("journal", "journal.farm"):
                (self.room / name).unlink()

    def test_processes_begin_before_their_first_orders(self) -> None:
        """They read the problem while the program looks at it, and the first orders go to them."""
        self.living(LIVING)
        with noted() as begun:
            self.trained_by(LocalEngine(3, PROGRAM))
        self.assertEqual(len(begun), 3)

    def test_a_problem_that_is_longer_than_pipes(self) -> None:
        """It is given to processes as they take it."""
        self.living(LIVING)
        problem = example(NAME) + b" " * 5_000_000
        farmed(problem, self.room / "journal", LocalEngine(3, PROGRAM), COUNT, PARTS)
        with mock.patch.object(local_engine, "MOST_FEEDING", 0):
            farmed(problem, self.room / "later", LocalEngine(3, PROGRAM), COUNT, PARTS)
        with mock.patch.dict(os.environ, {WORKER_VARIABLE: ""}):
            farmed(problem, self.room / "other", PlainEngine("abc"), COUNT, PARTS)
        for name in ("journal", "later"):
            self.assertEqual((self.room / name).read_bytes(), (self.room / "other").read_bytes())

    def test_a_problem_that_is_refused(self) -> None:
        """The program's line is told, and no process is left."""
        self.living(LIVING)
        with noted() as begun, self.assertRaisesRegex(FarmError, "problem refused: NotJson at whole") as raised:
            farmed(b"no problem", self.room / "journal", LocalEngine(2, PROGRAM), COUNT, PARTS)
        self.assertEqual((raised.exception.status, [it.is_alive() for it in begun]), (5, [False, False]))

    def test_goes_on_from_a_journal(self) -> None:
        """A process that begins behind records takes them as one part."""
        self.living(LIVING)
        journal = trained(example(NAME), self.room / "journal", 7, 5)
        _, said = farmed(example(NAME), journal, LocalEngine(2, PROGRAM), 9, 2)
        with mock.patch.dict(os.environ, {WORKER_VARIABLE: ""}):
            other = trained(example(NAME), self.room / "other", 7, 5)
            farmed(example(NAME), other, PlainEngine("a"), 9, 2)
        self.assertEqual(journal.read_bytes(), other.read_bytes())

    def answered(self, seed: int, *parts: List[bytes], ahead: int = 0) -> List[bytes]:
        """What a process answers that joins these parts, so many of which it is handed before the order."""
        living = Living(LIVING, example(NAME), 1)
        self.addCleanup(living.end)
        living.ahead(parts[:ahead], len(parts))
        self.assertTrue(living.may_join(parts))
        for others in ([[b"another"], *parts[1:]], parts[:-1]):
            self.assertEqual(living.may_join(others), not ahead)
        if parts:
            living.join(parts)
        living.train(seed, 1, 1 << 20, 60)
        found = living.answer()
        while found is None:
            living.wait(1)
            found = living.answer()
        return found

    def test_records_that_are_handed_over_before_the_order(self) -> None:
        """They are the front of the order, which brings the others, and of no other order."""
        parts = [self.answered(seed) for seed in (7, 8, 9)]
        for ahead in (1, 2, 3):
            self.assertEqual(self.answered(10, *parts, ahead=ahead), self.answered(10, *parts))

    def test_without_such_a_program(self) -> None:
        """Its orders are done by runs of the built program, each in a thread."""
        self.living("")
        self.assertEqual([it for it in self.trained_by(LocalEngine(3, PROGRAM)) if it.startswith("worker")], [])

    def test_processes_that_are_killed(self) -> None:
        """They are begun anew with all records. Who lost one at its first order twice may be named, and nobody is left out."""
        self.living(LIVING)
        engine = Killing(3, 5)
        self.trained_by(engine)
        self.assertGreater(engine.kills, 0)

    def test_a_process_that_fails(self) -> None:
        """It ends, with a status or without; it writes what is no record, or too much; and the worker is named each time."""
        for deed, words in (
            ("exit 0", "the program fails"), ("echo out of order >&2; exit 3", "the program fails"), ("printf '\\0\\0\\0\\0'; sleep 60", "the program fails"),
            ("printf '\\377\\377\\377\\377'; sleep 60", "the program fails"), ("exec cat /dev/zero", "the program fails"),
            ("printf '\\0\\0\\0\\4abcd\\0'; exec sleep 60", "the program fails|iteration|its answer is no"),
        ):
            with self.subTest(deed):
                self.living(self.first(deed))
                named = [it for it in self.trained_by(LocalEngine(2, PROGRAM)) if it.startswith("worker")]
                self.assertEqual(len(named), 1, named)
                self.assertRegex(named[0], words)
                for name in ("journal", "journal.farm"):
                    (self.room / name).unlink()
                (self.room / "begun").rmdir()

    def test_a_process_that_writes_nothing(self) -> None:
        """It is silent; its part goes to another worker."""
        self.living(self.first("exec sleep 60"))
        named = [it for it in self.trained_by(LocalEngine(3, PROGRAM), seconds=3) if it.startswith("worker")]
        self.assertRegex("\n".join(named), "silent|the program fails")

    def test_records_of_a_liar(self) -> None:
        """The processes of honest workers end over them; the liar alone is named, and what is done again comes out the same."""
        self.living(LIVING)
        for at in (16, -1):
            engine = PlainEngine(["honest", "liar", "other"], {"liar": lambda order, answer: _changed(answer, at)})
            named = [it for it in self.trained_by(engine) if it.startswith("worker")]
            self.assertEqual([it for it in named if not it.startswith("worker liar refused: ")], [])
            self.assertEqual(len(named), 3)
            for name in ("journal", "journal.farm"):
                (self.room / name).unlink()

    def test_many_parts(self) -> None:
        """A process takes 64 parts at most. With more the built program does the orders."""
        self.living(LIVING)
        engine = PlainEngine("a")
        farmed(example(NAME), self.room / "journal", engine, 66, 65)
        with mock.patch.dict(os.environ, {WORKER_VARIABLE: ""}):
            farmed(example(NAME), self.room / "other", PlainEngine("a"), 66, 65)
        self.assertEqual((self.room / "journal").read_bytes(), (self.room / "other").read_bytes())

    def test_a_stage_without_decisions(self) -> None:
        """The program says so by itself before it is believed."""
        self.living(LIVING)
        problem = (Path(__file__).resolve().parents[2] / "tests/program/data/short-of-gas.json").read_bytes()
        with self.assertRaisesRegex(FarmError, "no stage solution: run 1 node") as raised:
            farmed(problem, self.room / "journal", LocalEngine(2, PROGRAM), 20, 2)
        self.assertEqual(raised.exception.status, 9)

    def test_a_coordinator_that_is_killed(self) -> None:
        """Before its first word or behind it: begun again it goes on, and no process of a killed one lives on."""
        kept, drawn = dict(environment(), **{WORKER_VARIABLE: str(LIVING)}), random.Random(3)
        (self.room / "problem.json").write_bytes(example(NAME))
        command = farm_command("train", str(self.room / "journal"), "7", str(COUNT), "--workers", str(PARTS))
        for deed in ("begin", "begin", "begin", "go on", "go on", "end"):
            with (self.room / "problem.json").open("rb") as problem:
                running = subprocess.Popen(command, stdin=problem, stdout=subprocess.DEVNULL, stderr=subprocess.PIPE, env=kept)
            with running:
                assert running.stderr is not None
                if deed == "go on":
                    running.stderr.readline()
                if deed != "end":
                    time.sleep(drawn.uniform(0, 0.1 if deed == "go on" else 0.5))
                    running.send_signal(signal.SIGKILL)
                said = running.stderr.read()
        self.assertEqual(running.returncode, 0, said)
        self.assertEqual((self.room / "journal").read_bytes(), self.honest[None])


class Dropped(unittest.TestCase):
    def test_ends_with_its_input(self) -> None:
        """A process that nobody ended ends where nobody knows of it any more, and its pipes are closed."""
        begun = Living(LIVING, example(NAME), 1)
        pid, pipes = begun._process.pid, (begun._process.input, begun._process.output)
        del begun
        gc.collect()
        self.assertEqual(os.waitpid(pid, 0)[0], pid)
        for pipe in pipes:
            self.assertRaises(OSError, os.fstat, pipe)


class Pieces(unittest.TestCase):
    def test_behind(self) -> None:
        """Whatever was written of pieces, what is left of them is the end of their bytes."""
        pieces = [b"ab", b"", b"c", memoryview(b"defg"), b""]
        for written in range(8):
            self.assertEqual(b"".join(behind(pieces, written)), b"abcdefg"[written:], written)


class Simulating(Folder):
    def test_of_one_machine(self) -> None:
        """The lines are those of plain workers."""
        journal = trained(example(NAME), self.room / "journal", 7, 4)
        words = SimulationWords(journal, 11, 120, 600, PROGRAM)
        found = [list(simulate(words, example(NAME), print, lambda it=it: it)) for it in (LocalEngine(2, PROGRAM), PlainEngine("ab"))]
        self.assertEqual(*found)


def _changed(answer: bytes, at: int) -> bytes:
    place = at % len(answer)
    return answer[:place] + bytes([answer[place] ^ 0x55]) + answer[place + 1:]


if __name__ == "__main__":
    unittest.main()
