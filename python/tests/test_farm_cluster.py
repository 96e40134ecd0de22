"""Training and simulation on workers of dask, each a process of its own: killed coordinators, killed workers, workers that lie.

FARM_KILLS says how often the coordinator and a worker are killed, 10 times where it is not set.
"""
from __future__ import annotations

import os
import random
import signal
import subprocess
import tempfile
import time
import unittest
from pathlib import Path
from typing import List

from cluster_support import HAS_DISTRIBUTED, Cluster, environment, farm_command
from farm_support import PlainEngine, example, farmed, ran, trained

from hydroplan.farm.rounds import part_seed

NAME, COUNT, PARTS = "five_reservoirs", 40, 3
KILLS = int(os.environ.get("FARM_KILLS", "10"))
SECONDS = 120


@unittest.skipUnless(HAS_DISTRIBUTED, "needs dask.distributed (Debian: python3-distributed)")
class OnACluster(unittest.TestCase):
    @classmethod
    def setUpClass(cls) -> None:
        room = tempfile.TemporaryDirectory()
        cls.addClassCleanup(room.cleanup)
        cls.room = Path(room.name)
        cls.cluster = Cluster(cls.room)
        cls.addClassCleanup(cls.cluster.__exit__)
        for name in ("one", "two"):
            cls.cluster.start_worker(name)
        (cls.room / "problem.json").write_bytes(example(NAME))
        farmed(example(NAME), cls.room / "honest", PlainEngine("abc"), COUNT, PARTS)
        cls.honest = (cls.room / "honest").read_bytes()

    def begun(self, *words: str) -> "subprocess.Popen[str]":
        """A run of the farm that goes on."""
        with (self.room / "problem.json").open("rb") as problem:
            return subprocess.Popen(
                farm_command(*words), stdin=problem, stdout=subprocess.PIPE, stderr=subprocess.PIPE, env=environment(), text=True,
                start_new_session=True,
            )

    def train(self, journal: str, *words: str) -> "subprocess.Popen[str]":
        """Training in three parts on the cluster."""
        return self.begun("train", str(self.room / journal), "7", str(COUNT), "--scheduler", self.cluster.address, "--workers", str(PARTS), *words)

    def ended(self, running: "subprocess.Popen[str]") -> List[str]:
        """What a run that ends well says on standard error."""
        output, errors = running.communicate(timeout=SECONDS)
        self.assertEqual(running.returncode, 0, errors)
        self.output = output
        return errors.splitlines()

    def test_one_line_gives_what_plain_workers_give(self) -> None:
        """The report is that of `check`, without cuts."""
        said = self.ended(self.train("journal"))
        self.assertEqual((self.room / "journal").read_bytes(), self.honest)
        report = ran(example(NAME), "check", str(self.room / "journal")).splitlines()
        self.assertEqual(self.output.splitlines(), [it for it in report if not it.startswith(("cut ", "rest "))])
        self.assertRegex(said[0], r"^hydroplan: round 1: 3 iterations, bound ")
        self.assertRegex(said[-1], r"^hydroplan: iterations by worker: .*(one|two) \d+")

    def test_simulates_as_one_program_with_these_seeds(self) -> None:
        """120 scenarios are 50, 50 and 20 of three seeds; their text is that of three runs, with the numbers going on."""
        journal = str(self.room / "honest")
        running = self.begun("simulate", journal, "11", "120", "--scheduler", self.cluster.address)
        self.ended(running)
        lines: List[str] = []
        for part, count in enumerate((50, 50, 20)):
            own = ran(example(NAME), "simulate", journal, str(part_seed(11, part)), str(count)).splitlines()
            head = next(at for at, line in enumerate(own) if line.startswith("scenario"))
            begin = 0 if part == 0 else head
            for line in own[begin:-1]:
                word, _, number = line.partition(" ")
                lines.append(f"scenario {int(number) + 50 * part}" if word == "scenario" else line)
        self.assertEqual(self.output.splitlines(), [*lines, own[-1]])

    def test_killed_coordinators_and_workers_leave_the_same_bytes(self) -> None:
        """Each run is killed some time after it said some rounds, or before its first; what is begun again goes on from there."""
        drawn, kills = random.Random(KILLS), 0
        while kills < KILLS:
            for name in ("killed", "killed.farm"):
                (self.room / name).unlink(missing_ok=True)
            while self.is_killed(self.train("killed"), drawn):
                kills += 1
                self.kill_a_worker(drawn)
                if kills == KILLS:
                    self.ended(self.train("killed"))
            self.assertEqual((self.room / "killed").read_bytes(), self.honest)

    def is_killed(self, running: "subprocess.Popen[str]", drawn: random.Random) -> bool:
        """Whether a run went on until it was killed, behind up to three rounds; else it ended well."""
        rounds = drawn.randrange(4)
        for _ in range(rounds):
            running.stderr.readline()
        try:
            running.communicate(timeout=drawn.uniform(0, 1.5 if rounds == 0 else 0.3))
        except subprocess.TimeoutExpired:
            os.killpg(running.pid, signal.SIGKILL)
            running.communicate()
            return True
        self.assertEqual(running.returncode, 0)
        return False

    def kill_a_worker(self, drawn: random.Random) -> None:
        """Kills one of the workers, one time in three; it comes back."""
        if drawn.random() < 1 / 3:
            name = drawn.choice(["one", "two"])
            self.cluster.kill(name)
            self.cluster.start_worker(name)

    def test_workers_killed_at_work_leave_the_same_bytes(self) -> None:
        running = self.train("interrupted")
        for name in ("one", "two"):
            time.sleep(1.2)
            self.cluster.kill(name)
            self.cluster.start_worker(name)
        said = self.ended(running)
        self.assertEqual((self.room / "interrupted").read_bytes(), self.honest)
        self.assertEqual([it for it in said if "refused" in it], [])

    def lied(self, lie: str, journal: str, *words: str) -> List[str]:
        """What is said of a worker that lies so. The journal comes out the same."""
        self.cluster.start_worker(journal, lie)
        try:
            said = self.ended(self.train(journal, *words))
        finally:
            self.cluster.kill(journal)
        self.assertEqual((self.room / journal).read_bytes(), self.honest)
        return [it for it in said if f"worker {journal}" in it and "iterations by" not in it]

    def test_a_worker_that_sends_tampered_records_is_named(self) -> None:
        """The last multiplier is changed, which `check` alone can tell."""
        named = self.lied("return answer[:-1] + bytes([answer[-1] ^ 1]) if answer[:1] == b'T' else answer", "tampering")
        for line in named:
            self.assertRegex(line, "worker tampering (refused: .check. says: journal refused: BadCertificate|left)")

    def test_a_worker_that_sends_endless_data_is_named(self) -> None:
        named = self.lied("return bytes(300_000_000)", "endless")
        for line in named:
            self.assertRegex(line, "worker endless (refused: it sent 300,000,0.. bytes|left)")

    def test_objects_in_place_of_bytes_are_not_made(self) -> None:
        """What a worker pickles would run where it is unpickled; each process in which it does leaves a file with its number."""
        for journal, base, end in (("pickling", "object", "return It()"), ("raising", "Exception", "raise It()")):
            mark = f"open({str(self.room)!r} + '/made-%d' % __import__('os').getpid(), 'w').close()"
            lie = f"class It({base}):\n        def __reduce__(self): return (exec, ({mark!r},))\n    {end}"
            self.cluster.start_worker(journal, lie)
            running = self.train(journal)
            try:
                said = self.ended(running)
            finally:
                self.cluster.kill(journal)
            self.assertEqual((self.room / journal).read_bytes(), self.honest)
            for line in (it for it in said if f"worker {journal}" in it and "iterations by" not in it):
                self.assertRegex(line, f"worker {journal} (refused: (its answer|it raised)|left)")
            self.assertFalse((self.room / f"made-{running.pid}").exists(), journal)


class OnThisMachine(unittest.TestCase):
    def test_one_line_without_a_scheduler(self) -> None:
        """In one part the journal is that of the program alone."""
        with tempfile.TemporaryDirectory() as room:
            journal, alone = Path(room) / "journal", trained(example("two_reservoirs"), Path(room) / "alone", 7, 12)
            ended = subprocess.run(
                farm_command("train", str(journal), "7", "12", "--workers", "1"), input=example("two_reservoirs"), capture_output=True,
                env=environment(), check=False, timeout=SECONDS,
            )
            self.assertEqual((ended.returncode, journal.read_bytes()), (0, alone.read_bytes()), ended.stderr)


if __name__ == "__main__":
    unittest.main()
