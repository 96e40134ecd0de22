"""The programs in `bin` are compared with the sums beside them before a farm runs them, and the bytes that were compared are what runs."""
from __future__ import annotations

import hashlib
import os
import shutil
import subprocess
import sys
import unittest
from pathlib import Path
from typing import Dict, List
from unittest import mock

from cluster_support import environment
from farm_support import PROGRAM, TOP, Folder, example, trained

from hydroplan.errors import ProgramMissing
from hydroplan.farm import program, summed
from hydroplan.farm.program import KEPT_WORKER, WORKER_VARIABLE, digest_of, program_to_run, worker_to_run
from hydroplan.farm.summed import OtherSum, compared
from hydroplan.farm.train_command import Words, train

NAME, COUNT = "three_stages", 5
OTHER_PROGRAM = "hydroplan: the program in bin is not the one that bin/SHA256SUMS names, and was not run\n"
OTHER_WORKER = "hydroplan: the program in bin/worker is not the one that bin/worker/SHA256SUMS names, and was not run\n"
KEPT = (Path("bin") / PROGRAM.name, Path("bin") / "worker" / KEPT_WORKER.name)


class Replaced(Folder):
    """A clone in which a program of `bin` was replaced by one that says a bound and leaves a file where it ran."""

    def setUp(self) -> None:
        super().setUp()
        self.top, self.ran = self.room / "clone", self.room / "ran"
        for name in ("bin", "python/hydroplan"):
            shutil.copytree(TOP / name, self.top / name, ignore=shutil.ignore_patterns("__pycache__"))
        for name in ("hydroplan", "python/__main__.py"):
            shutil.copy(TOP / name, self.top / name)
        self.journal = self.room / "journal"

    def replace(self, place: Path) -> None:
        """Puts another program in the place of one."""
        (self.top / place).unlink()
        (self.top / place).write_text(f"#!/bin/sh\ntouch {self.ran}\necho total iterations 5 unsettled 0\necho bound 999999999999\n", encoding="ascii")
        (self.top / place).chmod(0o755)

    def end(self, *words: str, named: Optional[Dict[str, str]] = None) -> "subprocess.CompletedProcess[str]":
        """How the script ends with words, in parts on two workers."""
        kept = {**environment(), **(named or {})}
        del kept["PYTHONPATH"]
        return subprocess.run(
            [str(self.top / "hydroplan"), *words, "--workers", "2"], input=example(NAME).decode(), capture_output=True, text=True, env=kept,
            check=False,
        )

    def assert_refused(self, line: str, *words: str) -> None:
        """Asserts that a run ends with this line and status 1, and that nothing replaced ran."""
        ended = self.end(*words)
        self.assertEqual((ended.returncode, ended.stdout, ended.stderr), (1, "", line))
        self.assertFalse(self.ran.exists())

    def test_as_it_is(self) -> None:
        ended = self.end("train", str(self.journal), "7", str(COUNT))
        self.assertEqual((ended.returncode, ended.stdout.splitlines()[-2]), (0, f"total iterations {COUNT} unsettled 0"), ended.stderr)

    def test_a_program(self) -> None:
        """A new journal and one that is there, trained or followed; no journal is made."""
        self.replace(KEPT[0])
        self.assert_refused(OTHER_PROGRAM, "train", str(self.journal), "7", str(COUNT))
        self.assertFalse(self.journal.exists())
        trained(example(NAME), self.journal, 7, 2)
        before = self.journal.read_bytes()
        self.assert_refused(OTHER_PROGRAM, "train", str(self.journal), "7", str(COUNT))
        self.assert_refused(OTHER_PROGRAM, "simulate", str(self.journal), "7", "3")
        self.assertEqual(self.journal.read_bytes(), before)

    def test_a_worker(self) -> None:
        self.replace(KEPT[1])
        self.assert_refused(OTHER_WORKER, "train", str(self.journal), "7", str(COUNT))
        self.assertFalse(self.journal.exists())
        trained(example(NAME), self.journal, 7, 2)
        self.assert_refused(OTHER_WORKER, "train", str(self.journal), "7", str(COUNT))

    def test_no_sum(self) -> None:
        """A missing file of sums, and one that names another program, name nothing."""
        (self.top / "bin/SHA256SUMS").write_text(f"{digest_of(PROGRAM)}  another\n", encoding="ascii")
        self.assert_refused(OTHER_PROGRAM, "train", str(self.journal), "7", str(COUNT))
        (self.top / "bin/SHA256SUMS").unlink()
        self.assert_refused(OTHER_PROGRAM, "train", str(self.journal), "7", str(COUNT))

    def test_without_the_worker(self) -> None:
        """An empty HYDROPLAN_WORKER has training do without it: it is not compared."""
        self.replace(KEPT[1])
        ended = self.end("train", str(self.journal), "7", str(COUNT), named={WORKER_VARIABLE: ""})
        self.assertEqual((ended.returncode, self.ran.exists()), (0, False), ended.stderr)

    def test_one_that_is_named(self) -> None:
        """It has no sum: it runs as it is."""
        self.replace(KEPT[0])
        shutil.copy(PROGRAM, self.room / "other")
        words = ["train", str(self.journal), "7", str(COUNT), "--workers", "2", "--program", str(self.room / "other")]
        ended = subprocess.run(
            [sys.executable, "-m", "hydroplan.farm", *words], input=example(NAME), capture_output=True, check=False,
            env={**environment(), "PYTHONPATH": str(self.top / "python")},
        )
        self.assertEqual(ended.returncode, 0, ended.stderr)
        self.assertIn(b"total iterations 5 unsettled 0", ended.stdout)


class Copies(Folder):
    def setUp(self) -> None:
        super().setUp()
        for name in ("_compared", "_digests"):
            patch = mock.patch.object(summed, name, {})
            patch.start()
            self.addCleanup(patch.stop)

    def made(self, text: str, is_named: bool = True) -> str:
        """A program in a folder `bin`, with its sum beside it."""
        place = self.room / "bin" / "program"
        place.parent.mkdir(exist_ok=True)
        place.unlink(missing_ok=True)
        place.write_text(text, encoding="ascii")
        place.chmod(0o755)
        if is_named:
            (place.parent / "SHA256SUMS").write_text(f"{hashlib.sha256(text.encode()).hexdigest()}  program\n", encoding="ascii")
        return str(place)

    def test_the_bytes_that_were_compared_run(self) -> None:
        """Whatever stands at the program's place later; and nobody writes to the copy."""
        place = self.room / "bin" / "program"
        place.parent.mkdir()
        shutil.copy("/bin/echo", place)
        (place.parent / "SHA256SUMS").write_text(f"{digest_of(place)}  program\n", encoding="ascii")
        copy, digest = compared(str(place)), digest_of(place)
        place.write_bytes(b"#!/bin/sh\necho other\n")
        self.assertEqual(subprocess.run([copy, "same"], capture_output=True, check=True).stdout, b"same\n")
        self.assertEqual(digest_of(Path(copy)), digest)
        with open(copy, "r+b", buffering=0) as file:
            self.assertRaises(OSError, file.write, b"#!/bin/sh\n")
        self.assertRaises(OtherSum, compared, str(place))

    def test_once_for_the_same_file(self) -> None:
        place = self.made("one")
        first = compared(place)
        with mock.patch.object(summed, "_compared_now", side_effect=AssertionError("compared again")):
            self.assertEqual(compared(place), first)

    def test_again_for_another(self) -> None:
        first = compared(self.made("one"))
        self.assertNotEqual(compared(self.made("two")), first)
        with self.assertRaisesRegex(OtherSum, "the program in bin is not the one that bin/SHA256SUMS names"):
            compared(self.made("three", is_named=False))

    def test_without_files_in_memory(self) -> None:
        """The program itself runs, once it is compared."""
        place = self.made("one")
        with mock.patch.object(summed.os, "memfd_create", side_effect=OSError()):
            self.assertEqual(compared(place), place)

    def test_which_are_compared(self) -> None:
        """Those of `bin`; none that is given, that was built here, or that the environment names."""
        self.assertNotEqual(program_to_run(), PROGRAM)
        self.assertEqual(digest_of(program_to_run()), digest_of(PROGRAM))
        self.assertEqual(program_to_run(PROGRAM), PROGRAM)
        with mock.patch.object(program, "built_program", return_value=self.room / "built"):
            self.assertEqual(program_to_run(), self.room / "built")
        with mock.patch.dict(os.environ, {WORKER_VARIABLE: str(KEPT_WORKER)}):
            self.assertEqual(worker_to_run(program_to_run()), KEPT_WORKER)
        with mock.patch.object(program, "compared", side_effect=OtherSum("other")):
            self.assertRaises(ProgramMissing, program_to_run)
            self.assertRaises(ProgramMissing, worker_to_run, PROGRAM)

    def test_whoever_runs_has_the_copies(self) -> None:
        """The commands of a training name the program and the worker by their copies alone."""
        asked: List[str] = []

        def spied(words: List[str]) -> List[str]:
            asked.append(words[-1])
            return words

        from hydroplan.farm import process
        begin = process.Process._spawn
        with mock.patch.object(process.Process, "_spawn", lambda self, words, *rest: begin(self, spied(words), *rest)):
            train(Words(self.room / "journal", 7, COUNT, None, 2, None), example(NAME), [].append)
        found = {str(program_to_run()), str(worker_to_run(program_to_run()))}
        self.assertTrue(asked)
        self.assertEqual([it for it in asked if it.endswith("linux")], [])
        self.assertEqual(len(found), 2)


if __name__ == "__main__":
    unittest.main()
