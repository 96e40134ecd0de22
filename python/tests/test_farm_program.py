"""Which program a farm runs: the one that the script `hydroplan` would run, without the script."""
from __future__ import annotations

import hashlib
import os
import unittest
from pathlib import Path
from unittest import mock

from farm_support import PROGRAM, Folder

from hydroplan.farm import program


class Chosen(Folder):
    def setUp(self) -> None:
        super().setUp()
        self.newer = self.made("hydroplan", "#!/bin/sh\nexit 0\n")
        self.digest = self.made("crates-digest", "#!/bin/sh\necho of-these\n")
        for name, place in (("NEWER", self.newer), ("DIGEST", self.digest)):
            patch = mock.patch.object(program, name, place)
            patch.start()
            self.addCleanup(patch.stop)
        for cached in (program._is_stamped, program._sources_of):
            cached.cache_clear()
            self.addCleanup(cached.cache_clear)

    def made(self, name: str, text: str) -> Path:
        """A program of some lines."""
        place = self.room / name
        place.write_text(text, encoding="ascii")
        place.chmod(0o755)
        return place

    def stamp(self, text: str) -> None:
        """Puts a stamp beside the newer program."""
        self.newer.with_name("hydroplan.sources").write_text(text, encoding="ascii")

    def test_a_newer_one_of_the_crates_at_hand(self) -> None:
        """The stamp has the digest of the crates and the SHA-256 of the program, as the script writes it."""
        self.stamp(f"of-these {hashlib.sha256(self.newer.read_bytes()).hexdigest()}\n")
        self.assertEqual(program.built_program(), self.newer)

    def test_the_one_in_bin_else(self) -> None:
        """No stamp; one of other crates; one of another program; a program that may not be run."""
        self.assertEqual(program.built_program(), PROGRAM)
        own = hashlib.sha256(self.newer.read_bytes()).hexdigest()
        for text in (f"of-others {own}\n", f"of-these {'0' * 64}\n", ""):
            self.stamp(text)
            program._is_stamped.cache_clear()
            self.assertEqual(program.built_program(), PROGRAM, text)
        self.stamp(f"of-these {own}\n")
        os.chmod(self.newer, 0o644)
        program._is_stamped.cache_clear()
        self.assertEqual(program.built_program(), PROGRAM)

    def test_a_worker_belongs_to_a_program(self) -> None:
        """To the one in bin the one there; to a newer one of the same crates a worker of these, newer or in bin; to another none."""
        kept, newer = self.made("hydroplan_worker-x86_64-linux", "kept"), self.made("hydroplan_worker", "newer")
        with mock.patch.multiple(program, KEPT_WORKER=kept, NEWER_WORKER=newer), mock.patch.dict(os.environ):
            os.environ.pop(program.WORKER_VARIABLE, None)
            self.assertEqual(program.built_worker(PROGRAM), kept)
            self.assertIsNone(program.built_worker(self.digest))
            self.assertIsNone(program.built_worker(self.newer))
            (self.room / "CRATES").write_text("crates of-these\nkit one\n", encoding="ascii")
            self.assertEqual(program.built_worker(self.newer), kept)
            newer.with_name("hydroplan_worker.sources").write_text(f"of-these {hashlib.sha256(b'newer').hexdigest()}\n", encoding="ascii")
            program._is_stamped.cache_clear()
            self.assertEqual(program.built_worker(self.newer), newer)

    def test_a_worker_that_the_environment_names(self) -> None:
        for named, found in ((str(self.digest), self.digest.resolve()), ("", None), (str(self.room / "none"), None)):
            with mock.patch.dict(os.environ, {program.WORKER_VARIABLE: named}):
                self.assertEqual(program.built_worker(PROGRAM), found)

    def test_the_one_that_is_given(self) -> None:
        self.assertEqual(program.built_program(self.digest), self.digest.resolve())


if __name__ == "__main__":
    unittest.main()
