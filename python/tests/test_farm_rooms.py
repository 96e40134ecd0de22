"""What a farm makes beside a journal: nothing of the user's is removed or written over, and what a killed run left is named and goes."""
from __future__ import annotations

import fcntl
import os
import signal
import subprocess
import time
import unittest
from pathlib import Path
from typing import List, Tuple
from unittest import mock

from cluster_support import environment, farm_command
from farm_support import Folder, PlainEngine, example, farmed, trained

from hydroplan.farm import new_files, rooms
from hydroplan.farm.errors import FarmError
from hydroplan.farm.joining import join
from hydroplan.farm.shape import shape_of

NAME, COUNT, PARTS = "three_stages", 5, 2
DRAWN = bytes(range(8))
LONG, MANY = "five_reservoirs", 2_000
PATIENCE = 60


class Beside(Folder):
    def setUp(self) -> None:
        super().setUp()
        self.journal = self.room / "journal"
        self.others = self.room / "others"
        self.others.mkdir()
        (self.others / "kept").write_bytes(b"of the user")

    def farm(self) -> List[str]:
        """Trains the journal; what was said."""
        return farmed(example(NAME), self.journal, PlainEngine("ab"), COUNT, PARTS)[1]

    def names(self) -> List[str]:
        """What stands beside the journal."""
        return sorted(it.name for it in self.room.iterdir())

    def assert_kept(self, folder: Path) -> None:
        """Asserts that a folder of the user's has what it had."""
        self.assertEqual({it.name: it.read_bytes() for it in folder.iterdir()}, {"kept": b"of the user"})

    def assert_stays(self, place: Path, why: str) -> None:
        """Asserts that a run names a place and says why it stays."""
        self.assertEqual([it for it in self.farm() if str(place) in it], [f"{place} stays: {why}"])
        self.assertTrue(os.path.lexists(place))

    def left(self) -> Path:
        """A folder as a killed run leaves it."""
        made = self.room / "journal.farm-work-0011223344556677"
        made.mkdir()
        for name, data in ((rooms.MARKER, rooms.MARK), ("journal", b"left"), ("problem.json", b"left"), ("journal.said-77", b"")):
            (made / name).write_bytes(data)
        return made


class OfTheUser(Beside):
    def test_a_link_at_an_old_name(self) -> None:
        """JOURNAL.farm-work was the name of the folder before: what it points to is not emptied."""
        (self.room / "journal.farm-work").symlink_to(self.others)
        self.farm()
        self.assert_kept(self.others)
        self.assertTrue((self.room / "journal.farm-work").is_symlink())

    def test_a_folder_at_an_old_name(self) -> None:
        os.rename(self.others, self.room / "journal.farm-work")
        self.farm()
        self.assert_kept(self.room / "journal.farm-work")

    def test_a_link_at_an_old_name_of_a_new_file(self) -> None:
        (self.room / "journal.farm.new").symlink_to(self.others / "kept")
        self.farm()
        self.assert_kept(self.others)
        self.assertTrue((self.room / "journal.farm.new").is_symlink())

    def test_a_link_at_the_name_of_a_new_file(self) -> None:
        """Where the name that is drawn is there nevertheless, nothing is written."""
        place = self.room / f"journal.farm.new-{DRAWN.hex()}"
        place.symlink_to(self.others / "kept")
        with mock.patch.object(new_files.os, "urandom", return_value=DRAWN), self.assertRaises(FileExistsError):
            self.farm()
        self.assert_kept(self.others)
        self.assertTrue(place.is_symlink())

    def test_links_at_the_names_in_a_room(self) -> None:
        for name in ("journal", "problem.json", rooms.MARKER_MADE):
            place = self.room / f"{name}-there"
            place.symlink_to(self.others / "kept")
            self.assertRaises(FileExistsError, new_files.created, place)
        self.assert_kept(self.others)

    def test_another_file_at_the_name_of_the_plan(self) -> None:
        """It is named, and the run ends before it trains. A link is another file too."""
        place = self.room / "journal.farm"
        for data in (b"notes on farms", b"[]", b"{}", None):
            place.unlink(missing_ok=True)
            if data is None:
                place.symlink_to(self.others / "kept")
            else:
                place.write_bytes(data)
            with self.assertRaisesRegex(FarmError, f"{place} is no file of this command") as raised:
                self.farm()
            self.assertEqual(raised.exception.status, 10)
            self.assertEqual(place.read_bytes(), b"of the user" if data is None else data)
        self.assertEqual(self.names(), ["journal", "journal.farm", "others"])

    def test_joining_removes_no_file_of_another_name(self) -> None:
        """OUT.new-PID was the name of the new journal before."""
        trained(example(NAME), self.journal, 7, 2)
        there = self.room / f"out.new-{os.getpid()}"
        there.write_bytes(b"of the user")
        join(shape_of(example(NAME)), self.room / "out", [self.journal])
        self.assertEqual(there.read_bytes(), b"of the user")
        self.assertEqual(self.names(), ["journal", "others", "out", there.name])


class Left(Beside):
    def test_a_left_folder_is_named_and_removed(self) -> None:
        left = self.left()
        self.assertIn(f"{left}, which a run left, is removed", self.farm())
        self.assertEqual(self.names(), ["journal", "journal.farm", "others"])

    def test_one_that_is_locked_stays(self) -> None:
        left = self.left()
        with (left / rooms.MARKER).open("r+b") as marker:
            fcntl.flock(marker, fcntl.LOCK_EX)
            self.assert_stays(left, "another run has it, as far as its lock says")
        self.assertEqual(len(list(left.iterdir())), 4)
        self.farm()
        self.assertFalse(left.exists())

    def test_one_without_the_mark_stays(self) -> None:
        """No marker, another file of its name, a link to one, and a folder."""
        left = self.left()
        marker, other = left / rooms.MARKER, self.others / "mark"
        other.write_bytes(rooms.MARK)
        for make in (lambda: None, lambda: marker.write_bytes(b"mine"), lambda: marker.symlink_to(other), marker.mkdir):
            if marker.exists() or marker.is_symlink():
                marker.unlink()
            make()
            self.assert_stays(left, "it has no mark of a run")
            self.assertTrue((left / "journal").is_file())

    def test_one_with_a_file_of_the_user_stays(self) -> None:
        left = self.left()
        (left / "notes").write_bytes(b"of the user")
        self.assert_stays(left, "it has notes, which is of no run")
        self.assertEqual(len(list(left.iterdir())), 5)

    def test_what_is_no_folder_stays(self) -> None:
        """A file with such a name, and a link to a folder that a run left."""
        place, left = self.room / "journal.farm-work-notes", self.left()
        place.write_bytes(b"of the user")
        self.assert_stays(place, "it is no folder of a run")
        place.unlink()
        left = self.left()
        os.rename(left, self.others / "left")
        place.symlink_to(self.others / "left")
        self.assert_stays(place, "it is no folder of a run")
        self.assertEqual(len(list((self.others / "left").iterdir())), 4)

    def test_what_links_in_it_point_to_stays(self) -> None:
        left = self.left()
        (left / "journal").unlink()
        (left / "journal").symlink_to(self.others / "kept")
        self.farm()
        self.assertFalse(left.exists())
        self.assert_kept(self.others)

    def test_that_of_another_journal_stays(self) -> None:
        """No run but one of the same journal takes it."""
        left = self.left()
        farmed(example(NAME), self.room / "journal.farm", PlainEngine("ab"), COUNT, PARTS)
        self.assertTrue(left.is_dir())

    def test_of_a_run_that_is_killed(self) -> None:
        """Its folder has the mark, is locked while it lives, and is named and removed by the next run."""
        left, running = self.killed()
        self.assertLess(running.returncode, 0)
        said = farmed(example(LONG), self.journal, PlainEngine("ab"), 1, PARTS)[1]
        self.assertEqual([it for it in said if str(left) in it], [f"{left}, which a run left, is removed"])
        self.assertFalse(left.exists())

    def killed(self) -> Tuple[Path, "subprocess.Popen[bytes]"]:
        """A run that is killed while it trains, and its folder."""
        (self.room / "problem").write_bytes(example(LONG))
        words = farm_command("train", str(self.journal), "7", str(MANY), "--workers", str(PARTS))
        with (self.room / "problem").open("rb") as problem:
            running = subprocess.Popen(words, stdin=problem, stdout=subprocess.DEVNULL, stderr=subprocess.DEVNULL, env=environment())
        with running:
            begun, found = time.monotonic(), []
            while not any((it / "journal").exists() for it in found) and time.monotonic() - begun < PATIENCE:
                time.sleep(0.01)
                found = list(self.room.glob("journal.farm-work-*"))
            with (found[0] / rooms.MARKER).open("r+b") as marker:
                self.assertRaises(BlockingIOError, fcntl.flock, marker, fcntl.LOCK_EX | fcntl.LOCK_NB)
            running.send_signal(signal.SIGKILL)
        return found[0], running


if __name__ == "__main__":
    unittest.main()
