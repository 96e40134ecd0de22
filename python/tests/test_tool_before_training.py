"""Journals of bytes that were put together here by the page on the formats, and what is said before training cuts them."""
import os
import stat
import tempfile
import time
import unittest
from contextlib import redirect_stderr
from io import StringIO
from pathlib import Path
from unittest import mock

from hydroplan.tools import before_training
from hydroplan.tools.before_training import NO_COPY, main


def head(version=1):
    """A header without records, and without the commit byte behind it."""
    batch = b"\0\2" if version == 2 else b""
    return b"\1HYDPLAN1" + version.to_bytes(2, "big") + bytes(32) + (7).to_bytes(8, "big") + batch


def record(iteration, payload=b"payload"):
    """The length and the payload of a record."""
    payload = iteration.to_bytes(4, "big") + payload
    return len(payload).to_bytes(4, "big") + payload


def journal(records, version=1, last=b"\0"):
    """A journal of so many records, and what stands at its last commit byte and behind it."""
    return head(version) + b"".join(b"\1" + record(at) for at in range(1, records + 1)) + last


COMMIT_BYTE = 51
LENGTH = 1 + len(record(1))


class InFolder(unittest.TestCase):
    def setUp(self):
        room = tempfile.TemporaryDirectory()
        self.addCleanup(room.cleanup)
        self.folder = Path(room.name)
        self.file = self.folder / "J"

    def looked_at(self, data):
        """The status, what was said of a journal of these bytes, and the names of its folder."""
        self.file.write_bytes(data)
        said = StringIO()
        with redirect_stderr(said):
            status = main(str(self.file))
        return status, said.getvalue(), sorted(os.listdir(self.folder))


class Silent(InFolder):
    """What training leaves, or does not cut off."""

    def test_journals_and_what_an_interrupted_write_leaves(self):
        rest = record(4) + b"\0"
        for version in (1, 2):
            rows = [journal(3, version), journal(0, version), journal(3, version, b"\7")]
            rows += [journal(3, version, b"\0" + rest[:length]) for length in range(len(rest) + 1)]
            rows.append(journal(3, version, b"\0" + bytes(10_000)))
            for data in rows:
                with self.subTest(version=version, length=len(data)):
                    self.assertEqual(self.looked_at(data), (0, "", ["J"]))

    def test_what_training_refuses(self):
        whole = journal(3)
        rows = [b"", b"\0", b"X" * 100, b"\0" + whole[1:], head(), head(3) + bytes(100), whole[:-1], whole[:70]]
        rows.append(head() + b"\1\xff\xff\xff\xff" + bytes(9))
        for data in rows:
            with self.subTest(data=data[:20]):
                self.assertEqual(self.looked_at(data), (0, "", ["J"]))

    def test_what_is_no_file(self):
        os.mkfifo(self.folder / "pipe")
        for name in (self.folder, self.folder / "pipe", self.folder / "missing", "/dev/full"):
            self.assertEqual(main(str(name)), 0)


class Warned(InFolder):
    def test_a_commit_byte_that_was_changed(self):
        data = bytearray(journal(60))
        place = COMMIT_BYTE + 4 * LENGTH
        data[place] = 65
        status, said, names = self.looked_at(data)
        self.assertEqual((status, names), (0, ["J", "J.kept"]))
        self.assertEqual((self.folder / "J.kept").read_bytes(), data)
        first, second = said.splitlines()
        # record 5 is the first behind that byte: 56 records in all, each of 15 bytes and its commit byte, but for the one that was read
        self.assertEqual(LENGTH, 16)
        for part in ("4 records that count", f"{56 * 16:,} bytes", f"gate at byte {place:,} holds 65", "56 whole records"):
            self.assertIn(part, first)
        self.assertTrue(first.startswith(f"hydroplan: warning: {self.file} has "))
        self.assertEqual(second, f"hydroplan: training cuts these bytes off: the journal as it is stays in {self.file}.kept")

    def test_the_commit_byte_before_the_last_record_but_one_is_the_last_that_is_told(self):
        for back, told in ((1, False), (2, True)):
            data = bytearray(journal(9))
            data[COMMIT_BYTE + (9 - back) * LENGTH] = 0
            status, said, _ = self.looked_at(data)
            self.assertEqual((status, "warning" in said), (0, told))

    def test_what_is_no_front_of_a_record(self):
        rows = {
            "another iteration": journal(3, 1, b"\0" + record(7)[:9]),
            "a length above all": journal(3, 1, b"\0\4\0\0\1" + bytes(100)),
            "the version of a journal with batches": journal(3, 2).replace(b"HYDPLAN1\0\2", b"HYDPLAN1\0\1"),
            "a byte more than a record": journal(3, 1, b"\0" + record(4) + b"\0\0"),
        }
        for number, (what, data) in enumerate(rows.items(), 1):
            with self.subTest(what):
                status, said, names = self.looked_at(data)
                self.assertEqual((status, len(said.splitlines()), len(names)), (0, 2, number + 1))

    def test_copies_are_never_written_over_and_none_is_made_twice(self):
        data = journal(3, 1, b"\0" + record(7))
        (self.folder / "J.kept").write_bytes(b"another")
        (self.folder / "J.kept-2").mkdir()
        _, said, names = self.looked_at(data)
        self.assertEqual(names, ["J", "J.kept", "J.kept-2", "J.kept-3"])
        self.assertEqual((self.folder / "J.kept").read_bytes(), b"another")
        self.assertEqual((self.folder / "J.kept-3").read_bytes(), data)
        self.assertIn("J.kept-3\n", said)
        self.assertEqual(self.looked_at(data)[2], names)

    def test_a_copy_has_the_journals_permissions(self):
        self.file.write_bytes(b"")
        self.file.chmod(0o640)
        self.looked_at(journal(3, 1, b"\0" + record(7)))
        self.assertEqual(stat.S_IMODE((self.folder / "J.kept").stat().st_mode), 0o640)

    def test_nothing_is_run_where_no_copy_can_be_made(self):
        for faulty in ("open", "fsync"):
            whole = getattr(os, faulty)

            def fails(*given, whole=whole):
                if faulty == "fsync" or str(given[0]).endswith(".kept"):
                    raise OSError(28, "No space left on device")
                return whole(*given)

            with self.subTest(faulty), mock.patch.object(before_training.os, faulty, fails):
                status, said, names = self.looked_at(journal(3, 1, b"\0" + record(7)))
            self.assertEqual((status, names), (NO_COPY, ["J"]))
            self.assertIn("(No space left on device): nothing was run\n", said)

    def test_a_name_forges_no_line(self):
        self.file = self.folder / "J\nhydroplan: all is well"
        _, said, _ = self.looked_at(journal(3, 1, b"\0" + record(7)))
        self.assertEqual(len(said.splitlines()), 2)
        self.assertIn("J\\u{000A}hydroplan", said)


class Streaming(InFolder):
    def test_a_long_journal_is_read_by_its_heads(self):
        place = COMMIT_BYTE
        with self.file.open("wb") as file:
            file.write(head())
            for at in range(1, 201):
                file.seek(place)
                file.write(b"\1" + (1 << 21).to_bytes(4, "big") + at.to_bytes(4, "big"))
                place += 5 + (1 << 21)
            file.seek(place)
            file.write(b"\0")
        self.assertGreater(place, 400_000_000)
        begun = time.process_time()
        self.assertEqual(main(str(self.file)), 0)
        self.assertLess(time.process_time() - begun, 0.5)


if __name__ == "__main__":
    unittest.main()
