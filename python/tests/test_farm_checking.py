"""Checks beside training: the journal that they read grows, they say how many records they accepted, and the last one begins in time."""
from __future__ import annotations

import os
import threading
import time
import unittest
from math import inf
from pathlib import Path
from typing import List
from unittest import mock

from farm_support import PROGRAM, Folder, PlainEngine, example, farmed, journal_bytes, number, ran, trained

from hydroplan.farm import checking
from hydroplan.farm.checking import LEFT_OVER, NICE, NICER, Checking
from hydroplan.farm.joined import Front
from hydroplan.farm.journals import Growing, opened, payloads, read_head
from hydroplan.farm.program import command
from hydroplan.farm.proving import Pace, Proving
from hydroplan.farm.records import Pools

NAME = "three_stages"


def delayed(seconds: float):
    """Has each check wait so long before it begins."""
    return mock.patch.object(checking, "command", lambda program, words: ["sh", "-c", f'sleep {seconds}; exec "$@"', "sh", *command(program, words)])


class GrowingJournals(Folder):
    def records_of(self, journal: Path) -> List[bytes]:
        with opened(journal) as file:
            read_head(file, "it")
            return list(payloads(file, "it"))

    def test_is_whole_at_each_moment(self) -> None:
        """Whoever reads it while rounds are put behind it finds whole rounds."""
        journal = self.room / "journal"
        journal.write_bytes(journal_bytes(b"{}", 7, []))
        with Growing(journal, is_synced=False) as growing:
            self.assertEqual(list(growing.read()), [])
            rounds = [[number(3 * at + it, 4) * (1 + it + at % 50) for it in range(3)] for at in range(400)]
            writing = threading.Thread(target=lambda: [growing.append(it) for it in rounds])
            writing.start()
            looks, found = 0, []
            while writing.is_alive() or looks == 0:
                found = self.records_of(journal)
                self.assertEqual(found, [it for own in rounds for it in own][:len(found)])
                self.assertEqual(len(found) % 3, 0)
                looks += 1
            writing.join()
            self.assertEqual((growing.records, len(self.records_of(journal))), (1200, 1200))
            self.assertEqual(growing.end + 1, journal.stat().st_size)

    def test_behind_bytes_that_do_not_count(self) -> None:
        """What an interrupted run left behind the last commit byte goes."""
        journal = self.room / "journal"
        journal.write_bytes(journal_bytes(b"{}", 7, [b"abc"]) + b"left" * 100)
        with Growing(journal) as growing:
            self.assertEqual(list(growing.read()), [b"abc"])
            growing.append([])
            growing.append([b"de", b"f"])
        self.assertEqual(journal.read_bytes(), journal_bytes(b"{}", 7, [b"abc", b"de", b"f"]))


class Checks(Folder):
    def test_accepts_what_comes_while_it_goes_on(self) -> None:
        """It begins over three records of eight, and its report is that of a check of all."""
        whole, journal = trained(example(NAME), self.room / "whole", 7, 8), trained(example(NAME), self.room / "journal", 7, 3)
        (self.room / "problem.json").write_bytes(example(NAME))
        with opened(whole) as file:
            read_head(file, "it")
            records = list(payloads(file, "it"))
        with Growing(journal, is_synced=False) as growing, delayed(0.5):
            self.assertEqual(len(list(growing.read())), 3)
            begun = Checking(PROGRAM, journal, self.room / "problem.json", NICE)
            self.assertEqual(os.getpriority(os.PRIO_PROCESS, begun._process.pid), min(os.getpriority(os.PRIO_PROCESS, 0) + NICER, 19))
            growing.append(records[3:])
            verdict = begun.verdict()
        report = ran(example(NAME), "check", str(whole)).splitlines()
        self.assertEqual(verdict.report, [it for it in report if not it.startswith(("cut ", "rest "))])
        self.assertEqual((verdict.records, f"bound {verdict.bound}"), (8, verdict.report[-1]))
        self.assertGreater(begun.seconds, 0)

    def test_a_check_for_which_somebody_soon_waits(self) -> None:
        """It takes what others leave of the processors, and then its share; where that is not allowed, it is waited for no longer than so long."""
        journal = trained(example(NAME), self.room / "journal", 7, 3)
        (self.room / "problem.json").write_bytes(example(NAME))
        with delayed(0.5):
            begun = Checking(PROGRAM, journal, self.room / "problem.json", LEFT_OVER)
            self.assertEqual(os.sched_getscheduler(begun._process.pid), os.SCHED_IDLE)
            with mock.patch.object(os, "sched_setscheduler", side_effect=PermissionError):
                self.assertFalse(begun.hasten(0.01))
            self.assertEqual([begun.is_held_up(0), begun.is_held_up(100)], [True, False])
            self.assertTrue(begun.hasten(0))
            self.assertEqual((os.sched_getscheduler(begun._process.pid), begun.is_held_up(0)), (os.SCHED_OTHER, False))
            self.assertEqual(begun.verdict().records, 3)

    def test_rounds_that_a_check_did_not_know_of_are_proved_too(self) -> None:
        """Where a check takes long to begin, it accepts more than the first round, and the journal is that of other trainings."""
        farmed(example(NAME), self.room / "other", PlainEngine("ab"), 30, 2)
        with delayed(0.6):
            report, said = farmed(example(NAME), self.room / "journal", PlainEngine("ab"), 30, 2)
        self.assertEqual((self.room / "journal").read_bytes(), (self.room / "other").read_bytes())
        self.assertRegex(said[0], r"^round ([2-9]|1\d): ")
        self.assertIn("total iterations 30 unsettled", report[-2])


class Paces(unittest.TestCase):
    def test_left(self) -> None:
        """Of 20 records 8 came in 4 seconds, and one second more has passed."""
        with mock.patch.object(time, "monotonic", side_effect=[100.0, 102.0, 104.0, 105.0]):
            pace = Pace(0)
            self.assertEqual(pace.left(20), inf)
            pace.add(4)
            pace.add(8)
            self.assertEqual(pace.left(20), 6.0 - 1.0)

    def test_by_the_last_rounds(self) -> None:
        """Slow rounds at the beginning do not count for ever."""
        with mock.patch.object(time, "monotonic", side_effect=[*range(0, 1000, 100), *range(901, 909), 908]):
            pace = Pace(0)
            for records in range(1, 18):
                pace.add(records)
            self.assertEqual(pace.left(27), 10.0)


class Beginnings(unittest.TestCase):
    def begun(self, left: float, trained_since: float) -> List[str]:
        """Which checks begin where training ends in so many seconds and a check of all takes one: what they take."""
        proving = Proving(mock.Mock(count=100), Front(0, 0, Pools([])), mock.Mock(), mock.Mock())
        proving._joined = [mock.Mock()]
        proving._expect(0.2, 5)
        proving._expect(0.6, 50)
        proving.spent.training = trained_since
        with mock.patch.object(Pace, "left", return_value=left), mock.patch.object(proving, "_begin_check") as begin:
            proving.look()
        return [it.args[0] for it in begin.call_args_list]

    def test_one_in_a_while_and_the_last_shortly_before_the_end(self) -> None:
        """Checks of 5 and 50 records took 0.2 and 0.6 seconds, so one of 100 takes one."""
        for left, since, begun in (
            (100, 0, [LEFT_OVER]), (2.1, 0, [LEFT_OVER]), (1.9, 0, []), (0.7, 0, []), (0.5, 0, [LEFT_OVER]), (100, -1, []), (0.5, -1, [LEFT_OVER]),
        ):
            self.assertEqual(self.begun(left, since), begun, (left, since))

    def test_one_that_is_held_up(self) -> None:
        """It is given its share, or another one begins; in the end one that is waited for."""
        for is_allowed, begun in ((True, []), (False, ["nice"])):
            proving = Proving(mock.Mock(count=100), Front(0, 0, Pools([])), mock.Mock(), mock.Mock())
            proving._checking = mock.Mock(**{"is_over.return_value": False, "is_held_up.return_value": True, "hasten.return_value": is_allowed})
            with mock.patch.object(proving, "_begin_check") as begin:
                proving.look()
            self.assertEqual([it.args[0] for it in begin.call_args_list], begun)


if __name__ == "__main__":
    unittest.main()
