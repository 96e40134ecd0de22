"""What can go wrong: with a journal that is joined, and with what a worker sends."""
from __future__ import annotations

from ..errors import HydroplanError


class FarmError(HydroplanError):
    """Words, journals or a cluster with which nothing can be done. `status` is what the command ends with, as docs/use/FORMAT.md has it."""

    def __init__(self, message: str, status: int) -> None:
        super().__init__(message)
        self.status = status


class RecordFault(HydroplanError):
    """Bytes that are no record of the problem, or a pair of a cut that is not there. The message says what is wrong, `at` where."""

    def __init__(self, message: str, at: int) -> None:
        super().__init__(f"{message}, at byte {at} of the record")
        self.at = at


class WorkerFault(HydroplanError):
    """What is wrong with what a worker sent, or that it sent nothing. The message says which."""


class WorkerLeft(HydroplanError):
    """A worker left when it was done, before its answer could be had."""
