"""Rounds that the workers join themselves: one of them tells each round as it stands joined, so that nobody joins it once more."""
from __future__ import annotations

import time
from collections import deque
from typing import Callable, Deque, Iterator, List, Optional, Sequence

from .engine import Teller
from .joiner import Ended
from .journals import Growing
from .living import ProcessFault
from .worker_joiner import Gone

Tell = Callable[[str, Sequence[Sequence[bytes]]], Optional[Teller]]
LOOKS_EVERY = 0.2


class Told:
    """The rounds that are told, which it puts into the copy `scratch`. Gone where a round will not be told, or not in so many seconds."""

    def __init__(self, tell: Tell, scratch: Growing, seconds: float) -> None:
        self._tell = tell
        self._scratch = scratch
        self._seconds = seconds
        self._heard = time.monotonic()
        self._rounds: Deque[Optional[Teller]] = deque()
        """Who tells each round that was not told yet."""

    def give(self, name: str, parts: Sequence[Sequence[bytes]]) -> None:
        """Expects a round of this name."""
        if not self._rounds:
            self._heard = time.monotonic()
        self._rounds.append(self._tell(name, parts))

    def come(self) -> Iterator[Ended]:
        """What was told since, round by round."""
        while self._rounds:
            begun = time.process_time()
            records = self._told(self._rounds[0])
            if records is None:
                return
            self._rounds.popleft()
            self._scratch.append(records)
            self._heard = time.monotonic()
            yield Ended(self._scratch.records, self._scratch.end, time.process_time() - begun)

    def _told(self, teller: Optional[Teller]) -> Optional[List[bytes]]:
        """The records of the first round that is expected, if they are there."""
        if teller is None:
            raise Gone("no worker tells the round")
        try:
            records = teller.told()
        except ProcessFault as fault:
            raise Gone(str(fault)) from None
        if records is None and time.monotonic() - self._heard > self._seconds:
            raise Gone("it is silent")
        return records

    def wait(self) -> None:
        """Waits until something is told, and not for long."""
        if self._rounds and self._rounds[0] is not None:
            self._rounds[0].wait(LOOKS_EVERY)

    def end(self) -> None:
        """Does nothing: the workers are those that train."""
