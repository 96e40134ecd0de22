"""Lines of the user's code: where a variable, a constraint, a node or a model was made."""
from __future__ import annotations

import os
import sys
from contextlib import contextmanager
from contextvars import ContextVar
from dataclasses import dataclass
from functools import lru_cache
from types import FrameType
from typing import Iterator, Optional

from .tools.located_json import Refused

PACKAGE = os.path.dirname(os.path.abspath(__file__))


@dataclass(frozen=True)
class CodePlace:
    """A file and a line."""

    file: str
    line: int

    def __str__(self) -> str:
        return f"{self.file}:{self.line}"


_given: "ContextVar[Optional[CodePlace]]" = ContextVar("given", default=None)


@contextmanager
def standing_at(place: CodePlace) -> Iterator[None]:
    """Whatever is made within this context stands at a place, such as a line of a study, and not at a line of code."""
    before = _given.set(place)
    try:
        yield
    finally:
        _given.reset(before)


def given_place() -> Optional[CodePlace]:
    """The place of `standing_at`, none where lines of code count."""
    return _given.get()


@lru_cache(maxsize=None)
def _is_ours(file: str) -> bool:
    return os.path.abspath(file).startswith(PACKAGE + os.sep)


def users_line() -> CodePlace:
    """The line that called into this package: the nearest one that stands outside."""
    given = given_place()
    if given is not None:
        return given
    frame: Optional[FrameType] = sys._getframe(1)
    while frame is not None and _is_ours(frame.f_code.co_filename):
        frame = frame.f_back
    return CodePlace("?", 0) if frame is None else CodePlace(frame.f_code.co_filename, frame.f_lineno)


@dataclass(frozen=True)
class CodeOrigin:
    """A part of a model, in words, and the line that made it. The shared steps of compiling refuse by it."""

    what: str
    at: CodePlace

    def place(self) -> str:
        """The part and its line."""
        return f"{self.what} ({self.at})"

    def refuse(self, kind: str, reason: str) -> Refused:
        """A refusal of this part, to be raised."""
        return Refused(kind, reason, self.place())

    def member(self, *keys: str) -> CodeOrigin:
        """The place of a member, which is that of the part."""
        return self
