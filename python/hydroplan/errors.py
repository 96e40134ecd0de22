"""What can go wrong: in a model, before anything is run, and in a run of the program, by its status."""
from __future__ import annotations

from typing import Mapping, Optional, Sequence

from .tools.shown_names import shown_name


class HydroplanError(Exception):
    """Whatever this package refuses or reports."""


class ModelError(HydroplanError, ValueError):
    """A model that is wrong or that cannot be compiled. The message names the part, and the file and line where it was made."""


class NotLinear(ModelError):
    """A product, a quotient or a power of variables; the message names both variables."""


class Unbounded(ModelError):
    """Decisions without a lower or an upper bound: all of them, with their lines."""


class ModelRefused(ModelError):
    """A model that has no counterpart in whole numbers. `kind` is the refusal, `reason` says why, `place` where."""

    def __init__(self, kind: str, reason: str, place: str) -> None:
        super().__init__(f"{kind} at {place}: {reason}")
        self.kind = kind
        self.reason = reason
        self.place = place


class RuleError(HydroplanError, ValueError):
    """A rule of when to stop whose numbers make no sense."""


class MissingPackage(HydroplanError, ImportError):
    """A table or an array was asked for, and pandas or numpy is not there."""


class ProgramMissing(HydroplanError):
    """No program was found, or the one that was given cannot be run."""


class RunFailed(HydroplanError):
    """The program ended with a status other than 0.

    `status` is its number, `line` what it wrote on standard error, and `words` what `explain` says of that line.
    """

    def __init__(self, message: str, status: int, line: str, words: Sequence[str] = ()) -> None:
        super().__init__("\n  ".join(map(shown_name, [message, *words])))
        self.status = status
        self.line = line
        self.words = tuple(words)


class ProgramNotRun(RunFailed):
    """Status 1: the front door did not run the program, and says why."""


class WordsRefused(RunFailed):
    """Status 2: the program has no such command; it is another version, or no hydroplan."""


class ProblemUnreadable(RunFailed):
    """Status 3: the program could not read the problem."""


class ProblemTooLong(RunFailed):
    """Status 4: the problem has more than 2^24 bytes."""


class ProblemRefused(RunFailed):
    """Status 5: a problem that breaks a rule of the format. `kind` is the rule, `part` the user's name of the part."""

    def __init__(self, message: str, status: int, line: str, words: Sequence[str], kind: str, part: str) -> None:
        super().__init__(message, status, line, words)
        self.kind = kind
        self.part = part


class JournalRefused(RunFailed):
    """Status 6: a journal of another problem, seed or batch, or no journal. `reason` is the refusal's name."""

    def __init__(self, message: str, status: int, line: str, words: Sequence[str], reason: str) -> None:
        super().__init__(message, status, line, words)
        self.reason = reason


class TooMuch(RunFailed):
    """Status 7: the problem's size does not allow for so much. `formula` is the number of the limit, `value` what it gives."""

    def __init__(self, message: str, status: int, line: str, words: Sequence[str], formula: int, value: int) -> None:
        super().__init__(message, status, line, words)
        self.formula = formula
        self.value = value


class OutOfRange(RunFailed):
    """Status 8: certificates pass the numbers that the program holds."""


class NoStageSolution(RunFailed):
    """Status 9: a node has no decisions at its random values and incoming state.

    `node` is its name; `values` has the random values and `state` the incoming state, both in the user's units by name;
    `rows` has the names of the rows that together ask too much.
    """

    def __init__(
        self, message: str, status: int, line: str, words: Sequence[str], node: str,
        values: Mapping[str, float], state: Mapping[str, float], rows: Sequence[str],
    ) -> None:
        super().__init__(message, status, line, words)
        self.node = node
        self.values = dict(values)
        self.state = dict(state)
        self.rows = tuple(rows)


class JournalDeviceFailed(RunFailed):
    """Status 10: the journal could not be read or written, or another run writes it."""


class OutputFailed(RunFailed):
    """Status 11: the report could not be written."""


class OutOfMemory(RunFailed):
    """Status 12: memory was refused."""


class ProgramKilled(RunFailed):
    """The program was ended by a signal; `status` is its number, negated."""


class TrainingInterrupted(KeyboardInterrupt):
    """Training was interrupted from the keyboard.

    `iterations` is how many the journal kept, `bound` theirs, in money; none where it kept none.
    """

    def __init__(self, message: str, iterations: int, bound: Optional[float]) -> None:
        super().__init__(message)
        self.iterations = iterations
        self.bound = bound
