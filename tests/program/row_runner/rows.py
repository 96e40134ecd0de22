"""The lines of rows.txt and the files that they name."""
from __future__ import annotations

import shlex
from dataclasses import dataclass
from pathlib import Path
from typing import List, Mapping, Tuple

TOP = Path(__file__).resolve().parents[3]
FOLDER = Path(__file__).resolve().parents[1]

OPTIONS = ("problem", "made", "padded", "piped", "journal", "held", "readonly", "output", "errors", "memory", "kills", "seed", "harm")


class BadRow(Exception):
    """A line of rows.txt that is not in its form, or that names a file which is not there."""


@dataclass(frozen=True)
class Row:
    """A line of rows.txt; README.md says what each part means."""

    line: str
    kind: str
    expected: str
    options: Mapping[str, str]
    words: Tuple[str, ...]

    def number(self, option: str, otherwise: int) -> int:
        """The whole number that an option has. BadRow where it is none."""
        text = self.options.get(option, str(otherwise))
        if not text.isdigit():
            raise BadRow(f"{option}={text} is no number")
        return int(text)


def parsed(line: str) -> Row:
    """The row in a line `KIND EXPECTED [OPTION=VALUE].. : WORDS`. BadRow where the line is not in this form."""
    parts = shlex.split(line)
    if ":" not in parts[2:]:
        raise BadRow("a row is `KIND EXPECTED [OPTION=VALUE].. : WORDS`")
    colon = parts.index(":", 2)
    options = dict(part.partition("=")[::2] for part in parts[2:colon])
    unknown = [option for option in options if option not in OPTIONS]
    if unknown:
        raise BadRow(f"no row has an option `{unknown[0]}`")
    return Row(line, parts[0], parts[1], options, tuple(parts[colon + 1 :]))


def lines_of(path: Path) -> List[str]:
    """The lines of a file of rows, without empty lines and remarks, which begin with `#`."""
    lines = [line.strip() for line in path.read_text(encoding="utf-8").splitlines()]
    return [line for line in lines if line and not line.startswith("#")]


def place_of(name: str) -> Path:
    """Where a file lies that a row names: from the root of the system, else with a slash from the top of the repository,
    else in data/."""
    if name.startswith("/"):
        return Path(name)
    return TOP / name if "/" in name else FOLDER / "data" / name


def bytes_of(name: str) -> bytes:
    """The bytes of a file that a row names. BadRow where it cannot be read."""
    try:
        return place_of(name).read_bytes()
    except OSError as error:
        raise BadRow(f"{name}: {error.strerror}") from error


def unhexed(name: str, digits: bytes) -> bytes:
    """The bytes that stand in a file in hexadecimal digits. BadRow where other things stand there."""
    try:
        return bytes.fromhex(digits.decode("ascii").strip())
    except ValueError as error:
        raise BadRow(f"{name}: {error}") from error
