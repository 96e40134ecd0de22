"""The table of words in bin/commands.txt: the commands with their forms, and what each word may be.

Outside the proved core. Help, messages on wrong words, the completion and the page of the manual are made of this one table.
"""
from __future__ import annotations

import re
from dataclasses import dataclass
from pathlib import Path
from typing import Iterator, Optional

from ..commands import COMMANDS, FILE

KINDS = ("tool ", "shared ", "script =", "options =")


@dataclass(frozen=True)
class Command:
    """A command: its name, the words behind it (those that may be left out in brackets), its input, and what it does.

    `source` is PROBLEM or DESCRIPTION, empty where standard input is not read. `text` has the lines of the table.
    """

    name: str
    words: tuple[str, ...]
    source: str
    text: tuple[str, ...]

    def form(self) -> str:
        """The command line: `train JOURNAL SEED COUNT [BATCH] < PROBLEM`."""
        return " ".join([self.name, *self.words]) + (f" < {self.source}" if self.source else "")

    def is_of_the_program(self) -> bool:
        """Whether the proved program reads it, and neither the script nor a tool does."""
        return self.name not in COMMANDS.tools and not self.is_of_the_script()

    def is_of_the_script(self) -> bool:
        """Whether it is a word or an option of the script alone."""
        return self.name in COMMANDS.script or self.name in COMMANDS.options


@dataclass(frozen=True)
class Word:
    """A word of a form: for which command (empty for all), what it may be, and what it does; or a status and what it means."""

    name: str
    command: str
    allowed: str
    text: tuple[str, ...]

    def range(self) -> Optional[tuple[int, int]]:
        """The least and the greatest number, none where the word is no number."""
        found = re.fullmatch(r"(\d+) to (\d+)", self.allowed)
        return None if found is None else (int(found[1]), int(found[2]))


@dataclass(frozen=True)
class Table:
    """The commands and the words, in the order of the file."""

    commands: tuple[Command, ...]
    words: tuple[Word, ...]

    def command(self, name: str) -> Optional[Command]:
        """The command of this name."""
        return next((it for it in self.commands if it.name == name), None)

    def statuses(self) -> list[tuple[int, str]]:
        """The numbers with which the script and the program end, and what each means."""
        return [(int(it.name.split()[1]), it.allowed) for it in self.words if it.name.startswith("status ")]

    def word(self, name: str, command: str) -> Optional[Word]:
        """What a word may be behind a command, such as `simulate`, or as `simulate --workers` where its work is shared."""
        found = {it.command: it for it in self.words if it.name == name}
        return next((found[it] for it in (command, command.partition(" ")[0], "") if it in found), None)


def read_table(path: Path = FILE) -> Table:
    """The table of a file: a line for each command or word, and lines on it that begin with blanks."""
    commands, words = [], []
    for head, text in _entries(path.read_text(encoding="utf-8")):
        name, equals, allowed = head.partition(" = ")
        if equals:
            word, _, command = name.partition(" of ")
            words.append(Word(word, command, allowed, text))
        else:
            form, _, source = head.partition(" < ")
            first, *rest = form.split()
            commands.append(Command(first, tuple(rest), source, text))
    return Table(tuple(commands), tuple(words))


def _entries(text: str) -> Iterator[tuple[str, tuple[str, ...]]]:
    for entry in re.split(r"\n(?=[^\s])", text.strip()):
        head, *rest = entry.strip().split("\n")
        if head.startswith(KINDS):
            continue
        yield head, tuple(line.strip() for line in rest)
