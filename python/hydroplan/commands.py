"""The names of all commands, as the table of words in bin/commands.txt has them: which are in Python, by which module, and what they need.

A command is started often, so this reads the table's heads alone; `tools.word_table` reads all of it.
"""
from __future__ import annotations

import sys

from .repository import TOP

TYPE_CHECKING = False
if TYPE_CHECKING:
    from typing import Callable, Iterator, Sequence

FILE = TOP / "bin" / "commands.txt"


class Tool:
    """A command in Python: the module of this package whose `main` takes its words, and the libraries that it needs.

    It needs these behind an option alone where `option` is not empty.
    """

    def __init__(self, module: str, libraries: Sequence[str], option: str) -> None:
        self.module, self.option = module, option
        self.libraries = tuple(it for it in libraries if it != "tomli" or sys.version_info < (3, 11))

    def libraries_for(self, words: Sequence[str]) -> tuple[str, ...]:
        """The libraries that it needs with these words behind its name; an option may be cut short."""
        if any(it in ("-h", "--help") for it in words):
            return ()
        given = [it.partition("=")[0] for it in words if len(it) > 2]
        return self.libraries if not self.option or any(self.option.startswith(it) for it in given) else ()

    def main(self) -> Callable[..., int]:
        """The function that runs it."""
        from importlib import import_module

        found: Callable[..., int] = import_module(f"hydroplan.{self.module}").main
        return found


class Commands:
    """The tools by their names, what shared work of the program's commands is done by, the words of the script, and its options.

    An option has the name of the word behind it.
    """

    def __init__(self, heads: Sequence[str]) -> None:
        self.tools = dict(_modules(heads, "tool "))
        self.shared = dict(_modules(heads, "shared "))
        self.script = _listed(heads, "script = ")
        forms = dict(it.split(" ", 1) for it in heads if it.startswith("--"))
        self.options = {it: forms[it] for it in _listed(heads, "options = ")}
        self.sharing = tuple(it for it in self.options if it != "--problem")


def _modules(heads: Sequence[str], kind: str) -> Iterator[tuple[str, Tool]]:
    for head in heads:
        if head.startswith(kind):
            name, _, told = head[len(kind):].partition(" = ")
            module, _, needed = told.partition(": ")
            libraries, _, option = needed.partition(" with ")
            yield name, Tool(module, libraries.split(), option)


def _listed(heads: Sequence[str], kind: str) -> tuple[str, ...]:
    return next(tuple(it[len(kind):].split()) for it in heads if it.startswith(kind))


def read_commands() -> Commands:
    """What the heads of the table say."""
    with open(FILE, encoding="utf-8") as table:
        return Commands([it.rstrip("\n") for it in table if it[:1] not in (" ", "\n")])


COMMANDS = read_commands()
