"""The completion of bash and the page of the manual, made of the table of words in bin/commands.txt and of the tools' parsers.

Outside the proved core. `bin/write-pages` writes them; a test compares them with what stands there.
"""
from __future__ import annotations

import argparse
import re
from pathlib import Path
from typing import Iterator

from ..commands import COMMANDS
from ..repository import TOP
from . import convert_command, explain_command, plot_command, watch_command
from .word_table import Command, Table, read_table

PARSERS = {
    "convert": convert_command.parser, "explain": explain_command.parser, "plot": plot_command.parser, "watch": watch_command.parser,
}
# words that name files or folders
FILES = ("JOURNAL", "FILE", "FOLDER", "RESULTS", "OUT")

COMPLETION = r"""# Completes the words of hydroplan in bash: source bin/completion.bash
# Made of bin/commands.txt by bin/write-pages; a change here is lost.

# Puts into `reply` what may stand behind a command, so many words, and the first of them.
_hydroplan_words() {
    case "$1 $2 $3" in
@CASES@    esac
}

# Puts into `reply` what may stand at the place of the word that is typed: FILE for the name of a file, and words.
_hydroplan_reply() {
    local at=1 place=0 command='' first=''
    while [ "$at" -lt "$COMP_CWORD" ]; do
        case "${COMP_WORDS[at]}" in
        --problem | @OPTIONS@) at=$((at + 1)) ;;
        *)
            if [ -z "$command" ]; then command=${COMP_WORDS[at]}
            elif [[ ${COMP_WORDS[at]} != -* ]]; then place=$((place + 1)) first=${first:-${COMP_WORDS[at]}}
            fi
            ;;
        esac
        at=$((at + 1))
    done
    if [ "${COMP_WORDS[COMP_CWORD - 1]}" = --problem ]; then reply=FILE
    elif [[ ${COMP_WORDS[COMP_CWORD - 1]} =~ ^(@SHARING@)$ ]]; then reply=''
    elif [ -z "$command" ]; then reply="@COMMANDS@"
    else _hydroplan_words "$command" "$place" "$first"
    fi
}

_hydroplan() {
    local word=${COMP_WORDS[COMP_CWORD]} reply=''
    _hydroplan_reply
    case "$reply" in
    FILE*) mapfile -t COMPREPLY < <(compgen -f -- "$word"; compgen -W "${reply#FILE}" -- "$word") ;;
    *) mapfile -t COMPREPLY < <(compgen -W "$reply" -- "$word") ;;
    esac
}

complete -o filenames -F _hydroplan hydroplan
"""


def completion(table: Table) -> str:
    """The text of bin/completion.bash."""
    cases = "".join(f"    {pattern}) reply=\"{reply}\" ;;\n" for pattern, reply in replies(table))
    parts = {"CASES": cases, "COMMANDS": " ".join([*names(table), *OPTIONS]), "SHARING": "|".join(COMMANDS.sharing), "OPTIONS": " | ".join(COMMANDS.sharing)}
    return re.sub("@([A-Z]+)@", lambda found: parts[found[1]], COMPLETION)


OPTIONS = ("-h", "--help", "-V", "--version")


def names(table: Table) -> list[str]:
    """The names of all commands."""
    return [it.name for it in table.commands]


def replies(table: Table) -> Iterator[tuple[str, str]]:
    """Patterns of a command, the number of words behind it and the first of them, and what may stand then: FILE, and words."""
    for command in table.commands:
        if command.name in PARSERS:
            yield from _of_a_tool(command.name)
        elif command.name in COMMANDS.tools:
            yield f'"{command.name} "*', " ".join(["FILE", *_options_told(command)])
        elif command.is_of_the_program():
            yield from _of_the_program(command)
    yield '"help 0 "* | "-h 0 "* | "--help 0 "*', " ".join(names(table))
    yield '"--unproved 0 "*', " ".join(it.name for it in table.commands if it.is_of_the_program())


def _options_told(command: Command) -> list[str]:
    """The options of a command that has no parser here: those that the table tells, and those that each command has."""
    told = re.findall("--[a-z-]+", " ".join([command.form(), *command.text]))
    return list(dict.fromkeys([*(["--problem"] if command.source else []), *(it for it in told if it != "--help"), "-h", "--help"]))


def _of_the_program(command: Command) -> Iterator[tuple[str, str]]:
    for at, word in enumerate([*command.words, ""]):
        told = ["FILE"] if word in FILES else []
        own = [*(["--problem"] if command.source else []), *(COMMANDS.sharing if command.name in COMMANDS.shared else [])]
        yield f'"{command.name} {at} "*', " ".join([*told, *own, *(["-h", "--help"] if at == 0 else [])])


def _of_a_tool(name: str) -> Iterator[tuple[str, str]]:
    own = PARSERS[name]()
    parts = _parts(own)
    for part, parser in parts.items():
        yield f'"{name} "*" {part}"', " ".join(["FILE", *_options(parser)])
    yield f'"{name} "*', " ".join([*parts, *_options(own)] if parts else ["FILE", *_options(own)])


def _parts(parser: argparse.ArgumentParser) -> dict[str, argparse.ArgumentParser]:
    found = [it for it in parser._actions if isinstance(it, argparse._SubParsersAction)]
    return dict(found[0].choices) if found else {}


def _options(parser: argparse.ArgumentParser) -> list[str]:
    return [option for action in parser._actions for option in action.option_strings]


def roff(text: str) -> str:
    """A text for a page of the manual."""
    escaped = text.replace("\\", "\\e").replace("-", "\\-")
    return "\\&" + escaped if escaped[:1] in (".", "\'") else escaped


def _items(rows: Iterator[tuple[str, str]]) -> str:
    return "".join(f".TP\n.B {roff(head)}\n{roff(text)}\n" for head, text in rows)


def _told(commands: list[Command]) -> str:
    return _items((it.form(), " ".join(it.text)) for it in commands)


def manual(table: Table) -> str:
    """The text of docs/hydroplan.1."""
    own = [it for it in table.commands if it.is_of_the_program()]
    tools = [it for it in table.commands if it.name in COMMANDS.tools]
    script = [it for it in table.commands if it.is_of_the_script()]
    words = (
        (it.name + (f" of {it.command}" if it.command else ""), f"{it.allowed}. {' '.join(it.text)}")
        for it in table.words if not it.name.startswith("status ")
    )
    parts = {
        "NAME": "hydroplan \\- plans hydropower reservoirs and thermal plants by stochastic dual dynamic programming\n",
        "SYNOPSIS": ".B hydroplan\nCOMMAND [WORDS] < PROBLEM > REPORT\n.br\n.B hydroplan\nstudy FOLDER\n",
        "DESCRIPTION": "Each cut and each bound that a command of the program prints is certified: no policy costs less than the bound.\n",
        "COMMANDS": _told(own),
        "TOOLS": "Tools beside the program, in Python. Nothing that they print is proved, but bounds that the program printed.\n" + _told(tools),
        "WORDS OF THE SCRIPT": _told(script),
        "WORDS": "A number is digits alone, without a sign and without a leading zero.\n" + _items(words),
        "EXIT STATUS": _items((str(number), meaning) for number, meaning in table.statuses()),
        "SEE ALSO": "docs/use/GUIDE.md for planners, docs/use/FORMAT.md for each member of a problem and each line of a report.\n",
    }
    head = '.\\" Made of bin/commands.txt by bin/write-pages; a change here is lost.\n.TH HYDROPLAN 1 "" hydroplan ""\n'
    return head + "".join(f".SH {name}\n{text}" for name, text in parts.items())


def pages() -> dict[Path, str]:
    """The files that are made of the table, and their texts."""
    table = read_table()
    return {TOP / "bin" / "completion.bash": completion(table), TOP / "docs" / "hydroplan.1": manual(table)}


def main() -> int:
    """Writes the files; 0."""
    for path, text in pages().items():
        path.write_text(text, encoding="utf-8")
        print(path.relative_to(TOP))
    return 0
