"""The program, run in a folder of its own."""
from __future__ import annotations

import os
import subprocess
from dataclasses import dataclass
from pathlib import Path
from typing import Any, Dict, Optional, Sequence, Tuple

# Seconds after which a run is given up.
PATIENCE = 120

# The user without rights.
NOBODY = 65534

ENVIRONMENT = {"PATH": "/usr/local/bin:/usr/bin:/bin", "LANG": "C.UTF-8"}


class NoEnd(Exception):
    """A run did not end in time."""


@dataclass(frozen=True)
class Streams:
    """The stand-ins for the standard input and output of a run, and its memory."""

    # A file, a folder or a device; None where standard input is closed.
    problem: Optional[Path]
    # None where standard output is read, a path, `closed`, or `broken` for a pipe that nobody reads.
    output: Optional[str] = None
    # The KiB of memory that the program may map; None for no limit.
    memory: Optional[int] = None
    # Whether the problem's bytes come through a pipe.
    piped: bool = False
    # True where standard error is closed.
    mute: bool = False
    # True where the program may not write what lies in its folder: root, who may always, runs it as nobody.
    readonly: bool = False


@dataclass(frozen=True)
class Ended:
    """How a run ended. The journal is None where there is no such file."""

    status: int
    said: bytes
    written: bytes
    journal: Optional[bytes]


def journal_in(folder: Path) -> Optional[bytes]:
    """Returns the bytes of the journal in a folder, or None where there is none."""
    journal = folder / "J"
    return journal.read_bytes() if journal.is_file() else None


def command(program: Path, words: Sequence[str], streams: Streams) -> Sequence[str]:
    """A command line that runs the program with these words, under a limit or with streams that are closed."""
    limit = "" if streams.memory is None else f"ulimit -v {streams.memory}; "
    closed = (" <&-" if streams.problem is None else "") + (" >&-" if streams.output == "closed" else "") + (" 2>&-" if streams.mute else "")
    if not limit and not closed:
        return [str(program), *words]
    return ["sh", "-c", f'{limit}exec "$@"{closed}', "sh", str(program), *words]


def source_of(streams: Streams) -> int:
    """Opens the source of the program for reading: a file, a folder or a device."""
    return os.open(streams.problem or os.devnull, os.O_RDONLY)


def sink_of(streams: Streams) -> Optional[int]:
    """Opens the sink of the program; None where its output is read."""
    if streams.output in (None, "closed"):
        return None
    if streams.output != "broken":
        return os.open(str(streams.output), os.O_WRONLY)
    reader, writer = os.pipe()
    os.close(reader)
    return writer


def as_nobody(program: Path, folder: Path) -> Tuple[Path, Dict[str, Any]]:
    """A copy of the program that anybody may run, and how it is run by somebody who may read the folder and not write it.

    Another process copies it: a file that is open for writing here would be open in programs that other threads start at the
    same moment, and could not be run as long as they hold it.
    """
    copy = folder / "program"
    subprocess.run(["cp", str(program), str(copy)], check=True)
    for place in (copy, folder):
        place.chmod(0o555)
    return copy, {"user": NOBODY, "group": NOBODY, "extra_groups": []} if os.geteuid() == 0 else {}


def ended(program: Path, words: Sequence[str], streams: Streams, folder: Path) -> Ended:
    """Runs the program in a folder, where its journal is `J`. NoEnd where it does not end in time."""
    source, sink = source_of(streams), sink_of(streams)
    how: Dict[str, Any] = {"stdout": subprocess.PIPE if sink is None else sink, "stderr": subprocess.PIPE}
    how.update({"input": streams.problem.read_bytes()} if streams.piped and streams.problem else {"stdin": source})
    if streams.readonly:
        program, who = as_nobody(program, folder)
        how.update(who)
    try:
        ran = subprocess.run(command(program, words, streams), cwd=folder, env=ENVIRONMENT, timeout=PATIENCE, **how)
    except subprocess.TimeoutExpired as error:
        raise NoEnd(f"does not end within {PATIENCE} seconds") from error
    finally:
        for stream in (source, sink):
            if stream is not None:
                os.close(stream)
    return Ended(ran.returncode, ran.stderr, ran.stdout or b"", journal_in(folder))
