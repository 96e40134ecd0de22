"""Libraries that a command needs, looked for in this interpreter and in Debian's.

The `python3` on the PATH may be one without Debian's packages; then the command runs in Debian's own, where that has them.
"""
from __future__ import annotations

import os
import subprocess
import sys
from importlib.util import find_spec
from typing import Optional, Sequence

from .repository import IS_CLONE, TOP

DEBIAN = "/usr/bin/python3"
LAUNCHER = TOP / "python" / "__main__.py"
LOOK = "import sys; from importlib.util import find_spec; sys.exit(sys.version_info < (3, 9) or None in map(find_spec, sys.argv[1:]))"


def missing(libraries: Sequence[str]) -> list[str]:
    """Those of the libraries that this interpreter has not got."""
    return [it for it in libraries if find_spec(it) is None]


def line_on(command: str, lacking: Sequence[str]) -> str:
    """The line on libraries that a command lacks, with Debian's packages."""
    packages = " ".join(f"python3-{it}" for it in lacking)
    return (
        f"hydroplan: {command} needs {listed(lacking)}, which {sys.executable} has not got: "
        f"sudo apt-get install {packages} installs {'it' if len(lacking) == 1 else 'them'} for {DEBIAN}"
    )


def listed(names: Sequence[str]) -> str:
    """Names in words: `a`, `a and b`, `a, b and c`."""
    return names[0] if len(names) == 1 else ", ".join(names[:-1]) + " and " + names[-1]


def other_interpreter(libraries: Sequence[str]) -> Optional[str]:
    """Debian's interpreter, where it is another one, has all of the libraries, and the package stands in a clone, whose launcher it can run."""
    if sys.executable == DEBIAN or not (IS_CLONE and LAUNCHER.is_file()):
        return None
    try:
        ended = subprocess.run([DEBIAN, "-c", LOOK, *libraries], stdin=subprocess.DEVNULL, capture_output=True, check=False)
    except OSError:
        return None
    return DEBIAN if ended.returncode == 0 else None


def run_there(interpreter: str, words: Sequence[str]) -> None:
    """Goes on with a command in another interpreter, in the place of this process."""
    sys.stdout.flush()
    sys.stderr.flush()
    os.execv(interpreter, [interpreter, str(LAUNCHER), *words])
