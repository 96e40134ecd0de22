"""The command `python3 -m hydroplan.farm`."""
from __future__ import annotations

import sys

TYPE_CHECKING = False
if TYPE_CHECKING:
    from typing import Sequence


def main(words: Sequence[str]) -> int:
    """Does what these words ask for; the status.

    Processes begin before most modules are there. What is imported stays to the end, so nothing of it is looked through for what may go.
    """
    import gc

    gc.disable()
    from .early import BEGUN

    BEGUN.begin(words)
    from .command import main as run

    gc.freeze()
    gc.enable()
    return run(list(words))


# a process of a local cluster imports this module under another name
if __name__ == "__main__":
    sys.exit(main(sys.argv[1:]))
