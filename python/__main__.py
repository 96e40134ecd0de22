"""Runs a command of the package `hydroplan`: `python3 python/__main__.py COMMAND ..`.

Python looks for modules beside the package and nowhere else in the user's folders: a file of theirs with the name of a module, as `json.py`,
does not come in its place.
"""
import os
import sys

HERE = os.path.dirname(os.path.abspath(__file__))
# the folder of the package: this one in a clone; where the package is installed, this is its folder `program/python`
PLACE = HERE if os.path.isdir(os.path.join(HERE, "hydroplan")) else os.path.dirname(os.path.dirname(os.path.dirname(HERE)))
sys.path[: int(sys.path[:1] == [HERE])] = [PLACE]

from hydroplan.__main__ import run  # noqa: E402

if __name__ == "__main__":
    sys.exit(run(sys.argv[1:]))
