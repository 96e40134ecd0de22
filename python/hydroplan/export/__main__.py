"""The command `python3 -m hydroplan.export`."""
import sys

from .command import main

if __name__ == "__main__":
    sys.exit(main())
