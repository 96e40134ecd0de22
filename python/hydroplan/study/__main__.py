"""`python3 -m hydroplan.study FOLDER`."""
import sys

from .command import main

if __name__ == "__main__":
    sys.exit(main())
