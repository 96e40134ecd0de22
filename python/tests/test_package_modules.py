"""Each module of the package is compiled and imported without a warning."""
import os
import subprocess
import sys
import tempfile
import unittest

from tool_support import REPOSITORY

PACKAGE = REPOSITORY / "python" / "hydroplan"
# each module in a process of its own, since one may hang on what another imports; names of libraries that are not there are told
LOOK = """
import importlib, os, sys
for name in sys.argv[1:]:
    child = os.fork()
    if child == 0:
        try:
            importlib.import_module(name)
        except ModuleNotFoundError as missing:
            if str(missing.name).startswith("hydroplan"):
                print(f"{name}: {missing}", flush=True)
        except BaseException as fault:
            print(f"{name}: {type(fault).__name__}: {fault}", flush=True)
        os._exit(0)
    os.waitpid(child, 0)
"""


def names():
    """The names of all modules."""
    found = (it.relative_to(PACKAGE.parent).with_suffix("").parts for it in sorted(PACKAGE.rglob("*.py")))
    return [".".join(it[:-1] if it[-1] == "__init__" else it) for it in found]


class Modules(unittest.TestCase):
    def run_python(self, *words):
        """What Python prints with these words, in a folder for the files that it compiles."""
        with tempfile.TemporaryDirectory() as cache:
            environment = {**os.environ, "PYTHONPATH": str(PACKAGE.parent), "PYTHONPYCACHEPREFIX": cache}
            ended = subprocess.run([sys.executable, "-W", "error", *words], env=environment, capture_output=True, check=False, text=True)
        return ended.returncode, ended.stdout + ended.stderr

    def test_are_imported_each_by_itself(self):
        self.assertGreater(len(names()), 50)
        self.assertEqual(self.run_python("-c", LOOK, *names()), (0, ""))

    def test_are_compiled(self):
        self.assertEqual(self.run_python("-m", "compileall", "-q", str(PACKAGE)), (0, ""))


if __name__ == "__main__":
    unittest.main()
