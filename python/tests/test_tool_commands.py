"""Which libraries a command needs, and in which interpreter it runs; tests/script runs the commands themselves."""
import contextlib
import importlib.util
import io
import os
import signal
import subprocess
import sys
import tempfile
import unittest
from unittest import mock

from tool_support import REPOSITORY
from hydroplan import __main__ as commands
from hydroplan import interpreters
from hydroplan.commands import COMMANDS, read_commands
from hydroplan.tools.word_table import read_table


class Libraries(unittest.TestCase):
    def libraries(self, name, *words):
        """The libraries that a command needs with these words."""
        found = COMMANDS.tools.get(name) or COMMANDS.shared[name]
        return found.libraries_for(words)

    def test_of_commands(self):
        self.assertEqual(self.libraries("report", "R"), ("numpy", "pandas", "jinja2"))
        self.assertEqual(self.libraries("report", "--help"), ())
        self.assertEqual(self.libraries("plot", "bounds", "r.txt"), ())
        self.assertEqual(self.libraries("plot", "bounds", "r.txt", "--output=x"), ("matplotlib",))
        self.assertEqual(self.libraries("train", "J", "7", "1", "--workers", "2"), ())
        self.assertEqual(self.libraries("simulate", "J", "7", "1", "--scheduler=tcp://h:1"), ("distributed",))
        for name in ("join", "explain", "convert", "watch"):
            self.assertEqual(self.libraries(name, "x"), ())

    def test_of_a_study_in_an_older_interpreter(self):
        with mock.patch.object(sys, "version_info", (3, 10, 1)):
            self.assertEqual(read_commands().tools["study"].libraries, ("numpy", "pandas", "scipy", "jinja2", "tomli"))
        with mock.patch.object(sys, "version_info", (3, 11, 0)):
            self.assertEqual(read_commands().tools["study"].libraries, ("numpy", "pandas", "scipy", "jinja2"))

    def test_that_are_missing(self):
        self.assertEqual(interpreters.missing(["json", "no_such_library", "math"]), ["no_such_library"])
        with mock.patch.object(sys, "executable", "/opt/python"):
            one, two, three = (interpreters.line_on("plan", ["a", "b", "c"][:count]) for count in (1, 2, 3))
        behind = "which /opt/python has not got: sudo apt-get install"
        self.assertEqual(one, f"hydroplan: plan needs a, {behind} python3-a installs it for /usr/bin/python3")
        self.assertEqual(two, f"hydroplan: plan needs a and b, {behind} python3-a python3-b installs them for /usr/bin/python3")
        self.assertEqual(three, f"hydroplan: plan needs a, b and c, {behind} python3-a python3-b python3-c installs them for /usr/bin/python3")


class Interpreters(unittest.TestCase):
    def test_another_that_has_the_libraries(self):
        here = sys.executable
        with mock.patch.object(interpreters, "DEBIAN", here), mock.patch.object(sys, "executable", "/opt/python"):
            self.assertEqual(interpreters.other_interpreter(["json"]), here)
            self.assertIsNone(interpreters.other_interpreter(["no_such_library"]))

    def test_no_other(self):
        with mock.patch.object(interpreters, "DEBIAN", sys.executable):
            self.assertIsNone(interpreters.other_interpreter(["json"]))
        with mock.patch.object(interpreters, "DEBIAN", "/nowhere/python3"):
            self.assertIsNone(interpreters.other_interpreter(["json"]))
        with mock.patch.object(interpreters, "LAUNCHER", interpreters.TOP / "nothing"), mock.patch.object(sys, "executable", "/opt/python"):
            self.assertIsNone(interpreters.other_interpreter(["json"]))

    def test_a_command_ends_with_a_line(self):
        errors = io.StringIO()
        with mock.patch.object(COMMANDS.tools["report"], "libraries", ("no_such_library",)), contextlib.redirect_stderr(errors):
            self.assertEqual(commands.main(["report", "R"]), 1)
        self.assertRegex(errors.getvalue(), r"\Ahydroplan: report needs no_such_library, which \S+ has not got: .* for /usr/bin/python3\n\Z")

    def test_a_caller_keeps_its_signals(self):
        """Whoever calls `main` writes to pipes of its own, and would be ended where nobody reads one."""
        with mock.patch.object(COMMANDS.tools["report"], "libraries", ("no_such_library",)), contextlib.redirect_stderr(io.StringIO()):
            commands.main(["report", "R"])
        self.assertEqual(signal.getsignal(signal.SIGPIPE), signal.SIG_IGN)


class Table(unittest.TestCase):
    def test_names_modules_that_are_there(self):
        for name, tool in {**COMMANDS.tools, **COMMANDS.shared}.items():
            with self.subTest(name):
                self.assertIsNotNone(importlib.util.find_spec(f"hydroplan.{tool.module}"))

    def test_names_each_word_once(self):
        names = [*COMMANDS.tools, *COMMANDS.script, *COMMANDS.options]
        self.assertEqual(len(set(names)), len(names))
        self.assertEqual([it for it in names if read_table().command(it) is None], [])
        self.assertEqual([it for it in COMMANDS.shared if not read_table().command(it).is_of_the_program()], [])


class Folder(unittest.TestCase):
    def test_of_the_caller_holds_no_modules(self):
        """Behind `python3 -m` the folder is the first of the path, unless the package stands in it."""
        with tempfile.TemporaryDirectory() as room:
            for name in ("json.py", "argparse.py"):
                with open(os.path.join(room, name), "w", encoding="utf-8") as file:
                    file.write("raise SystemExit('led astray')")
            environment = {**os.environ, "PYTHONPATH": str(REPOSITORY / "python")}
            words = [sys.executable, "-m", "hydroplan", "plot", "bounds", "none.txt"]
            ended = subprocess.run(words, cwd=room, env=environment, capture_output=True, check=False, text=True)
        self.assertEqual((ended.returncode, ended.stderr), (1, "plot: cannot open none.txt: No such file or directory\n"))


if __name__ == "__main__":
    unittest.main()
