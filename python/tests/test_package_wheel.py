"""The package that `pip install .` installs trains without the repository; and what its wheel holds."""
import importlib.util
import json
import os
import subprocess
import sys
import tempfile
import unittest
import zipfile
from pathlib import Path

from tool_support import REPOSITORY

sys.path.insert(0, str(REPOSITORY / "python"))

import package_wheel  # noqa: E402

PROBLEM = REPOSITORY / "examples" / "three_stages.json"
HAS_VENV = importlib.util.find_spec("ensurepip") is not None
# pip looks for nothing on a network, and says nothing of itself
QUIET = {"PIP_DISABLE_PIP_VERSION_CHECK": "1", "PIP_NO_INDEX": "1", "PIP_ROOT_USER_ACTION": "ignore"}


@unittest.skipUnless(HAS_VENV, "this Python makes no venv: sudo apt-get install python3-venv")
class Installed(unittest.TestCase):
    """A fresh venv without a network."""

    @classmethod
    def setUpClass(cls):
        room = tempfile.TemporaryDirectory()
        cls.addClassCleanup(room.cleanup)
        cls.room = Path(room.name).resolve()
        subprocess.run([sys.executable, "-m", "venv", cls.room / "venv"], check=True, capture_output=True)
        cls.bin = cls.room / "venv" / "bin"
        words = [cls.bin / "pip", "install", REPOSITORY]
        installed = subprocess.run(words, env={**os.environ, **QUIET}, capture_output=True, cwd=cls.room, check=False, text=True)
        assert installed.returncode == 0, installed.stdout + installed.stderr

    def run_installed(self, *words):
        """A run of the installed command on a problem, without this repository and its Python on any path."""
        environment = {"PATH": "/usr/bin:/bin", "HOME": str(self.room)}
        with PROBLEM.open("rb") as problem:
            return subprocess.run([self.bin / "hydroplan", *words], stdin=problem, capture_output=True, cwd=self.room, env=environment, check=False, text=True)

    def test_trains(self):
        ended = self.run_installed("train", "plan.journal", "3", "20")
        self.assertEqual((ended.returncode, ended.stderr), (0, ""))
        self.assertEqual(ended.stdout.splitlines()[-1], "bound 139810133266")
        self.assertEqual(self.run_installed("check", "plan.journal").stdout.splitlines()[-2], "bound 139810133266")

    def test_shares_work_by_the_worker_within_it(self):
        ended = self.run_installed("train", "shared.journal", "3", "20", "--workers", "2")
        self.assertEqual(ended.returncode, 0, ended.stderr)
        self.assertEqual(ended.stdout.splitlines()[-1], "bound 139810133266")

    def test_refuses_a_replaced_worker(self):
        """It is compared with the sum that is installed with it."""
        worker = next(Path(self.room).glob("venv/lib/**/hydroplan_worker-x86_64-linux"))
        kept = worker.read_bytes()
        self.addCleanup(worker.write_bytes, kept)
        worker.write_bytes(kept[:-1] + b"x")
        ended = self.run_installed("train", "replaced.journal", "3", "20", "--workers", "2")
        line = "hydroplan: the program in bin/worker is not the one that bin/worker/SHA256SUMS names, and was not run\n"
        self.assertEqual((ended.returncode, ended.stdout, ended.stderr), (1, "", line))

    def test_tells_of_words(self):
        self.assertTrue(self.run_installed("help", "join").stdout.startswith("join OUT JOURNAL.."))
        self.assertEqual(self.run_installed("explain", "--help").stdout[:14], "usage: explain")
        self.assertIn("`train` is the nearest", self.run_installed("trian").stderr)

    def test_runs_from_python(self):
        """Neither the script nor a program of the repository is asked."""
        script = "import hydroplan, json; from hydroplan.core import find_program; from hydroplan.farm.program import built_worker, built_program; "
        script += "print(json.dumps([hydroplan.__file__, str(find_program()), str(built_worker(built_program()))]))"
        ended = subprocess.run([self.bin / "python", "-c", script], stdout=subprocess.PIPE, cwd=self.room, check=True)
        for place in json.loads(ended.stdout):
            self.assertTrue(place.startswith(f"{self.room}/venv/lib"), place)


class Wheel(unittest.TestCase):
    def built(self, build):
        """The files of a wheel, by their names."""
        with tempfile.TemporaryDirectory() as room:
            with zipfile.ZipFile(Path(room) / build(room)) as wheel:
                return {it.filename: (it.external_attr >> 16, wheel.read(it)) for it in wheel.infolist()}

    def test_holds_the_programs_as_they_are_here(self):
        files = self.built(package_wheel.build_wheel)
        for name in package_wheel.PROGRAM:
            mode, data = files[f"hydroplan/program/{name}"]
            self.assertEqual((bool(mode & 0o100), data), (os.access(REPOSITORY / name, os.X_OK), (REPOSITORY / name).read_bytes()))
        for name in ("hydroplan/py.typed", "hydroplan/report/templates/page.html", "hydroplan/tools/__init__.py"):
            self.assertIn(name, files)
        self.assertFalse([it for it in files if "__pycache__" in it])

    def test_requires_its_libraries_by_extras(self):
        about = self.built(package_wheel.build_wheel)["hydroplan-1.0.0.dist-info/METADATA"][1].decode()
        self.assertIn('Requires-Dist: jinja2; extra == "report"\n', about)
        self.assertIn('Requires-Dist: tomli; (python_version < \'3.11\') and extra == "studies"\n', about)

    def test_that_is_edited_leads_here(self):
        self.assertEqual(self.built(package_wheel.build_editable)["hydroplan.pth"][1].decode(), f"{REPOSITORY / 'python'}\n")


if __name__ == "__main__":
    unittest.main()
