"""An interpreter that is too old is named, with the line that installs another."""
import subprocess
import sys
import unittest

from tool_support import REPOSITORY


class Version(unittest.TestCase):
    def run_as(self, version):
        """How the tools begin in an interpreter that says it is this version."""
        script = f"import sys; sys.version_info = {version}; sys.version = '{'.'.join(map(str, version))} (main)'; import hydroplan.tools"
        return subprocess.run([sys.executable, "-c", script], cwd=REPOSITORY / "python", capture_output=True, check=False)

    def test_is_looked_at(self):
        ended = self.run_as((3, 8, 20))
        line = f"hydroplan: {sys.executable} is Python 3.8.20, and 3.9 is needed at least: sudo apt-get install python3\n"
        self.assertEqual((ended.returncode, ended.stderr.decode()), (1, line))
        self.assertEqual(self.run_as((3, 9, 0)).returncode, 0)


if __name__ == "__main__":
    unittest.main()
