"""The stored answers of the worker's program are the second reading's, which shares no code with it."""
import unittest

from command_rows import TOP
from second_reading.worker import answers


class Orders(unittest.TestCase):
    def test_stored(self):
        """Training, records of one part, and records of two parts that were made beside each other."""
        folder = TOP / "crates" / "hydroplan_worker"
        self.assertEqual(answers((folder / "stdin").read_bytes()), (folder / "stdout").read_bytes())
