"""Parts that the tests of `.ci/wrong` share. `python3 -m unittest discover -s tests/wrong` at the top of the repository runs them.

They show which edits the runner passes and fails, where it looks for the function that an edit is in, and which edits it
chooses. test_prover.py asks the prover itself, and is left out where the Rattle kit is not there.
"""
import sys
import tempfile
import unittest
from pathlib import Path

sys.dont_write_bytecode = True
ROOT = Path(__file__).resolve().parents[2]
sys.path.insert(0, str(ROOT / ".ci"))

SOURCE = """#![tactic(auto)]

pub const MOST: u64 = 7;

/// Returns twice the number.
pub fn twice(n: u64) -> u64
    requires { n < 1000 }
    ensures { result ≡ n + n }
{
    let most = n;
    if most > 3 {
        let _ = most;
    }
    n + most
}

impl Disk for FileDisk<'_> {
    fn len(&self) -> u64 {
        self.bytes
    }
}

impl Keeper<u64> for list::List<ListEntry> {
    fn keep(&mut self) {
        self.push()
    }
}

impl<'a, T: Copy, const N: usize> List<'a, T, N> {
    pub fn size(&self) -> usize {
        self.items.len()
    }

    const WIDE: u64 = 9;
}
"""


class Crates(unittest.TestCase):
    """A folder for a crate of the test."""

    def setUp(self):
        made = tempfile.TemporaryDirectory()
        self.addCleanup(made.cleanup)
        self.folder = Path(made.name)

    def write(self, path, text):
        """Writes a file of the crate and returns its path."""
        file = self.folder / path
        file.parent.mkdir(parents=True, exist_ok=True)
        file.write_text(text, encoding="utf-8")
        return file
