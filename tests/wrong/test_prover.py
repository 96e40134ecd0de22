"""Edits of a small crate, tried by the prover itself. Left out where the Rattle kit is not there."""
import shutil
import unittest

from support import Crates

from wrong_edits import kit
from wrong_edits.edits import edits_of
from wrong_edits.trying import try_edits

CODE = """\
//! Numbers of a test.
#![tactic(auto)]
ghost use Rattle.std.specs.Prelude.{◌≡◌, ◌+◌, ◌<◌};

/// Returns twice the number.
pub fn twice(n: u64) -> u64
    requires { n < 1000 }
    ensures { result ≡ n + n }
{
    n + n
}

/// Returns one more than the number.
pub fn more(n: u64) -> u64
    requires { n < 1000 }
    ensures { result ≡ n + 1 }
{
    n + 1
}

/// Returns two more than the number.
pub fn next(n: u64) -> u64
    requires { n < 998 }
    ensures { result ≡ n + 1 + 1 }
{
    more(more(n))
}
"""


@unittest.skipUnless(shutil.which("rt"), "the Rattle kit is not there")
class Prover(Crates):
    def setUp(self):
        super().setUp()
        self.folder = self.folder.resolve()
        self.write("crates.txt", "small:\n")
        self.write("crates/small/src/lib.rt", CODE)
        (self.folder / ".git").mkdir()

    def tried(self, **edits):
        """Returns what came of edits, each an old and a new text, by name: whether it was refused, and why."""
        for name, (old, new) in edits.items():
            self.write(f"crates/small/wrong/{name}.edit", f"file: src/lib.rt\nold: {old}\nnew: {new}\n")
        crate, = kit.crates(self.folder)
        return {it.edit[:-len(".edit")]: it.verdict for it in try_edits(crate, edits_of(self.folder / "crates/small")[0])}

    def test_a_wrong_body_is_refused_and_a_right_one_let_through(self):
        found = self.tried(
            doubled_less_one=("    n + n", "    n + n.min(7)"),
            kept_by_another_way=("    n + 1", "    1 + n"),
            one_call=("    more(more(n))", "    more(n)"),
            no_such_text=("    n - n", "    n"),
        )
        self.assertEqual({name for name, it in found.items() if it.refused}, {"doubled_less_one", "one_call"})
        self.assertIn("NOT REFUSED", found["kept_by_another_way"].why)
        self.assertIn("is in src/lib.rt 0 times", found["no_such_text"].why)

    def test_what_cannot_be_read_is_a_bad_edit(self):
        found = self.tried(no_body=("    n + n", "    n + ;"), no_name=("result ≡ n + n", "result ≡ n + wide"))
        for name, it in found.items():
            self.assertFalse(it.refused, name)
            self.assertIn("BAD EDIT", it.why, name)


if __name__ == "__main__":
    unittest.main()
