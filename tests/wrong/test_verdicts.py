"""Verdicts on an edit from rattle's answers. The answers here were printed by rattle, and are cut to the lines that matter."""
import unittest

import support
from wrong_edits.edits import read_edit
from wrong_edits.trying import over_each_other, rounds_of
from wrong_edits.verdicts import verdict_on_bodies, verdict_of

TOGETHER = """\
./proofs/dual_simplex/exchange/Answers.antt:8:188: error: `returns-clause-exchanged`: as printed, the two types differ
note: src/entering.rt:93:1: it is not proved that what the function ensures holds when it returns
fn lp_table::entering::is_better: no proof: expected answers in ./proofs/entering/is_better/Answers.antt; `search` did not prove `returns`
fn lp_table::entering::chosen: no proof: it calls `lp_table::entering::is_better`, which is not proved
fn lp_table::entering::is_fixed: proved
fn lp_table::dual_simplex::exchange: not proved; it calls `lp_table::table::Table::pivot`, which is not proved
only=5 proved=1
"""
GONE = """\
./proofs/table/pivot_lists/Answers.antt:36:160: error: `returns-clause`: record `After-cells8` has no field `move_row`
fn lp_table::table::pivot_lists: not proved
only=1 proved=0
"""
UNPARSED = """\
error: expected an expression, found `;`
 --> src/table.rt:30:9
"""


class Alone(unittest.TestCase):
    def verdict(self, status, said, *changed):
        return verdict_of(status, said, changed or ("src/table.rt",))

    def test_a_goal_that_is_not_proved_refuses(self):
        self.assertTrue(self.verdict(1, TOGETHER).refused)
        self.assertTrue(self.verdict(1, TOGETHER.replace("only=5 proved=1", "logic=not-proved")).refused)

    def test_a_proof_refuses_no_wrong_edit(self):
        verdict = self.verdict(0, "fn lp_table::table::pivot_lists: proved\nonly=1 proved=1\n")
        self.assertFalse(verdict.refused)
        self.assertIn("NOT REFUSED", verdict.why)

    def test_what_does_not_parse_is_a_bad_edit(self):
        verdict = self.verdict(1, UNPARSED)
        self.assertFalse(verdict.refused)
        self.assertIn("BAD EDIT: it did not reach the prover", verdict.why)

    def test_a_name_that_is_not_in_scope_is_a_bad_edit(self):
        for line in ("specs/Sums.antt:3:9: error: `twice`: `tow` is not in scope", "src/table.rt:3:9: error: expected a term"):
            verdict = self.verdict(1, line + "\nlogic=not-proved\n")
            self.assertFalse(verdict.refused, line)
            self.assertIn("cannot read the edited text", verdict.why)

    def test_a_false_statement_reads_well(self):
        self.assertTrue(self.verdict(1, "src/table.rt:3:9: error: `law`: `a` is not `b`\nlogic=not-proved\n").refused)

    def test_no_verdict_is_no_refusal(self):
        for status in (2, 3, -9):
            self.assertFalse(self.verdict(status, "rattle: no verdict: it ran out of memory\n").refused)

    def test_says_where_only_a_proof_file_no_longer_fits(self):
        verdict = self.verdict(1, GONE)
        self.assertTrue(verdict.refused)
        self.assertIn("only because a proof file names what the edit took away", verdict.why)

    def test_libraries_of_different_builds_are_a_bad_edit(self):
        said = "module `Rattle-base_num-Lib` is another one. Run the lower steps again\nlogic=not-proved\n"
        self.assertFalse(self.verdict(1, said).refused)


class OfBodies(unittest.TestCase):
    EDITED = ["entering::is_better", "dual_simplex::exchange", "entering::chosen", "entering::is_fixed"]

    def verdict(self, *functions, said=TOGETHER, status=1):
        texts = {"src/entering.rt": "fn is_better() {\n    body\n}\n"}
        return verdict_on_bodies(status, said, texts, "lp_table", list(functions), self.EDITED)

    def refused(self, *functions, **how):
        return self.verdict(*functions, **how).refused

    def test_a_function_with_an_open_goal_or_a_refused_answer_is_refused(self):
        self.assertTrue(self.refused("entering::is_better"))
        self.assertTrue(self.refused("dual_simplex::exchange"))
        self.assertTrue(self.refused("entering::is_fixed", "entering::is_better"))

    def test_an_open_goal_is_the_reason_before_a_name_that_is_gone(self):
        gone = "proofs/entering/is_better/Answers.antt:8:1: error: `returns`: `Goals` has no field `returns`\n"
        goal = "note: src/entering.rt:2:5: it is not proved that what the function ensures holds\n"
        end = "fn lp_table::entering::is_better: not proved\nonly=1 proved=0\n"
        self.assertIn("only because a proof file", self.verdict("entering::is_better", said=gone + end).why)
        self.assertIn("note: src/entering.rt:2:5", self.verdict("entering::is_better", said=gone + goal + end).why)

    def test_a_call_of_what_is_not_proved_does_not_tell(self):
        self.assertFalse(self.refused("entering::chosen"))

    def test_a_proved_function_is_not_refused(self):
        self.assertIn("NOT REFUSED", self.verdict("entering::is_fixed").why)

    def test_nothing_is_believed_where_an_untouched_function_fails(self):
        line = "fn lp_table::bounds::low_of: no proof: `search` did not prove `returns`"
        said = TOGETHER.replace("fn lp_table::entering::is_fixed: proved", line)
        self.assertIn("low_of is not proved, which it does not change", self.verdict("entering::is_better", said=said).why)

    def test_a_closure_stands_for_its_function(self):
        said = "fn lp_table::entering::fn::is_fixed::all+FnMut::call_mut: not proved\nonly=1 proved=0\n"
        self.assertTrue(self.refused("entering::is_fixed", said=said))

    def test_an_answer_over_what_was_not_admitted_does_not_tell(self):
        said = "proofs/a/b/Answers.antt:1:1: error: `c` was not admitted\nonly=1 proved=0\n"
        self.assertFalse(self.refused("a::b", said=said))

    def test_an_answer_of_a_longer_name_is_another_functions(self):
        self.assertFalse(self.refused("dual_simplex::exch"))
        self.assertFalse(self.refused("entering::is"))

    def test_nothing_is_told_without_a_verdict(self):
        self.assertFalse(self.refused("entering::is_better", status=2))


class Rounds(support.Crates):
    def test_edits_of_a_round_lie_over_each_other(self):
        first, second = (read_edit("an.edit", f"file: src/lib.rt\nold: {it}") for it in ("a\nnew: b", "c\nnew: d"))
        third = read_edit("an.edit", "file: src/lib.rt\nold: c\nnew: a")
        self.write("src/lib.rt", "a c e")
        self.assertEqual(over_each_other([first, second], self.folder), {"src/lib.rt": "b d e"})
        self.assertEqual(over_each_other([third, first], self.folder), {})

    def test_no_two_edits_of_a_round_change_one_function(self):
        rounds = rounds_of({"one": ["a"], "two": ["b", "c"], "three": ["a"], "four": ["c", "d"], "five": ["d"]})
        self.assertEqual(rounds, [["one", "two", "five"], ["three", "four"]])


if __name__ == "__main__":
    unittest.main()
