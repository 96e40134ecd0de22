"""Refusals as names and places, and suspicious keys. Places in the examples were counted with awk."""
import hashlib
import json
import re
import tempfile
import unittest
from pathlib import Path

from tool_support import EXAMPLES, REPOSITORY, S, cursor, run
from hydroplan.tools.explain_command import explain, main, ring_through
from hydroplan.tools.likeness import distance, nearest
from hydroplan.tools.misspellings import warnings
from hydroplan.tools.places import descend, locate, read_refusal

TWO = (EXAMPLES / "two_reservoirs.json").read_text(encoding="utf-8")
WORKED = REPOSITORY / "crates" / "test_golden" / "data"


def said(text, line):
    return "\n".join(explain(text.encode("utf-8"), [line]))


class Places(unittest.TestCase):
    """Nodes in byte order: autumn, spring, summer dry, summer wet; states: lower, upper."""

    ROWS = [
        (
            "NotWhole at support 1 1 0", 'the value of "rain" in realization 1 of node "spring"',
            "$.nodes.spring.realizations[1].support.rain (line 12, column 48)",
        ),
        ("BoxGap at node 3 1 0", 'state "upper" as it comes into node "summer wet"', '$.nodes["summer wet"] (line 22, column 19)'),
        ("Weight at successor 1 1 0", 'successor "summer wet" of node "spring"', '$.nodes.spring.successors["summer wet"] (line 14, column 53)'),
        ("NotWhole at root 1 1 0", 'state "upper" of the root', "$.root.state_variables.upper (line 4, column 47)"),
        ("TooLarge at root 2 0 0", 'successor "spring" of the root', "$.root.successors.spring (line 5, column 30)"),
        ("NotWhole at constraint 0 2 3", 'term 2 of constraint 2 of subproblem "stage"', "constraints[2].function.terms[2] (line 68, column 15)"),
        ("TooLarge at objective 0 2 0", 'term 1 of the objective of subproblem "stage"', "objective.function.terms[1] (line 52, column 63)"),
        ("Unbounded at variable 0 8 0", 'variable "spill" of subproblem "stage"', "variables[8] (line 46, column 65)"),
        ("Duplicate at random 0 1 0", 'random variable "demand" of subproblem "stage"', "random_variables[1] (line 41, column 36)"),
        ("Shape at state 0 1 0", 'state "upper" of subproblem "stage"', "$.subproblems.stage.state_variables.upper (line 38, column 18)"),
        ("NotJson at whole 0 0 0", "the file as a whole", "$ (line 1, column 1)"),
    ]

    def test_names_and_places(self):
        for line, words, place in self.ROWS:
            with self.subTest(line=line):
                text = said(TWO, f"hydroplan: problem refused: {line}")
                self.assertIn(f"where: {words}\n", text)
                self.assertIn(place, text)

    def test_what_is_missing_at_the_place(self):
        text = said(TWO.replace('"rain": 25, ', ""), "hydroplan: problem refused: Shape at support 1 1 0")
        self.assertIn("missing: rain", text)
        self.assertIn("path: $.nodes.spring.realizations[1].support (line 12", text)

    def test_a_number_a_name_and_a_member_are_pointed_at(self):
        rows = [
            ('"upper": 100}', '"upper": 100.5}', "NotWhole at constraint 0 7 0", "constraints[7].set.upper", "100.5 is not whole"),
            ('"stop": 1', '"stop": -1', "Weight at node 2 0 0", '$.nodes["summer dry"].stop', "-1 is too small"),
            ('"summer wet": 3', '"summer wett": 3', "UnknownName at successor 1 1 0", "summer wett", '"summer wet" is'),
            ('"name": "coal"}, "set"', '"name": "coals"}, "set"', "UnknownName at constraint 0 8 0", "function.name", '"coal" is'),
            ('"sense": "min"', '"sense": "max"', "Unsupported at objective 0 0 0", "objective.sense", '"max" is not read'),
            (
                '"type": "GreaterThan", "lower": 0}', '"type": "GreaterThan", "low": 0}', "Shape at constraint 0 2 0",
                "constraints[2].set", "`lower` is missing",
            ),
            ('"realizations": [{"probability": 1, "support": {"rain": 15, "demand": 30}}]', '"realizations": []',
             "Shape at node 3 0 0", '$.nodes["summer wet"].realizations', "it has no realizations"),
            ('"name": "spill"}', '"name": "rain"}', "Duplicate at variable 0 8 0", "variables[2].name", "stands here already"),
        ]
        for old, new, line, place, part in rows:
            with self.subTest(new=new):
                self.assertIn(old, TWO)
                text = said(TWO.replace(old, new, 1), f"hydroplan: problem refused: {line}")
                pointed = [it for it in text.splitlines() if "look at: " in it]
                self.assertEqual(len(pointed), 1, text)
                self.assertIn(place, pointed[0])
                self.assertIn(part, pointed[0])

    def test_alternatives(self):
        rows = [
            ("7", "Shape at alternative 2 0 0", 'the alternatives of node "summer dry"', '$.nodes["summer dry"].alternatives (line'),
            ("[[]]", "Shape at alternative 2 1 0", 'alternative 1 of node "summer dry"', '$.nodes["summer dry"].alternatives[0] (line'),
            ("[[1, 2], [3, 0.5]]", "NotWhole at alternative 2 2 1", 'weight 1 of alternative 2 of node "summer dry"',
             '$.nodes["summer dry"].alternatives[1][1] (line'),
        ]
        for listed, line, words, place in rows:
            with self.subTest(line=line):
                text = said(TWO.replace('"stop": 1', f'"stop": 1, "alternatives": {listed}'), f"hydroplan: problem refused: {line}")
                self.assertIn(f"where: {words}\n", text)
                self.assertIn(place, text)

    def test_a_cycle_is_shown(self):
        text = TWO.replace(
            '"successors": {"autumn": 1}\n    },\n    "autumn": {',
            '"successors": {"autumn": 1}\n    },\n    "autumn": {"successors": {"summer wet": 1},',
        )
        self.assertIn("ring: autumn -> summer wet -> autumn", said(text, "hydroplan: problem refused: Cycle at node 0 0 0"))

    def test_the_ring_goes_through_the_node(self):
        links = {"a": ["b", "d"], "b": ["c"], "c": ["b"], "d": ["e"], "e": ["a", "d"], "f": ["a"]}
        self.assertEqual(ring_through(links, "a"), ["a", "d", "e", "a"])
        self.assertEqual(ring_through(links, "b"), ["b", "c", "b"])
        self.assertIsNone(ring_through(links, "f"))
        self.assertIsNone(ring_through(links, "g"))

    def test_a_line_of_another_file(self):
        text = said('{"nodes":1}', "hydroplan: problem refused: Cycle at node 0 0 0")
        self.assertIn("this line is not of this file: Shape at $.nodes", text)

    def test_a_file_that_is_no_json(self):
        text = said('{"version":\n 1,}', "hydroplan: problem refused: NotJson at whole 0 0 0")
        self.assertIn("no JSON at line 2, column 4", text)


class OtherLines(unittest.TestCase):
    def test_no_stage_solution(self):
        # rows of the stage in the file's order: upper's water, lower's water, demand
        text = said(TWO, f"hydroplan: no stage solution: run 3 node 1 values 10 40 state {30 * S} {50 * S + S // 2} rows 0 {-S} {2 * S}")
        for part in ('node "spring"', 'random: "rain" = 10', 'random: "demand" = 40', 'state: "lower" = 30', 'state: "upper" = 50.5',
                     "row 1: $.subproblems.stage.subproblem.constraints[1] (line 61, column 11) weighs -1", "constraints[2]", "weighs 2"):
            self.assertIn(part, text)
        self.assertNotIn("row 0:", text)

    def test_range_and_certificates(self):
        self.assertIn('realization 1 of node "spring"', said(TWO, "hydroplan: range: iteration 4 node 1 realization 1"))
        text = said(TWO, "hydroplan: journal refused: BadCertificate iteration 2 node 1 Sum 0 1")
        self.assertIn('successor: "summer wet"', text)
        self.assertIn("constraints[2]", said(TWO, "hydroplan: journal refused: BadCertificate iteration 2 node 1 Sign 0 2"))

    def test_lines_without_a_place(self):
        self.assertIn("names no place", said(TWO, "hydroplan: something new"))
        for line in (
            "cannot open x.json: No such file or directory", "train: JOURNAL is missing", "there is no command `bases`; `base` is the nearest",
        ):
            self.assertEqual(said(TWO, f"hydroplan: {line}"), f"hydroplan: {line}")

    def test_words_and_streams(self):
        text = said(TWO, "hydroplan: usage: base, train JOURNAL SEED COUNT [BATCH], ..")
        for part in (
            "form: train JOURNAL SEED COUNT [BATCH] < PROBLEM\n", "form: gen SEED STAGES RESERVOIRS\n", "range: COUNT of simulate, 0 to 1000\n",
        ):
            self.assertIn(f"  {part}", text)
        self.assertNotIn("form: prove", text)
        rows = {
            "journal device failed": "its permissions", "the journal is no regular file": "a folder, a pipe or a device",
            "the journal's folder cannot be opened": "make it", "another run writes this journal": "`check` may read it",
            "the journal was removed or changed while it was written": "train again",
            "problem could not be read": "--problem FILE", "problem is longer than 16777216 bytes": "16,777,216", "output failed": "its disk",
            "memory": "free some",
        }
        for line, part in rows.items():
            self.assertIn(part, said(TWO, f"hydroplan: {line}"))

    def test_beside_a_file_that_is_no_json(self):
        text = said("no json", "hydroplan: another run writes this journal")
        self.assertIn("`check` may read it", text)
        self.assertIn("no JSON at line 1, column 1", text)
        digest = hashlib.sha256(b"\xff").hexdigest()
        text = "\n".join(explain(b"\xff", [f"hydroplan: journal refused: OtherProblem kept {'1' * 64} asked {digest}"]))
        self.assertIn("is the one on standard input", text)

    def test_too_much(self):
        # three nodes at most on a path, two states: 2^24 / 9 paths in all, 1,864,135, so 29,127 of a batch of 64
        text = said(TWO, f"hydroplan: too much: formula 1 gives {3 * 3 * 2000 * 64}")
        self.assertIn("cuts of 1,152,000 numbers, limit 16,777,216\n", text)
        chain = (REPOSITORY / "tests/program/data/chain.json").read_text(encoding="utf-8")
        # 200 nodes and 50 states: 2^24 / (200 * 51) is 1644, a batch of 8 has an eighth of that
        text = said(chain, "hydroplan: too much: formula 1 gives 20400000")
        self.assertIn("  fits: with BATCH 1 at most 1,644 iterations\n", text)
        self.assertIn("  fits: with BATCH 8 at most 205 iterations\n", text)
        text = said(chain, "hydroplan: too much: formula 4 gives 20800000\nhydroplan: too much: a report")
        self.assertIn("a report of 20,800,000 numbers, limit 4,194,304\n  fits: at most 201 scenarios", text)
        self.assertIn("`simulate`", said(TWO, "hydroplan: too much: formula 5 gives 168420"))
        self.assertIn("not told", said('{"buses": {}}', "hydroplan: too much: formula 3 gives 1"))
        self.assertEqual(said(chain, "hydroplan: too much: a record of 5 bytes"), "hydroplan: too much: a record of 5 bytes")

    def test_journals_that_are_refused(self):
        rows = {
            "NotAJournal": "does not begin", "OtherVersion 3": "version 3", "BadBatch 65": "65 paths", "Short at 45": "byte 45",
            "TooMany": "2,000 records",
            "BadLength iteration 4 length 67108865": "iteration 4 says that it has 67108865 bytes", "BadRecord iteration 2 at 14": "from byte 14",
            "OtherSeed kept 7 asked 8": "SEED 7, and 8 was asked for", "OtherBatch kept 2 asked 3": "BATCH 2, and 3 was asked for",
            "SomethingElse 5": "not known here",
        }
        for line, part in rows.items():
            self.assertIn(part, said(TWO, f"hydroplan: journal refused: {line}"))

    def test_the_other_problem(self):
        digest = lambda text: hashlib.sha256(text.encode("utf-8")).hexdigest()  # noqa: E731
        own, windows = digest(TWO), digest(TWO.replace("\n", "\r\n"))
        rows = [
            (own, "1" * 64, "is the one that the journal was made for"), ("1" * 64, own, "is the one on standard input"),
            ("1" * 64, "a" * 64, f"is neither, its SHA-256 is {own}"), (digest(TWO.rstrip()), own, "for this file without a newline at its end"),
            (windows, own, "for this file with one newline at its end, with a carriage return at the end of each line"),
        ]
        for kept, asked, part in rows:
            self.assertIn(part, said(TWO, f"hydroplan: journal refused: OtherProblem kept {kept} asked {asked}"))
        text = said(TWO.replace("\n", "\r\n"), f"hydroplan: journal refused: OtherProblem kept {own} asked {windows}")
        self.assertIn("for this file with one newline at its end, without carriage returns", text)
        text = said(TWO.replace("\n", "\r\n") + "\r\n", f"hydroplan: journal refused: OtherProblem kept {digest(TWO + chr(10))} asked {'1' * 64}")
        self.assertIn("for this file without carriage returns", text)

    def test_names_forge_no_line(self):
        with tempfile.TemporaryDirectory() as folder:
            file = Path(folder) / "problem.json"
            name = json.dumps("summer\nwarning: all is well\u202e\u2028\x07", ensure_ascii=False)[1:-1]
            file.write_text(TWO.replace("summer dry", name), encoding="utf-8")
            status, out, _ = run(main, file, "--line", "hydroplan: problem refused: Weight at node 2 0 0")
        self.assertEqual((status, len(out.split("\n"))), (0, 5))
        self.assertIn('where: node "summer\\u{000A}warning: all is well\\u{202E}\\u{2028}\\u{0007}"\n', out)

    def test_the_command_reads_the_program_s_lines_alone(self):
        typed = "something else\nhydroplan: problem refused: Version at whole 0 0 0\n"
        status, out, _ = run(main, EXAMPLES / "two_reservoirs.json", typed=typed)
        self.assertEqual(status, 0)
        self.assertEqual(out.splitlines()[0], "hydroplan: problem refused: Version at whole 0 0 0")
        self.assertNotIn("something", out)
        status, out, _ = run(main, EXAMPLES / "two_reservoirs.json", "--keys")
        self.assertIn("nothing to explain", out)
        self.assertEqual(run(main, EXAMPLES / "nothing.json", "--keys")[0], 1)


def edited_rows():
    """The problems that the worked rows refuse: the name of a row, the text, its edits, and the program's line."""
    for row in (WORKED / "rows.txt").read_text(encoding="utf-8").splitlines():
        kind, name, problem, *_ = row.split()
        if kind != "edits" or name.startswith("unlike"):
            continue
        for line in (WORKED / f"{name}.txt").read_text(encoding="utf-8").splitlines():
            edits, _, last = line.rpartition(" -> ")
            if "problem refused" in last:
                yield name, (WORKED / problem).read_text(encoding="utf-8"), edits.split(" ; "), last


def grown(text):
    """`<UNIT*TIMES>` written out."""
    return re.sub(r"<([^<>]*)\*(\d+)>", lambda found: found.group(1) * int(found.group(2)), text)


class WorkedRows(unittest.TestCase):
    """Each refusal that the program's own worked rows have is explained, at a place that holds or meets what was edited."""

    ELSEWHERE = ("BoxGap", "Unbounded", "EmptyBox", "Range")

    def test_all_of_them(self):
        count = 0
        for name, text, edits, last in edited_rows():
            with self.subTest(row=name, edits=edits, last=last):
                for edit in edits:
                    old, _, new = edit.partition(" => ")
                    at = text.index(old)
                    new = grown(grown(new))
                    text = text[:at] + new + text[at + len(old):]
                lines = explain(text.encode("utf-8"), [last])
                self.assertGreater(len(lines), 1)
                count += 1
                refusal = read_refusal(last)
                if len(edits) > 1 or refusal.kind in (*self.ELSEWHERE, "NotJson") or refusal.part in ("support", "state"):
                    continue
                if refusal.part == "constraint" and '"variables"' in new:
                    continue
                place = locate(cursor(text), refusal).cursor.value.offset
                _, end = json.JSONDecoder().raw_decode(text, place)
                self.assertTrue(place <= at + len(new) and at <= end, lines)
        self.assertGreater(count, 150)


class Keys(unittest.TestCase):
    def test_distance(self):
        rows = [("stopp", "stop", 1), ("succesors", "successors", 1), ("sotp", "stop", 1), ("", "ab", 2), ("abc", "abc", 0), ("prob", "stop", 3)]
        for left, right, apart in rows:
            self.assertEqual((distance(left, right), distance(right, left)), (apart, apart), left)

    def test_nearest(self):
        known = ("in", "out", "stop", "successors", "state_variables")
        rows = [("stopp", "stop"), ("Stop", "stop"), ("succesors", "successors"), ("sucessor", "successors"), ("stateVariables", "state_variables"),
                ("inn", None), ("name", None), ("outer", None), ("steps", None)]
        for word, like in rows:
            self.assertEqual(nearest(word, known), like, word)

    def test_keys_that_look_like_one_that_counts(self):
        rows = [
            ('"stop": 1', '"stopp": 1', '$.nodes["summer dry"].stopp (line 20, column 7): the key `stopp` is ignored, and looks like `stop`'),
            ('"successors": {"summer', '"succesors": {"summer', "`succesors` is ignored, and looks like `successors`"),
            ('"initial_value"', '"inital_value"', "$.root.state_variables.upper.inital_value (line 4"),
            ('"rain": 25', '"rian": 25', "`rian` is ignored, and looks like `rain`"),
            ('"constant": 12', '"constants": 12', "objective.function.constants"),
            ('"set": {"type": "Interval", "lower": 10, "upper": 80}', '"set": {"type": "Interval", "lower": 10, "uper": 80}', "`uper`"),
            ('"random_variables"', '"random_variable"', "`random_variable`"),
            ('"version": {"major": 1', '"version": {"Major": 1', "`Major`"),
        ]
        for old, new, part in rows:
            with self.subTest(new=new):
                self.assertIn(old, TWO)
                found = warnings(cursor(TWO.replace(old, new, 1)))
                self.assertEqual(len(found), 1, found)
                self.assertIn(part, found[0])

    def test_no_warning_of_the_examples_and_of_keys_of_other_tools(self):
        for path in sorted(EXAMPLES.glob("*.json")):
            self.assertEqual(warnings(cursor(path.read_text(encoding="utf-8"))), [])
        text = TWO.replace('{"version"', '{"name": "n", "author": "a", "date": "d", "description": "e", "version"', 1)
        text = text.replace('{"name": "coal"}', '{"name": "coal", "primal_start": 0}').replace('"sense"', '"weather": 1, "sense"')
        self.assertEqual(warnings(cursor(text)), [])

    def test_keys_that_come_twice(self):
        found = warnings(cursor('{"version":{"major":1},\n"nodes":{},"nodes":{}}'))
        self.assertEqual(found, ["$ (line 1, column 1): the key `nodes` comes again at line 2, column 12; the last one counts"])

    def test_files_of_no_form_give_no_warning(self):
        for text in ("[]", "1", '{"nodes":[1],"root":2,"subproblems":{"p":3},"validation_scenarios":[4,[5]]}'):
            self.assertEqual(warnings(cursor(text)), [])

    def test_descending_stops_where_the_file_does(self):
        at, missing = descend(cursor('{"a":[1]}'), ("a", 3, "b"))
        self.assertEqual((at.path, missing), (("a",), (3, "b")))


if __name__ == "__main__":
    unittest.main()
