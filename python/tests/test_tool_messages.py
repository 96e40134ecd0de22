"""Messages of the tools that no other test reads whole, each as a user gets it."""
import io
import json
import tempfile
import unittest
from contextlib import redirect_stderr, redirect_stdout
from fractions import Fraction as F
from pathlib import Path
from unittest import mock

from tool_support import DATA, EXAMPLES, S, cursor, run
from hydroplan.tools import convert_command, explain_command, plot_command
from hydroplan.tools.before_training import NO_COPY
from hydroplan.tools.located_json import NotJson, Refused, parse
from hydroplan.tools.explain_command import explain
from hydroplan.tools.limits import extent_of
from hydroplan.tools.scales import Scales
from hydroplan.tools.too_much import lines_on, of_policy, of_training

NEWSVENDOR = (DATA / "newsvendor.sof.json").read_text(encoding="utf-8")
TWO = (EXAMPLES / "two_reservoirs.json").read_text(encoding="utf-8")
CASCADE = (EXAMPLES / "cascade_plants.json").read_text(encoding="utf-8")


def said(text, line):
    """What `explain` says of a line of the program beside a file."""
    return explain(text.encode("utf-8"), [f"hydroplan: {line}"])


class OfJson(unittest.TestCase):
    FAULTS = {
        b"": "the text ends where a value is expected", b"[nul]": "a value is expected", b'{"a":1,}': "a key in quotation marks is expected",
        b'{"a" 1}': "a colon is expected", b"[1\n2]": "a comma or the end of the array is expected",
        b'{"a":1 2}': "a comma or the end of the object is expected", b'["a': "the text ends inside a string",
        b'["\x01"]': "a control character in a string", b'["\\x"]': "an escape that JSON does not have",
        b'["\\ud800"]': "half of a pair of surrogates", b'["\\u00g0"]': "four hexadecimal digits are expected",
        b"[1] 2": "something stands behind the value", b"[1e400]": "a number that is too large for any double",
        b'{"a":"\xff"}': "bytes that are no UTF-8", b"[" * 128: "more than 127 levels",
    }

    def test_faults(self):
        for data, reason in self.FAULTS.items():
            with self.subTest(data), self.assertRaises(NotJson) as caught:
                parse(data)
            self.assertEqual(caught.exception.reason, reason)

    def test_values_of_another_kind(self):
        rows = [
            ("[]", "text", "a string is expected, not an array"), ('"x"', "number", "a number is expected, not a string"),
            ("true", "keys", "an object is expected, not a truth value"), ("null", "items", "an array is expected, not null"),
            ("{}", "items", "an array is expected, not an object"), ("7", "keys", "an object is expected, not a number"),
            ("1e-5000", "number", "a number of so many digits is not read"),
        ]
        for text, asked, words in rows:
            with self.subTest(words), self.assertRaises(Refused) as caught:
                getattr(cursor(text), asked)()
            self.assertEqual(caught.exception.reason, words)


class OfConvert(unittest.TestCase):
    def setUp(self):
        made = tempfile.TemporaryDirectory()
        self.addCleanup(made.cleanup)
        self.folder = Path(made.name)

    def written(self, name, text):
        path = self.folder / name
        path.write_text(text, encoding="utf-8")
        return path

    def refused(self, text, *words, bounds='{"x_out": [0, 20], "u": [0, 20.25]}'):
        """What is said of a file that is refused."""
        given = [self.written("given.json", text), "--bounds", self.written("bounds.json", bounds), "--write-scales", self.folder / "scales.json"]
        status, out, err = run(convert_command.main, "problem", *given, "--negate-max", *words)
        self.assertEqual((status, out), (1, ""))
        return err

    ROWS = [
        (
            '"subproblem": "second_stage_subproblem"', '"subproblem": "third"', 'UnknownName at $.nodes.second_stage.subproblem',
            'no subproblem is named "third"',
        ),
        (
            '"successors": {"second_stage": 1.0}', '"successors": {"third": 1.0}', "UnknownName at $.nodes.first_stage",
            'its successor "third" is no node',
        ),
        ('"support"', '"supports"', "Shape at $.nodes.second_stage.realizations[0]", "the key `support` is missing"),
    ]

    def test_refusals(self):
        for old, new, place, words in self.ROWS:
            with self.subTest(new):
                self.assertIn(old, NEWSVENDOR)
                err = self.refused(NEWSVENDOR.replace(old, new, 1))
                self.assertTrue(err.startswith(f"convert: {place}"), err)
                self.assertIn(words, err)

    def edited(self, edit):
        """What is said of the example with its value changed by a function."""
        value = json.loads(NEWSVENDOR)
        edit(value)
        return self.refused(json.dumps(value))

    def test_refusals_of_values(self):
        def set_type(value):
            rows = value["subproblems"]["first_stage_subproblem"]["subproblem"]["constraints"]
            rows[0]["name"] = "water"
            rows[0]["set"] = {"type": "SecondOrderCone", "dimension": 2}

        def variable(value):
            value["subproblems"]["first_stage_subproblem"]["subproblem"]["objective"]["function"] = {"type": "Variable", "name": "y"}

        def cycle(value):
            value["nodes"]["second_stage"]["successors"] = {"first_stage": 1}

        def step(value):
            value["validation_scenarios"] = [{"scenario": [{"node": "third"}]}]

        def chances(value):
            for realization in value["nodes"]["second_stage"]["realizations"]:
                realization["probability"] = 0

        def alternatives(value):
            value["nodes"]["second_stage"]["alternatives"] = [[0, 0]]

        def root(value):
            value["root"]["successors"] = {"first_stage": 0}

        rows = {
            set_type: 'a set of type SecondOrderCone (constraint "water"); the profile has ', variable: 'no variable is named "y"',
            cycle: "the profile has no cycles: first_stage -> second_stage -> first_stage", step: 'no node is named "third"',
            chances: "all its realizations have probability 0", alternatives: "an alternative has probability 0, and weights are at least 1",
            root: "no probability is above 0",
        }
        for edit, words in rows.items():
            with self.subTest(words):
                self.assertIn(words, self.edited(edit))

    def test_refusals_of_options(self):
        rows = [
            ('{"values": "ten"}', 'no number, and no fraction as in "1/3"'), ('{"cost": 0.1}', "would be 0.125 and become 0: choose a greater scale"),
            ('{"cost": 1e15}', ", above 2^40: choose a smaller scale"),
        ]
        for scales, words in rows:
            with self.subTest(scales):
                self.assertIn(words, self.refused(NEWSVENDOR, "--scales", self.written("chosen.json", scales)))
        rows = json.loads(NEWSVENDOR)
        rows["subproblems"]["second_stage_subproblem"]["subproblem"]["constraints"].pop(2)
        self.assertIn('the table bounds "u" to 3 to 2', self.refused(json.dumps(rows), bounds='{"x_out": [0, 20], "u": [3, 2]}'))

    def test_costs_without_a_scale(self):
        with self.assertRaisesRegex(ValueError, r"\Athe costs have no scale yet\Z"):
            Scales().whole_cost()

    def test_counts(self):
        value = json.loads(NEWSVENDOR)
        node, program = value["nodes"]["second_stage"], value["subproblems"]["second_stage_subproblem"]["subproblem"]
        node["realizations"] = [{"probability": 1 / 1024, "support": {"d": 10}}] * 1024 * 2
        self.assertIn('2048 realizations of node "second_stage", and at most ', self.refused(json.dumps(value), "--normalise"))
        node["realizations"] = node["realizations"][:1]
        program["constraints"] *= 200
        self.assertRegex(self.refused(json.dumps(value), "--normalise"), 'rows of "second_stage_subproblem", and at most 200')

    def back(self, text):
        """What `convert back` says of a report."""
        scales = self.folder / "scales.json"
        self.written("bounds.json", '{"x_out": [0, 20], "u": [0, 20.25]}')
        words = ["problem", DATA / "newsvendor.sof.json", "--bounds", self.folder / "bounds.json", "--negate-max", "--write-scales", scales]
        self.assertEqual(run(convert_command.main, *words)[0], 0)
        status, _, err = run(convert_command.main, "back", "--scales", scales, typed=text)
        self.assertEqual(status, 1)
        return err

    def test_reports(self):
        self.assertEqual(self.back(""), "convert: the report is empty\n")
        self.assertIn("the scale is not 16777216", self.back("hydroplan 1\nscale 7\n"))
        self.assertIn("a name is expected", self.back("hydroplan 1\nscale 16777216\nstate 0 7\n"))


class Terminal(io.StringIO):
    """Standard input that is a terminal, at which nothing is typed."""

    def isatty(self):
        return True


class Waiting(unittest.TestCase):
    def waits(self, main, *words):
        """What a command says where standard input is a terminal."""
        errors = io.StringIO()
        with mock.patch("sys.stdin", Terminal()), redirect_stderr(errors), redirect_stdout(io.StringIO()):
            main([str(it) for it in words])
        return errors.getvalue().splitlines()

    def test_is_said(self):
        line = "explain: waiting for what hydroplan wrote on standard error on standard input: --line LINE gives a line, --keys looks at keys alone"
        problem = EXAMPLES / "two_reservoirs.json"
        self.assertEqual(self.waits(explain_command.main, problem), [line])
        self.assertEqual(self.waits(explain_command.main, problem, "--keys"), [])
        self.assertEqual(self.waits(explain_command.main, problem, "--line", "hydroplan: memory"), [])
        with tempfile.TemporaryDirectory() as folder:
            given = [
                "--bounds", DATA / "newsvendor.bounds.json", "--negate-max", "--write-scales", f"{folder}/s.json", "--output", f"{folder}/p.json",
            ]
            self.waits(convert_command.main, "problem", DATA / "newsvendor.sof.json", *given)
            said = self.waits(convert_command.main, "back", "--scales", f"{folder}/s.json")
        self.assertEqual(said, ["convert: waiting for a report on standard input: a word behind `back` names a file", "convert: the report is empty"])

    def test_files_that_cannot_be_opened(self):
        for main, words in (
            (explain_command.main, ["nothere.json"]), (plot_command.main, ["bounds", "nothere.json"]),
            (
                convert_command.main, ["problem", "nothere.json", "--write-scales", "s.json"],
            ), (convert_command.main, ["back", "--scales", "nothere.json"]),
        ):
            name = main.__module__.rpartition(".")[2].partition("_")[0]
            self.assertEqual(self.waits(main, *words), [f"{name}: cannot open nothere.json: No such file or directory"])


class OfPlot(unittest.TestCase):
    def plotted(self, text, *words):
        """What `plot` says of a report that it refuses."""
        with tempfile.TemporaryDirectory() as folder:
            path = Path(folder) / "report.txt"
            path.write_text(text, encoding="utf-8")
            status, _, err = run(plot_command.main, *(path if it is None else it for it in words))
        self.assertEqual(status, 1)
        return err

    def test_reports(self):
        head = 'hydroplan 1\nscale 16777216\nstate 0 "v"\nnode 0 "n"\n'
        cuts = head + "cut 0 0 1 1\n"
        self.assertEqual(self.plotted("hydroplan 1\nscale 16777216\n", "bounds", None), "plot: the report has no nodes\n")
        self.assertEqual(self.plotted(head, "storage", None), "plot: the report has no scenarios: `simulate` and `validate` write them\n")
        self.assertEqual(self.plotted(head, "water-values", None, "--state", "v=1"), "plot: the report has no cuts: `check` and `base` write them\n")
        self.assertEqual(self.plotted(cuts, "water-values", None, "--state", "v"), "plot: --state v: NAME=VALUE is expected\n")
        user = 'hydroplan-user 1\ndigits 2\nstate 0 "v"\nnode 0 "n"\niteration 1 bound 2.555\n'
        self.assertIn("more than 2 digits behind the point", self.plotted(user, "bounds", None))
        with tempfile.TemporaryDirectory() as folder:
            other = Path(folder) / "other.txt"
            other.write_text(head.replace('"v"', '"w"') + f'scenario 1\nstage 0 node 0 found\nin "w" {S}\nend 0\n', encoding="utf-8")
            self.assertEqual(self.plotted(cuts, "water-values", None, "--at", str(other)), "plot: the two reports are of different problems\n")


class OfExplain(unittest.TestCase):
    MEANINGS = {
        "NotJson": "the bytes are no JSON of at most 127 levels", "Version": "`version.major` is not the whole number 1",
        "Shape": "a member is absent or of the wrong type", "NotWhole": "a number with a point, an exponent, or outside 64 bits",
        "Unsupported": "a sense, a function or a set that the profile does not have", "Duplicate": "a name or a variable that was used before",
        "UnknownName": "no such variable, node or subproblem", "Weight": "a weight below 1, a stop weight below 0, or a total above 65,535",
        "Unbounded": "a decision without a lower or an upper bound", "EmptyBox": "a lower bound above the upper one",
        "States": "the subproblem's states are not those of the root", "Scenario": "a stored scenario that is empty or does not follow the graph",
        "TooLarge": "a number above 2^40, a name above 128 bytes, or a count past its limit", "Cycle": "a node that can reach itself",
        "Unreachable": "a node that the root does not reach", "BoxGap": "bounds of the incoming state that leave out a value which can come in",
        "Range": "numbers so large that the base cut leaves 128 bits", "Other": "a kind that is not known here",
    }
    OF_PLANTS = {
        "NotJson": "the bytes are no JSON of at most 127 levels", "Shape": "a member is absent or of the wrong type",
        "NotWhole": "a number with a point, an exponent, or outside 64 bits", "UnknownName": "no such bus or reservoir",
        "Limit": "a number outside its range, a name that has not the form of names, or a count or a total past its limit",
        "States": "more than 50 states: one for each reservoir, and one for each stage of a travel",
    }

    def test_kinds_of_refusals(self):
        for kind, words in self.MEANINGS.items():
            self.assertIn(f"  what: {words}", said(TWO, f"problem refused: {kind} at whole 0 0 0"))
        for kind, words in self.OF_PLANTS.items():
            self.assertIn(f"  what: {words}", said(CASCADE, f"hydro refused: {kind} at whole 0 0"))

    def test_places(self):
        self.assertIn("  where: the root as a whole", said(TWO, "problem refused: Shape at root 0 0 0"))
        self.assertEqual(said("[]", "problem refused: Shape at whole 0 0 0")[1:3], ["  the file is no object", "  path: $ (line 1, column 1)"])

    def looked_at(self, old, new, refusal, text=TWO):
        """The closer look at a file with one text replaced."""
        self.assertIn(old, text)
        return next(it for it in said(text.replace(old, new, 1), refusal) if it.startswith("  look at: "))

    def test_closer_looks_at_problems(self):
        rows = [
            ('"upper": 100}', '"upper": 1.5}', "NotWhole at constraint 0 7 0", ": 1.5 is not whole, or outside 64 bits"),
            ('"upper": 100}', '"upper": 1099511627777}', "TooLarge at constraint 0 7 0", ": 1099511627777 is above 2^40 in absolute value"),
            ('"stop": 1', '"stop": -1', "Weight at node 2 0 0", ": -1 is too small for a weight"),
            ('"root": {', '"root": 7, "old": {', "Shape at root 0 0 0", ": an object is expected, not a number"),
            (
                '"type": "ScalarAffineFunction"', '"type": "Quadratic"', "Unsupported at objective 0 0 0",
                'the type "Quadratic" is not read; Variable, ScalarAffineFunction are',
            ),
        ]
        for old, new, refusal, words in rows:
            with self.subTest(refusal):
                self.assertTrue(
                    self.looked_at(old, new, f"problem refused: {refusal}").endswith(words), self.looked_at(old, new, f"problem refused: {refusal}"),
                )

    def test_closer_looks_at_descriptions(self):
        value = json.loads(CASCADE)
        alp = value["reservoirs"]["alp"]
        rows = [
            (
                "low", alp["high"] + 1, "Limit at reservoir 0 0",
                f"`low` {alp['high'] + 1}, `initial` {alp['initial']} and `high` {alp['high']} do not rise",
            ),
            ("low", "x", "Shape at reservoir 0 0", "a number is expected, not a string"),
            ("low", F(1, 2), "NotWhole at reservoir 0 0", "0.5 is not whole, or outside 64 bits"),
        ]
        for key, new, refusal, words in rows:
            with self.subTest(refusal):
                edited = json.loads(CASCADE)
                edited["reservoirs"]["alp"][key] = float(new) if isinstance(new, F) else new
                found = said(json.dumps(edited), f"hydro refused: {refusal}")
                self.assertTrue(any(it.endswith(words) for it in found), found)

    def test_totals_of_descriptions(self):
        many = json.loads(CASCADE)
        many["reservoirs"] = {f"r{at}": {**many["reservoirs"]["alp"], "downstream": "r0", "travel": 3} for at in range(18)}
        for stage in many["stages"]:
            for inflow in stage["inflows"]:
                inflow["inflow"] = {f"r{at}": 1 for at in range(18)}
        self.assertTrue(
            any("reservoirs and travels are 72 together, above 50" in it for it in said(json.dumps(many), "hydro refused: States at whole 0 0"))
        )
        heavy = json.loads(CASCADE)
        heavy["stages"][0]["inflows"] = [{**heavy["stages"][0]["inflows"][0], "weight": 40000}] * 2
        self.assertTrue(
            any("the weights are 80000 together, above 65535" in it for it in said(json.dumps(heavy), "hydro refused: Limit at stage 0 0"))
        )

    def test_other_lines(self):
        self.assertIn("  what: memory was refused: free some, or train with fewer iterations or a smaller problem", said(TWO, "memory"))
        self.assertIn("  what: the words are of none of these forms, or a number is outside its range", said(TWO, "usage: base"))
        self.assertIn("  fits: not told, since this file is no problem", said("{}", "too much: formula 4 gives 5000000"))
        found = said(TWO, f"no stage solution: run 3 node 1 values 10 40 state {S} {S} rows 0 0 0")
        words = '  what: node "spring" is shown to have no decisions, in iteration or scenario 3, or in a whole policy after 3 branches'
        self.assertIn(words, found)


class OfTooMuch(unittest.TestCase):
    def test_what_fits_of_a_training(self):
        problem = json.loads((EXAMPLES.parent / "tests/program/data/large.json").read_text(encoding="utf-8"))
        extent = extent_of(problem)
        most = extent.most_iterations(8)
        first, second = of_training(extent, most + 1, 8, False)
        self.assertRegex(first, rf"\Atoo much: a record of [\d,]+ bytes, limit 67,108,864: with BATCH 8 at most {most:,} iterations\Z")
        self.assertEqual(second, f"with COUNT {most + 1} a BATCH of at most {extent.most_paths(most + 1)} fits")
        self.assertLess(extent.most_paths(most + 1), 8)
        self.assertEqual(of_training(extent, most, 8, False), [])

    def test_what_fits_of_a_policy(self):
        nodes = {f"n{at}": {"subproblem": "p", "realizations": [{"probability": 1}, {"probability": 2**20 - 1}]} for at in range(3)}
        for at in range(2):
            nodes[f"n{at}"]["successors"] = {f"n{at + 1}": 1}
        line, = of_policy({"root": {"successors": {"n0": 1}}, "nodes": nodes})
        said = f"too much: probabilities of branches with a denominator of {2**60:,}, limit {2**40:,}"
        self.assertEqual(line, f"{said}: divide each list of weights by what its numbers share")

    def test_of_no_problem(self):
        told = "what would fit is computed where the problem is a file: --problem FILE"
        self.assertEqual(lines_on(("train", "J", "7", "2000"), None), [told])
        self.assertEqual(lines_on(("simulate", "J", "7", "1000"), {"nodes": 7}), [told])
        self.assertEqual(NO_COPY, 4)


if __name__ == "__main__":
    unittest.main()
