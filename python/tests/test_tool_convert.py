"""Files of StochOptFormat to problems in whole numbers. Expected numbers are worked out by hand."""
import json
import random
import tempfile
import unittest
from fractions import Fraction as F
from pathlib import Path
from unittest import mock

from tool_support import DATA, EXAMPLES, cursor, run
from hydroplan.tools.convert_command import main
from hydroplan.tools.profile import MOST_NUMBER
from hydroplan.tools.scales import found_scale, read_scales

NEWSVENDOR = DATA / "newsvendor.sof.json"
BOUNDS = DATA / "newsvendor.bounds.json"
RESERVOIR = DATA / "reservoir.sof.json"


class Files(unittest.TestCase):
    """A folder for the files of a test, and the command over them."""

    def setUp(self):
        made = tempfile.TemporaryDirectory()
        self.addCleanup(made.cleanup)
        self.folder = Path(made.name)

    def write(self, name, text):
        path = self.folder / name
        path.write_text(text, encoding="utf-8")
        return path

    def convert(self, source, *words):
        """The problem, the scales and the ledger's lines."""
        scales = self.folder / "scales.json"
        status, out, err = run(main, "problem", source, "--write-scales", scales, *words)
        self.assertEqual(status, 0, err)
        return json.loads(out), json.loads(scales.read_text(encoding="utf-8")), err.splitlines()

    def refused(self, source, *words):
        """What is said of a file that is refused."""
        status, out, err = run(main, "problem", source, "--write-scales", self.folder / "scales.json", *words)
        self.assertEqual((status, out), (1, ""))
        self.assertFalse((self.folder / "scales.json").exists())
        return err


class Newsvendor(Files):
    """Sense max, decimals, no upper bounds: as another tool writes it."""

    def test_the_problem(self):
        problem, scales, ledger = self.convert(NEWSVENDOR, "--bounds", BOUNDS, "--negate-max")
        self.assertEqual((scales["cost"], scales["states"]["x"], scales["negated"]), ("40", "1", True))
        second = scales["subproblems"]["second_stage_subproblem"]
        self.assertEqual(second["variables"], {"u": "4", "d": "2"})
        self.assertEqual((second["constraints"], second["rows"], second["outgoing"]), ({"0": "4", "1": "4"}, [0, 1], {"x_out": "x"}))
        node = problem["nodes"]["second_stage"]
        self.assertEqual(node["realizations"], [{"probability": 2, "support": {"d": 20}}, {"probability": 3, "support": {"d": 29}}])
        self.assertNotIn("successors", node)
        self.assertEqual(problem["nodes"]["first_stage"], {"subproblem": "first_stage_subproblem", "successors": {"second_stage": 1}})
        program = problem["subproblems"]["second_stage_subproblem"]["subproblem"]
        self.assertEqual(program["objective"], {"sense": "min", "function": {
            "type": "ScalarAffineFunction", "constant": 0,
            "terms": [{"coefficient": -15, "variable": "u"}, {"coefficient": 4, "variable": "x_out"}]}})
        balance, demand, *bounds = program["constraints"]
        self.assertEqual([it["coefficient"] for it in balance["function"]["terms"]], [4, -1, -4])
        self.assertEqual((balance["name"], balance["set"]), ("balance", {"type": "EqualTo", "value": 0}))
        self.assertEqual([it["coefficient"] for it in demand["function"]["terms"]], [1, -2])
        self.assertEqual(demand["set"], {"type": "LessThan", "upper": 0})
        self.assertEqual([(it["function"]["name"], it["set"]) for it in bounds], [
            ("u", {"type": "GreaterThan", "lower": 0}), ("x_out", {"type": "GreaterThan", "lower": 0}),
            ("x_out", {"type": "LessThan", "upper": 20}), ("u", {"type": "LessThan", "upper": 81})])
        self.assertEqual(problem["validation_scenarios"], [[
            {"node": "first_stage", "support": {}}, {"node": "second_stage", "support": {"d": 20}}]])
        self.assertEqual(problem["name"], "newsvendor")
        self.assertEqual(ledger[-1], "0 numbers were rounded")
        self.assertTrue(any("all costs are negated" in line for line in ledger))
        self.assertTrue(any('"u" of "second_stage_subproblem" has upper 20.25 from the table' in line for line in ledger))

    def test_missing_bounds_are_refused_by_name_all_at_once(self):
        said = self.refused(NEWSVENDOR, "--negate-max")
        for name in ('"x_out" of "first_stage_subproblem" (upper)', '"u" of "second_stage_subproblem" (upper)'):
            self.assertIn(name, said)
        self.assertNotIn("(lower)", said)

    def test_sense_max_is_refused_unless_it_is_to_be_negated(self):
        said = self.refused(NEWSVENDOR, "--bounds", BOUNDS)
        self.assertIn("Unsupported at $.subproblems.first_stage_subproblem.subproblem.objective.sense (line 16, column 32)", said)
        self.assertIn("--negate-max", said)


class Reservoir(Files):
    """Sense min, discount, thirds, floats with noise, outcomes of probability 0, names that are numbers."""

    def test_states_randoms_and_weights(self):
        problem, scales, ledger = self.convert(RESERVOIR)
        self.assertEqual(scales["states"], {"volume": "2"})
        self.assertEqual(scales["subproblems"]["stage"]["variables"], {"turbine": "1", "thermal": "1", "inflow": "20"})
        self.assertEqual(problem["root"], {"state_variables": {"volume": 25}, "successors": {"1": 1, "2": 2}})
        self.assertEqual(problem["nodes"]["1"], {"subproblem": "stage", "successors": {"3": 19}, "stop": 1, "realizations": [
            {"probability": 1, "support": {"inflow": 6}}, {"probability": 3, "support": {"inflow": 34}}]})
        self.assertEqual(problem["nodes"]["2"], {"subproblem": "stage", "successors": {"3": 1}, "realizations": [
            {"probability": 1, "support": {"inflow": 5}}]})
        self.assertEqual(sorted(problem["nodes"]), ["1", "2", "3"])
        self.assertEqual(problem["validation_scenarios"], [[
            {"node": "1", "support": {"inflow": 25}}, {"node": "3", "support": {"inflow": 10}}]])
        for part in ("$.nodes[\"2\"].realizations[0]", 'nothing leads to node "4"', "1 stored scenarios", "with probability 1/20"):
            self.assertTrue(any(part in line for line in ledger), part)

    def test_rows_and_costs(self):
        problem, scales, _ = self.convert(RESERVOIR)
        program = problem["subproblems"]["stage"]["subproblem"]
        # costs: 42.75, -0.5/2 and 3.125 are whole at 8; water: 1/2, 1, 1/2, 1/20 at 20; demand: 0.9, 1 and 6.25 + 1.5 at 20
        self.assertEqual(scales["cost"], "8")
        self.assertEqual([it["coefficient"] for it in program["objective"]["function"]["terms"]], [342, -2])
        self.assertEqual(program["objective"]["function"]["constant"], 25)
        water, demand, *bounds, wet = program["constraints"]
        self.assertEqual([it["coefficient"] for it in water["function"]["terms"]], [10, 20, -10, -1])
        self.assertEqual(
            ([it["coefficient"] for it in demand["function"]["terms"]], demand["set"]), ([18, 20], {"type": "GreaterThan", "lower": 155}),
        )
        self.assertEqual(bounds[0]["set"], {"type": "Interval", "lower": 1, "upper": 40})
        self.assertEqual((wet["function"]["terms"], wet["set"]), ([{"coefficient": 1, "variable": "inflow"}], {"type": "LessThan", "upper": 2000}))
        self.assertEqual(scales["subproblems"]["stage"]["rows"], [0, 1, 6])

    def test_all_that_was_rounded_is_listed(self):
        _, _, ledger = self.convert(RESERVOIR)
        rounded = [line for line in ledger if line.startswith("rounded: ")]
        self.assertEqual(ledger[-1], "3 numbers were rounded")
        places = ["$.root.successors[\"1\"] (line 4", "$.root.successors[\"2\"] (line 4", "$.nodes[\"1\"].realizations[0].support.inflow (line 7"]
        self.assertEqual(len(rounded), 3)
        for place, line in zip(places, rounded):
            self.assertIn(place, line)
        self.assertIn("0.30000000000000004 would be 6.0000000000000008 and is 6 (off by 1.3e-16 of it)", rounded[2])

    def test_the_written_problem_means_the_same(self):
        """At random points each row and cost of the problem is its scale times that of the file."""
        problem, _, _ = self.convert(RESERVOIR)
        scales = read_scales(cursor((self.folder / "scales.json").read_text(encoding="utf-8")))
        given = json.loads(RESERVOIR.read_text(encoding="utf-8"), parse_float=F, parse_int=F)
        own = scales.subproblems["stage"]
        by_variable = {**own.variables, "volume_in": scales.states["volume"], "volume_out": scales.states["volume"]}
        draw = random.Random(7)
        for _ in range(20):
            point = {name: F(draw.randint(-100, 100), draw.randint(1, 9)) for name in by_variable}
            scaled = {name: value * by_variable[name] for name, value in point.items()}
            programs = [it["subproblems"]["stage"]["subproblem"] for it in (given, problem)]
            before, after = [[slack(row, at) for row in it["constraints"]] for it, at in zip(programs, (point, scaled))]
            for number, (left, right) in enumerate(zip(before, after)):
                name = programs[0]["constraints"][number]["function"].get("name")
                scale = own.constraints[number] if number in own.constraints else by_variable[name]
                self.assertEqual([side * scale for side in left], right)
            costs = [value_of(it["objective"]["function"], at) for it, at in zip(programs, (point, scaled))]
            self.assertEqual(costs[0] * scales.cost, costs[1])

    def test_written_scales_can_be_chosen_again(self):
        problem, scales, _ = self.convert(RESERVOIR)
        chosen = self.write("chosen.json", json.dumps(scales))
        self.assertEqual(self.convert(RESERVOIR, "--scales", chosen)[:2], (problem, scales))


def value_of(function, point):
    """The value of a function of a file at a point."""
    if function["type"] == "Variable":
        return point[function["name"]]
    return function.get("constant", 0) + sum(it["coefficient"] * point[it["variable"]] for it in function["terms"])


def slack(constraint, point):
    """How far the sides of a constraint are from its function."""
    sides = [constraint["set"][key] for key in ("value", "lower", "upper") if key in constraint["set"]]
    return [side - value_of(constraint["function"], point) for side in sides]


class Chosen(Files):
    """Scales that the user chooses, and numbers that do not fit them."""

    def test_chosen_scales(self):
        chosen = self.write("chosen.json", json.dumps({
            "cost": "1000", "states": {"volume": "10"},
            "subproblems": {"stage": {"variables": {"inflow": 100}, "constraints": {"water": 10, "1": "1/5"}}}}))
        problem, scales, ledger = self.convert(RESERVOIR, "--scales", chosen, "--tolerance", "1")
        self.assertEqual((scales["cost"], scales["states"]["volume"]), ("1000", "10"))
        self.assertEqual(problem["root"]["state_variables"], {"volume": 125})
        water, demand = problem["subproblems"]["stage"]["subproblem"]["constraints"][:2]
        self.assertEqual([it["coefficient"] for it in water["function"]["terms"]], [1, 10, -1, 0])
        # 0.9/5, 1/5 and 7.75/5 rounded; the inflow's -10/100 in the row of water is rounded to 0
        self.assertEqual(([it["coefficient"] for it in demand["function"]["terms"]], demand["set"]["lower"]), ([0, 0], 2))
        self.assertTrue(any("constraints[0].function.terms[3].coefficient" in line and "-1.0 would be -0.1 and is 0" in line for line in ledger))

    def test_what_is_rounded_too_far_is_refused(self):
        chosen = self.write("chosen.json", '{"subproblems":{"stage":{"constraints":{"demand":"1/5"}}}}')
        said = self.refused(RESERVOIR, "--scales", chosen)
        self.assertIn("RoundedTooFar at $.subproblems.stage.subproblem.constraints[1].function.terms[0].coefficient (line 32, column 31)", said)

    def test_what_becomes_too_large_is_refused(self):
        chosen = self.write("chosen.json", json.dumps({"states": {"volume": MOST_NUMBER}}))
        said = self.refused(RESERVOIR, "--scales", chosen)
        self.assertIn("TooLarge at $.root.state_variables.volume.initial_value (line 4", said)

    def test_scales_of_what_is_not_there_are_refused(self):
        rows = [
            ({"states": {"volum": 2}}, '"volum"'), ({"subproblems": {"stages": {}}}, '"stages"'),
            ({"subproblems": {"stage": {"variables": {"turbin": 2}}}}, '"turbin" of "stage", which is not there'),
            ({"subproblems": {"stage": {"variables": {"volume_in": 2}}}}, "its scale is that of the state"),
            ({"subproblems": {"stage": {"constraints": {"2": 2}}}}, "which is no row"),
            ({"subproblems": {"stage": {"constraints": {"watr": 2}}}}, "watr"),
            ({"cost": 0}, "a scale is above 0"), ({"cost": "1/0"}, "no number"), ({"cost": "ten"}, "no number"),
        ]
        for chosen, part in rows:
            with self.subTest(chosen=chosen):
                self.assertIn(part, self.refused(RESERVOIR, "--scales", self.write("chosen.json", json.dumps(chosen))))

    def test_a_fault_in_a_file_beside_the_problem_names_that_file(self):
        chosen = self.write("chosen.json", '{"cost": -1}')
        self.assertIn(f"convert: {chosen}: Scale at $.cost (line 1, column 10)", self.refused(RESERVOIR, "--scales", chosen))
        bounds = self.write("bounds.json", "{")
        self.assertIn(f"convert: {bounds}: line 1, column 2", self.refused(NEWSVENDOR, "--bounds", bounds))

    def test_a_problem_that_would_be_too_long_is_refused(self):
        with mock.patch("hydroplan.tools.convert_command.MOST_FILE_BYTES", 100):
            self.assertIn("more than 100 bytes", self.refused(RESERVOIR))

    def test_a_problem_in_whole_numbers_keeps_them(self):
        self.assertIn("the probabilities sum to 2", self.refused(EXAMPLES / "one_reservoir.json"))
        problem, scales, ledger = self.convert(EXAMPLES / "one_reservoir.json", "--normalise")
        given = json.loads((EXAMPLES / "one_reservoir.json").read_text(encoding="utf-8"))
        for key in ("root", "subproblems"):
            self.assertEqual(problem[key], given[key])
        self.assertEqual(problem["nodes"]["n"]["realizations"], given["nodes"]["n"]["realizations"])
        self.assertEqual((scales["cost"], scales["states"]), ("1", {"v": "1"}))
        self.assertEqual(
            ledger, ["shares: $.nodes.n (line 3, column 14): the probabilities sum to 2, and are taken as parts of it", "0 numbers were rounded"],
        )


class FoundScales(unittest.TestCase):
    def test_found_scales(self):
        rows = [
            (["0.5", "0.25"], 4), (["1", "200"], 1), (["0"], 1), ([], 1), (["0.125", "3"], 8),
            (["0.30000000000000004"], 10), (["0.3333333333"], 3), (["1234567.891234567"], 37),
        ]
        for texts, scale in rows:
            with self.subTest(texts=texts):
                self.assertEqual(found_scale([F(text) for text in texts], 10**9), scale)
        # no fraction of a denominator up to 500 is near enough: the greatest power of ten that keeps 2 below 1000
        self.assertEqual(found_scale([F("0.123456789123"), F(2)], 1000), 100)


class Refusals(Files):
    """What the profile does not have, by kind and place. Each row edits the newsvendor."""

    ROWS = [
        ('"set": {"type": "EqualTo", "value": 0.0}', '"set": {"type": "Integer"}', "Unsupported", "constraints[0].set.type", "Integer"),
        ('"type": "Variable", "name": "u"', '"type": "VectorOfVariables", "variables": ["u"]', "Unsupported", "function.type", "VectorOfVariables"),
        ('"sense": "max", "function": {"type": "ScalarAffineFunction", "terms": [{"coefficient": 1.5',
         '"sense": "max", "function": {"type": "ScalarQuadraticFunction", "terms": [{"coefficient": 1.5',
         "Unsupported", "objective.function.type", "ScalarQuadraticFunction"),
        (
            '{"d": 14.5}}], "successors": {}', '{"d": 14.5}}], "successors": {"first_stage": 1.0}', "Cycle", "$.nodes.first_stage",
            "first_stage -> second_stage -> first_stage",
        ),
        ('{"second_stage": 1.0}', '{"third_stage": 1.0}', "UnknownName", "$.nodes.first_stage", "third_stage"),
        (
            '"sense": "max", "function": {"type": "ScalarAffineFunction", "terms": [{"coefficient": -1.25',
            '"sense": "min", "function": {"type": "ScalarAffineFunction", "terms": [{"coefficient": -1.25', "Unsupported", "sense",
            "minimise and others maximise",
        ),
        ('"major": 1, "minor": 0', '"major": 2, "minor": 0', "Version", "$.version.major", "version 2"),
        ('"probability": 0.6', '"probability": 0.5', "Probability", "$.nodes.second_stage", "9/10"),
        ('"probability": 0.6', '"probability": -0.6', "Probability", "realizations[1].probability", "below 0"),
        ('[{"probability": 0.4, "support": {"d": 10.0}}, {"probability": 0.6, "support": {"d": 14.5}}]',
         '[{"probability": 0.0, "support": {"d": 10.0}}]', "Probability", "$.nodes.second_stage", "have probability 0"),
        ('{"d": 14.5}', '{"e": 14.5}', "Shape", "realizations[1].support", "`d` is missing"),
        ('"variable": "x_in"}', '"variable": "x_inn"}', "UnknownName", "terms[0].variable", "x_inn"),
        ('{"name": "u"}, {"name": "d"}', '{"name": "u"}, {"name": "u"}', "Duplicate", "variables[3].name", '"u"'),
        ('"first_stage": 1.0}', '"first_stage": 0.9}', "Probability", "$.root", "9/10"),
        ('{"x": 0.0}', '{"x": 0.0, "y": 1}', "States", "$.subproblems.first_stage_subproblem", "not those of the root"),
        (
            '"set": {"type": "EqualTo", "value": 0.0}', '"set": {"type": "Interval", "lower": 1, "upper": 0.5}', "EmptyBox",
            "constraints[0].set", "1 is above 0.5",
        ),
        ('{"x": 0.0}', '{"x": "none"}', "Shape", "$.root.state_variables.x", "a number is expected"),
    ]

    def test_refusals(self):
        text = NEWSVENDOR.read_text(encoding="utf-8")
        for old, new, kind, place, part in self.ROWS:
            with self.subTest(new=new):
                self.assertIn(old, text)
                said = self.refused(self.write("edited.json", text.replace(old, new, 1)), "--bounds", BOUNDS, "--negate-max")
                self.assertTrue(said.startswith(f"convert: {kind} at $"), said)
                self.assertIn(place, said)
                self.assertIn(part, said)

    def test_a_file_that_is_no_json_or_is_not_there(self):
        self.assertIn("NotJson: line 1, column 2", self.refused(self.write("edited.json", "{")))
        self.assertIn("No such file", self.refused(self.folder / "nothing.json"))

    def test_limits(self):
        text = NEWSVENDOR.read_text(encoding="utf-8")
        many = ", ".join(f'{{"name": "v{at}"}}' for at in range(201))
        edited = self.write("edited.json", text.replace('{"name": "x_out", "primal_start": 0.0}', '{"name": "x_out"}, ' + many))
        table = {f"v{at}": [0, 1] for at in range(201)}
        bounds = self.write("bounds.json", json.dumps({**table, "x_out": [0, 1], "u": [0, 1]}))
        self.assertIn('202 decisions of "first_stage_subproblem", and at most 200', self.refused(edited, "--bounds", bounds, "--negate-max"))

    def test_a_bound_of_the_table_that_does_not_fit(self):
        bounds = self.write("bounds.json", '{"x_out": [0, 20], "u": [0]}')
        self.assertIn("a pair [low, high] is expected", self.refused(NEWSVENDOR, "--bounds", bounds))


class LeftBehind(Files):
    """What tools leave in a file: fixed random variables and incoming states, and a variable that nothing uses."""

    WORDS = ("--bounds", BOUNDS, "--negate-max")

    def test_fixed_values_are_left_out(self):
        text = NEWSVENDOR.read_text(encoding="utf-8")
        fixing = '{"function": {"type": "Variable", "name": "%s"}, "set": {"type": "EqualTo", "value": 7.5}}, '
        self.assertIn('{"name": "balance"', text)
        edited = text.replace('{"name": "balance"', fixing % "d" + fixing % "x_in" + '{"name": "balance"')
        problem, scales, ledger = self.convert(self.write("edited.json", edited), *self.WORDS)
        self.assertEqual((problem, scales), self.convert(NEWSVENDOR, *self.WORDS)[:2])
        for name in ("d", "x_in"):
            self.assertTrue(any(f'it fixes "{name}", which is given from outside' in line for line in ledger))

    def test_a_variable_that_nothing_uses_needs_no_bounds(self):
        text = NEWSVENDOR.read_text(encoding="utf-8").replace('{"name": "u"}, ', '{"name": "u"}, {"name": "future"}, ', 1)
        problem, _, ledger = self.convert(self.write("edited.json", text), *self.WORDS)
        constraints = problem["subproblems"]["second_stage_subproblem"]["subproblem"]["constraints"]
        self.assertIn({"function": {"type": "Variable", "name": "future"}, "set": {"type": "Interval", "lower": 0, "upper": 0}}, constraints)
        self.assertTrue(any("since nothing depends on it" in line for line in ledger))
        bound = '{"function": {"type": "Variable", "name": "future"}, "set": {"type": "GreaterThan", "lower": 2.0}}, '
        problem = self.convert(self.write("edited.json", text.replace('{"name": "balance"', bound + '{"name": "balance"')), *self.WORDS)[0]
        constraints = problem["subproblems"]["second_stage_subproblem"]["subproblem"]["constraints"]
        self.assertIn({"function": {"type": "Variable", "name": "future"}, "set": {"type": "LessThan", "upper": 2}}, constraints)


class Older(Files):
    """Files of version 0: `head`, `edges`, SingleVariable; and null for an infinite side."""

    def test_older_keys(self):
        text = NEWSVENDOR.read_text(encoding="utf-8")
        edits = [
            ('"major": 1, "minor": 0', '"major": 0, "minor": 1'), ('"type": "ScalarAffineFunction"', '"head": "ScalarAffineFunction"'),
            ('"type": "Variable", "name"', '"head": "SingleVariable", "variable"'), ('"successors": {"first_stage": 1.0}', '"name": "root"'),
            (', "successors": {"second_stage": 1.0}', ""), (', "successors": {}', ""),
            ('"nodes": {', '"edges": [{"from": "root", "to": "first_stage", "probability": 1.0}, '
             '{"from": "first_stage", "to": "second_stage", "probability": 1.0}],\n  "nodes": {'),
        ]
        for old, new in edits:
            self.assertIn(old, text)
            text = text.replace(old, new)
        older = self.convert(self.write("older.json", text), "--bounds", BOUNDS, "--negate-max")
        newer = self.convert(NEWSVENDOR, "--bounds", BOUNDS, "--negate-max")
        self.assertEqual(older[:2], newer[:2])
        self.assertTrue(any("version 0" in line for line in older[2]))

    def test_null_sides_of_an_interval(self):
        text = NEWSVENDOR.read_text(encoding="utf-8")
        old = '{"type": "Variable", "name": "u"}, "set": {"type": "GreaterThan", "lower": 0.0}'
        new = '{"type": "Variable", "name": "u"}, "set": {"type": "Interval", "lower": 0.0, "upper": null}'
        self.assertIn(old, text)
        edited = self.write("edited.json", text.replace(old, new))
        words = ("--bounds", BOUNDS, "--negate-max")
        self.assertEqual(self.convert(edited, *words)[:2], self.convert(NEWSVENDOR, *words)[:2])
        both = self.write("both.json", text.replace(old, new.replace('"lower": 0.0', '"lower": null')))
        (self.folder / "scales.json").unlink()
        self.assertIn("both sides are null", self.refused(both, *words))


if __name__ == "__main__":
    unittest.main()
