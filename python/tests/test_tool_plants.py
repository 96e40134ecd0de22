"""Refusals of descriptions of hydro plants, and suspicious keys in them. Places were counted with awk."""
import json
import unittest

from tool_support import EXAMPLES, REPOSITORY, cursor, run
from hydroplan.tools.explain_command import explain, main
from hydroplan.tools.located_json import NotJson
from hydroplan.tools.misspellings import warnings
from hydroplan.tools.plants import first_fault, is_description

ROWS = REPOSITORY / "tests" / "program" / "data"
CASCADE = (EXAMPLES / "cascade_plants.json").read_text(encoding="utf-8")


def edited(*changes):
    """The cascade with each first text replaced, at its first place, by the second."""
    text = CASCADE
    for old, new in changes:
        assert old in text, old
        text = text.replace(old, new, 1)
    return text


def refusal_of(text):
    try:
        fault = first_fault(cursor(text))
    except NotJson:
        return "NotJson at whole 0 0"
    return None if fault is None else str(fault)


class Refusals(unittest.TestCase):
    """Reservoirs in byte order: alp, birch, cliff; thermals: coal, gas, oil; lines: north-south, south-north."""

    ROWS = [
        # the tables and their counts
        ('"buses": {', '"busses": {', "Shape at whole 0 0"),
        ('"lines": {', '"lines": [], "other": {', "Shape at whole 0 0"),
        ('"stages": [', '"stages": {}, "other": [', "Shape at whole 0 0"),
        ('"thermals": {', '"thermals": null, "other": {', "Shape at whole 0 0"),
        ('"stages": [', '"stages": [], "other": [', "Limit at whole 0 0"),
        ('"buses": {', '"buses": {}, "other": {', "Limit at whole 0 0"),
        # names, entries and their members
        ('"north": {"deficit', '"north pole": {"deficit', "Limit at bus 0 0"),
        ('"coal": {', '"": {', "Limit at thermal 0 0"),
        ('"coal": {', '"a2345678901234567": {', "Limit at thermal 0 0"),
        ('"coal": {', '"a234567890123456": {', None),
        ('{"deficit_cost": 200}', "[200]", "Shape at bus 0 0"),
        ('{"deficit_cost": 200}', '{"deficit_cost": 2e2}', "NotWhole at bus 0 0"),
        ('{"deficit_cost": 200}', '{"deficit_cost": -0}', "NotWhole at bus 0 0"),
        ('{"deficit_cost": 200}', '{"deficit_cost": 18446744073709551616}', "NotWhole at bus 0 0"),
        ('{"deficit_cost": 200}', '{"deficit_cost": 1048577}', "Limit at bus 0 0"),
        ('{"deficit_cost": 200}', '{"deficit_cost": 1048576}', None),
        ('"turbine": 15', '"turbine": -1', "Limit at reservoir 1 0"),
        ('"bus": "south", "low"', '"bus": "east", "low"', "UnknownName at reservoir 2 0"),
        ('"spill": 120', '"spill": 120, "spill_cost": 1048577', "Limit at reservoir 2 0"),
        ('"spill": 120', '"spill": 120, "spill_cost": 1048576', None),
        ('"spill": 120', '"spill": 120, "spill_cost": 0.5', "NotWhole at reservoir 2 0"),
        ('"spill": 120', '"spill": 120, "spill_cost": null', "Shape at reservoir 2 0"),
        ('"downstream": "birch"', '"downstream": "brich"', "UnknownName at reservoir 0 0"),
        ('"downstream": "birch"', '"downstream": null', "Shape at reservoir 0 0"),
        ('"downstream": "birch"', '"downstream": "alp"', None),
        (', "travel": 2', "", "Shape at reservoir 1 0"),
        ('"travel": 2', '"travel": 4', "Limit at reservoir 1 0"),
        ('"travel": 2', '"travel": 0', None),
        ('"low": 5', '"low": 31', "Limit at reservoir 0 0"),
        ('"high": 30, "initial"', '"high": 14, "initial"', "Limit at reservoir 1 0"),
        ('"cost": 45', '"cost": "45"', "Shape at thermal 2 0"),
        ('"to": "north"', '"to": 1', "Shape at line 1 0"),
        ('"to": "north"', '"to": "south"', None),
        # stages
        ('"demand": {"north": 85', '"demand": {"nroth": 85', "Shape at stage 1 0"),
        ('"demand": {"north": 85', '"demand": {"north": -1', "Limit at stage 1 0"),
        ('"weight": 112', '"weight": 0', "Limit at stage 1 2"),
        ('"weight": 112', '"weight": 65535', "Limit at stage 1 0"),
        ('"weight": 112', '"weight": 65391', None),
        ('"cliff": -1}', '"cliff": -1048577}', "Limit at stage 1 1"),
        ('"cliff": -1}', '"cliff": -1048576}', None),
        ('"inflow": {"alp": 9', '"inflows": {"alp": 9', "Shape at stage 1 3"),
    ]

    def test_each_step(self):
        self.assertIsNone(refusal_of(CASCADE))
        for old, new, refusal in self.ROWS:
            with self.subTest(new=new):
                self.assertEqual(refusal_of(edited((old, new))), refusal)

    def test_what_comes_first(self):
        """Of two faults that which is looked at first."""
        rows = [
            (('"lines": {', '"lines": [], "x": {'), ('"stages": [', '"stages": [], "x": ['), "Shape at whole 0 0"),
            (('"deficit_cost": 200', '"deficit_cost": 0.5'), ('"factor": 4', '"factor": -4'), "NotWhole at bus 0 0"),
            (('"low": 5', '"low": 31'), ('"travel": 1', '"travel": 1.5'), "NotWhole at reservoir 0 0"),
            (('"factor": 4', '"factor": 4, "spill_cost": -1'), ('"downstream": "birch"', '"downstream": "brich"'), "Limit at reservoir 0 0"),
            (('"factor": 4', '"factor": 4.0, "spill_cost": -1'), ('"cost": 8', '"cost": -8'), "NotWhole at reservoir 0 0"),
            (('"cost": 8', '"cost": -8'), ('"low": 5', '"low": 31'), "Limit at reservoir 0 0"),
            (('"weight": 64', '"weight": 65536'), ('"cliff": 1}', '"cliff": true}'), "Shape at stage 0 1"),
            (('"weight": 64', '"weight": 65536'), ('"cost": 8', '"cost": -8'), "Limit at thermal 0 0"),
            (('"weight": 64', '"weight": 65536'), ('"cliff": -1}', '"cliff": "-1"}'), "Limit at stage 0 0"),
        ]
        for first, second, refusal in rows:
            with self.subTest(first=first, second=second):
                self.assertEqual(refusal_of(edited(first, second)), refusal)

    def test_counts(self):
        document = json.loads(CASCADE)
        reservoir = {**document["reservoirs"]["cliff"], "downstream": "r00", "travel": 3}
        water = {f"r{at:02}": 0 for at in range(21)}

        def described(count, travels):
            table = {name: {**reservoir, "travel": 3 if at < travels else 0} for at, name in enumerate(list(water)[:count])}
            stage = {"demand": {"north": 0, "south": 0}, "inflows": [{"weight": 1, "inflow": water}]}
            return json.dumps({**document, "reservoirs": table, "stages": [stage]})

        self.assertEqual(refusal_of(described(20, 10)), None)
        self.assertEqual(refusal_of(described(20, 11)), "States at whole 0 0")
        self.assertEqual(refusal_of(described(18, 11)), "States at whole 0 0")
        self.assertEqual(refusal_of(described(21, 0)), "Limit at whole 0 0")
        inflow = {"weight": 1, "inflow": {"alp": 0, "birch": 0, "cliff": 0}}
        for count, refusal in ((100, None), (101, "Limit at stage 0 0"), (0, "Limit at stage 0 0")):
            stage = {"demand": {"north": 0, "south": 0}, "inflows": [inflow] * count}
            self.assertEqual(refusal_of(json.dumps({**document, "stages": [stage]})), refusal)
        self.assertEqual(refusal_of(json.dumps({**document, "stages": document["stages"] * 17})), "Limit at whole 0 0")

    def test_those_of_the_program_s_rows(self):
        """One description a line, and one line of the program for each."""
        texts = (ROWS / "hydro-refusals.json").read_text(encoding="utf-8").rstrip("\n").split("\n")
        lines = (ROWS / "hydro-refusals.txt").read_text(encoding="utf-8").splitlines()
        self.assertEqual(len(texts), len(lines))
        for text, line in zip(texts, lines):
            with self.subTest(line=line, text=text[:200]):
                self.assertEqual(f"hydroplan: hydro refused: {refusal_of(text)}", line)
                self.assertNotIn("not of this file", "\n".join(explain(text.encode("utf-8"), [line])))

    def test_files_of_no_form(self):
        for text in ("[]", "1", '"buses"', "null"):
            self.assertEqual(refusal_of(text), "Shape at whole 0 0")


class Explained(unittest.TestCase):
    def said(self, line, *changes):
        return "\n".join(explain(edited(*changes).encode("utf-8"), [f"hydroplan: hydro refused: {line}"]))

    def test_names_and_places(self):
        rows = [
            ("UnknownName at reservoir 0 0", ('"downstream": "birch"', '"downstream": "brich"'), 'where: reservoir "alp"',
             "path: $.reservoirs.alp (line 7, column 12)",
             'look at: $.reservoirs.alp.downstream (line 7, column 121): "brich" is not known; "birch" is'),
            ("Limit at stage 1 2", ('"weight": 112', '"weight": 0'), "where: inflow 1 of stage 1, both counted from 0",
             "path: $.stages[1].inflows[1] (line 33, column 9)", "$.stages[1].inflows[1].weight (line 33, column 20): 0 is outside 1 to 1048576"),
            ("Shape at stage 1 0", ('"demand": {"north": 85', '"demand": {"nroth": 85'), "where: stage 1, counted from 0",
             "path: $.stages[1] (line 29, column 5)", "$.stages[1].demand (line 30, column 17): the key `north` is missing"),
            ("NotWhole at line 1 0", ('"high": 40}\n  }', '"high": 40.0}\n  }'), 'where: line "south-north"',
             'path: $.lines["south-north"] (line 18, column 20)', "40.0 is not whole"),
        ]
        for line, change, *parts in rows:
            with self.subTest(line=line):
                text = self.said(line, change)
                for part in parts:
                    self.assertIn(part, text)

    def test_the_whole(self):
        text = self.said("Limit at whole 0 0", ('"stages": [', '"stages": [], "other": ['))
        self.assertIn("where: the description as a whole", text)
        self.assertIn("look at: $.stages (line 20, column 13): 0 stages, and 1 to 100 are read", text)
        self.assertIn("no JSON at line 1, column 1", "\n".join(explain(b"", ["hydroplan: hydro refused: NotJson at whole 0 0"])))

    def test_a_line_of_another_file(self):
        self.assertIn("not of this file as the tool reads it: nothing is refused", self.said("Shape at bus 1 0"))
        text = self.said("Shape at bus 7 0", ('"low": 5', '"low": 31'))
        self.assertIn("missing: [7]", text)
        self.assertIn("the first refusal is Limit at reservoir 0 0", text)

    def test_the_command(self):
        typed = "hydroplan: hydro refused: Limit at whole 0 0\n"
        status, out, _ = run(main, EXAMPLES / "cascade_plants.json", typed=typed)
        self.assertEqual(status, 0)
        self.assertIn("where: the description as a whole", out)


class Keys(unittest.TestCase):
    def test_keys_that_look_like_one_that_counts(self):
        rows = [
            ('"travel": 1', '"travell": 1', "$.reservoirs.alp.travell (line 7, column 130): the key `travell` is ignored, and looks like `travel`"),
            ('"spill": 120', '"spil": 120', "`spil` is ignored, and looks like `spill`"),
            ('"spill": 120', '"spill": 120, "spil_cost": 2', "`spil_cost` is ignored, and looks like `spill_cost`"),
            ('"from": "north"', '"form": "north"', "`form` is ignored, and looks like `from`"),
            ('"thermals"', '"thermal"', "$.thermal (line 11, column 3): the key `thermal` is ignored, and looks like `thermals`"),
            ('"deficit_cost"', '"deficitCost"', "`deficitCost` is ignored, and looks like `deficit_cost`"),
            ('"demand": {"north"', '"demand": {"nroth"', "`nroth` is ignored, and looks like `north`"),
            ('"inflow": {"alp": 2, "birch"', '"inflow": {"alp": 2, "brich"', "`brich` is ignored, and looks like `birch`"),
            ('"inflow": {"alp": 2,', '"inflows": {"alp": 2,', "`inflows` is ignored, and looks like `inflow`"),
            ('"downstream": "birch", ', "", "$.reservoirs.alp.travel (line 7, column 107): `travel` is not read, since there is no `downstream`"),
        ]
        for old, new, part in rows:
            with self.subTest(new=new):
                found = warnings(cursor(edited((old, new))))
                self.assertEqual(len(found), 1, found)
                self.assertIn(part, found[0])

    def test_each_key_that_is_ignored_is_told(self):
        rows = [
            ('{\n  "buses"', '{\n  "name": "valley",\n  "buses"', "$.name (line 2, column 3): the key `name` is ignored"),
            (
                '"spill": 120', '"spill": 120, "owner": "x"', "$.reservoirs.cliff.owner",
            ), ('"weight": 64', '"weight": 64, "year": 1981', "inflows[0].year"),
            (
                '"demand": {"north"', '"demand": {"west": 5, "north"', "$.stages[0].demand.west",
            ), ('"inflow": {"alp": 2,', '"inflow": {"lake": 1, "alp": 2,', "inflow.lake"),
            ('"demand": {', '"month": 1, "demand": {', "$.stages[0].month"),
        ]
        for old, new, part in rows:
            with self.subTest(new=new):
                found = warnings(cursor(edited((old, new))))
                self.assertEqual(len(found), 1, found)
                self.assertIn(part, found[0])
                self.assertTrue(found[0].endswith("` is ignored"))

    def test_a_misspelt_downstream(self):
        found = warnings(cursor(edited(('"downstream"', '"downstraem"'))))
        self.assertEqual(len(found), 2, found)
        self.assertIn("looks like `downstream`", found[0])

    def test_names_that_come_twice(self):
        found = warnings(cursor(edited(('"birch": {"bus"', '"alp": {"bus"'))))
        self.assertTrue(any("the key `alp` comes again at line 8" in it for it in found), found)

    def test_which_files_are_descriptions(self):
        self.assertTrue(is_description(cursor(CASCADE)))
        for text in ("[]", "{}", '{"nodes": {}, "stages": []}', (EXAMPLES / "three_stages.json").read_text(encoding="utf-8")):
            self.assertFalse(is_description(cursor(text)))

    def test_files_of_no_form_give_no_warning(self):
        for text in ('{"buses": 1}', '{"stages": [1, {"inflows": [2, {"inflow": 3}], "demand": []}], "reservoirs": {"a": 4}}'):
            self.assertEqual(warnings(cursor(text)), [])


if __name__ == "__main__":
    unittest.main()
