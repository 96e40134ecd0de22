"""The study of eight reservoirs: balances of water and energy, recomputed from decisions.csv and study.toml alone, and which features it has.

Nothing is taken from the package: the file is read by `tomllib`, and its forms of numbers are read here a second time.
"""
import csv
import shutil
import unittest
from collections import defaultdict
from importlib.util import find_spec

from model_support import TOP, needs_numpy
from study_support import StudyFolder
from extensive_plants import needs_scipy

NORDIC = TOP / "studies" / "nordic"
HM3 = 0.0036
SCENARIOS = 3
NEAR = 0.01


class Reading:
    """The numbers of study.toml, by stage and block, as its page says."""

    def __init__(self, document):
        self.document = document
        self.stages = range(1, document["calendar"]["stages"] + 1)
        days = [31, 28, 31, 30, 31, 30, 31, 31, 30, 31, 30, 31]
        self.hours = [24 * (29 if (at % 12, at // 12) == (1, 2) else days[at % 12]) for at in range(36)]

    def block_hours(self, stage, block):
        """A quarter of the stage is the peak."""
        return self.hours[stage - 1] * {"peak": 0.25, "base": 0.75}[block]

    def number(self, given, stage, block=""):
        """A number; of a flow the hm3 of the block, or of all blocks."""
        if isinstance(given, dict) and "flow" in given:
            blocks = [block] if block else ["peak", "base"]
            return sum(self.number(given["flow"], stage, it) * self.block_hours(stage, it) * HM3 for it in blocks)
        if isinstance(given, dict) and block in given:
            return self.number(given[block], stage)
        if isinstance(given, dict):
            months = given["months"] if "months" in given else self.document["profiles"][given["profile"]]["months"]
            return months[(stage - 1) % 12] * given.get("times", 1)
        return given


class Decisions:
    """The numbers of a scenario."""

    def __init__(self, rows):
        self.values = {(int(it["stage"]), it["block"], it["element"], it["quantity"]): float(it["value"]) for it in rows}

    def at(self, stage, element, quantity, block=""):
        return self.values[stage, block, element, quantity]


@needs_numpy
@needs_scipy
@unittest.skipUnless(find_spec("tomllib"), "tomllib comes with Python 3.11")
class Balances(StudyFolder):
    def setUp(self):
        super().setUp()
        import tomllib

        for path in NORDIC.iterdir():
            if path.is_file() and path.suffix in (".toml", ".csv"):
                shutil.copy(path, self.folder)
        self.document = tomllib.loads((NORDIC / "study.toml").read_text(encoding="utf-8"))
        self.reading = Reading(self.document)

    def scenarios(self):
        """The decisions of a few scenarios, by a policy of a few iterations."""
        words = ["stop.iterations=4", f"simulation.scenarios={SCENARIOS}", "simulation.prices=1", "stop.scenarios=2"]
        found = self.results(*(word for it in words for word in ("--set", it)))
        self.assertEqual(found["estimated"]["scenarios"], SCENARIOS)
        by_scenario = defaultdict(list)
        for row in self.rows("decisions.csv"):
            by_scenario[row["scenario"]].append(row)
        self.assertEqual(len(by_scenario), SCENARIOS)
        return [Decisions(rows) for rows in by_scenario.values()]

    def test_balances(self):
        for decisions in self.scenarios():
            for stage in self.reading.stages:
                for name, reservoir in self.document["reservoir"].items():
                    self.assertAlmostEqual(self.water(decisions, stage, name, reservoir), 0, delta=NEAR, msg=(stage, name))
                    self.assertAlmostEqual(self.turbine(decisions, stage, name, reservoir), 0, delta=NEAR, msg=(stage, name))
                for bus in self.document["bus"]:
                    for block in ("peak", "base"):
                        self.assertAlmostEqual(self.energy(decisions, stage, bus, block), 0, delta=NEAR * 100, msg=(stage, bus, block))
                self.assertAlmostEqual(self.store(decisions, stage), 0, delta=NEAR)

    def water(self, decisions, stage, name, reservoir):
        """What was there, comes and goes, less what is there."""
        before = reservoir["initial"] if stage == 1 else decisions.at(stage - 1, name, "volume")
        found = before + decisions.at(stage, name, "inflow") - decisions.at(stage, name, "outflow") - decisions.at(stage, name, "volume")
        for member in ("evaporation", "irrigation"):
            if member in reservoir:
                found -= self.reading.number(reservoir[member], stage) - decisions.at(stage, name, f"missing_{member}")
        for pump, own in self.document["pump"].items():
            pumped = sum(decisions.at(stage, pump, "pumped", block) for block in ("peak", "base"))
            found += ((own["target"] == name) - (own["source"] == name)) * pumped
        for other, own in self.document["reservoir"].items():
            found += self.arrives(decisions, stage, name, other, own)
        return found

    def arrives(self, decisions, stage, name, other, own):
        """What arrives from another reservoir."""
        downstream = own.get("downstream")
        spilled = own.get("spilled", downstream)
        found = 0.0
        for quantity, way in (("turbined", downstream), ("spilled", spilled)):
            to, travel = (way["to"], way["travel"]) if isinstance(way, dict) else (way, 0)
            if to == name and stage > travel:
                blocks = [""] if quantity == "spilled" else ["peak", "base"]
                found += sum(decisions.at(stage - travel, other, quantity, block) for block in blocks)
            elif to == name and quantity == "turbined":
                found += way["under_way"][stage - 1]
        return found

    def energy(self, decisions, stage, bus, block):
        """What is brought to a bus and missing there, less the demand."""
        hours = self.reading.block_hours(stage, block)
        found = decisions.at(stage, bus, "deficit", block) - self.reading.number(self.document["bus"][bus]["demand"], stage, block) * hours
        for kind, quantity, sign in (
            ("reservoir", "generation", 1), ("thermal", "generation", 1), ("renewable", "taken", 1), ("import", "imported", 1),
            ("export", "exported", -1),
        ):
            found += sign * sum(decisions.at(stage, name, quantity, block) for name in self.named(kind, bus))
        for name in self.named("battery", bus):
            found += self.document["battery"][name]["discharging"] * decisions.at(
                stage, name, "discharged", block,
            ) - decisions.at(stage, name, "charged", block)
        for name in self.named("pump", bus):
            pump = self.document["pump"][name]
            found -= pump["energy"] / pump["efficiency"] * decisions.at(stage, name, "pumped", block)
        for name, line in self.document["line"].items():
            sent, back = (decisions.at(stage, name, quantity, block) for quantity in ("sent", "sent_back"))
            found += (line["source"] == bus) * (line["arriving"] * back - sent) + (line["target"] == bus) * (line["arriving"] * sent - back)
        return found

    def named(self, kind, bus):
        """The elements of a kind at a bus, those of the table of thermals too."""
        names = [name for name, it in self.document[kind].items() if it["bus"] == bus]
        if kind == "thermal":
            with (NORDIC / "thermals.csv").open(encoding="utf-8") as file:
                names += [row["name"] for row in csv.DictReader(file) if row["bus"] == bus]
        return names

    def store(self, decisions, stage):
        """What was stored and changes, less what is stored."""
        battery = self.document["battery"]["store"]
        before = battery["initial"] if stage == 1 else decisions.at(stage - 1, "store", "stored")
        into, out = (sum(decisions.at(stage, "store", word, it) for it in ("peak", "base")) for word in ("charged", "discharged"))
        change = battery["charging"] * into - out
        return before + change - decisions.at(stage, "store", "stored")

    def turbine(self, decisions, stage, name, reservoir):
        """The energy of a turbine's peak, less what its water gives."""
        energy = decisions.at(stage, name, "turbined", "peak") * reservoir["productivity"]["flow"] / HM3
        return decisions.at(stage, name, "generation", "peak") - energy


if __name__ == "__main__":
    unittest.main()
