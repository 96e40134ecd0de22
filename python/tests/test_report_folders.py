"""Folders of results as they may be: with any names, without some files, with files that are wrong, and large ones."""
import contextlib
import io
import json
import shutil
import unittest
from pathlib import Path

from report_support import TOP, ReportFolder, needs_jinja2, needs_numpy, needs_pandas, read_page

from hydroplan.tools.shown_names import shown_name

NAMES = (
    "<script>alert(1)</script>", "\"both\" 'quotes' & more", "line\nbreak, and\ttab", "\u202eturned\u2066", "{{ 7 * 7 }}{% raw %}",
    "</style></svg><b>", "=1+1", "NA", "null", "\u05d0\u05d1\u05d2 (abc)", "&lt;&#60;", "a" * 300,
)
OPTIONAL = (
    "bounds.csv", "costs.csv", "decisions.csv", "storage_quantiles.csv", "price_quantiles.csv", "water_values.csv", "deficits.csv",
    "residuals.csv", "ledger.txt",
)


@needs_jinja2
@needs_numpy
@needs_pandas
class Names(ReportFolder):
    def rename(self, chosen):
        """Calls upper, coal, ridge, north and peak by other names, wherever they stand, and all else that has words by the first of them."""
        new, names = chosen[0], dict(zip(("upper", "coal", "ridge", "north", "peak"), chosen))
        summary = json.loads((self.results / "summary.json").read_text(encoding="utf-8"))
        for element in summary["elements"]:
            element.update(name=names.get(element["name"], element["name"]), bus=names.get(element["bus"], element["bus"]))
        for row in summary["demand"]:
            row.update(bus=names.get(row["bus"], row["bus"]), block=names.get(row["block"], row["block"]))
        for stage in summary["calendar"]:
            stage.update(hours={names.get(block, block): it for block, it in stage["hours"].items()}, name=f"{new} {stage['name']}")
        summary.update(title=new, buses=[names["north"], "south"], inflow={"method": new, "stations": [new], "note": new})
        summary["training"]["stopped"] = new
        summary["certified"]["bound_text"] = summary["upper"]["text"] = new
        self.change_summary(**summary)
        for name in (it for it in OPTIONAL if it.endswith(".csv")):
            self.rows(name, lambda row: {key: names.get(it, it) for key, it in row.items()})
        (self.results / "ledger.txt").write_text(new.replace("\n", " ") + "\n", encoding="utf-8")
        return names

    def test_any_name_stands_for_itself(self):
        for first in range(0, len(NAMES), 4):
            with self.subTest(NAMES[first:first + 5]):
                shutil.rmtree(self.results)
                ReportFolder.setUp(self)
                names = self.rename([*NAMES, *NAMES][first:first + 5])
                page = self.page()
                self.assertEqual(page.top.all("script") + page.top.all("b"), [])
                self.assertEqual(len(page.top.all("style")), 1)
                shown = {old: " ".join(shown_name(it).split()) for old, it in names.items()}
                self.assertIn(shown["upper"], page.table("When each reservoir is lowest"))
                self.assertIn(shown["coal"], page.table("Energy by source and year, mean over scenarios"))
                self.assertIn(f"{shown['north']}, {shown['peak']}", page.table("Prices by year"))
                self.assertEqual([it.text for it in page.figure("Water by reservoir").all("h4")][0], shown["upper"])
                self.assertEqual(page.top.all("h1")[0].text, shown["upper"])
                self.assertNotRegex(page.source, "[\u202a-\u202e\u2066-\u2069\x00-\x08\x0b-\x1f]")

    def test_a_surrogate_alone_is_escaped(self):
        self.change_summary(title="\ud800")
        self.assertEqual(self.page().top.all("h1")[0].text, "\\u{D800}")


@needs_jinja2
@needs_numpy
@needs_pandas
class Files(ReportFolder):
    def test_each_file_but_the_summary_may_be_missing(self):
        for name in OPTIONAL:
            with self.subTest(name):
                kept = (self.results / name).read_bytes()
                (self.results / name).unlink()
                said = [it.text for it in self.page().top.all("p", "missing")]
                self.assertTrue(any(name in it for it in said), said)
                (self.results / name).write_bytes(kept)

    def test_a_file_may_have_a_head_alone(self):
        for name in (it for it in OPTIONAL if it.endswith(".csv")):
            with self.subTest(name):
                kept = (self.results / name).read_text(encoding="utf-8")
                (self.results / name).write_text(kept.partition("\n")[0] + "\n", encoding="utf-8")
                self.assertTrue(any(name in it.text for it in self.page().top.all("p", "missing")))
                (self.results / name).write_text(kept, encoding="utf-8")

    def test_a_summary_with_a_calendar_alone(self):
        for name in OPTIONAL:
            (self.results / name).unlink()
        (self.results / "summary.json").write_text('{"calendar": [{"stage": 1, "date": "2026-01-01"}]}', encoding="utf-8")
        page = self.page()
        self.assertIn("This study plans a system over 1 stages, from 2026-01-01 to 2026-01-01.", page.top.text)
        self.assertEqual(page.top.all("figure"), [])

    def test_stages_without_blocks(self):
        self.rows("decisions.csv", lambda row: {**row, "block": ""})
        self.rows("price_quantiles.csv", lambda row: {**row, "block": ""})
        self.assertIn("north", self.page().table("Prices by year"))

    def test_numbers_below_0_and_no_spread(self):
        self.rows("costs.csv", lambda row: {**row, "cost": "-250"})
        self.change_summary(certified={"bound": -1001.5}, estimated={"mean": -1000, "half_width": 0, "scenarios": 4}, upper=None)
        page = self.page()
        # rounded down, away from 0
        self.assertEqual(page.table("Between what the expected cost lies")["at least"][0], "-1,001.50")
        self.assertEqual(page.table("Costs of scenarios")["4"][:3], ["-1,000", "-1,000", "-1,000"])

    def test_money_in_thousands(self):
        self.change_summary(units={"money": "EUR", "money_scale": 1000, "energy": "MWh", "volume": "hm3", "power": "MW"})
        page = self.page()
        # 1000.2567 thousands are 1.0002567 millions, of which so few are not shown as such
        self.assertEqual(page.table("Between what the expected cost lies")["at least"][0], "1,000.25")
        self.assertIn("thousand EUR", page.top.text)
        # one hm3 is worth 80 thousands
        self.assertEqual(page.table("What water is worth in March")["upper"][0], "80,000")

    def test_fewer_scenarios_with_decisions_than_with_costs(self):
        path = self.results / "decisions.csv"
        lines = path.read_text(encoding="utf-8").splitlines()
        path.write_text("\n".join(it for it in lines if it[0] in "s12") + "\n", encoding="utf-8")
        page = self.page()
        rows = page.table("What a dry year costs against a mean and a wet one")
        # of scenarios 1 and 2 the first has 32 and costs 700 in the first year, the second 72 and 300
        found = [rows[f"Mar 2026 to Feb 2027, {it}"][:3] for it in ("dry", "mean", "wet")]
        self.assertEqual(found, [["1", "32.00", "700"], ["2", "52.00", "500"], ["1", "72.00", "300"]])
        self.assertEqual(page.table("Costs of scenarios")["4"][0], "1,000")
        self.assertEqual(page.table("When a reservoir comes near empty")["upper"][0], "100 %")

    def test_an_import_and_an_export_of_one_name(self):
        path = self.results / "decisions.csv"
        text = path.read_text(encoding="utf-8").replace(",cable,", ",market,")
        more = [f"{it},{stage + 1},2026-03-01,base,market,imported,60" for it in range(1, 5) for stage in range(4)]
        path.write_text(text + "\n".join(more) + "\n", encoding="utf-8")
        summary = json.loads((self.results / "summary.json").read_text(encoding="utf-8"))
        elements = [{**it, "name": "market"} if it["name"] == "cable" else it for it in summary["elements"]]
        self.change_summary(elements=[{"name": "market", "kind": "import", "bus": "north"}, *elements])
        page = self.page()
        rows = page.table("Energy by source and year, mean over scenarios")
        self.assertEqual([[float(it) for it in rows[name]] for name in ("market", "to market")], [[120, 120], [0, -5]])
        drawings = {it: page.drawing("Energy by source at each bus", it) for it in ("north", "south")}
        self.assertEqual([len(drawings[it].all(look="source-import-1")) for it in ("north", "south")], [1, 0])
        self.assertEqual([len(drawings[it].all(look="source-export-1")) for it in ("north", "south")], [0, 1])

    def test_many_thermals_are_put_together(self):
        path = self.results / "decisions.csv"
        more = [f"{it},1,2026-03-01,base,t{size},generation,{size}" for it in range(1, 5) for size in (10, 20, 30, 40, 50)]
        path.write_text(path.read_text(encoding="utf-8") + "\n".join(more) + "\n", encoding="utf-8")
        rows = self.page().table("Energy by source and year, mean over scenarios")
        # coal, t50 and t40 are the three largest
        self.assertEqual([it for it in rows if it[:2] in ("t1", "t2", "t3", "t4", "t5")], ["t50", "t40"])
        self.assertEqual(float(rows["other thermals"][0]), 60)

    def test_what_is_missing_by_rounding_is_left_out(self):
        self.rows("deficits.csv", lambda row: {**row, "share_of_scenarios": "0", "mean": "1e-6", "greatest": "4e-5"})
        self.rows("decisions.csv", lambda row: {**row, "value": "0.0005"} if row["quantity"] in ("deficit", "missing_outflow") else row)
        page = self.page()
        self.assertIn("No energy is missing in any simulated scenario.", page.top.text)
        self.assertIn("No need of a reservoir", page.top.text)
        self.assertNotIn("missing (deficit)", page.table("Energy by source and year, mean over scenarios"))

    def test_several_nodes_in_a_stage(self):
        path = self.results / "water_values.csv"
        text = path.read_text(encoding="utf-8")
        more = [it.replace("node 3", '"node 3, wet"') for it in text.splitlines() if it.startswith("3,node 3,upper")]
        path.write_text(text + "\n".join(more) + "\n", encoding="utf-8")
        page = self.page()
        self.assertEqual(page.table("What water is worth in March")["lower"][-3:], ["–", "–", "–"])
        self.assertIn("summer 2027, node 3, wet", page.table("What water of upper is worth, by date"))


@needs_jinja2
@needs_numpy
@needs_pandas
class Refusals(ReportFolder):
    def refused(self):
        """What the command says of the folder, and that it ends with 1."""
        from hydroplan.report.command import main

        errors = io.StringIO()
        with contextlib.redirect_stderr(errors):
            self.assertEqual(main([str(self.results)]), 1)
        self.assertEqual(errors.getvalue().count("\n"), 1)
        self.assertFalse((self.results / "report.html").exists())
        return errors.getvalue()

    def test_no_folder(self):
        shutil.rmtree(self.results)
        self.assertIn("summary.json: No such file or directory; a folder of results has it", self.refused())

    def test_a_summary_that_is_none(self):
        path = self.results / "summary.json"
        wrong = {"{": "is no JSON", "[]": "an object is expected", "{}": "KeyError 'calendar'", '{"calendar": []}': "has no stages"}
        for text, words in wrong.items():
            path.write_text(text, encoding="utf-8")
            self.assertIn(words, self.refused())

    def test_dates_that_do_not_rise(self):
        self.change_summary(calendar=[{"stage": 1, "date": "2026-02-01"}, {"stage": 2, "date": "2026-01-01"}])
        self.assertIn("the dates of the calendar do not rise", self.refused())

    def test_stages_that_are_not_numbered_one_after_the_other(self):
        self.change_summary(calendar=[{"stage": 1, "date": "2026-01-01"}, {"stage": 3, "date": "2026-02-01"}])
        self.assertIn("are not numbered one after the other", self.refused())

    def test_a_column_that_is_not_there(self):
        path = self.results / "costs.csv"
        path.write_text(path.read_text(encoding="utf-8").replace("cost", "price", 1), encoding="utf-8")
        self.assertRegex(self.refused(), r"costs\.csv: .*cost")

    def test_a_number_that_is_none(self):
        self.rows("decisions.csv", lambda row: {**row, "value": "much"})
        self.assertRegex(self.refused(), r"decisions\.csv: .*much")

    def test_a_stage_that_is_not_there(self):
        for name in ("decisions.csv", "storage_quantiles.csv"):
            with self.subTest(name):
                kept = (self.results / name).read_bytes()
                self.rows(name, lambda row: {**row, "stage": 9})
                self.assertIn("calendar", self.refused())
                (self.results / name).write_bytes(kept)

    def test_scenarios_below_0(self):
        self.rows("decisions.csv", lambda row: {**row, "scenario": -1})
        self.assertIn("scenarios are numbered from 0", self.refused())


@needs_jinja2
@needs_numpy
@needs_pandas
class LargePage(ReportFolder):
    """A page of 36 stages, 8 reservoirs and 3 buses with 3 blocks."""

    @classmethod
    def setUpClass(cls):
        super().setUpClass()
        import tempfile

        from synthetic_results import Size, draw_results

        from hydroplan.report import write

        made = tempfile.TemporaryDirectory()
        cls.addClassCleanup(made.cleanup)
        cls.path = write(draw_results(Path(made.name) / "drawn", Size(scenarios=12)))
        cls.made = read_page(cls.path)

    def test_it_is_below_five_megabytes(self):
        self.assertLess(self.path.stat().st_size, 5_000_000)

    def test_it_asks_for_nothing_from_outside(self):
        names = ("src", "href", "xlink:href", "srcset", "action", "data")
        links = [it.attributes[name] for it in self.made.top.all() for name in names if name in it.attributes]
        self.assertTrue(links)
        self.assertEqual([it for it in links if not it.startswith("#")], [])
        for word in ("http:", "https:", "@import", "//", "url(h", "<script", "<img", "<link", "javascript:"):
            self.assertNotIn(word, self.made.source)

    def test_links_lead_somewhere_and_keys_are_there_once(self):
        keys = [it.attributes["id"] for it in self.made.top.all() if "id" in it.attributes]
        self.assertEqual(len(keys), len(set(keys)))
        named = [key for it in self.made.top.all() for key in (it.attributes.get("aria-labelledby") or "").split()]
        named += [it.attributes["href"][1:] for it in self.made.top.all("a")]
        self.assertEqual([it for it in named if it not in set(keys)], [])

    def test_each_figure_and_table_has_its_mark(self):
        heads = [it for name in ("figcaption", "caption", "summary") for it in self.made.top.all(name)]
        self.assertGreater(len(heads), 30)
        self.assertEqual([it.text for it in heads if not it.all("span", "mark")], [])
        self.assertEqual([it.text for it in self.made.top.all("article") if not it.all("span", "mark")], [])

    def test_it_can_be_read_without_seeing_it(self):
        pictures = self.made.top.all("svg", "picture")
        self.assertGreater(len(pictures), 40)
        for picture in pictures:
            self.assertEqual(picture.attributes["role"], "img")
            self.assertGreater(len(picture.all("title")[0].text), 20)
        for table in self.made.top.all("table"):
            self.assertTrue(all(it.attributes.get("scope") for it in table.all("th")))
            rows = [sum(int(cell.attributes.get("colspan") or 1) for cell in row.all() if cell.name in ("th", "td")) for row in table.all("tr")]
            spans = [it for it in table.all("th") if it.attributes.get("rowspan")]
            rows = rows if not spans else [rows[0], rows[1] + 1, *rows[2:]]
            self.assertEqual(len(set(rows)), 1, table.all("caption")[0].text)
        self.assertTrue(all(it.attributes.get("tabindex") == "0" for it in self.made.top.all("div", "scroll")))

    def test_it_says_in_which_month_the_lake_is_lowest(self):
        rows = self.made.table("When each reservoir is lowest")
        self.assertEqual(set(rows), {"aure", "bygd", "gland", "dyrs", "evje", "fjor", "hama", "ilse"})

    def test_looks_are_in_the_style_sheet(self):
        style = (TOP / "python/hydroplan/report/templates/style.css").read_text(encoding="utf-8")
        looks = {look for it in self.made.top.all() for look in it.looks}
        unknown = [it for it in sorted(looks) if f".{it}" not in style and not it.endswith("-word")]
        self.assertEqual(unknown, ["answer-estimated", "numbers", "tick"])


if __name__ == "__main__":
    unittest.main()
