"""Long reports read as streams: the numbers are those of the slow reading, over any pieces; files of results are whole or not there."""
import io
import unittest
from pathlib import Path
from unittest import mock

from model_support import Folder, needs_numpy, one_reservoir, three_stages
from hydroplan import simulate, train
from hydroplan.core import find_program, run
from hydroplan.study import simulating
from hydroplan.study.exporting import ResultFile, csv_line, plain, write_rows
from hydroplan.study.simulating import ReportStream, parts_of


@needs_numpy
class Streams(Folder):
    def scenarios(self, compiled, count):
        """The scenarios of a report, by the stream and by the slow reading."""
        train(compiled, self.journal, seed=7, iterations=5, progress=False)
        report = run(find_program(), ["simulate", str(self.journal), "3", str(count)], compiled.problem).output.encode("utf-8")
        return list(ReportStream(compiled).scenarios(io.BytesIO(report))), simulate(compiled, self.journal, seed=3, scenarios=count).scenarios

    def same(self, compiled, count=8):
        stream, slow = self.scenarios(compiled, count)
        self.assertEqual(len(stream), len(slow))
        for found, expected in zip(stream, slow):
            self.assertEqual([it.stage for it in found], [it.stage for it in expected.stages])
            for it, stage in zip(found, expected.stages):
                self.assertEqual((it.layout.name, it.kind), (stage.node, stage.kind))
                names = {"in": stage.incoming, "random": stage.randoms, "value": stage.values}
                for (word, name), number in zip(it.layout.names, it.numbers):
                    self.assertAlmostEqual(number, names[word][name], 9)
                self.assertEqual(len(it.layout.names), sum(map(len, names.values())))
                for name, residual in zip(it.layout.rows, it.residuals):
                    self.assertAlmostEqual(residual, stage.residuals[name], 9)
                self.assertAlmostEqual(it.cost, stage.cost, 6)

    def test_numbers_are_those_of_the_slow_reading(self):
        self.same(three_stages().compile())
        self.journal = self.folder / "other.journal"
        self.same(three_stages("0.37", "1.3").compile())

    def test_pieces_of_any_length(self):
        with mock.patch.object(simulating, "PIECE", 7):
            self.same(one_reservoir().compile())

    def test_no_scenarios(self):
        self.assertEqual(self.scenarios(one_reservoir().compile(), 0)[0], [])

    def test_parts(self):
        parts = parts_of(one_reservoir().compile(), 300, 40)
        self.assertEqual([(it.first, it.seed, it.count) for it in parts], [(1, 40, 125), (126, 41, 125), (251, 42, 50)])


class Files(Folder):
    def test_plain_decimals(self):
        numbers = {0.0: "0", -0.0: "0", -1e-9: "0", 1e-7: "0", 12.5: "12.5", 1e12: "1000000000000", 0.1234567: "0.123457", 100.0: "100"}
        self.assertEqual({number: plain(number) for number in numbers}, numbers)

    def test_cells(self):
        self.assertEqual(csv_line([1, None, 'a "b"', "c,d", "e\nf", 2.5]), '1,,"a ""b""","c,d","e\nf",2.5')

    def test_a_file_that_fails_leaves_the_old_one(self):
        path = Path(self.folder / "a.csv")
        write_rows(path, ("a",), [[1]])
        with self.assertRaises(ValueError), ResultFile(path) as file:
            file.write("half")
            raise ValueError
        self.assertEqual(path.read_text(encoding="utf-8"), "a\n1\n")
        self.assertEqual([it.name for it in self.folder.iterdir()], ["a.csv"])


if __name__ == "__main__":
    unittest.main()
