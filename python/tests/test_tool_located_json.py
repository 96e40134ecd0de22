"""JSON with places: what is read, where it stands, and where a text is no JSON."""
import json
import unittest
from fractions import Fraction

from tool_support import EXAMPLES, cursor
from hydroplan.tools.located_json import NotJson, NumberText, Refused, parse, path_text


def plain(value):
    """A located value as Python's own reader has it, numbers as texts."""
    if isinstance(value.content, dict):
        return {key: plain(member) for key, member in value.content.items()}
    if isinstance(value.content, list):
        return [plain(item) for item in value.content]
    return getattr(value.content, "text", value.content)


class Reading(unittest.TestCase):
    def test_agrees_with_the_standard_reader(self):
        texts = [path.read_text(encoding="utf-8") for path in sorted(EXAMPLES.glob("*.json"))]
        texts += ['{"a":[1,-2.5e+3,true,false,null,""],"b":{}}', r'"\u00e4\ud83d\ude00\n\"\\\/"', " [ ] "]
        for text in texts:
            expected = json.loads(text, parse_int=str, parse_float=str)
            self.assertEqual(plain(parse(text.encode()).root), expected)

    def test_line_and_column_of_a_value(self):
        at = cursor('{"a": 1,\n  "b": [10,\n\t20.5]}').member("b").items()[1]
        self.assertEqual(at.place(), "$.b[1] (line 3, column 2)")
        self.assertEqual(at.written(), "20.5")
        self.assertEqual(at.number(), Fraction(41, 2))

    def test_columns_count_characters(self):
        self.assertEqual(cursor('{"ä":7}').member("ä").place(), '$["ä"] (line 1, column 6)')

    def test_the_last_of_equal_keys_counts(self):
        root = cursor('{"a":1,"a":2}')
        self.assertEqual(root.member("a").written(), "2")
        self.assertEqual(root.value.repeated, [("a", 7)])

    def test_whole_numbers_are_those_of_64_bits(self):
        texts = (
            "0", "-5", "18446744073709551615", "-9223372036854775808", "-0", "18446744073709551616", "-9223372036854775809", "5.0", "1e3", "1" * 5000,
        )
        self.assertEqual([NumberText(it).is_whole() for it in texts], [True] * 4 + [False] * 6)

    def test_paths(self):
        self.assertEqual(path_text(("nodes", "summer dry", "realizations", 0)), '$.nodes["summer dry"].realizations[0]')
        self.assertEqual(path_text(('a"b\\',)), '$["a\\"b\\\\"]')


class Faults(unittest.TestCase):
    def fault(self, data):
        with self.assertRaises(NotJson) as caught:
            parse(data)
        return caught.exception.line, caught.exception.column, caught.exception.reason

    def test_places_of_faults(self):
        rows = [
            (b"", 1, 1, "ends"), (b'{"a":1,}', 1, 8, "key"), (b'{"a" 1}', 1, 6, "colon"), (b"[1\n2]", 2, 1, "comma"),
            (b"[01]", 1, 3, "comma"), (b"[1] 2", 1, 5, "behind"), (b'["a', 1, 4, "inside a string"), (b'["\x01"]', 1, 3, "control"),
            (b'["\\x"]', 1, 3, "escape"), (b'["\\ud800"]', 1, 3, "surrogates"), (b'["\\u00g0"]', 1, 3, "hexadecimal"),
            (b"[nul]", 1, 2, "value"), (b"\n[1e400]", 2, 2, "too large"), (b'{"a":"\xff"}', 1, 7, "UTF-8"),
        ]
        for data, line, column, reason in rows:
            with self.subTest(data=data):
                found = self.fault(data)
                self.assertEqual(found[:2], (line, column))
                self.assertIn(reason, found[2])

    def test_at_most_127_levels(self):
        parse(b"[" * 127 + b"]" * 127)
        self.assertEqual(self.fault(b"[" * 128 + b"]" * 128)[:2], (1, 128))

    def test_a_number_of_absurd_length_is_refused_where_its_value_is_asked_for(self):
        with self.assertRaises(Refused):
            cursor("1e-5000").number()


if __name__ == "__main__":
    unittest.main()
