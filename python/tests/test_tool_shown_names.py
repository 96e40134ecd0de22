"""Characters that a name may hold and that are not shown, against the Unicode tables of Python itself."""
import json
import sys
import unicodedata
import unittest

from hydroplan.tools.shown_names import shown_in_json, shown_name

# the characters of Unicode's property Bidi_Control
BIDI_CONTROLS = {0x061C, 0x200E, 0x200F, *range(0x202A, 0x202F), *range(0x2066, 0x206A)}


class Characters(unittest.TestCase):
    def test_are_escaped_by_category(self):
        for number in range(sys.maxunicode + 1):
            letter = chr(number)
            escaped = unicodedata.category(letter) in ("Cc", "Zl", "Zp", "Cs") or number in BIDI_CONTROLS
            self.assertEqual(shown_name(letter), f"\\u{{{number:04X}}}" if escaped else letter)

    def test_in_a_name(self):
        rows = {
            "lake": "lake", "Überlauf 湖": "Überlauf 湖", "a\nb": "a\\u{000A}b", "\u202eabc\u202c": "\\u{202E}abc\\u{202C}",
            "a\u2028b\u2029": "a\\u{2028}b\\u{2029}", "\ud800": "\\u{D800}", "a\tb\x1b[2J": "a\\u{0009}b\\u{001B}[2J", "": "",
        }
        for name, shown in rows.items():
            self.assertEqual(shown_name(name), shown)

    def test_json_strings_are_read_as_before(self):
        for name in ("a\x85\u2028\u202e", "\u061cx\ud800", 'q"\\u202e'):
            written = shown_in_json(json.dumps(name, ensure_ascii=False))
            self.assertEqual(json.loads(written), name)
            self.assertTrue(written.isprintable())


if __name__ == "__main__":
    unittest.main()
