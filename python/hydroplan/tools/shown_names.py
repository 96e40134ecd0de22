r"""Names from files as they are shown: what could forge a line or turn the order of what is read stands as \u{XXXX}.

Outside the proved core. Escaped are control characters (Cc), the marks and controls of the bidirectional algorithm (U+061C, U+200E,
U+200F, U+202A to U+202E, U+2066 to U+2069; Unicode Standard Annex 9), separators of lines and paragraphs (Zl, Zp), and surrogates that
stand alone.
"""
import re

UNSHOWN = re.compile("[\x00-\x1f\x7f-\x9f\u061c\u200e\u200f\u2028-\u202e\u2066-\u2069\ud800-\udfff]")


def shown_name(text: str) -> str:
    r"""The text with each character that is not shown as \u{XXXX}, in at least four hexadecimal digits."""
    return UNSHOWN.sub(lambda found: f"\\u{{{ord(found[0]):04X}}}", text)


def shown_in_picture(text: str) -> str:
    r"""The same text as matplotlib takes it: `$` begins no formula."""
    return shown_name(text).replace("$", r"\$")


def shown_in_json(text: str) -> str:
    r"""A JSON string, as it stands in a report, with the same characters as JSON escapes them, `\uXXXX`: it is read as before."""
    return UNSHOWN.sub(lambda found: f"\\u{ord(found[0]):04x}", text)
