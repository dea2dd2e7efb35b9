"""What a terminal is given of others' texts: no control, and no more than a line."""

import sys
import unicodedata
from pathlib import Path

# The module needs nothing of the library, which needn't be built.
sys.path.insert(0, str(Path(__file__).resolve().parents[3] / "tools" / "mvt_tools"))
from _shown import shown  # noqa: E402


def test_controls_are_spelled():
    assert shown("\x1b]0;owned\x07\x1b[2J") == r"\x1b]0;owned\x07\x1b[2J"
    assert shown("a\nb\rc\td\0e\x7f\x85") == r"a\x0ab\x0dc\x09d\x00e\x7f\x85"
    assert shown("\u202egnp.exe\u2028\u2066") == r"\u202egnp.exe\u2028\u2066"
    assert shown("\U000e0041") == r"\U000e0041"


def test_bytes_that_are_no_utf_8_are_spelled():
    assert shown(b"caf\xe9".decode("utf-8", "surrogateescape")) == r"caf\xe9"
    assert shown("\ud800") == r"\ud800"


def test_letters_stay():
    for text in ("water", "", "Gewässer 12/3 (a)", "道路\u3000東", "дороги", "a\\b", "non\u00a0breaking"):
        assert shown(text) == text


def test_long_texts_are_cut():
    assert shown("x" * 100) == "x" * 100
    assert shown("x" * 101) == "x" * 99 + "…"
    assert shown("\x1b" * 1_000_000) == r"\x1b" * 24 + "…"
    assert shown("x" * 300, 200) == "x" * 199 + "…"


def test_no_letter_is_obeyed():
    for code in range(0x110000):
        told = shown(chr(code))
        assert told.isprintable() or unicodedata.category(told) == "Zs"
