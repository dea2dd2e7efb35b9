"""What programs are compiled with that call the library: library/c/abi-*.txt, which is written by hand, says what mvt.h says, and
while the soname stays its lines stay. tests/library/abi.c is the same for the compiler."""

import importlib.util
import re
import subprocess
from pathlib import Path

import pytest

TOP = Path(__file__).resolve().parents[2]
TEXT = (TOP / "library/c/mvt.h").read_text()
_spec = importlib.util.spec_from_file_location("layout", TOP / "library/layout.py")
layout = importlib.util.module_from_spec(_spec)
_spec.loader.exec_module(layout)
HEADER = layout.Header(TEXT)
LISTED = layout.listed(HEADER)
FILE = f"library/c/abi-{HEADER.version.rpartition('.')[0]}.txt"


def differing(text):
    """The lines of the list that a header doesn't say, and those that it says beside them."""
    said = list(layout.told(layout.Header(text)))
    return [line for line in LISTED if line not in set(said)], [line for line in said if line not in set(LISTED)]


def test_mvt_h():
    assert differing(TEXT) == ([], [])
    assert len(LISTED) == len(set(LISTED)) > 300


@pytest.mark.parametrize(
    "old, new, gone",
    [
        ("MVT_CAUSE_TRUNCATED = 1,", "MVT_CAUSE_TRUNCATED = 29,", "number MVT_CAUSE_TRUNCATED 1"),
        ("} mvt_rows_fault;", "    uint32_t more;\n} mvt_rows_fault;", "structure mvt_rows_fault 48"),
        ("    int32_t x, y;\n} mvt_point;", "    int32_t y, x;\n} mvt_point;", "field mvt_point 0 x int32_t"),
        (
            "mvt_status mvt_judge(const uint8_t *bytes, size_t",
            "mvt_status mvt_judge(const uint8_t *bytes, uint64_t",
            "call mvt_judge",
        ),
        ("mvt_status mvt_judge(", "int mvt_judge(", "call mvt_judge"),
        ("mvt_status mvt_judge(", "mvt_status mvt_judged(", "call mvt_judge"),
    ],
)
def test_a_header_that_changes(old, new, gone):
    assert TEXT.count(old) == 1
    changed, _ = differing(TEXT.replace(old, new))
    assert [line for line in changed if line.startswith(gone)]


def test_a_header_with_more():
    """What is new is to be listed too."""
    more = TEXT.replace("MVT_OUT_OF_TURN = 8 ", "MVT_OUT_OF_TURN = 8, MVT_NEWER = 9 ")
    assert differing(more) == ([], ["number MVT_NEWER 9"])


def test_its_parts():
    """Each enum, structure and call that the header begins is among them."""
    text = re.sub(r"/\*.*?\*/", "", TEXT, flags=re.S)
    calls = re.findall(r"^[a-z].*\b(mvt_[a-z0-9_]+)\([^;{]*\);", text, re.M)
    assert {line.split()[1] for line in LISTED if line.startswith("call ")} == set(calls) and len(calls) > 50
    assert {line.split()[1] for line in LISTED if line.startswith("structure ")} == set(
        re.findall(r"^\} (mvt_\w+);", text, re.M)
    ) - set(HEADER.enums)
    assert {line.split()[1] for line in LISTED if line.startswith("number ")} == set(
        re.findall(r"\b(MVT_\w+) = \d", text)
    )


def test_lines_are_only_added():
    """No commit takes a line away, as far as the history is there."""

    def git(*words):
        return subprocess.run(["git", "-C", TOP, *words], capture_output=True, text=True).stdout

    gone = re.findall(
        r"^-(?!-)(.*)$", git("log", "-p", "--format=", "--", FILE) + git("diff", "HEAD", "--", FILE), re.M
    )
    assert [line for line in gone if line and not line.startswith("#")] == []
