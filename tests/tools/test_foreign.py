"""Numbers, JSON, rows and pieces of files that strangers wrote: what reads them, and that nothing else does."""

import ast
import math
from pathlib import Path

import pytest
from hypothesis import given, settings
from hypothesis import strategies as make

from mvt_tools import foreign

TOOLS = Path(__file__).resolve().parents[2] / "tools"
HUGE = [
    10**400,
    -(10**400),
    1 << 64,
    -(1 << 64),
    math.inf,
    -math.inf,
    math.nan,
    1e308,
    "9e999",
    "-9e999",
    "nan",
    "inf",
    "9" * 5000,
    "1_0",
    "٣",
]
ANY = make.recursive(
    make.none()
    | make.booleans()
    | make.integers()
    | make.floats()
    | make.text(max_size=20)
    | make.binary(max_size=5)
    | make.sampled_from(HUGE),
    lambda inner: make.lists(inner, max_size=5) | make.dictionaries(make.text(max_size=3), inner, max_size=3),
    max_leaves=6,
)


@pytest.mark.parametrize(
    "value, wanted",
    [(5, 5.0), (0.5, 0.5), ("-1e3", -1000.0), (" 7 ", 7.0), (True, None), (None, None), ("", None), ([1], None)],
)
def test_numbers(value, wanted):
    assert foreign.number(value) == wanted


@pytest.mark.parametrize(
    "value, wanted",
    [
        (5, 5),
        (5.0, 5),
        ("5", 5),
        ("05", 5),
        ("-3", -3),
        (99, 99),
        (100, None),
        (-4, None),
        (0.5, None),
        ("5.0", None),
        ("", None),
        (" 5", None),
        ("+5", None),
        (True, None),
        (None, None),
        ([5], None),
        (b"5", None),
    ],
)
def test_whole_numbers(value, wanted):
    assert foreign.whole(value, -3, 99) == wanted


@pytest.mark.parametrize(
    "value",
    [each for each in HUGE if each not in (1 << 64, -(1 << 64), 1e308, -1e308)],
    ids=lambda value: ascii(value)[:20],
)
def test_what_is_no_number(value):
    assert foreign.whole(value, -(1 << 63), 1 << 63) is None
    if value not in ("1_0", "٣"):  # which Python spells so
        assert foreign.number(value) is None


@pytest.mark.parametrize("given", [[1, 2, 3, 4], [1.0, 2, 3, 4.0], "1,2,3,4", " 1, 2.0 ,3e0,4"])
def test_bounds(given):
    assert foreign.degrees(given) == (1, 2, 3, 4)


@pytest.mark.parametrize(
    "given",
    [
        "",
        "1,2,3",
        "1,2,3,4,5",
        [1, 2, 3],
        [1, 2, 3, 4, 5],
        ["1", 2, 3, 4],
        [1, 2, 3, None],
        {},
        5,
        None,
        "1,2,3,nan",
        [1, 2, 3, 10**400],
    ],
)
def test_what_is_no_bounds(given):
    assert foreign.degrees(given) is None


@settings(max_examples=500, deadline=None)
@given(ANY, make.integers(-5, 5), make.integers(-5, 1 << 70))
def test_anything_is_a_number_or_none(value, low, high):
    found = foreign.number(value)
    assert found is None or (type(found) is float and math.isfinite(found))
    found = foreign.whole(value, low, high)
    assert found is None or (type(found) is int and low <= found <= high)
    found = foreign.degrees(value)
    assert found is None or (len(found) == 4 and all(map(math.isfinite, found)))


@settings(max_examples=500, deadline=None)
@given(
    make.binary(max_size=50)
    | make.text(max_size=50)
    | make.sampled_from(["[" * 100_000, '{"a":' * 100_000, "9" * 5000, "1e400", b"\xff\xfe"])
)
def test_anything_is_json_or_a_value_error(text):
    try:
        foreign.parsed(text)
    except ValueError:
        pass


@settings(max_examples=200, deadline=None)
@given(make.integers(0, 30) | make.integers(-(1 << 65), 1 << 65), make.integers(-2, 40))
def test_any_piece_of_a_file(offset, length):
    with open(__file__, "rb") as file:
        content = file.read()
        wanted = content[offset : offset + length] if offset >= 0 and length >= 0 else b""
        assert foreign.piece(file.fileno(), offset, length) == wanted


def test_no_more_rows_than_are_wanted():
    rows = iter(range(10))
    assert (foreign.some(rows, 3), next(rows), foreign.some(rows, 99)) == ([0, 1, 2], 3, [4, 5, 6, 7, 8, 9])


# ---- that nothing else reads them

# What makes numbers, objects, rows and pieces of what it is given, and gives no bound.
READERS = {"int", "float", "json.load", "json.loads", "pread", "fetchall"}
# Where such a call is given what no stranger wrote.
OWN = {
    "mvt_tools/audit/results.py": "counts of its own results",
    "mvt_tools/audit/summary.py": "rows of its own results",
    "mvt_tools/audit/report/examples.py": "rows of its own results, with a limit",
}


def spelled(function):
    """The name by which a function is called: `int`, or `json.loads`, or the last part of another."""
    if isinstance(function, ast.Name):
        return function.id
    if isinstance(function, ast.Attribute):
        is_of_json = isinstance(function.value, ast.Name) and function.value.id == "json"
        return f"json.{function.attr}" if is_of_json else function.attr
    return ""


def calls(source):
    """The lines in which a reader is called, or handed on to be called, as by `map(int, words)`."""
    for node in ast.walk(ast.parse(source)):
        if isinstance(node, ast.Call) and spelled(node.func) not in ("isinstance", "issubclass"):
            words = [node.func, *node.args, *(word.value for word in node.keywords)]
            if READERS.intersection(map(spelled, words)):
                yield node.lineno


def test_the_calls_that_are_found():
    lines = ["int(a)", "map(float, a)", "sorted(a, key=int)", "os.pread(a, 1, 2)", "json.loads(a)", "a.b().fetchall()"]
    others = [
        "isinstance(a, (int, float))",
        "isinstance(a, int)",
        "x: int = a",
        "pickle.loads(a)",
        "int.from_bytes(a)",
        "type(a) is int",
    ]
    assert list(calls("\n".join(lines + others))) == list(range(1, len(lines) + 1))


@pytest.mark.parametrize("path", sorted(TOOLS.rglob("*.py")), ids=lambda path: str(path.relative_to(TOOLS)))
def test_nothing_else_reads_what_a_stranger_wrote(path):
    name = str(path.relative_to(TOOLS))
    found = list(calls(path.read_text()))
    if name in OWN or name == "mvt_tools/foreign.py":
        assert found, f"{name} isn't an exception any more"
    else:
        assert not found, f"{name}, lines {found}: through mvt_tools.foreign"
