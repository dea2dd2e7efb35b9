"""From C++: each case as the program says it, what is C++ of the wrapper, what it keeps from compiling, and the example of a
layer."""

import re
import shutil
import sys
from pathlib import Path

import cases
import pytest
from room import COUNTED, CXX, SANITIZED, TILES, TOP, VALGRIND, cases_of, compiled, needs, run

pytestmark = needs("g++")
HERE = Path(__file__).parent
WRAPPED = HERE / "wrapped.cpp"
NAMES = re.findall(r'^    \{"(\w+)", ', WRAPPED.read_text(), re.M)
OF_A_TILE = [name for name in NAMES if name != "kinds"]
PARTS = ["examples", *cases.OTHERS]


def tile(name):
    return (TILES / f"{name}.mvt").read_bytes()


@pytest.mark.parametrize("part", PARTS)
def test_cases(part):
    run(compiled(HERE / "cases.cpp", *COUNTED), env=cases_of(part))


@pytest.mark.parametrize("name", ["gdal", "postgis"])
@pytest.mark.parametrize("test", OF_A_TILE)
def test_wrapped(test, name):
    run(compiled(WRAPPED), test, input=tile(name), text=False)


def test_kinds():
    [case] = [case for case in cases.examples() if case.name == "kinds"]
    run(compiled(WRAPPED), "kinds", input=case.tile, text=False)


@pytest.mark.parametrize("test", OF_A_TILE)
def test_with_sanitizers(test):
    run(compiled(WRAPPED, *SANITIZED, *COUNTED), test, input=tile("postgis"), text=False)


@needs("valgrind")
@pytest.mark.parametrize("test", [name for name in OF_A_TILE if name != "share"])
def test_under_valgrind(test):
    run(*VALGRIND, compiled(WRAPPED), test, input=tile("gdal"), text=False)


@needs("valgrind")
def test_cases_under_valgrind():
    run(*VALGRIND, compiled(HERE / "cases.cpp"), env=cases_of("few"))


@needs("valgrind")
def test_four_threads_under_helgrind():
    words = [word for word in VALGRIND if not word.startswith("--leak")]
    run(*words, "--tool=helgrind", compiled(WRAPPED), "share", input=tile("gdal"), text=False)


@pytest.mark.parametrize(
    "compiler, case", [(it, case) for it in ("g++", "clang++") for case in range(15 if it == "g++" else 17)]
)
def test_misuse(compiler, case):
    """Without a case it compiles; each case doesn't."""
    if not shutil.which(compiler):
        pytest.skip(f"{compiler} isn't there")
    words = [word for word in CXX if word != "-Wpedantic"]
    run(compiler, *words, f"-DCASE={case}", "-fsyntax-only", HERE / "misused.cpp", status=1 if case else 0)


def test_a_layer_as_geojson():
    run(sys.executable, HERE / "layer.py", compiled(TOP / "examples/cpp/layer.cpp", "-O2"))
