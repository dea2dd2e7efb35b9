"""The examples of docs/LIBRARY.md and of the module's own text do what they say, and README.md's line for a server."""

import doctest
import os
import re
import shutil
import subprocess
import sys

import libmvt
import libmvt.raw
import pytest
from documented import PROGRAMS, program_of
from room import BUILT, CXX, GO_MODULE, MVT, TILES, TOP, made, needs, run
from test_go import module
from test_rust import cargo, crate

LAYERS = "places: 3 features\nroads: 2 features\nwater: 2 features\n"
WHY = "refused: ZeroSegment at 4\nA line goes nowhere: this LineTo moves by (0, 0).\n"
GDAL, BROKEN = TILES / "gdal.mvt", TILES / "broken" / "20-ZeroSegment.mvt"
FEATURE = "[Feature(id=7, attributes={'name': 'Mill Pond', 'depth': 3.5}, kind='points', geometry=[(25, 17)])]\n"


def of_tile(program, tile, status=0):
    """What a program, in one word or several, says of a tile."""
    words = program if isinstance(program, list) else [program]
    with tile.open("rb") as given:
        return run(*words, stdin=given, status=status)


def example(name, folder):
    """An example of the document, as a file."""
    path = folder / name
    path.write_text(program_of(name))
    return path


def native(name, folder):
    """An example in C or C++, compiled."""
    flags = [word for word in CXX if word.startswith(("-Wall", "-Wextra", "-Werror", "-I"))]
    compiler = ["cc"] if name.endswith(".c") else ["g++", "-std=c++20"]
    run(*compiler, *flags, "-o", folder / "program", example(name, folder), BUILT / "libmvt.a")
    return folder / "program"


@pytest.mark.parametrize("name", ["list.c", pytest.param("list.cpp", marks=needs("g++"))])
def test_list(name, tmp_path):
    program = native(name, tmp_path)
    assert of_tile(program, GDAL).stdout == LAYERS
    assert of_tile(program, BROKEN).stdout == WHY


def test_one_layer(tmp_path):
    program = native("water.c", tmp_path)
    assert (of_tile(program, GDAL).stdout, of_tile(program, BROKEN).stdout) == ("2\n", "0\n")


@pytest.mark.parametrize("name", ["make.c", pytest.param("make.cpp", marks=needs("g++"))])
def test_make(name, tmp_path):
    tile = run(native(name, tmp_path), text=False).stdout
    assert run(MVT, "check", input=tile, text=False).stdout == b"ok layers 1 features 1 canonical yes\n"
    assert b'"Mill Pond"' in run(MVT, "show", input=tile, text=False).stdout


def test_python(tmp_path):
    assert run(sys.executable, example("make.py", tmp_path)).stdout == FEATURE
    assert re.search("^water .*Mill Pond", of_tile([sys.executable, example("list.py", tmp_path)], GDAL).stdout, re.M)


@needs("cargo")
def test_rust(tmp_path):
    (tmp_path / "src").mkdir()
    (tmp_path / "src/main.rs").write_text(program_of("list.rs"))
    package = '[package]\nname = "list"\nversion = "1.0.0"\nedition = "2021"\n[workspace]\n[dependencies]\n'
    (tmp_path / "Cargo.toml").write_text(f'{package}libmvt = {{ path = "{crate() / "libmvt"}" }}\n')
    cargo("build", cwd=tmp_path)
    lists(crate().with_name("rust-target") / "debug" / "list")


@needs("go")
def test_go(tmp_path):
    from test_go import go

    (tmp_path / "list.go").write_text(program_of("list.go"))
    environment = {**os.environ, "GOFLAGS": "-mod=mod"}
    go("mod", "init", "example.com/list", cwd=tmp_path, env=environment)
    words = ["-replace", f"{GO_MODULE}={module()}", "-require", f"{GO_MODULE}@v0.0.0"]
    go("mod", "edit", *words, cwd=tmp_path, env=environment)
    go("build", "-o", "list", cwd=tmp_path, env=environment)
    lists(tmp_path / "list")


def lists(program):
    """It lists the layers of a tile, and fails of another."""
    assert of_tile(program, GDAL).stdout == LAYERS
    with BROKEN.open("rb") as given:
        told = subprocess.run([program], stdin=given, capture_output=True, text=True)
    assert told.returncode != 0 and "ZeroSegment" in told.stderr


@pytest.fixture(scope="module")
def shared():
    """A tile of which the JSON has 656 MB: 10,000 points that share a text of 65,536 bytes."""

    def make(path):
        points = [libmvt.Feature(None, {"a": "x" * 65536}, "points", [(1, 1)])] * 10000
        path.write_bytes(libmvt.write(libmvt.Tile([libmvt.Layer("a", 4096, points)])))

    return made("shared.mvt", make)


def bounded(words, shared):
    """The program makes the JSON of a small tile, and ends for want of memory over that one."""
    with GDAL.open("rb") as given:
        small = subprocess.run(words, stdin=given, capture_output=True)
    assert small.returncode == 0 and not re.search(b"more than|out of memory", small.stdout + small.stderr)
    with shared.open("rb") as given:
        large = subprocess.run(words, stdin=given, capture_output=True)
    said = large.stdout + large.stderr
    assert re.search(b"more than 500 MB|out of memory", said) and len(said) < 100


def test_a_bound_in_c(tmp_path, shared):
    bounded([native("bound.c", tmp_path)], shared)


def test_a_bound_in_python(tmp_path, shared):
    bounded([sys.executable, example("bound.py", tmp_path)], shared)


def test_a_bound_of_the_program(shared):
    bounded(["bash", "-c", 'ulimit -v 500000 && exec "$0" show', MVT], shared)


@pytest.mark.filterwarnings("default")  # the example leaves its file to the collector
def test_the_module_s_own_example(tmp_path, monkeypatch):
    shutil.copy(GDAL, tmp_path / "town.mvt")
    monkeypatch.chdir(tmp_path)
    for of in (libmvt, libmvt.raw):
        told = doctest.testmod(of)
        assert told.failed == 0 and told.attempted >= 4, of


def test_each_program_stands_in_the_document():
    assert all(map(program_of, PROGRAMS)) and TOP.joinpath("docs/LIBRARY.md").exists()
