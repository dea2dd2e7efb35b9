"""From C: tests by their names in the sources, each case as the program says it, changed tiles under valgrind, refused
allocations, what a decoder keeps that failed, what the shared library exports, and the example of a filter."""

import os
import re
import sys
import sysconfig
from pathlib import Path

import cases
import pytest
from room import BUILT, C, COUNTED, SANITIZED, TOP, VALGRIND, cases_of, compiled, made, needs, run

HERE = Path(__file__).parent
SOURCES = ["calls", "built", "remarks", "around", "mended"]
# What it takes of memory is another number under a sanitizer.
MEMORY = "the memory that mvt.h says"


def source(name):
    return HERE / f"{name}.c"


def names(name):
    """The names of the tests in a source."""
    tests = source(name).read_text().partition("named_test TESTS[]")[2]
    return re.findall(r'\{"([^"]+)", \w+\}', tests)


NAMED = [(name, test) for name in SOURCES for test in names(name)]


@pytest.mark.parametrize("name, test", NAMED)
def test_named(name, test):
    run(compiled(source(name), *([] if test == MEMORY else [*SANITIZED, *COUNTED])), test, env=cases_of("examples"))


@pytest.mark.parametrize("part", cases.OTHERS)
@pytest.mark.parametrize("name", ["calls", "remarks", "around", "mended"])
def test_others(name, part):
    run(compiled(source(name), *SANITIZED, *COUNTED), "each case", env=cases_of(part))


@needs("valgrind")
@pytest.mark.parametrize("part", ["examples", *cases.OTHERS])
@pytest.mark.parametrize("name", ["calls", "remarks", "around", "mended"])
def test_each_case_under_valgrind(name, part):
    if (name, part) in [("around", "changed-2"), ("around", "changed-3")]:
        pytest.skip("half of the changed tiles are enough, with thirty faults each")
    run(*VALGRIND, compiled(source(name)), "each case", env=cases_of(part))


@needs("valgrind")
@pytest.mark.parametrize("test", names("built"))
def test_the_builder_under_valgrind(test):
    run(*VALGRIND, compiled(source("built")), test, env=cases_of("examples"))


@needs("valgrind")
@pytest.mark.parametrize("handle", ["decoder", "builder", "tile", "bytes"])
def test_handles(handle):
    """Each is given back, and valgrind finds one that isn't."""
    all_kinds = ["--show-leak-kinds=all", "--errors-for-leak-kinds=all"]
    program = compiled(source("handles"), *COUNTED)
    run(*VALGRIND, *all_kinds, program, handle)
    run(*VALGRIND, *all_kinds, program, handle, "forgetting", status=9)


def with_allocator(name, *words):
    """A program that refuses and counts its allocations."""
    folder = made("allocator", lambda path: (path.mkdir(), run(TOP / "tests/allocator/build", path)))
    return compiled(
        source(name), f"-I{TOP}/tests/allocator", f"-L{folder}", "-lallocator", f"-Wl,-rpath,{folder}", *words
    )


@pytest.mark.parametrize("test", names("refused"))
def test_each_allocation_refused(test):
    run(with_allocator("refused", *COUNTED), test, env=cases_of("examples"))


@pytest.mark.parametrize("name", ["failed", "early"])
def test_memory(name):
    """What a decoder keeps that failed, and what is refused early."""
    run(with_allocator(name))


def test_exports():
    """The shared library lets out what the header declares, and each name has the version."""
    header = (TOP / "library/c/mvt.h").read_text()
    [series] = re.findall(r'^#define MVT_VERSION "(.*)\..*"$', header, re.M)
    told = run("nm", "-D", "--defined-only", "--with-symbol-versions", BUILT / "libmvt.so").stdout
    exported = {words[2] for words in map(str.split, told.splitlines()) if words[1] == "T"}
    assert exported == {
        f"{name}@@LIBMVT_{series}" for name in re.findall(r"^[a-z].*\b(mvt_[a-z0-9_]+)\(", header, re.M)
    }


def dynamic():
    """What callers were compiled with, over the shared library."""
    return made("abi", lambda path: run(*C, "-o", path, HERE / "abi.c", BUILT / "libmvt.so"))


def test_callers():
    run(dynamic(), env={**os.environ, "LD_LIBRARY_PATH": str(BUILT)})


@needs("qemu-x86_64")
def test_a_processor_that_is_too_old():
    """The system's loader says so, and nothing is begun."""
    environment = {**os.environ, "LD_LIBRARY_PATH": str(BUILT)}
    told = run("qemu-x86_64", "-cpu", "Conroe", dynamic(), status=127, env=environment)
    assert re.search(r"libmvt.so.*: CPU ISA level is lower than required", told.stdout + told.stderr)
    run("qemu-x86_64", "-cpu", "Nehalem", dynamic(), env=environment)


def test_the_filter():
    program = compiled(TOP / "examples/c/filter.c", "-O2", "-Wpedantic")
    run(sys.executable, HERE / "filter.py", program)


@needs("gcc")
@pytest.mark.parametrize(
    "path", [*(TOP / "library/c").glob("*.c"), *(TOP / "library/python/src").glob("*.c")], ids=lambda it: it.name
)
def test_analyzer(path):
    """gcc's analyzer finds no way to a null pointer, a lost block or a use behind free."""
    run("gcc", *C[1:], "-fanalyzer", f"-I{sysconfig.get_path('include')}", "-c", "-o", "/dev/null", path)


def test_other_languages_have_what_mvt_h_says():
    run(TOP / "library/layout.py", "--check")
