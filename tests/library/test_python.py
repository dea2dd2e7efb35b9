"""What of the Python module wants a process of its own: its memory, valgrind, AddressSanitizer, the example of points, its
types, a clone in which nothing is built, a source distribution without a library, and the other Pythons of the machine."""

import os
import re
import shutil
import subprocess
import sys
import sysconfig
from pathlib import Path

import pytest
from room import BUILT, C, MVT, SANITIZED, TOP, made, needs, run

HERE = Path(__file__).parent
PYTHON = [sys.executable, "-X", "dev", "-W", "error"]
# numpy loses blocks of its own.
LOST = ["--leak-check=full", "--show-leak-kinds=definite", "--errors-for-leak-kinds=definite"]
PARTS = {"building": (LOST, []), "writing": ([], []), "module": (LOST, ["WholeTiles", "BrokenTiles", "Ends"])}


def test_memory():
    """Many calls leave the process as large as before, and so does each allocation that is refused."""
    folder = made("allocator", lambda path: (path.mkdir(), run(TOP / "tests/allocator/build", path)))
    allocator = folder / "liballocator.so"
    environment = {**os.environ, "LD_PRELOAD": str(allocator), "PYTHONMALLOC": "malloc"}
    run(sys.executable, HERE / "test_memory.py", allocator, env=environment)


def under_valgrind(lost, *words):
    environment = {**os.environ, "PYTHONMALLOC": "malloc"}
    run("valgrind", "-q", "--error-exitcode=9", *lost, sys.executable, *words, env=environment, timeout=1800)


@needs("valgrind")
@pytest.mark.parametrize("part", PARTS)
def test_under_valgrind(part):
    lost, words = PARTS[part]
    under_valgrind(lost, HERE / f"test_{part}.py", *words)


@needs("valgrind")
def test_cases_under_valgrind():
    under_valgrind(LOST, "-m", "pytest", "-q", "-p", "no:xdist", HERE / "test_cases.py", "-k", "example")


def sanitized():
    """The module, whose extension is compiled with sanitizers."""

    def make(path):
        shutil.copytree(TOP / "library/python/libmvt", path / "libmvt", ignore=shutil.ignore_patterns("*.so"))
        sources = [*sorted(TOP.glob("library/python/src/*.c")), BUILT / "libmvt.a"]
        headers = f"-I{sysconfig.get_path('include')}"
        run(*C, "-fPIC", "-shared", *SANITIZED, headers, "-o", path / "libmvt/_mvt.abi3.so", *sources)

    return made("sanitized-module", make)


@needs("gcc")
@pytest.mark.parametrize("part", ["callbacks", "building", "writing", "module"])
def test_with_sanitizers(part):
    if not Path(sysconfig.get_path("include"), "Python.h").exists():
        pytest.skip("the headers of Python aren't there")
    preloaded = run("gcc", "-print-file-name=libasan.so").stdout.strip()
    told = {
        "LD_PRELOAD": preloaded,
        "ASAN_OPTIONS": "detect_leaks=0",
        "PYTHONMALLOC": "malloc",
        "PYTHONPATH": str(sanitized()),
    }
    run(sys.executable, HERE / f"test_{part}.py", env={**os.environ, **told})


def test_points():
    """A tile that the example makes from points."""
    run(*PYTHON, HERE / "points.py", env={**os.environ, "MVT": str(MVT)})


@needs("mypy")
@pytest.mark.parametrize(
    "paths", [["library/python/libmvt", "tests/library/typed.py"], ["tools/mvt_tools"]], ids=lambda it: it[0]
)
def test_types(paths):
    run("mypy", "--strict", "--cache-dir=/dev/null", *paths, cwd=TOP, env={**os.environ, "MYPYPATH": "library/python"})


@needs("pyflakes3", "git")
def test_all_python_by_pyflakes():
    """With or without an ending."""
    told = subprocess.run(
        ["git", "grep", "-lE", "^#!.*python", "--", ":!*.py"], cwd=TOP, capture_output=True, text=True
    ).stdout
    run("pyflakes3", *run("git", "ls-files", "*.py", cwd=TOP).stdout.split(), *told.split(), cwd=TOP)


def test_before_it_is_built(tmp_path):
    """A clone in which nothing is built yet says what makes it."""
    shutil.copytree(TOP / "library/python/libmvt", tmp_path / "libmvt", ignore=shutil.ignore_patterns("_mvt.abi3.so"))
    told = run(sys.executable, "-c", "import libmvt", status=1, env={**os.environ, "PYTHONPATH": str(tmp_path)})
    assert "library/build" in told.stderr.splitlines()[-1]


@needs("cc")
@pytest.mark.parametrize(
    "folder, told",
    [(None, "libmvt isn't installed here"), ("empty", "empty has no libmvt.a"), ("bare", "bare has no mvt.h")],
)
def test_a_source_distribution_without_a_library(tmp_path, folder, told):
    """One line says what to name."""
    if (
        not folder
        and not subprocess.run(["cc", "-E", "-include", "mvt.h", "-x", "c", os.devnull], capture_output=True).returncode
    ):
        pytest.skip("libmvt is installed here")
    shutil.copytree(TOP / "library/python", tmp_path / "python", ignore=shutil.ignore_patterns("*.so"))
    for name in ("empty", "bare"):
        (tmp_path / name).mkdir()
    (tmp_path / "bare/libmvt.a").touch()
    environment = {name: value for name, value in os.environ.items() if name != "MVT_LIB_DIR"}
    named = {"MVT_LIB_DIR": str(tmp_path / folder)} if folder else {}
    ran = run(
        sys.executable,
        "-W",
        "ignore",
        "setup.py",
        "-q",
        "build_ext",
        status=1,
        cwd=tmp_path / "python",
        env={**environment, **named},
    )
    [line] = ran.stderr.splitlines()
    assert f"{told}: MVT_LIB_DIR=FOLDER names the folder of libmvt.a and mvt.h" in line


def others():
    """The other Pythons from 3.9 on, by their minor version: the system's, and those of pyenv."""
    found = {}
    for path in [*Path("/usr/bin").glob("python3.*"), *Path.home().glob(".pyenv/versions/3.*/bin/python")]:
        named = re.fullmatch(r"/usr/bin/python3\.(\d+)|.*/versions/3\.(\d+)\.\d+/bin/python", str(path))
        minor = int(named[1] or named[2]) if named else 0
        if minor >= 9 and minor != sys.version_info.minor:
            found.setdefault(minor, path)
    return [pytest.param(path, id=f"3.{minor}") for minor, path in sorted(found.items())]


@pytest.mark.parametrize(
    "part", ["around", "building", "interpreters", "lifetimes", "mending", "module", "threads", "writing"]
)
@pytest.mark.parametrize("python", others())
def test_by_another_python(python, part):
    """One extension serves each, without numpy and pytest."""
    run(python, HERE / f"test_{part}.py")
