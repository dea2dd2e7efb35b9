"""A folder that a run of pytest shares with its workers ($MVT_ROOM): what several tests want is made there once, by the first.
$BUILT names the library that is tested, and $MVT the program."""

import fcntl
import os
import shutil
import subprocess
import sys
from pathlib import Path

import pytest

TOP = Path(__file__).resolve().parents[1]
TILES = TOP / "fixtures" / "tiles"
MVT = Path(os.environ.get("MVT", TOP / "crates/mvt_cli/out/mvt_cli")).resolve()
BUILT = Path(os.environ.get("BUILT", TOP / "library" / "out")).resolve()
C = ["cc", "-std=c11", "-O1", "-g", "-Wall", "-Wextra", "-Werror", f"-I{TOP}/library/c"]
CXX = [
    "-std=c++20",
    "-O1",
    "-g",
    "-Wall",
    "-Wextra",
    "-Wpedantic",
    "-Werror",
    f"-I{TOP}/library/c",
    f"-I{TOP}/library/cpp",
]
# The path under which Go's module is published.
GO_MODULE = next(
    line.partition("=")[2]
    for line in (TOP / "packaging/names").read_text().splitlines()
    if line.startswith("go_module=")
)
SANITIZED = ["-fsanitize=address,undefined", "-fno-sanitize-recover=all"]
# Words for a program whose lines are counted, and those of C in the library, where tests/library/run built an object that counts.
COUNTED = ["-O0", "--coverage"] if "MVT_COUNTED" in os.environ else []
VALGRIND = ["valgrind", "-q", "--error-exitcode=9", "--leak-check=full"]


def made(name, make):
    """What `make(PATH)` makes, which is moved to this name when it is whole."""
    path, new = Path(os.environ["MVT_ROOM"], name), Path(os.environ["MVT_ROOM"], f"new {os.getpid()}")
    with open(f"{path}.lock", "w") as lock:
        fcntl.flock(lock, fcntl.LOCK_EX)
        if not path.exists():
            shutil.rmtree(new, ignore_errors=True)
            make(new)
            new.rename(path)
    return path


def run(*words, status=0, timeout=900, text=True, **how):
    """A run that has to end with this status."""
    words = [str(word) for word in words]
    done = subprocess.run(words, stdout=subprocess.PIPE, stderr=subprocess.PIPE, text=text, timeout=timeout, **how)
    assert (
        done.returncode == status
    ), f"{' '.join(words)[:300]}: status {done.returncode}\n{done.stdout[-3000:]}\n{done.stderr[-6000:]}"
    return done


def compiled(source, *words, compiler=None):
    """A program of one source over the library, compiled with these words beside."""
    first = compiler or (C if source.suffix == ".c" else ["g++", *CXX])
    name = "-".join(["program", source.stem, *(word.strip("-").split("=")[0].split("/")[-1] for word in words)])
    library = (
        [BUILT / "libmvt.a"]
        if "--coverage" not in words
        else [Path(os.environ["MVT_COUNTED"], "mvt.o"), BUILT / "libmvt.a"]
    )
    return made(name, lambda path: run(*first, *words, "-o", path, source, *library, *words))


def others():
    """The folder of the files of cases that fixtures/tiles/cases.py makes for a run."""

    def make(path):
        path.mkdir()
        run(sys.executable, TILES / "cases.py", MVT, "--others", path)

    return made("cases", make)


def cases_of(part):
    """The environment that names a file of cases: the examples, or one of the others."""
    return {**os.environ, "MVT_CASES": str(TILES / "cases.txt" if part == "examples" else others() / part)}


def all_cases():
    """The environment that names all files of cases."""
    return {**os.environ, "MVT_CASES": ":".join(map(str, [TILES / "cases.txt", *sorted(others().iterdir())]))}


def needs(*commands):
    """A test that is skipped where a command isn't there."""
    missing = [command for command in commands if not shutil.which(command)]
    return pytest.mark.skipif(bool(missing), reason=f"{', '.join(missing)} isn't there")
