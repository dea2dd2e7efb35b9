"""The Go module: its own tests, over each case, with the library in it and with an installed one; under the race detector; and
the example before a server of tiles; what is said where the library can't be linked, and that a new one is."""

import os
import shutil
import subprocess
import sys
from pathlib import Path

import pytest
from room import BUILT, GO_MODULE, TOP, all_cases, made, needs, run

pytestmark = needs("go")


def module():
    """A copy of the module, with the library that is tested."""

    def make(path):
        shutil.copytree(TOP / "library/go", path)
        run(TOP / "library/bundle-go", BUILT, path)

    return made("go-module", make)


def alone(env):
    """The environment of go without a network."""
    return {**env, "GOPROXY": "off", "CGO_ENABLED": "1", "GOCACHE": str(module().with_name("go-cache"))}


def go(*words, env=os.environ, cwd=None):
    return run("go", *words, cwd=cwd or module(), env=alone(env))


def test_layout():
    assert run("gofmt", "-l", TOP / "library/go", TOP / "examples/go").stdout == ""


def test_vet():
    go("vet", "./...")


def test_its_own():
    counted = [f"-coverprofile={os.environ['MVT_COUNTED']}/statements"] if "MVT_COUNTED" in os.environ else []
    go("test", *counted, "./...", env=all_cases())


@needs("pkg-config")
def test_an_installed_library(tmp_path):
    """The library is found by pkg-config."""
    lines = (BUILT / "mvt.pc").read_text().splitlines()
    places = {"libdir": BUILT, "includedir": TOP / "library/c"}
    told = [
        f"{line.split('=')[0]}={places[line.split('=')[0]]}" if line.split("=")[0] in places else line for line in lines
    ]
    (tmp_path / "mvt.pc").write_text("\n".join(told) + "\n")
    environment = {**all_cases(), "PKG_CONFIG_PATH": str(tmp_path), "LD_LIBRARY_PATH": str(BUILT)}
    go("test", "-tags", "mvt_system", "./...", env=environment)


def test_threads():
    """The race detector finds nothing."""
    go("test", "-race", "-run", "Several|Guard", "./...", env=all_cases())


@pytest.mark.parametrize(
    "where", [{"CGO_ENABLED": "0"}, {"CGO_ENABLED": "0", "GOARCH": "arm64"}], ids=["no-cgo", "arm64"]
)
@pytest.mark.parametrize("word", ["build", "vet"])
def test_where_it_cannot_be(word, where):
    """One line says what is wanted."""
    told = subprocess.run(
        ["go", word, "."], capture_output=True, text=True, cwd=module(), env={**alone(os.environ), **where}
    )
    lines = [line for line in told.stderr.splitlines() if not line.startswith("#")]
    wanted = "mvt_wants_cgo_and_linux_on_amd64_or_the_tag_mvt_system_with_an_installed_libmvt"
    assert told.returncode and len(lines) == 1 and lines[0].endswith(f": undefined: {wanted}"), told.stderr


def test_before_it_is_built(tmp_path):
    """A clone without a library says what makes it."""
    copy = shutil.copytree(TOP / "library/go", tmp_path / "go", ignore=shutil.ignore_patterns("archive.go", "*.a"))
    shutil.copy(TOP / "library/c/mvt.h", copy)
    told = subprocess.run(["go", "build", "."], capture_output=True, text=True, cwd=copy, env=alone(os.environ))
    assert told.returncode and told.stderr.splitlines()[-1].endswith(
        ": undefined: archiveThatLibraryBuildMakes"
    ), told.stderr


def test_a_new_library_is_linked(tmp_path):
    """A program is built anew where only the library's archive is another."""
    copy = shutil.copytree(module(), tmp_path / "mvt")
    built = Path(shutil.copytree(BUILT, tmp_path / "built", ignore=shutil.ignore_patterns("packages")))
    content = (built / "libmvt.a").read_bytes()
    version = next(
        line.split('"')[1] for line in (BUILT / "mvt.h").read_text().splitlines() if "MVT_VERSION" in line
    ).encode()
    assert content.count(version + b"\0") > 0
    (tmp_path / "user").mkdir()
    (tmp_path / "user/go.mod").write_text(
        f"module user\n\ngo 1.19\n\nrequire {GO_MODULE} v0.0.0\n\nreplace {GO_MODULE} => {copy}\n"
    )
    (tmp_path / "user/main.go").write_text(
        f'package main\n\nimport "{GO_MODULE}"\n\nfunc main() {{ println(libmvt.Version()) }}\n'
    )
    go("build", "-o", "first", ".", cwd=tmp_path / "user")
    assert run(tmp_path / "user/first").stderr.strip() == version.decode()
    (built / "libmvt.a").write_bytes(content.replace(version + b"\0", b"7" * len(version) + b"\0"))
    run(TOP / "library/bundle-go", built, copy)
    go("build", "-o", "second", ".", cwd=tmp_path / "user")
    assert run(tmp_path / "user/second").stderr.strip() == "7" * len(version)


def test_the_example(tmp_path):
    shutil.copytree(TOP / "examples/go", tmp_path / "go")
    environment = {**os.environ, "GOFLAGS": "-mod=mod"}
    go("mod", "edit", "-replace", f"{GO_MODULE}={module()}", cwd=tmp_path / "go", env=environment)
    go("build", "-o", "guard", ".", cwd=tmp_path / "go", env=environment)
    run(sys.executable, Path(__file__).parent / "guard.py", tmp_path / "go" / "guard")
