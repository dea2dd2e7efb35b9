"""The crate: its own tests by cargo, over each case; changed tiles under valgrind; its layout, its documents and its example."""

import json
import os
import shutil

import cases
import pytest
from room import BUILT, TILES, TOP, VALGRIND, all_cases, cases_of, made, needs, run

pytestmark = needs("cargo")


def crate():
    return made(
        "rust", lambda path: shutil.copytree(TOP / "library/rust", path, ignore=shutil.ignore_patterns("prebuilt"))
    )


def cargo(*words, env=os.environ, cwd=None, **how):
    """cargo without a network, over the library that is tested."""
    target = crate().with_name("rust-target")
    environment = {**env, "MVT_LIB_DIR": str(BUILT), "CARGO_TARGET_DIR": str(target), "CARGO_NET_OFFLINE": "true"}
    return run("cargo", *words, cwd=cwd or crate(), env=environment, **how)


def test_its_own():
    cargo("test", env=all_cases())


@pytest.mark.parametrize("tool, words", [("fmt", ["--check"]), ("clippy", ["--all-targets", "--", "-D", "warnings"])])
def test_layout(tool, words):
    try:
        cargo(tool, "--version")
    except AssertionError:
        pytest.skip(f"cargo {tool} isn't there")
    cargo(tool, *words)


def test_documents():
    cargo("doc", "--no-deps", env={**os.environ, "RUSTDOCFLAGS": "-D warnings"})


@needs("valgrind")
@pytest.mark.parametrize("part", ["examples", *cases.OTHERS])
def test_under_valgrind(part):
    told = cargo("test", "--no-run", "--message-format=json", "--test", "tiles").stdout
    [program] = {line["executable"] for line in map(json.loads, told.splitlines()) if line.get("executable")}
    definite = ["--show-leak-kinds=definite", "--errors-for-leak-kinds=definite"]
    only = [] if part == "examples" else ["tiles_from_several_threads"]
    run(*VALGRIND, *definite, program, *only, "--skip", "each_case", env=cases_of(part))


def test_the_example(tmp_path):
    """It says how many bytes each layer has, and why a broken tile has none."""
    shutil.copytree(TOP / "examples/rust", tmp_path / "weigh", ignore=shutil.ignore_patterns("target", "Cargo.lock"))
    manifest = tmp_path / "weigh/Cargo.toml"
    lines = manifest.read_text().splitlines()
    paths = [f'libmvt = {{ path = "{crate() / "libmvt"}" }}' if "path = " in line else line for line in lines]
    manifest.write_text("\n".join(paths) + "\n")
    cargo("fmt", "--check", cwd=tmp_path / "weigh")
    cargo("build", "-q", cwd=tmp_path / "weigh")
    weigh = crate().with_name("rust-target") / "debug" / "weigh"
    told = [
        line.split()
        for line in run(weigh, input=(TILES / "gdal.mvt").read_bytes(), text=False).stdout.decode().splitlines()
    ]
    assert [name for _, name, *_ in told] == ["places", "roads", "water"]
    assert sum(int(size) for size, *_ in told) == (TILES / "gdal.canonical.mvt").stat().st_size
    why = run(weigh, input=(TILES / "broken/20-ZeroSegment.mvt").read_bytes(), status=1, text=False).stderr
    assert b"20 ZeroSegment" in why
