"""One version: each place says that of mvt.h, or is told. packaging/release refuses what is no release, before it makes anything:
changes that aren't committed, versions that differ, and a changelog without the release's head."""

import importlib.machinery
import importlib.util
import re
import shutil
import subprocess
from pathlib import Path

import pytest

TOP = Path(__file__).resolve().parents[2]
_loader = importlib.machinery.SourceFileLoader("version", str(TOP / "packaging/version"))
version = importlib.util.module_from_spec(importlib.util.spec_from_loader("version", _loader))
_loader.exec_module(version)
PLACES = [(name, before) for name, places in version.PLACES.items() for before, _ in places]


def asked(top, *words):
    return subprocess.run([top / "packaging/version", *words], capture_output=True, text=True)


@pytest.mark.parametrize("name", version.PLACES)
def test_one_version(name):
    """`packaging/version --write` mends it."""
    assert version.differing(name, (TOP / name).read_text())[0] == []


def grep(*words):
    return subprocess.run(
        ["git", "grep", *words, "--", ":!crates/*/proofs/*"], cwd=TOP, capture_output=True, text=True
    ).stdout.splitlines()


def test_nothing_else_says_it():
    """No other file has the version, and where one names the shared library or its package, it has this series."""
    assert set(grep("-lwF", version.VERSION)) <= {*version.PLACES}
    assert set(grep("-ohE", r"\blibmvt(\.so\.)?[0-9]+\.[0-9]+")) <= {
        f"libmvt.so.{version.SERIES}",
        f"libmvt{version.SERIES}",
    }


@pytest.fixture
def clone(tmp_path):
    """A repository of the files that say the version."""
    for name in ("packaging/release", "packaging/version", *version.PLACES):
        (tmp_path / "clone" / name).parent.mkdir(parents=True, exist_ok=True)
        shutil.copy(TOP / name, tmp_path / "clone" / name)
    return tmp_path / "clone"


def committed(clone):
    named = ["-c", "user.name=a", "-c", "user.email=a@a"]
    subprocess.run(["git", "init", "-q", clone], check=True)
    subprocess.run(["git", "-C", clone, "add", "."], check=True)
    subprocess.run(["git", "-C", clone, *named, "commit", "-q", "-m", "a"], check=True)


def refused(clone):
    told = subprocess.run([clone / "packaging/release", clone.parent / "made"], capture_output=True, text=True)
    assert told.returncode == 1 and told.stderr.startswith("packaging/release: "), told.stdout + told.stderr
    return told.stderr


def test_changes(clone):
    committed(clone)
    (clone / "README.md").write_text("# mvt\n")
    assert "aren't committed" in refused(clone)


@pytest.mark.parametrize("name, before", PLACES)
def test_another_version(name, before):
    """It is told, and written over."""
    text = version.differing(name, (TOP / name).read_text())[1]
    other, count = re.subn(f"({before}){version.NUMBER}", r"\g<0>7", text, count=1, flags=re.M)
    found, mended = version.differing(name, other)
    assert count == 1 and mended == text
    assert found and all(line.startswith(f"{name}: says ") for line in found)


def test_all_are_written(clone):
    (clone / "README.md").write_text((clone / "README.md").read_text().replace(version.VERSION, "7.7.7"))
    told = asked(clone)
    assert told.returncode == 1 and f"README.md: says 7.7.7, not {version.VERSION}\n" in told.stdout
    assert (asked(clone, "--write").returncode, asked(clone).stdout) == (0, "")


def test_a_place_that_is_gone(clone):
    asked(clone, "--write")
    (clone / "README.md").write_text("# mvt\n")
    committed(clone)
    assert "\nREADME.md: says no version" in refused(clone)


def test_no_head(clone):
    asked(clone, "--write")
    committed(clone)
    assert "CHANGELOG.md has no head" in refused(clone)
