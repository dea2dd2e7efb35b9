"""packaging/licence.py makes of each pyproject.toml what PEP 639 wants."""

import importlib.util
import sys
from pathlib import Path

import pytest

TOP = Path(__file__).resolve().parents[2]
tomllib = pytest.importorskip("tomllib", reason="this Python reads no TOML")
pytest.importorskip("setuptools", reason="setuptools isn't there")


def expressed(text, monkeypatch):
    monkeypatch.setattr(sys, "argv", ["licence.py"])
    found = importlib.util.spec_from_file_location("licence", TOP / "packaging/licence.py")
    module = importlib.util.module_from_spec(found)
    found.loader.exec_module(module)
    return module.expressed(text)


@pytest.mark.filterwarnings("ignore")
@pytest.mark.parametrize("folder", ["library/python", "tools"])
def test_an_expression(folder, monkeypatch):
    text = (TOP / folder / "pyproject.toml").read_text()
    before, told = tomllib.loads(text), tomllib.loads(expressed(text, monkeypatch))
    assert told["project"]["license"] == before["project"]["license"]["text"] == "MIT OR Apache-2.0"
    assert told["project"]["license-files"] == before["tool"]["setuptools"].pop("license-files")
    assert not [name for name in told["project"]["classifiers"] if name.startswith("License")]
    assert told["build-system"]["requires"][0] == "setuptools>=77"
    for each in (before, told):
        del each["build-system"]["requires"], each["project"]["license"], each["project"]["classifiers"]
    del told["project"]["license-files"]
    assert told == before
