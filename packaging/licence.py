#!/usr/bin/env python3
"""Says the licence of a pyproject.toml as an expression (PEP 639), where setuptools knows such: licence.py FILE..

It does from 77 on, and warns of the former words then; an older one, as Debian 12 has, refuses the new ones."""

import re
import sys
from pathlib import Path

import setuptools


def expressed(text):
    """The text with an expression and its files in [project], and without classifiers of licences."""
    [files] = re.findall(r"^license-files = .*\n", text, re.M)
    text = re.sub(r'^    "License ::.*\n', "", text.replace(files, ""), flags=re.M)
    text = text.replace('"setuptools>=61"', '"setuptools>=77"')
    return re.sub(r"^license = \{text = (.*)\}\n", lambda found: f"license = {found[1]}\n{files}", text, flags=re.M)


if int(setuptools.__version__.split(".")[0]) >= 77:
    for name in sys.argv[1:]:
        path = Path(name)
        path.write_text(expressed(path.read_text()))
