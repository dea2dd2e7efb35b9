"""The page `report.html`: one file that needs no network."""

import os
from pathlib import Path
from typing import Any, Dict

from ...stores import Store
from ..parts import put
from ..results import Results
from .page import page


NAME = "report.html"


def write(results: Results, stores: Dict[str, Store], found: Dict[str, Any], folder: Path) -> None:
    """Makes the page of what was found. Raises OSError where it can't be written."""
    text = page(results, stores, found)
    try:
        held = os.open(folder, os.O_RDONLY | os.O_DIRECTORY)
        try:
            put(held, NAME, text.encode())
        finally:
            os.close(held)
    except OSError as why:
        raise OSError(why.errno, why.strerror, str(folder / NAME)) from why
