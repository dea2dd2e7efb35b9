"""The browser: opened by a file that leads on to the page, since everybody on the machine may see what a program was
started with."""

import os
import sys
import tempfile
import webbrowser
from contextlib import contextmanager
from html import escape
from pathlib import Path
from typing import Iterator

_LEADS_ON = """<!doctype html>
<html lang="en"><meta charset="utf-8"><meta name="referrer" content="no-referrer"><title>mvt-page</title>
<meta http-equiv="refresh" content="0;url={address}"><p><a href="{address}">Look into a vector tile</a></p></html>
"""


def has_screen() -> bool:
    """Whether a browser may have a window here."""
    return sys.platform == "darwin" or any(os.environ.get(name) for name in ("DISPLAY", "WAYLAND_DISPLAY", "BROWSER"))


@contextmanager
def leading_file(address: str) -> Iterator[Path]:
    """A file that nobody else may read, and that is gone at the end."""
    folder = os.environ.get("XDG_RUNTIME_DIR")
    handle, name = tempfile.mkstemp(".html", "mvt-page-", folder if folder and os.path.isdir(folder) else None)
    try:
        with os.fdopen(handle, "w", encoding="utf-8") as file:
            file.write(_LEADS_ON.format(address=escape(address)))
        yield Path(name)
    finally:
        Path(name).unlink(missing_ok=True)


def opened(file: Path) -> bool:
    """Opens the browser, and tells whether there is one."""
    try:
        return webbrowser.open(file.as_uri())
    except webbrowser.Error:
        return False
