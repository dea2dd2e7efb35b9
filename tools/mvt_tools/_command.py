"""What a command of this package does before anything else is imported, and so by what Python has at its start alone."""

import os
import sys

_COMMANDS = ("mvt_tools.audit", "mvt_tools.geojson", "mvt_tools.page", "mvt_tools.tile")

# The folder that this package was imported from.
_OWN = os.path.dirname(os.path.dirname(os.path.abspath(__file__)))


def path_without_here() -> "list[str]":
    """The folders that modules are imported from, without the current one, which may be a stranger's; last that of this
    package, so that it is found where it is the current one itself."""
    try:
        here = os.path.realpath(os.getcwd())
    except OSError:
        here = ""
    folders = [folder for folder in sys.path if folder and os.path.realpath(folder) != here]
    return folders if _OWN in folders else [*folders, _OWN]


def begin() -> None:
    """Where a command is being started by `python3 -m`, such as `mvt_tools.audit`, drops the current folder, which Python puts
    first of those that modules are imported from. But for the page, Ctrl-C ends Python as it ends other programs, until a
    command heeds it."""
    words = getattr(sys, "orig_argv", _COMMANDS)  # from Python 3.10 on
    if sys.argv[:1] != ["-m"] or not set(words) & set(_COMMANDS):
        return
    sys.path[:] = path_without_here()
    if "mvt_tools.page" not in words:
        import _signal  # type: ignore[import]  # which no file is read for

        _signal.signal(_signal.SIGINT, _signal.SIG_DFL)
