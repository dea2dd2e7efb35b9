"""The command `mvt-page`."""

import argparse
import os
import signal
import sys
import threading
from contextlib import ExitStack
from pathlib import Path
from typing import Optional, Sequence, Tuple

from .. import foreign
from .._ending import UNREAD, USAGE, Output, bound_memory, of_system, say
from .._given import Words
from ..stores import server_options
from . import launch
from .given import Given, GivenError
from .server import Server

ENDED = 0
_PAGE = Path(__file__).with_name("page.html")
# So often, in seconds, it is looked whether a signal came that the system gave to another thread, which wakes nobody.
_WAKES = 0.5


def _parser() -> argparse.ArgumentParser:
    words = Words(
        prog="mvt-page",
        description="Shows tiles in the browser, in a page that only this machine can see.",
        epilog="Runs until Ctrl-C. Status: 0 it was ended, 2 the command line is wrong or the port is taken, 3 something"
        " can't be read or written.",
    )
    words.add_argument(
        "what",
        nargs="*",
        metavar="WHAT",
        help="a file with a tile, or a store: a folder {z}/{x}/{y}.mvt or .pbf (.gz too), an .mbtiles or .pmtiles file, a"
        " .txt file with a name on each line, or a server, by the address of its tiles with {z}, {x} and {y} (or {-y}),"
        " or of its TileJSON; after a store, Z/X/Y is the place of the tile that opens first; a folder with .mbtiles and"
        " .pmtiles files stands for these",
    )
    words.add_argument("--port", type=_port, default=0, metavar="N", help="the port (one that is free)")
    words.add_argument("--no-browser", action="store_true", help="don't open a browser, and only print the address")
    server_options.add_to(words)
    return words


def _port(word: str) -> int:
    port = foreign.whole(word, 0, 65535)
    if port is None:
        raise argparse.ArgumentTypeError(f"{word!r} is no port, which is a number up to 65535")
    return port


def _fail(line: str, status: int) -> int:
    say("mvt-page", line)
    return status


def _ended() -> threading.Event:
    """What is set when somebody ends the command. A signal that was ignored before, as by nohup, still is."""
    done = threading.Event()
    for number in (signal.SIGINT, signal.SIGTERM, signal.SIGHUP):
        if signal.getsignal(number) is not signal.SIG_IGN:
            signal.signal(number, lambda *_: done.set())
    return done


def _say(*lines: str) -> None:
    """Raises OSError."""
    output = Output(ends_with_reader=False)
    for line in lines:
        output.line(line)
    output.flush()


def _way(port: int) -> Tuple[str, str]:
    """How to reach the page from a machine with a screen."""
    came = os.environ.get("SSH_CONNECTION", "").split(" ")
    host, door = came[2:] if len(came) == 4 else ("THIS-MACHINE", "22")
    where = "" if door == "22" else f"-p {door} "
    return (
        "No browser was opened. From a machine that has one, go this way, and open the address there:",
        f"    ssh -L {port}:127.0.0.1:{port} {where}{os.environ.get('USER', 'YOU')}@{host}",
    )


def _serve(server: Server, wants_browser: bool) -> int:
    done = _ended()
    threading.Thread(target=server.serve_forever, args=(0.2,), daemon=True).start()
    with ExitStack() as held:
        _say(
            f"The page is at {server.address}",
            "Only this machine can see it, and only who knows the address. It is there until Ctrl-C ends it.",
        )
        is_open = False
        if wants_browser and launch.has_screen():
            is_open = launch.opened(held.enter_context(launch.leading_file(server.address)))
        if wants_browser and not is_open:
            _say(*_way(server.server_port))
        while not done.wait(_WAKES):
            pass
        server.shutdown()
        server.server_close()
    return ENDED


def _run(words: Optional[Sequence[str]]) -> int:
    given = _parser().parse_intermixed_args(server_options.words_of(words))
    try:
        page, what = _PAGE.read_bytes(), Given(given.what, server_options.options_of(given))
    except GivenError as why:
        return _fail(str(why), UNREAD)
    except OSError as why:
        return _fail(f"{_PAGE}: {why.strerror}; tools/bundle.py makes it", UNREAD)
    misplaced = server_options.misplaced(given, what.stores)
    if misplaced:
        return _fail(misplaced, USAGE)
    bound_memory()
    try:
        server = Server(given.port, page, what)
    except OSError as why:
        return _fail(f"port {given.port}: {why.strerror}", USAGE)
    return _serve(server, not given.no_browser)


def main(words: Optional[Sequence[str]] = None) -> int:
    """Runs the command, until it is ended, and answers its status."""
    try:
        return _run(words)
    except OSError as why:
        return _fail(of_system(why), UNREAD)


if __name__ == "__main__":
    sys.exit(main())
