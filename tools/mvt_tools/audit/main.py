"""The command `mvt-audit`."""

import argparse
import contextlib
import json
import os
import sys
import time
from pathlib import Path
from typing import Any, ContextManager, Dict, Iterator, List, NoReturn, Optional, Sequence, Tuple

from .._ending import bound_memory, hold_places
from .._shown import shown
from ..stores import Options, State, Store, StoreError, found, opened, server_options
from . import engine, mending, report, summary
from .copies import Copy, copy_of
from .ending import Signals, say, told, write
from .progress import Progress
from .results import Results, ResultsError

# Parts are so many that the work is shared out evenly, but each is worth its way to a worker and back.
PARTS, SMALLEST, LARGEST = 50, 100, 50_000
# What the name of a tile's file ends with.
TILES = (".mvt", ".pbf", ".mvt.gz", ".pbf.gz")


class _Words(argparse.ArgumentParser):
    """A command line. What is wrong with it is told in one line, behind how it is used."""

    def error(self, message: str) -> NoReturn:
        super().error(shown(message, 1000))


def _parser() -> argparse.ArgumentParser:
    words = _Words(
        prog="mvt-audit",
        description="Judges every tile of a cache, and makes audit.sqlite and report.html of it.",
        epilog="Status: 0 all tiles are good, or mended, 1 some are refused or don't unpack, 2 the command can't be done as it is,"
        " 3 something can't be read or written, 4 there is too little memory, 130 and 143 it was ended by Ctrl-C or"
        " SIGTERM. A run that was ended goes on where it was when it is started again.",
    )
    words.add_argument(
        "stores",
        nargs="+",
        metavar="STORE",
        help="a folder {z}/{x}/{y}.mvt or .pbf (.gz too), an .mbtiles or .pmtiles file, a .txt file with a name on each"
        " line, or a server: the address of its tiles with {z}, {x} and {y} (or {-y}) in it, or of its TileJSON",
    )
    words.add_argument("--into", type=Path, metavar="FOLDER", help="where the results go")
    words.add_argument(
        "--mend",
        type=Path,
        metavar="NEW",
        help="also write a copy of a folder, an .mbtiles or a .pmtiles file (as .mbtiles), in which tiles are mended that are"
        " refused for ZeroSegment or FirstRing; without --into the results go to NEW.audit",
    )
    where = words.add_mutually_exclusive_group()
    where.add_argument(
        "--workers", type=server_options.positive, default=4, metavar="N", help="processes on this machine (4)"
    )
    where.add_argument("--scheduler", metavar="ADDRESS", help="a scheduler of Dask, such as tcp://alpha:8786")
    words.add_argument(
        "--part", type=server_options.positive, metavar="N", help="tiles in a part (a fiftieth; 100 to 50,000)"
    )
    words.add_argument("--anew", action="store_true", help="forget the results in the folder, and begin again")
    words.add_argument("--json", action="store_true", help="sum up as JSON")
    server_options.add_to(words)
    return words


def _given(words: Optional[Sequence[str]]) -> argparse.Namespace:
    """The words of the command line."""
    parser = _parser()
    given = parser.parse_args(server_options.words_of(words))
    if given.into is None and given.mend is None:
        parser.error("the following arguments are required: --into")
    if given.into is None:
        given.into = given.mend.with_name(f"{given.mend.name}.audit")
        if os.path.lexists(given.into) and os.lstat(given.into).st_uid != os.geteuid():
            raise ResultsError(f"{given.into}: is another user's; name a folder with --into")
    return given


@contextlib.contextmanager
def _copy(
    given: argparse.Namespace, results: Results, stores: List[Store], states: List[State]
) -> Iterator[Optional[Copy]]:
    """The mended copy that is wanted, if one is."""
    if given.mend is None:
        yield None
        return
    if len(stores) != 1:
        raise ResultsError("--mend takes one store")
    with contextlib.closing(copy_of(results, stores[0], states[0], Path(os.path.abspath(given.mend)))) as copy:
        yield copy


def _mend(
    given: argparse.Namespace,
    results: Results,
    store: Store,
    state: State,
    copy: Copy,
    signals: Signals,
    found: Dict[str, Any],
) -> None:
    """Makes the mended copy, and adds it to what was found."""

    def start() -> ContextManager[engine.Workers]:
        return engine.workers(given.workers, given.scheduler, mending.mended_part)

    found["mended"] = {"into": str(given.mend), **mending.mend(results, store, state, copy, start, signals.check)}
    found["still_broken"] = mending.still_broken(found)


def _stores(given: argparse.Namespace) -> Tuple[List[Store], List[State]]:
    """The stores and their states; one that is named twice counts once."""
    options = server_options.options_of(given)
    stores = list({store.path: store for store in (_store(path, options) for path in given.stores)}.values())
    why = server_options.misplaced(given, stores)
    if why:
        raise ResultsError(why)
    return stores, [store.state() for store in stores]


def _store(path: str, options: Options) -> Store:
    try:
        path.encode()
    except UnicodeEncodeError as why:
        raise ResultsError(f"{path}: this name is no UTF-8, which the results hold; a link can have another") from why
    store = found(path, options)
    if store is None and path.endswith(TILES) and os.path.isfile(path):
        raise StoreError(f"{path}: a single tile, and no store of tiles; `mvt check` judges it")
    return store or opened(path, options)


def _part_size(given: argparse.Namespace, tiles: int) -> int:
    return given.part or min(max(tiles // PARTS, SMALLEST), LARGEST)


def _judge(
    given: argparse.Namespace, results: Results, stores: List[Store], states: List[State], signals: Signals
) -> Dict[str, Any]:
    """Judges what isn't done, and tells what was found."""
    total = sum(state.tiles for state in states)
    done = results.begin(stores, states, _part_size(given, total))
    before = sum(each.tiles for each in done.values())
    if next(engine.parts(stores, done, results.part_size()), None) is None:
        say(f"all {total:,} tiles are judged already; --anew judges them again")
        return summary.told(results, summary.Timed(0, 0, 0, 0), [], stores)
    if before:
        say(f"goes on: {before:,} of {total:,} tiles are judged already")
    begun = time.monotonic()
    with engine.workers(given.workers, given.scheduler) as workers:
        ready, spent = time.monotonic(), time.process_time()
        with contextlib.closing(Progress(total, before, results.broken())) as progress:
            lost = engine.run(workers, results, stores, done, progress.add, signals.check)
            results.make_index()
        timed = summary.Timed(ready - begun, time.monotonic() - ready, time.process_time() - spent, progress.new)
        if workers.ended:
            say(f"{workers.ended} of the workers ended before their time; others did their parts")
    return summary.told(results, timed, lost, stores)


def _audit(given: argparse.Namespace, signals: Signals) -> int:
    stores, states = _stores(given)
    total, into = sum(state.tiles for state in states), Path(os.path.abspath(given.into))
    with contextlib.closing(Results(into, given.anew)) as results:
        try:
            with _copy(given, results, stores, states) as copy:
                found = _judge(given, results, stores, states, signals)
                if copy is not None and not found["unfinished"]:
                    _mend(given, results, stores[0], states[0], copy, signals, found)
        except BaseException:
            if signals.number is not None:
                judged = sum(results.done(store.path).tiles for store in stores)
                say(f"ended; {judged:,} of {total:,} tiles are judged; the same command goes on from here")
            raise
        report.write(results, {store.path: store for store in stores}, found, into)
        for part in found["unfinished"][:3]:
            say(f"unfinished: part {part['part']} of {part['store']}: {part['why']}")
        lines = summary.lines(found, [str(given.into / name) for name in (results.file.name, report.NAME)])
    write(json.dumps(found, indent=1) if given.json else "\n".join(lines))
    return summary.status(found)


def main(words: Optional[Sequence[str]] = None) -> int:
    """The command. Whatever goes wrong is told in one line, and has a status."""
    signals = Signals()
    try:
        signals.heed()
        hold_places()
        bound_memory()
        return _audit(_given(words), signals)
    except BaseException as why:
        if isinstance(why, SystemExit):
            raise
        if signals.number is not None:
            return signals.status()
        status, line = told(why)
        say(line)
        return status


if __name__ == "__main__":
    sys.exit(main())
