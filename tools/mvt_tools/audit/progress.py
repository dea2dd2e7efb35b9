"""How far a run is: a bar on a terminal, where tqdm is there, else a plain line."""

import importlib
import importlib.util
import sys
import time
from typing import Any

from .results import Added

# So many seconds a plain line stands at least, and so wide it is at most.
_STANDS, _WIDTH = 0.2, 79


class Progress:
    """The rate, the number of broken or mended tiles and what is left, on a terminal only."""

    def __init__(self, total: int, done: int, broken: int, word: str = "broken") -> None:
        self.done, self.broken, self.new, self._word = done, broken, 0, word
        self._bar: Any = None
        if sys.stderr is not None and sys.stderr.isatty():
            self._bar = _bar(total, done)
            self._show()

    def add(self, added: Added) -> None:
        self.new += added.tiles
        self.broken += added.broken
        if self._bar is not None:
            self._bar.update(added.tiles)
            self._show()

    def _show(self) -> None:
        self._bar.set_postfix_str(f"{self.broken:,} {self._word}", refresh=False)

    def close(self) -> None:
        if self._bar is not None:
            self._bar.close()


def _bar(total: int, done: int) -> Any:
    if importlib.util.find_spec("tqdm") is None:
        return _Line(total, done)
    tqdm: Any = importlib.import_module("tqdm").tqdm
    # It would look after the bar by a thread.
    tqdm.monitor_interval = 0
    form = "{percentage:3.0f}%|{bar}| {n:,}/{total:,} tiles, {rate_noinv_fmt}{postfix}, {remaining} left"
    return tqdm(total=total, initial=done, bar_format=form, unit=" tiles", dynamic_ncols=True)


class _Line:
    """What is asked of tqdm's bar, as a line that is written over."""

    def __init__(self, total: int, done: int) -> None:
        self._total, self._first, self._done = total, done, done
        self._begun = self._written = time.monotonic()
        self._more = ""

    def update(self, tiles: int) -> None:
        self._done += tiles

    def set_postfix_str(self, more: str, refresh: bool) -> None:
        self._more = more
        if time.monotonic() - self._written >= _STANDS or self._done >= self._total:
            self._write("")

    def _write(self, end: str) -> None:
        self._written = time.monotonic()
        rate = (self._done - self._first) / max(self._written - self._begun, 1e-3)
        share = 100 * self._done // max(self._total, 1)
        line = f"{share}%: {self._done:,} of {self._total:,} tiles, {rate:,.0f} a second, {self._more}"
        sys.stderr.write(f"\r{line[:_WIDTH]:<{_WIDTH}}{end}")
        sys.stderr.flush()

    def close(self) -> None:
        self._write("\n")
