"""What the tests of hostile stores share: how an audit reads a store, how the page lists it, and what is said of its tiles."""

import contextlib
import faulthandler
import itertools
import pickle
import signal

from mvt_tools import stores
from mvt_tools.audit.judging import judged
from mvt_tools.stores import Options

# So many seconds nothing here takes by far, on a machine that has others to serve.
PATIENCE = 120


@contextlib.contextmanager
def in_time(seconds=PATIENCE):
    """Ends what waits for something that never comes."""

    def end(*_):
        raise AssertionError(f"not done after {seconds} seconds")

    held = signal.signal(signal.SIGALRM, end)
    signal.alarm(seconds)
    faulthandler.dump_traceback_later(2 * seconds, exit=True)  # where no signal comes through
    try:
        yield
    finally:
        faulthandler.cancel_dump_traceback_later()
        signal.alarm(0)
        signal.signal(signal.SIGALRM, held)


def audited(path, size=50, most=1000, **options):
    """The rows of an audit, by ranges that go to a worker through a pickle."""
    store = stores.opened(str(path), Options(**options))
    store.state()
    parts = [pickle.dumps(part) for part in itertools.islice(store.ranges(size), most)]
    store = pickle.loads(pickle.dumps(store))
    found = (each for part in parts for each in store.tiles(pickle.loads(part)))
    return [judged(address, content) for address, content in itertools.islice(found, most) if content is not None]


def listed(path, most=1000, **options):
    """The tiles as the page lists them one by one, each behind the one before."""
    store = stores.opened(str(path), Options(**options))
    store.check()
    found, key = [], None
    while len(found) < most:
        rest = store.since(None) if key is None else store.after(key)
        with contextlib.closing(rest):
            each = next(rest, None)
        if each is None:
            return found
        key = each[0]
        found.append(each)
    return found


def short(value):
    """The name of a test's value."""
    return ascii(value)[:40]


def verdicts(rows):
    """The verdict of each row, by its name or place."""
    return {row.name or f"{row.z}/{row.x}/{row.y}": row.verdict for row in rows}
