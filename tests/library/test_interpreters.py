"""Two interpreters of one process have the module at a time, and one goes on when the other has ended: those that share one
lock, and from Python 3.12 on those that have a lock of their own."""

import sys
import unittest
from concurrent.futures import ThreadPoolExecutor
from pathlib import Path

import libmvt

try:
    import _interpreters as interpreters
except ImportError:
    try:
        import _xxsubinterpreters as interpreters
    except ImportError:
        interpreters = None

TILES = Path(__file__).resolve().parents[2] / "fixtures" / "tiles"
TILE = (TILES / "gdal.mvt").read_bytes()
CANONICAL = (TILES / "gdal.canonical.mvt").read_bytes()
BROKEN = (TILES / "broken" / "16-RepeatedKey.mvt").read_bytes()

# What an interpreter has for itself.
BEGIN = """
import sys
import threading

sys.path[:] = {path!r}
import libmvt

tile, canonical, broken = {tile!r}, {canonical!r}, {broken!r}
assert id(libmvt.Rows) != {rows} and id(libmvt.Refused) != {refused}
whole, rows = libmvt.read(tile), libmvt.rows(tile)
decoder = libmvt.Decoder()
decoder.feed(tile[:100])
begun = libmvt.Builder().layer("a").feature("points")


def built():
    return libmvt.Builder().layer("a").feature("points", id=7).tag("depth", 3.5).point(25, 17).finish()


def cause():
    try:
        libmvt.read(broken)
    except libmvt.Refused as why:
        return why.name


def work(done):
    for _ in range(40):
        assert libmvt.read(tile) == whole and cause() == "RepeatedKey"
        assert libmvt.write(whole) == libmvt.write(rows) == libmvt.rewrite(tile) == canonical
        assert libmvt.read(built())["a"].features[0].attributes == {{"depth": 3.5}}
    done.append(True)
"""

# What it does in two threads.
WORK = """
done = []
threads = [threading.Thread(target=work, args=[done]) for _ in range(2)]
for thread in threads:
    thread.start()
for thread in threads:
    thread.join()
assert done == [True, True]
"""

# What it still has afterwards.
END = """
decoder.feed(tile[100:])
assert decoder.finish() == whole and [rows.text(layer.name) for layer in rows.layers] == [layer.name for layer in whole]
"""


def created(has_lock):
    """An interpreter. Before 3.13 one is told whether it is isolated, and from then on the kind is named."""
    if sys.version_info >= (3, 13):
        return interpreters.create("isolated" if has_lock else "legacy")
    return interpreters.create(isolated=has_lock)


def run_in(interpreter, code):
    """Before 3.13 a failure is raised, and from then on answered."""
    if failed := interpreters.run_string(interpreter, code):
        raise AssertionError(failed.errdisplay)


class Two:
    has_lock = False

    def begun(self):
        """An interpreter that has the module."""
        made = created(self.has_lock)
        told = {
            "path": sys.path,
            "tile": TILE,
            "canonical": CANONICAL,
            "broken": BROKEN,
            "rows": id(libmvt.Rows),
            "refused": id(libmvt.Refused),
        }
        run_in(made, BEGIN.format(**told))
        return made

    def test_at_a_time(self):
        whole, rows = libmvt.read(TILE), libmvt.rows(TILE)
        first, second = self.begun(), self.begun()
        with ThreadPoolExecutor(2) as threads:
            at_work = [threads.submit(run_in, each, WORK) for each in (first, second)]
            for _ in range(40):
                self.assertEqual(libmvt.write(libmvt.read(TILE)), CANONICAL)
            for each in at_work:
                each.result()
            # one ends while the other works
            at_work = threads.submit(run_in, second, WORK)
            interpreters.destroy(first)
            at_work.result()
        run_in(second, END)
        self.assertEqual(libmvt.read(TILE), whole)
        interpreters.destroy(second)
        self.assertEqual([libmvt.write(rows), libmvt.write(whole)], [CANONICAL, CANONICAL])
        with self.assertRaises(libmvt.Refused):
            libmvt.read(BROKEN)

    def test_one_after_another(self):
        for _ in range(10):
            made = self.begun()
            run_in(made, END)
            interpreters.destroy(made)
        self.assertEqual(libmvt.write(libmvt.read(TILE)), CANONICAL)


@unittest.skipIf(interpreters is None, "this Python makes no interpreters")
class OneLock(Two, unittest.TestCase):
    pass


@unittest.skipIf(interpreters is None or sys.version_info < (3, 12), "interpreters have one lock before Python 3.12")
class OwnLocks(Two, unittest.TestCase):
    has_lock = True


if __name__ == "__main__":
    unittest.main()
