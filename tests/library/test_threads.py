"""The module's calls let Python's lock go while the library works, and threads may share what they make."""

import gc
import sys
import threading
import time
import unittest
import unittest.mock
from concurrent.futures import ThreadPoolExecutor
from pathlib import Path

import libmvt

TILES = Path(__file__).resolve().parents[2] / "fixtures" / "tiles"
TILE = (TILES / "gdal.mvt").read_bytes()
MANY = 200_000


def large():
    """A tile that each call works on for a while."""
    return libmvt.Tile(
        [libmvt.Layer("a", 4096, [libmvt.Feature(n, {"n": n}, "points", [(n % 4096, 1)]) for n in range(MANY)])]
    )


class Lock(unittest.TestCase):
    """No thread is made to give way for an hour: another one runs where the lock is let go, and nowhere else."""

    def setUp(self):
        self.addCleanup(sys.setswitchinterval, sys.getswitchinterval())
        sys.setswitchinterval(3600)

    def lets_go(self, call):
        """Whether another thread runs within the call, which a busy machine may need some tries for."""
        within, seen, ends = threading.Event(), threading.Event(), threading.Event()

        def look():
            while not ends.is_set():
                if within.is_set():
                    seen.set()
                time.sleep(0.0002)

        thread = threading.Thread(target=look)
        thread.start()
        for _ in range(1000):
            within.set()
            call()
            within.clear()
            if seen.is_set():
                break
        ends.set()
        thread.join()
        return seen.is_set()

    def test_is_held_by_others(self):
        self.assertFalse(self.lets_go(lambda: None))

    def test_is_let_go(self):
        tile = libmvt.write(large())
        rows = libmvt.rows(tile)
        for call in (
            lambda: libmvt.judge(tile),
            lambda: libmvt.rows(tile),
            lambda: libmvt.rewrite(tile),
            lambda: libmvt.report(tile),
            lambda: libmvt.extract(tile, ["a"]),
            lambda: libmvt.write(rows),
            lambda: libmvt.Decoder().feed(tile),
        ):
            self.assertTrue(self.lets_go(call))


class Collector(unittest.TestCase):
    """Python's collector of cycles rests while a tile is read; what others say of it meanwhile stands."""

    def setUp(self):
        self.assertTrue(gc.isenabled())
        self.thresholds = gc.get_threshold()
        self.addCleanup(gc.set_threshold, *self.thresholds)
        self.addCleanup(gc.enable)

    def meanwhile(self, call):
        """Reads a tile, and calls what another thread may call before it is read."""
        made = libmvt.Layer.__init__

        def init(*words, **named):
            call()
            made(*words, **named)

        with unittest.mock.patch.object(libmvt.Layer, "__init__", init):
            libmvt.read(TILE)

    def test_runs_again(self):
        rested = []
        self.meanwhile(lambda: rested.append(gc.get_threshold()[0]))
        self.assertEqual(set(rested), {0})
        self.assertEqual((gc.isenabled(), gc.get_threshold()), (True, self.thresholds))

    def test_stays_off(self):
        self.meanwhile(gc.disable)
        self.assertEqual((gc.isenabled(), gc.get_threshold()), (False, self.thresholds))

    def test_keeps_new_thresholds(self):
        self.meanwhile(lambda: gc.set_threshold(123, 4, 5))
        self.assertEqual(gc.get_threshold(), (123, 4, 5))

    def test_reads_within_reads(self):
        self.meanwhile(lambda: libmvt.read(b""))
        self.assertEqual((gc.isenabled(), gc.get_threshold()), (True, self.thresholds))


class Shared(unittest.TestCase):
    def test_two_at_a_time(self):
        """Two threads read, write and look at the same rows."""
        flat, whole, canonical = libmvt.rows(TILE), libmvt.read(TILE), libmvt.rewrite(TILE)

        def work(number):
            for _ in range(300):
                self.assertEqual(libmvt.read(TILE), whole)
                self.assertEqual(libmvt.write(flat), canonical)
                self.assertEqual(libmvt.write(whole), canonical)
                self.assertEqual(len([flat.line(part) for part in flat.parts]), len(flat.parts))
            return number

        with ThreadPoolExecutor(2) as threads:
            self.assertEqual(list(threads.map(work, range(4))), [0, 1, 2, 3])

    def test_a_builder(self):
        """Where threads finish one builder, one has its tile, and the builder begins anew for the others."""
        builder = libmvt.Builder().layer("a")
        for number in range(MANY // 10):
            builder.feature("points", id=number).point(number % 4096, 1)
        told = []

        def work(_):
            told.extend(len(builder.finish()) for _ in range(20))
            return True

        with ThreadPoolExecutor(4) as threads:
            self.assertTrue(all(threads.map(work, range(4))))
        self.assertEqual(len(told) - told.count(0), 1)


if __name__ == "__main__":
    unittest.main()
