"""What the module holds lasts as long as anything looks at it: at the end of the program, among threads, under Ctrl-C."""

import signal
import subprocess
import sys
import textwrap
import unittest
from importlib.util import find_spec
from pathlib import Path

import libmvt

TILES = Path(__file__).resolve().parents[2] / "fixtures" / "tiles"
TILE = (TILES / "gdal.mvt").read_bytes()


def run(program):
    """What a program prints that has `mvt` and the bytes of a tile."""
    head = "import libmvt\ntile = open(%r, 'rb').read()\n" % str(TILES / "gdal.mvt")
    command = [sys.executable, "-c", head + textwrap.dedent(program)]
    told = subprocess.run(command, capture_output=True, text=True, timeout=60)
    return told.returncode, told.stdout, told.stderr


class AtTheEnd(unittest.TestCase):
    def test_rows_in_a_function_of_atexit(self):
        told = run(
            """
            import atexit
            many = [libmvt.rows(tile) for _ in range(50)]
            wanted = [(point.x, point.y) for point in many[0].points]
            def late():
                more = [bytearray(range(200)) * 40 for _ in range(200)]
                print(all([(point.x, point.y) for point in flat.points] == wanted for flat in many))
            atexit.register(late)
            held = libmvt.rows(tile)
            """
        )
        self.assertEqual(told, (0, "True\n", ""))

    def test_arrays_in_a_function_of_atexit(self):
        if find_spec("numpy") is None:
            self.skipTest("numpy isn't there")
        told = run(
            """
            import atexit
            held = libmvt.rows(tile).array("points")
            wanted = held.tolist()
            atexit.register(lambda: print(held.tolist() == wanted))
            libmvt.rows(tile)
            """
        )
        self.assertEqual(told, (0, "True\n", ""))

    def test_rows_and_decoders_of_a_daemon_thread(self):
        for work in ("sum(point.x for point in flat.points)", "decoder.feed(b'')"):
            told = run(
                """
                import threading, time
                flat, decoder = libmvt.rows(tile), libmvt.Decoder()
                def work():
                    while True:
                        %s
                threading.Thread(target=work, daemon=True).start()
                time.sleep(0.1)
                """
                % work
            )
            self.assertEqual(told, (0, "", ""))

    def test_gives_memory_back_before(self):
        told = run(
            """
            import resource
            def peak():
                return resource.getrusage(resource.RUSAGE_SELF).ru_maxrss
            def use():
                for _ in range(200):
                    libmvt.rows(tile * 1), libmvt.read(tile), libmvt.Decoder().feed(tile[:5000])
            use()
            before = peak()
            for _ in range(10):
                use()
            print(peak() - before < 4000)
            """
        )
        self.assertEqual(told, (0, "True\n", ""))


class Threads(unittest.TestCase):
    def test_share_a_decoder(self):
        """Each thread feeds pieces of no bytes, and one of them at last the tile."""
        told = run(
            """
            import threading
            for _ in range(20):
                decoder = libmvt.Decoder()
                start = threading.Barrier(8)
                def feed():
                    start.wait()
                    for _ in range(50):
                        decoder.feed(b"")
                threads = [threading.Thread(target=feed) for _ in range(8)]
                [thread.start() for thread in threads]
                [thread.join() for thread in threads]
                decoder.feed(tile)
                assert decoder.finish() == libmvt.read(tile)
                decoder = libmvt.Decoder()
                answers = []
                def feed_all():
                    start.wait()
                    try:
                        decoder.feed(tile * 20)
                        decoder.finish()
                    except libmvt.MvtError as why:
                        answers.append(why)
                threads = [threading.Thread(target=feed_all) for _ in range(8)]
                [thread.start() for thread in threads]
                [thread.join() for thread in threads]
                assert len(answers) == 8, answers
            print("done")
            """
        )
        self.assertEqual(told, (0, "done\n", ""))


class Interrupted(Exception):
    pass


class Interrupts(unittest.TestCase):
    def test_none_is_lost(self):
        """An alarm raises within a loop of calls, many times: each is caught, and none falls into a finalizer."""
        lost, hook, caught = [], sys.unraisablehook, 0

        def raise_it(*_):
            raise Interrupted

        def rows():
            libmvt.rows(TILE)

        def decoder():
            libmvt.Decoder().feed(TILE[:100])

        old = signal.signal(signal.SIGALRM, raise_it)
        sys.unraisablehook = lost.append
        try:
            for number in range(1500):
                work = decoder if number % 2 else rows
                try:
                    signal.setitimer(signal.ITIMER_REAL, 1e-6 * (1 + number * 7919 % 400))
                    while True:
                        work()
                except Interrupted:
                    caught += 1
        finally:
            signal.setitimer(signal.ITIMER_REAL, 0)
            signal.signal(signal.SIGALRM, old)
            sys.unraisablehook = hook
        self.assertEqual((caught, lost), (1500, []))


if __name__ == "__main__":
    unittest.main()
