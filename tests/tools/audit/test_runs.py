"""Runs that are ended and go on: a worker that is killed, a client that is killed, Ctrl-C; and what is told plainly."""

import fcntl
import os
import pty
import re
import signal
import struct
import subprocess
import sys
import termios
import threading
import time
import unittest

from deadly import Deadly
from mvt_tools.audit import engine
from mvt_tools.audit.results import Results

from common import (
    AUDIT,
    Case,
    at_places,
    audit,
    example_tiles,
    json,
    make_mbtiles,
    make_tree,
    rows,
    said_by_program,
    start,
)
from processes import until

DASK = {"scheduler": "distributed.cli.dask_scheduler", "worker": "distributed.cli.dask_worker"}


class Program:
    """A scheduler or a worker, whose lines are read to the end."""

    def __init__(self, name, *words):
        self.process = subprocess.Popen([sys.executable, "-m", DASK[name], *words], stderr=subprocess.PIPE, text=True)
        self.lines = []
        self.reader = threading.Thread(target=lambda: self.lines.extend(self.process.stderr), daemon=True)
        self.reader.start()

    def told(self, pattern):
        found = []

        def said():
            found[:] = filter(None, (re.search(pattern, line) for line in list(self.lines)))
            return found

        until(said)
        return found[0]

    def end(self):
        self.process.kill()
        self.process.wait()
        self.reader.join()
        self.process.stderr.close()


class Runs(Case):
    def setUp(self):
        super().setUp()
        tiles = {
            name: tile for name, tile in example_tiles().items() if len(tile) < 10_000 and not name.endswith("gzip")
        }
        make_tree(self.room / "tree", at_places(tiles.values()))
        said = said_by_program()
        self.said = {number: said[name] for number, name in enumerate(tiles)}
        self.count = len(tiles)

    def listed(self, times):
        """A list that names each tile so many times."""
        names = [
            f"tree/{path.relative_to(self.room / 'tree')}\n" for path in sorted((self.room / "tree").rglob("*.mvt"))
        ]
        (self.room / "list.txt").write_text("".join(names) * times)
        return self.room / "list.txt"

    def parts(self):
        try:
            return rows(self.into, "select count(*) from parts")[0][0]
        except Exception:
            return 0

    def check_whole(self, times):
        """The results have each tile so many times, with what `mvt check` says of it, and the counts are those."""
        found = rows(
            self.into,
            "select x, y, verdict, layer, feature, place, cause, cause_name, count(*) from tiles group by 1, 2, 3, 4, 5, 6, 7, 8",
        )
        wanted = {
            (number % 32, number >> 5, verdict, *fault, times) for number, (verdict, fault, _) in self.said.items()
        }
        self.assertEqual(set(found), wanted)
        self.assertEqual(rows(self.into, "select sum(tiles) from counts"), [(times * self.count,)])
        self.assertEqual(rows(self.into, "select count(*) - count(distinct part) from parts"), [(0,)])

    def test_a_killed_client_goes_on(self):
        listed = self.listed(400)
        run = start(listed, "--into", self.into, "--workers", 1, "--part", 50)
        until(lambda: self.parts() >= 3)
        os.kill(run.pid, signal.SIGKILL)
        run.communicate(timeout=60)
        self.go_on(listed, 400)

    def test_ctrl_c_goes_on(self):
        listed = self.listed(400)
        run = start(listed, "--into", self.into, "--workers", 1, "--part", 50)
        until(lambda: self.parts() >= 3)
        os.killpg(run.pid, signal.SIGINT)
        out, error = run.communicate(timeout=60)
        self.assertEqual((run.returncode, out), (130, ""))
        self.assertRegex(error, r"\Amvt-audit: ended; .* tiles are judged; the same command goes on from here\n\Z")
        self.go_on(listed, 400)

    def go_on(self, listed, times):
        """The same command says that it goes on, and judges what is left and nothing else."""
        total = times * self.count
        before = rows(self.into, "select sum(tiles) from parts")[0][0]
        self.assertLess(before, total)
        status, out, error = audit(listed, "--into", self.into, "--part", 7, "--json")
        self.assertEqual(status, 1, error)
        self.assertIn(f"goes on: {before:,} of {total:,} tiles are judged already", error)
        found = json.loads(out)
        self.assertEqual(found["tiles_this_time"], total - before)
        self.assertGreater(found["seconds"]["client"], 0)
        self.check_whole(times)

    def test_a_whole_audit_is_told_again(self):
        status, first, _ = audit(self.listed(1), "--into", self.into)
        status, second, error = audit(self.room / "list.txt", "--into", self.into)
        self.assertEqual(status, 1)
        self.assertEqual(first.splitlines()[:9], second.splitlines()[:9])
        self.assertRegex(error, "all .* tiles are judged already")

    def cluster(self, count):
        """The address of a scheduler, and its workers."""
        scheduler = Program("scheduler", "--host", "127.0.0.1", "--port", "0", "--no-dashboard")
        self.addCleanup(scheduler.end)
        address = scheduler.told(r"Scheduler at:\s+(tcp://\S+)").group(1)
        workers = []
        for _ in range(count):
            workers.append(Program("worker", address, "--nthreads", "1", "--no-nanny", "--no-dashboard"))
            self.addCleanup(workers[-1].end)
            workers[-1].told("Registered to")
        return address, workers

    def test_a_cluster_mends(self):
        address, _ = self.cluster(1)
        tree, new = self.room / "tree", self.room / "new"
        status, out, error = audit(tree, "--into", self.into, "--mend", new, "--scheduler", address, "--json")
        self.assertEqual(status, 1, error)
        here = audit(tree, "--into", self.room / "here", "--mend", self.room / "other", "--json")[1]
        found, wanted = (json.loads(each)["mended"] for each in (out, here))
        self.assertEqual({**found, "into": None}, {**wanted, "into": None})
        self.assertGreater(sum(found["tiles"].values()), 1)

    def test_a_killed_worker_loses_nothing(self):
        address, workers = self.cluster(2)
        workers[0].process.send_signal(signal.SIGSTOP)
        run = start(self.listed(100), "--into", self.into, "--scheduler", address, "--part", 100)
        was = -1
        while was != self.parts() or was == 0:
            was = self.parts()
            time.sleep(1)
        self.assertIsNone(run.poll(), "the run ended without the stopped worker's parts")
        workers[0].process.kill()
        out, error = run.communicate(timeout=120)
        self.assertEqual(run.returncode, 1, error)
        self.assertLess(was, self.parts())
        self.check_whole(100)

    def test_a_part_that_kills_each_worker_is_told(self):
        results, store = Results(self.into), Deadly()
        self.addCleanup(results.close)
        done = results.begin([store], [store.state()], 10)
        with engine.workers(2, None) as workers:
            lost = engine.run(workers, results, [store], done, lambda rows: None)
        self.assertEqual(lost, [("/deadly", 1, "3 workers ended over it, the last with status 1")])
        self.assertEqual(results.done("/deadly"), ({0, 2}, 20))

    def test_a_changed_store_is_told_and_begun_anew_only_when_asked(self):
        tree = self.room / "tree"
        audit(tree, "--into", self.into)
        before = (self.into / "audit.sqlite").read_bytes()
        (tree / "5" / "0" / "0.mvt").write_bytes(b"")
        self.fails([tree], 2, f"changed since the audit was begun: {tree}; --anew begins again")
        self.fails([self.listed(1)], 2, f"is of {tree}; --anew begins again, with other stores")
        self.assertEqual((self.into / "audit.sqlite").read_bytes(), before)
        self.assertEqual(audit(tree, "--into", self.into, "--anew")[0], 1)
        self.assertEqual(rows(self.into, "select verdict from tiles where name = '5/0/0.mvt'"), [("empty",)])

    def test_plain_errors(self):
        (self.room / "a.mbtiles").write_bytes(b"no SQLite at all")
        make_mbtiles(self.room / "none.mbtiles", {})
        make_mbtiles(self.room / "png.mbtiles", {(0, 0, 0): b""}, form="png")
        self.fails([self.room / "a.mbtiles"], 3, "a.mbtiles: no SQLite file")
        self.fails([self.room / "none.mbtiles"], 3, "no tiles in this MBTiles file")
        self.fails([self.room / "png.mbtiles"], 3, "of the format 'png', and not of 'pbf'")
        self.fails([self.room / "absent"], 3, "no store of tiles")
        self.fails([self.room / "tree", "--scheduler", "tcp://127.0.0.1:1"], 3, "no scheduler of Dask answers there")
        self.into.mkdir(exist_ok=True)
        (self.into / "audit.sqlite").write_bytes(b"something else, which isn't to be lost")
        self.fails([self.room / "tree"], 2, "audit.sqlite: file is not a database")
        self.assertEqual((self.into / "audit.sqlite").read_bytes(), b"something else, which isn't to be lost")

    def test_two_runs_at_a_time(self):
        run = start(self.listed(400), "--into", self.into, "--workers", 1, "--part", 50)
        until(lambda: self.parts() >= 1)
        self.fails([self.room / "tree"], 2, "another mvt-audit is at work here")
        run.kill()
        run.communicate()

    def test_the_bar_is_on_a_terminal_only(self):
        _, _, error = audit(self.room / "tree", "--into", self.room / "quiet")
        self.assertEqual(error, "")
        ours, theirs = pty.openpty()
        fcntl.ioctl(theirs, termios.TIOCSWINSZ, struct.pack("HHHH", 24, 100, 0, 0))
        run = subprocess.Popen(
            [*AUDIT, self.room / "tree", "--into", self.into, "--workers", "1"], stdout=subprocess.PIPE, stderr=theirs
        )
        run.wait(60)
        os.close(theirs)
        shown = os.read(ours, 100_000).decode()
        self.assertRegex(shown, rf"{self.count}/{self.count} tiles, .*tiles/s, \d+ broken")
        os.close(ours)
        run.stdout.close()


if __name__ == "__main__":
    unittest.main()
