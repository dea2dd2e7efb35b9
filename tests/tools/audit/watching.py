"""Runs of mvt-audit whose memory is watched, and what they write."""

import threading
import time
from pathlib import Path

from common import start
from processes import below

MB = 1_000_000


class Watched:
    """A whole run: its status, its lines and errors, and the most bytes that the client and one of its workers had."""

    def __init__(self, *words, workers=2, **how):
        run = start(*words, "--workers", workers, **how)
        self.client = self.worker = 0
        watcher = threading.Thread(target=self._watch, args=(run,))
        watcher.start()
        self.out, self.error = run.communicate(timeout=300)
        watcher.join()
        self.status = run.returncode

    def _watch(self, run):
        while run.poll() is None:
            self.client = max(self.client, _most(run.pid))
            self.worker = max([self.worker, *map(_most, below(run.pid))])
            time.sleep(0.01)


def _most(pid):
    """The most memory that a process had, in bytes."""
    try:
        status = Path(f"/proc/{pid}/status").read_text()
    except OSError:
        return 0
    found = [line for line in status.splitlines() if line.startswith("VmHWM:")]
    return int(found[0].split()[1]) * 1024 if found else 0


def on_disk(*paths):
    """How many bytes files and folders take on the disk."""
    found = [path for each in paths for path in (each.rglob("*") if each.is_dir() else [each])]
    return sum(path.lstat().st_blocks * 512 for path in found if path.is_file() and not path.is_symlink())
