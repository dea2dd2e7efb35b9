"""Processes of this machine, by what /proc says: those below one, their sockets, and those that a test began."""

import os
import time
from pathlib import Path


def there():
    """Each process that is there, and what its stat says behind its name. One may end while it is looked at."""
    for name in filter(str.isdigit, os.listdir("/proc")):
        try:
            yield int(name), Path("/proc", name, "stat").read_text().rpartition(")")[2].split()
        except OSError:
            continue


def below(pid):
    """The processes that one began, and those that these began."""
    parents = {}
    for process, fields in there():
        if fields[0] != "Z":
            parents.setdefault(int(fields[1]), []).append(process)
    found = list(parents.get(pid, []))
    for each in found:
        found += parents.get(each, [])
    return found


def sockets(pid):
    """The sockets that a process has open."""
    found = []
    folder = f"/proc/{pid}/fd"
    for name in os.listdir(folder) if os.path.isdir(folder) else ():
        try:
            found.append(os.readlink(f"{folder}/{name}"))
        except OSError:
            continue
    return [name for name in found if name.startswith("socket:")]


def of_session(session):
    """The processes of a session that haven't ended."""
    return [process for process, fields in there() if int(fields[3]) == session and fields[0] != "Z"]


def until(said, seconds=60):
    """Waits until something is so."""
    ends = time.monotonic() + seconds
    while not said():
        assert time.monotonic() < ends, "it never was so"
        time.sleep(0.005)
