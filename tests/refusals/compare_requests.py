#!/usr/bin/env python3
"""Looks whether a test asks for memory less often than each of some others.

    compare_requests.py SHIM TESTS NAME OTHER..

SHIM is the library built of tests/allocator, TESTS the executable of the tests that `rt ci` leaves, and NAME and
each OTHER are its tests. The last line is 'N passed, M failed', and the exit status is 1 where a test fails
or an OTHER asks no more often.
"""

import os
import subprocess
import sys


def requests(shim, executable, name):
    """How many allocations the test asks for; None where it fails."""
    reader, writer = os.pipe()
    environment = dict(os.environ, LD_PRELOAD=os.path.abspath(shim), REFUSE="0", REFUSE_COUNT=str(writer))
    done = subprocess.run([executable, name], env=environment, pass_fds=[writer], capture_output=True, timeout=60)
    os.close(writer)
    with os.fdopen(reader) as counts:
        told = counts.read()
    return int(told) if done.returncode == 0 and told.isdigit() else None


def main():
    shim, executable, names = sys.argv[1], sys.argv[2], sys.argv[3:]
    counts = [requests(shim, executable, name) for name in names]
    for name, count in zip(names, counts):
        print("%s: %s requests" % (name, count))
    is_least = None not in counts and all(counts[0] < other for other in counts[1:])
    print("1 passed, 0 failed" if is_least else "0 passed, 1 failed")
    sys.exit(0 if is_least else 1)


main()
