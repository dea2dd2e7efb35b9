#!/usr/bin/env python3
"""Runs each test whose name has a given word once for each of its allocations, that one refused.

    refuse_each.py SHIM WORD [--seen TEST TEXT] TESTS..

SHIM is the library built of tests/allocator, WORD a part of the names of the tests, and TESTS are the
executables of tests that `rt ci` leaves (crates/NAME/out/NAME_tests). A test passes here if it
passes under every refusal, and one that asks for no memory if it passes; a line tells how many runs
there were. TEST, an executable's name and a test's, as 'NAME_tests tests::reads', has to print TEXT in one
of its runs too. The last line is 'N passed, M failed', and the exit status is 1 where a test failed, where
no test has the word or is TEST, or where the shim told nothing.
"""

import os
import subprocess
import sys

TIMEOUT_SECONDS = 120
MOST_ALLOCATIONS = 100_000


def names_in(executable, word):
    listed = subprocess.run([executable, "--list"], capture_output=True, text=True, check=True)
    names = [line.removesuffix(": test") for line in listed.stdout.splitlines() if line.endswith(": test")]
    return [name for name in names if word in name]


def run(executable, name, shim, refused):
    """The exit status of the test, what it printed, and how many allocations it asked for."""
    reader, writer = os.pipe()
    environment = dict(os.environ, LD_PRELOAD=shim, REFUSE=str(refused), REFUSE_COUNT=str(writer))
    try:
        done = subprocess.run(
            [executable, name],
            env=environment,
            pass_fds=[writer],
            capture_output=True,
            text=True,
            timeout=TIMEOUT_SECONDS,
        )
        status, printed = done.returncode, done.stdout + done.stderr
    except subprocess.TimeoutExpired:
        status, printed = -1, "no end after %d seconds" % TIMEOUT_SECONDS
    os.close(writer)
    with os.fdopen(reader) as counts:
        told = counts.read()
    return status, printed, int(told) if told.isdigit() else None


def sweep(executable, name, shim, text):
    """Why the test fails, or None, and how many runs there were. One has to print the text."""
    status, printed, count = run(executable, name, shim, 0)
    if count is None:
        return "the shim told no count", 1
    if status != 0:
        return "fails with no allocation refused: %s" % printed.strip()[-500:], 1
    refused = 0
    is_seen = text in printed
    while refused < min(count, MOST_ALLOCATIONS):
        refused += 1
        status, printed, asked = run(executable, name, shim, refused)
        if status != 0:
            return "fails where allocation %d is refused: %s" % (refused, printed.strip()[-500:]), refused + 1
        is_seen = is_seen or text in printed
        if asked is not None:
            count = max(count, asked)
    return None if is_seen else "no run prints '%s'" % text, refused + 1


def main():
    shim, word, executables = sys.argv[1], sys.argv[2], sys.argv[3:]
    seen = {}
    while executables[:1] == ["--seen"]:
        seen[executables[1]] = executables[2]
        executables = executables[3:]
    passed = failed = 0
    for executable in executables:
        for name in names_in(executable, word):
            text = seen.pop("%s %s" % (os.path.basename(executable), name), "")
            why, runs = sweep(executable, name, os.path.abspath(shim), text)
            if why is None:
                passed += 1
                print("%s %s: passes under each refusal, %d runs" % (executable, name, runs))
            else:
                failed += 1
                print("%s %s: %s" % (executable, name, why))
    if passed + failed == 0:
        print("no test has '%s' in its name" % word)
        failed = 1
    for name in seen:
        print("no test is named %s" % name)
        failed += 1
    print("%d passed, %d failed" % (passed, failed))
    sys.exit(1 if failed else 0)


main()
