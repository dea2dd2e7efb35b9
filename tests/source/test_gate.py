"""What .ci/run tells at its end, over parts that do nothing but tell a count: a table of them, what was kept, the machine, and the
sum; and that it goes no further where what needs no proof has failed."""

import os
import re
import shutil
import subprocess
from pathlib import Path

import pytest

TOP = Path(__file__).resolve().parents[2]
PARTS = re.findall(r"^(?:part|beside) (?:joined )?((?:tests|library)/\S+)", (TOP / ".ci/run").read_text(), re.M)


class Gate:
    """A folder with the gate, each part of which passes two tests, and fails none."""

    def __init__(self, root):
        self.root = root
        for name in (".ci/run", "tests/machine"):
            (root / name).parent.mkdir(exist_ok=True)
            shutil.copy(TOP / name, root / name)
        for name in ["tests/install", "tests/coverage/run", *PARTS]:
            self.write(name, "echo 'a part: 2 passed, 0 failed, 1 skipped'")
        self.write("tests/wrong_bodies.py", "echo 'wrong bodies: 0 chosen'")
        self.write("bin/rt", "echo '9 passed, 9 failed'; echo 'rt: ok, all of 3 kept'; echo '5 passed, 0 failed'")

    def write(self, name, lines):
        path = self.root / name
        path.parent.mkdir(parents=True, exist_ok=True)
        path.write_text(f"#!/usr/bin/env bash\n{lines}\n")
        path.chmod(0o755)

    def run(self):
        """The status, and the lines."""
        environment = {**os.environ, "PATH": f"{self.root}/bin:{os.environ['PATH']}"}
        done = subprocess.run([self.root / ".ci/run"], capture_output=True, text=True, env=environment, timeout=60)
        return done.returncode, done.stdout.splitlines()


@pytest.fixture
def gate(tmp_path):
    return Gate(tmp_path)


def rows(lines):
    """The counts of each part in the table: passed, failed, skipped."""
    found = (re.fullmatch(r"\| `(.*)` \| \d+ \| \d+ \| (\d+) \| (\d+) \| (\d+) \|", line) for line in lines)
    return {row[1]: tuple(map(int, row.groups()[1:])) for row in found if row}


def test_each_part_has_its_row(gate):
    status, lines = gate.run()
    counts = {**dict.fromkeys(PARTS, (2, 0, 1)), "rt ci": (5, 0, 0)}
    laid = {f"tests/wrong_bodies.py --{word}": (0, 0, 0) for word in ("lay", "told")}
    counts.pop("tests/wrong_bodies.py")
    assert rows(lines) == {**counts, **laid}
    sums = [sum(count[at] for count in counts.values()) for at in range(3)]
    assert status == 0 and lines[-1] == "{} passed, {} failed, {} skipped".format(*sums)
    assert lines[-2] == "rt: ok, all of 3 kept" and " hardware threads" in lines[-3]


def test_a_part_that_fails(gate):
    gate.write("tests/program/run", "echo 'program: 1 passed, 3 failed, 0 skipped'; exit 1")
    gate.write("library/build", "exit 1")
    status, lines = gate.run()
    assert status == 1 and rows(lines)["tests/program/run"] == (1, 3, 0)
    assert rows(lines)["library/build"] == (0, 1, 0) and ", 4 failed, " in lines[-1]


def test_nothing_is_proved_behind_a_failed_test(gate):
    gate.write("tests/quick", "echo 'mvt_x: 7 passed, 0 failed'; echo 'quick: 3 passed, 1 failed, 2 skipped'; exit 1")
    status, lines = gate.run()
    assert (status, rows(lines), lines[-1]) == (1, {"tests/quick": (3, 1, 2)}, "3 passed, 1 failed, 2 skipped")
