#!/usr/bin/env python3
"""What tests/wrong_bodies.py says of planted edits: test_planted.py. They stand beside this file, for a crate of three small
functions, of which each calls the one before it. tests/source/test_wrong_bodies.py has which it chooses."""

import re
import shutil
import subprocess
import sys
import tempfile
from pathlib import Path

HERE = Path(__file__).resolve().parent
WANTED = {
    "wrong-sum": "refused",
    "wrong-sum-behind-another": "refused",
    "wrong-step": "refused",
    "same-meaning": "NOT REFUSED",
    "same-meaning-behind-another": "NOT REFUSED",
    "does-not-compile": "BAD EDIT",
    "stands-nowhere": "BAD EDIT",
}
REFUSED = [name for name, verdict in WANTED.items() if verdict == "refused"]


class Repository:
    """A repository of the planted crate alone, with one commit."""

    def __init__(self, root: Path) -> None:
        self.root = root
        self.crate = root / "crates" / "planted"
        self.note = root / "tests" / "wrong_bodies.passed"
        (root / "tests").mkdir()
        (self.crate / "src").mkdir(parents=True)
        shutil.copy(HERE / "lib.txt", self.crate / "src" / "lib.rt")
        shutil.copytree(HERE / "wrong-bodies", self.crate / "wrong-bodies")
        (root / "crates.txt").write_text("planted:\n", encoding="utf-8")
        (root / "HANDLES").write_text("Handles allowed: none.\n", encoding="utf-8")
        self.git("init", "-q")
        self.git("add", "crates")
        self.git("-c", "user.name=planted", "-c", "user.email=planted", "commit", "-qm", "planted")

    def git(self, *words: str) -> str:
        return subprocess.run(["git", *words], cwd=self.root, check=True, capture_output=True, text=True).stdout

    def laid(self) -> list[str]:
        return sorted(it.stem for it in self.crate.glob("must-fail/*.edit"))

    def run(self, *words: object) -> tuple[int, str]:
        """The status of tests/wrong_bodies.py, and what it said."""
        command = [HERE.parent / "wrong_bodies.py", "--root", self.root, *words]
        ran = subprocess.run(list(map(str, command)), capture_output=True, text=True, errors="replace")
        return ran.returncode, ran.stdout + ran.stderr


def test_verdicts(made: Repository) -> None:
    """Each edit gets its verdict, what a stopped run left is taken away, and so are those of this run."""
    (made.crate / "must-fail").mkdir()
    shutil.copy(made.crate / "wrong-bodies" / "wrong-sum.edit", made.crate / "must-fail" / "laid-left.edit")
    status, told = made.run("--all")
    said = dict(re.findall(r"^rt: must-fail planted/laid-([\w-]+)\.edit: (refused|NOT REFUSED|BAD EDIT)", told, re.M))
    failed = dict(re.findall(r"^FAILED: planted/([\w-]+): (.*)", told, re.M))
    assert said == WANTED, f"verdicts: {said}\n{told}"
    assert failed == {name: verdict for name, verdict in WANTED.items() if name not in REFUSED}, told
    assert status == 1 and told.endswith("edits refused: 3 of 7\n"), told
    assert not made.laid() and not made.note.exists(), "something was left, or noted"


def test_note(made: Repository) -> None:
    """Where each body of a crate was refused, the crate, the commit and the count are noted; after some alone, nothing."""
    for name in WANTED.keys() - REFUSED:
        (made.crate / "wrong-bodies" / f"{name}.edit").unlink()
    status, told = made.run("planted/wrong-sum", "planted/wrong-step")
    assert status == 0 and not made.note.exists(), told
    status, told = made.run("planted")
    assert status == 0, told
    assert made.note.read_text(encoding="utf-8") == f"planted {made.git('rev-parse', 'HEAD').strip()} 3\n", told


def test_untold(made: Repository) -> None:
    """Those that are laid and of which nothing was said have failed, and are taken away."""
    assert made.run("--lay", "planted/wrong-step") == (0, "wrong bodies: 1 chosen (planted 1), 0 not chosen\n"), "one"
    assert made.laid() == ["laid-wrong-step"], made.laid()
    status, told = made.run("--told", "/dev/null")
    assert status == 1 and "FAILED: planted/wrong-step: nothing was said of it" in told, told
    assert not made.laid(), "something was left"


def main() -> int:
    with tempfile.TemporaryDirectory(prefix="planted-") as room:
        made = Repository(Path(room))
        try:
            for test in (test_verdicts, test_note, test_untold):
                test(made)
        except AssertionError as failure:
            print(f"planted edits: {failure}")
            return 1
    print(f"planted edits: {len(WANTED)} verdicts, the note and what is untold are as they must be")
    return 0


if __name__ == "__main__":
    sys.exit(main())
