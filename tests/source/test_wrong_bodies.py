"""Each wrong body takes away a text that stands in its file exactly once, as the toolchain wants it: after a rename it doesn't, and
says nothing of a contract any more. And which of them tests/wrong_bodies.py lays."""

import os
import subprocess
import sys
from pathlib import Path

import pytest

TOP = Path(__file__).resolve().parents[2]
AT = {f"GIT_{who}_{what}": "planted" for who in ("AUTHOR", "COMMITTER") for what in ("NAME", "EMAIL")}


def misplaced(body):
    """The texts that this body takes away and that don't stand once where it takes them."""
    crate, text = body.parents[1], ""
    old = None
    for line in body.read_text().splitlines():
        word, _, rest = line.partition(": ")
        if word == "file":
            text = (crate / rest).read_text()
        elif word == "old":
            old = rest
        elif word == "new":
            if text.count(old) != 1:
                yield f"{body.relative_to(TOP)}: {old.strip()}"
            text = text.replace(old, rest)


def test_texts():
    bodies = [*TOP.glob("crates/*/wrong-bodies/*.edit"), *TOP.glob("crates/*/must-fail/*.edit")]
    assert bodies
    assert [text for body in sorted(bodies) for text in misplaced(body)] == []


class Repository:
    """Three crates of six bodies each, of which one has an edit of its own."""

    def __init__(self, root):
        self.root = root
        for crate in ("first", "second", "begun"):
            (root / "crates" / crate / "wrong-bodies").mkdir(parents=True)
            for number in range(6):
                self.write(crate, f"wrong-bodies/{number}", "1")
        (root / "crates/begun/must-fail").mkdir()
        self.write("begun", "must-fail/own", "1")
        self.git("init", "-q")
        self.git("add", ".")
        self.commit(False)

    def write(self, crate, name, new):
        (self.root / f"crates/{crate}/{name}.edit").write_text(f"file: src/lib.rt\nold: 0\nnew: {new}\n")

    def git(self, *words):
        done = subprocess.run(
            ["git", *words], cwd=self.root, check=True, capture_output=True, text=True, env={**os.environ, **AT}
        )
        return done.stdout.strip()

    def commit(self, is_third):
        """Commits all of it so that the commit is a third one, or isn't."""
        message = 0
        while not message or (int(self.git("rev-parse", "HEAD"), 16) % 3 == 0) != is_third:
            message += 1
            self.git("commit", "-qa", "--allow-empty", "-m", str(message))

    def note_all(self):
        """Notes that the bodies of each crate were refused at this commit."""
        head = self.git("rev-parse", "HEAD")
        (self.root / "tests").mkdir()
        (self.root / "tests/wrong_bodies.passed").write_text(
            "".join(f"{crate} {head} 6\n" for crate in ("begun", "first", "second"))
        )

    def laid(self, *words):
        """How many are laid, by crate."""
        command = [sys.executable, TOP / "tests/wrong_bodies.py", "--root", self.root, "--lay", *words]
        subprocess.run(command, check=True, capture_output=True)
        found = [path.parts[-3] for path in self.root.glob("crates/*/must-fail/laid-*.edit")]
        return {crate: found.count(crate) for crate in sorted(set(found))}


@pytest.fixture
def repository(tmp_path):
    return Repository(tmp_path)


def test_crates_with_edits_of_their_own(repository):
    assert repository.laid("--most", "4") == {"begun": 4}
    assert repository.laid("--most", "20") == {"begun": 6}
    assert repository.laid("--most", "0") == {}


def test_every_third_commit_half_of_another(repository):
    repository.commit(True)
    laid = repository.laid("--most", "4")
    assert laid.pop("begun") == 2 and list(laid.values()) == [2]
    laid = repository.laid("--most", "20")
    assert laid.pop("begun") == 6 and list(laid.values()) == [6]
    assert repository.laid("--most", "1") == {"begun": 1}


def test_what_is_new_comes_first(repository):
    repository.note_all()
    repository.write("begun", "wrong-bodies/4", "2")
    repository.write("second", "wrong-bodies/3", "2")
    repository.commit(False)
    assert repository.laid("--most", "1") == {"begun": 1}
    assert (repository.root / "crates/begun/must-fail/laid-4.edit").exists()
    repository.commit(True)
    assert repository.laid("--most", "2") == {"begun": 1, "second": 1}
    assert (repository.root / "crates/second/must-fail/laid-3.edit").exists()


def test_by_name_each_is_laid(repository):
    assert repository.laid("second") == {"second": 6}
    assert repository.laid("first/2", "begun") == {"begun": 6, "first": 1}
    assert repository.laid("--all") == {"begun": 6, "first": 6, "second": 6}
