"""The documents: each link leads to a file, and to a heading or a line that is there; the code in docs/CALLING.md stands in
crates/mvt_callers, where it is proved; what docs/PERF.md has run, and what bench/against takes from the history, is there."""

import re
import subprocess
from pathlib import Path

TOP = Path(__file__).resolve().parents[2]
LINK = re.compile(r"\[[^\]]*\]\(([^)\s]+)\)")


def documents():
    return [*TOP.glob("*.md"), *(TOP / "docs").glob("*.md")]


def anchor(heading):
    """The address of a heading, as GitHub makes it."""
    return re.sub(r"[^\w\- ]", "", heading.strip().lower()).replace(" ", "-")


def is_there(target, fragment):
    """Whether a file has the place that a link names."""
    if not target.exists():
        return False
    if not fragment:
        return True
    lines = target.read_text().splitlines()
    if line := re.fullmatch(r"L(\d+)", fragment):
        return int(line[1]) <= len(lines)
    return fragment in {anchor(line.lstrip("#")) for line in lines if line.startswith("#")}


def broken_links():
    for document in documents():
        for link in LINK.findall(document.read_text()):
            if re.match(r"[a-z]+:", link):
                continue
            name, _, fragment = link.partition("#")
            target = document if not name else document.parent / name
            if not is_there(target, fragment):
                yield f"{document.relative_to(TOP)}: {link}"


def squeezed(text):
    return re.sub(r"\s+", " ", text)


def quoted_code():
    """The indented lines of docs/CALLING.md that don't stand in crates/mvt_callers."""
    uses = squeezed(" ".join(path.read_text() for path in (TOP / "crates/mvt_callers/src").glob("*.rt")))
    for block in re.findall(r"(?:^    .*\n)+", (TOP / "docs/CALLING.md").read_text(), re.M):
        if squeezed(block.strip()) not in uses:
            yield f"docs/CALLING.md: {block.strip().splitlines()[0]}"


def asked(*words):
    return subprocess.run(["git", "-C", TOP, *words], capture_output=True, text=True)


def has(commit, path):
    """Whether a commit has a file or folder; of a copy without the history nobody can say."""
    if asked("rev-parse", "--is-shallow-repository").stdout != "false\n":
        return True
    return asked("cat-file", "-e", f"{commit}:{path}").returncode == 0


def wrong_recipe():
    """What can't be run of docs/PERF.md's recipe; nothing is built."""
    commits = re.findall(r"^    bench/against (\w+)$", (TOP / "docs/PERF.md").read_text(), re.M)
    if len(commits) != 1 or not has(commits[0], "crates/mvt_base"):
        yield f"docs/PERF.md: bench/against with {commits}"
    former = re.findall(r"^former=(\w+)$", (TOP / "bench/against").read_text(), re.M)
    if len(former) != 1 or not has(former[0], "crates/mvt_workloads/src/main.rt"):
        yield f"bench/against: the workloads of {former}"
    if subprocess.run([TOP / "bench/against", "no-such-commit"], capture_output=True).returncode != 2:
        yield "bench/against: takes a commit that isn't there"


def test_links():
    assert not list(broken_links())


def test_quoted_code():
    assert not list(quoted_code())


def test_recipe():
    assert not list(wrong_recipe())


def test_contracts():
    """The links of docs/PROVED.md lead to the lines of their contracts."""
    told = subprocess.run([TOP / "docs" / "contracts.py"], capture_output=True, text=True)
    assert told.returncode == 0, told.stdout + told.stderr
