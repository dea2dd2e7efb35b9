"""Each public function of the crates that ship has a comment, which names its errors if it has some."""

import re
from pathlib import Path

TOP = Path(__file__).resolve().parents[2]
# What measures, and laws, whose contract is what they say.
ELSEWHERE = re.compile(r"_tests/|/mvt_workloads/|/mvt_bench/|/laws\.rt$")
FUNCTION = re.compile(r" *pub (?:const |unsafe )*fn (\w+)")


def public_functions():
    """The name of each, its comment, and its head up to the contract or the body."""
    for path in sorted(TOP.glob("crates/*/src/**/*.rt")):
        if ELSEWHERE.search(str(path)):
            continue
        comment, lines = [], path.read_text().splitlines()
        for number, line in enumerate(lines):
            if line.lstrip().startswith("///"):
                comment.append(line.strip())
            elif found := FUNCTION.match(line):
                head = ""
                for part in lines[number:]:
                    if part.split()[:1] in (["ensures"], ["requires"], ["{"]):
                        break
                    head += part
                yield f"{path.relative_to(TOP)}: {found[1]}", comment, head
                comment = []
            elif not line.lstrip().startswith(("#[", ")", "auto", "unfolding", "crate::")):
                comment = []


def test_comments():
    found = list(public_functions())
    assert [name for name, comment, _ in found if not comment] == []
    assert len(found) > 300


def test_errors():
    fallible = [(name, comment) for name, comment, head in public_functions() if "-> Result<" in head]
    assert [name for name, comment in fallible if "/// # Errors" not in comment] == []
    assert len(fallible) > 150
