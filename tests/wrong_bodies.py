#!/usr/bin/env python3
"""Has the kit try wrong bodies (crates/NAME/wrong-bodies/*.edit): the prover must refuse each.

They are laid among their crates' own edits, as copies must-fail/laid-NAME.edit, and taken away when they were tried;
what a run that was stopped left is taken away by the next. By hand `rt must-fail` tries them. In the gate `rt ci` does,
between --lay and --told FILE, where FILE has what it said.

Chosen are those whose own text is new since all of their crate were refused last, then those of files that changed
since, then others, up to --most. Where no name is given, they are of crates with edits of their own, since to begin with a
crate's first edit is what costs most; at every third commit half of them are of one crate without. --all chooses all.

A body that is refused only because a proof names what it took away is named: it is to change a value instead. Where all of a
crate were tried and refused, tests/wrong_bodies.passed gets a line: the crate, the commit and the count.
"""

import argparse
import random
import re
import subprocess
import sys
from pathlib import Path

PREFIX = "laid-"
UNTRIED = "untried"
VERDICT = re.compile(r"rt: must-fail (\S+)\.edit: (refused|NOT REFUSED|BAD EDIT|NOT TRIED)")
BY_A_NAME = re.compile(r"rt: must-fail (\S+)\.edit: refused, as it must be \(only because a proof file names")


def git(root: Path, *words: str) -> str:
    ran = subprocess.run(["git", "-C", str(root), *words], capture_output=True, text=True, errors="replace")
    return ran.stdout if ran.returncode == 0 else ""


def laid(root: Path) -> list[Path]:
    return sorted(root.glob(f"crates/*/must-fail/{PREFIX}*.edit"))


def take_away(root: Path) -> None:
    for path in laid(root):
        path.unlink()
        if not any(path.parent.iterdir()):
            path.parent.rmdir()


def crate_of(body: Path) -> str:
    return body.parts[-4 if body.parent.name == UNTRIED else -3]


def bodies_of(root: Path, crate: str = "*", untried: bool = False) -> list[Path]:
    return sorted(root.glob(f"crates/{crate}/wrong-bodies/{UNTRIED + '/' if untried else ''}*.edit"))


def notes(root: Path) -> dict[str, tuple[str, str]]:
    """Of each crate whose bodies were all refused: at which commit, and how many."""
    path = root / "tests" / "wrong_bodies.passed"
    lines = path.read_text(encoding="utf-8").splitlines() if path.exists() else []
    return {crate: (commit, count) for crate, commit, count in map(str.split, lines)}


def add_notes(root: Path, refused: list[str]) -> None:
    """Notes the crates all of whose bodies are among these names."""
    noted = notes(root)
    for crate in sorted({name.split("/")[0] for name in refused}):
        names = {f"{crate}/{PREFIX}{it.stem}" for it in bodies_of(root, crate)}
        if names and names <= set(refused):
            noted[crate] = (git(root, "rev-parse", "HEAD").strip(), str(len(names)))
    lines = [f"{crate} {' '.join(noted[crate])}\n" for crate in sorted(noted)]
    if lines:
        (root / "tests" / "wrong_bodies.passed").write_text("".join(lines), encoding="utf-8")


def in_order(root: Path, bodies: list[Path]) -> list[Path]:
    """New ones first, then those of changed files, then others; the commit draws the order of the crates and of their
    bodies, so that in time each comes."""
    noted = notes(root)
    changed = {commit: git(root, "diff", "--name-only", commit).splitlines() for commit, _ in noted.values()}
    drawn = random.Random(git(root, "rev-parse", "HEAD")).sample(bodies, len(bodies))
    crates = list(dict.fromkeys(map(crate_of, drawn)))

    def rank(body: Path) -> int:
        crate, text = f"crates/{crate_of(body)}", body.read_text(encoding="utf-8")
        since = noted.get(crate_of(body), ("none",))[0]
        if all(text != git(root, "show", f"{since}:{crate}/{it}/{body.name}") for it in ("wrong-bodies", "must-fail")):
            return 0
        files = re.findall(r"^file: *(\S+)", text, re.M)
        return 1 if any(f"{crate}/{it}" in changed.get(since, ()) for it in files) else 2

    return sorted(drawn, key=lambda it: (rank(it), crates.index(crate_of(it))))


def of_the_gate(root: Path, bodies: list[Path], most: int) -> list[Path]:
    """The first of crates with edits of their own; at every third commit half are of the first crate without."""
    begun = {crate_of(it) for it in root.glob("crates/*/must-fail/*.edit")}
    others = [it for it in bodies if crate_of(it) not in begun]
    is_third = int(git(root, "rev-parse", "HEAD") or "0", 16) % 3 == 0
    another = [it for it in others if is_third and crate_of(it) == crate_of(others[0])]
    return [*another[: most // 2], *(it for it in bodies if crate_of(it) in begun)][:most]


def lay(root: Path, words: argparse.Namespace) -> list[str]:
    """Lays the bodies that are to be tried, and answers their crates."""
    found = [
        it
        for it in bodies_of(root, untried=words.untried)
        if not words.name or {crate_of(it), f"{crate_of(it)}/{it.stem}"} & set(words.name)
    ]
    bodies = in_order(root, found)
    if not (words.all or words.untried):
        bodies = bodies[: words.most] if words.name else of_the_gate(root, bodies, words.most)
    for body in bodies:
        copy = root / "crates" / crate_of(body) / "must-fail" / (PREFIX + body.name)
        copy.parent.mkdir(exist_ok=True)
        copy.write_bytes(body.read_bytes())
    crates = [crate_of(it) for it in bodies]
    each = ", ".join(f"{it} {crates.count(it)}" for it in sorted(set(crates)))
    print(f"wrong bodies: {len(bodies)} chosen ({each or 'none'}), {len(found) - len(bodies)} not chosen", flush=True)
    return sorted(set(crates))


def said(root: Path, crates: list[str]) -> list[str]:
    """What the kit says of these crates' edits, which is printed as it comes."""
    lines = []
    how = {"cwd": root, "stdout": subprocess.PIPE, "stderr": subprocess.STDOUT, "text": True, "errors": "replace"}
    with subprocess.Popen(["rt", "must-fail", *crates], **how) as process:
        for line in process.stdout or ():
            print(line, end="", flush=True)
            lines.append(line)
    return lines


def judged(root: Path, lines: list[str]) -> bool:
    """Whether the kit refused each edit that it speaks of, and speaks of each that is laid."""
    verdicts = {f"{crate_of(it)}/{it.stem}": "nothing was said of it" for it in laid(root)}
    verdicts |= {found[1]: found[2] for found in map(VERDICT.match, lines) if found}
    failed = {name: verdict for name, verdict in verdicts.items() if verdict != "refused"}
    for name, verdict in failed.items():
        print(f"FAILED: {name.replace(PREFIX, '')}: {verdict}")
    for found in filter(None, map(BY_A_NAME.match, lines)):
        print(f"says little, since only a name in a proof is gone: {found[1].replace(PREFIX, '')}")
    print(f"edits refused: {len(verdicts) - len(failed)} of {len(verdicts)}")
    refused = [name for name, verdict in verdicts.items() if verdict == "refused"]
    add_notes(root, refused)
    for body in bodies_of(root, untried=True):
        if f"{crate_of(body)}/{PREFIX}{body.stem}" in refused:
            body.rename(body.parents[1] / body.name)
    return not failed


def parsed() -> argparse.Namespace:
    words = argparse.ArgumentParser(description=__doc__, formatter_class=argparse.RawDescriptionHelpFormatter)
    words.add_argument("name", nargs="*", help="choose among these: CRATE, or CRATE/BODY")
    words.add_argument("--most", type=int, default=100, help="at most so many (100)")
    words.add_argument("--all", action="store_true", help="all of all crates")
    words.add_argument("--untried", action="store_true", help="those that nobody has tried yet, all of them")
    words.add_argument("--lay", action="store_true", help="only lay them; with --most 0, take away what is laid")
    words.add_argument("--told", type=Path, help="judge those that are laid by what `rt ci` said, and take them away")
    words.add_argument("--root", type=Path, default=Path(__file__).resolve().parent.parent, help="the repository")
    given = words.parse_args()
    if given.all and given.name:
        words.error("--all takes no names")
    return given


def main() -> int:
    given = parsed()
    crates = []
    if not given.told:
        take_away(given.root)
        crates = lay(given.root, given)
    if given.lay:
        return 0
    try:
        lines = given.told.read_text(encoding="utf-8", errors="replace").splitlines() if given.told else []
        lines = said(given.root, crates) if crates else lines
        return 0 if judged(given.root, lines) else 1
    finally:
        take_away(given.root)


if __name__ == "__main__":
    sys.exit(main())
