#!/usr/bin/env python3
"""What the gate's proofs cost, from nothing, as a table in Markdown: costs.py FOLDER [WORD..]

Clones this repository's HEAD into FOLDER and runs `rt ci` there, with these words (--anew, where this machine has proved the
same files before). Prints for each crate after how many minutes it was proved, its tests were, and its wrong bodies began to be
tried, and then what the whole took, how much of it was kept, and of which machine that is true. What `rt ci` said is kept in
FOLDER/said, each line behind the seconds since it began. The other parts of .ci/run say themselves what they took.
"""

import re
import resource
import subprocess
import sys
import time
from pathlib import Path

TOP = Path(__file__).resolve().parent.parent
DONE = {
    "proved": re.compile(r"^(\d+\.\d) rt: (mvt_\w+) (?:proved|is kept)", re.M),
    "tests proved": re.compile(r"^(\d+\.\d) rt: (mvt_\w+): its tests are proved", re.M),
    "wrong bodies from": re.compile(r"^(\d+\.\d) rt: (mvt_\w+): trying its must-fail edits", re.M),
}


def said(root: Path, words: list[str]) -> str:
    """What `rt ci` said, each line behind the seconds since it began, and last what it took of processors."""
    began, lines = time.monotonic(), []
    with subprocess.Popen(
        ["rt", "ci", *words], cwd=root, stdout=subprocess.PIPE, stderr=subprocess.STDOUT, text=True
    ) as process:
        for line in process.stdout or ():
            lines.append(f"{time.monotonic() - began:.1f} {line}")
            sys.stderr.write(line)
    used = resource.getrusage(resource.RUSAGE_CHILDREN)
    lines.append(
        f"{time.monotonic() - began:.1f} status {process.returncode}, {used.ru_utime + used.ru_stime:.0f} of processors\n"
    )
    return "".join(lines)


def main() -> None:
    if len(sys.argv) < 2:
        sys.exit(__doc__)
    root = Path(sys.argv[1]).resolve()
    if not root.exists():
        subprocess.run(["git", "clone", "-q", TOP, root], check=True)
    text = said(root, sys.argv[2:])
    (root / "said").write_text(text, encoding="utf-8")
    last = {what: {crate: float(at) / 60 for at, crate in form.findall(text)} for what, form in DONE.items()}
    print("| Crate | " + " | ".join(DONE) + " |\n|---|---|---|---|")
    for crate in sorted(last["proved"], key=last["proved"].__getitem__):
        print(
            f"| {crate} | "
            + " | ".join(f"{last[what][crate]:.0f}" if crate in last[what] else "" for what in DONE)
            + " |"
        )
    took, status, used = re.findall(r"^(\d+)\.\d status (\d+), (\d+) of processors", text, re.M)[-1]
    print(f"\nstatus {status}, {int(took) / 60:.0f} minutes, {int(used) / 60:.0f} of processors")
    print("".join(re.findall(r"^\d+\.\d (rt: ok.*\n)", text, re.M)[-1:]), end="", flush=True)
    subprocess.run([TOP / "tests" / "machine"], check=True)


main()
