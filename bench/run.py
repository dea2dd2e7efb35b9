#!/usr/bin/env python3
"""Times the lines of workloads.txt in two built checkouts, by turns: run.py OLD NEW [SEED] [NAME..].

Each line is NAME CRATE WORD..: the program crates/CRATE/out/CRATE of a checkout with these words, run
in its folder bench/. The word SEED stands for the seed, a last word <FILE for the file that is its
standard input. Stops where the two print different things. Prints the median seconds of each, and
old over new.
"""

import os
import resource
import statistics
import subprocess
import sys
from pathlib import Path

TURNS = 7


def read_workloads(path: Path) -> list[tuple[str, str, list[str]]]:
    lines = (line.split() for line in path.read_text().splitlines())
    return [(name, crate, words) for name, crate, *words in lines]


def of_children() -> float:
    """The seconds of a processor that the programs took that have ended."""
    used = resource.getrusage(resource.RUSAGE_CHILDREN)
    return used.ru_utime + used.ru_stime


def run(checkout: Path, crate: str, words: list[str], seed: str) -> tuple[float, bytes]:
    words = [seed if word == "SEED" else word for word in words]
    folder = checkout / "bench"
    source = Path(os.devnull)
    if words and words[-1].startswith("<"):
        source = folder / words.pop()[1:]
    program = checkout / "crates" / crate / "out" / crate
    with source.open("rb") as stdin:
        began = of_children()
        done = subprocess.run([program, *words], cwd=folder, stdin=stdin, stdout=subprocess.PIPE, check=True)
        return of_children() - began, done.stdout


def measure(checkouts: list[Path], crate: str, words: list[str], seed: str) -> list[float]:
    times: list[list[float]] = [[] for _ in checkouts]
    for _ in range(TURNS):
        outputs = []
        for spent, checkout in zip(times, checkouts):
            seconds, output = run(checkout, crate, words, seed)
            spent.append(seconds)
            outputs.append(output)
        if len(set(outputs)) > 1:
            sys.exit(f"{crate} {' '.join(words)}: the outputs differ: {outputs}")
    return [statistics.median(spent) for spent in times]


def main() -> None:
    if len(sys.argv) < 3:
        sys.exit(__doc__)
    checkouts = [Path(folder).resolve() for folder in sys.argv[1:3]]
    seed = sys.argv[3] if len(sys.argv) > 3 else "20261126"
    names = sys.argv[4:]
    print("| Workload | Seconds at the start | Seconds now | Start over now |")
    print("| --- | --- | --- | --- |")
    for name, crate, words in read_workloads(Path(__file__).with_name("workloads.txt")):
        if names and name not in names:
            continue
        old, new = measure(checkouts, crate, words, seed)
        print(f"| {name} | {old:.3f} | {new:.3f} | {old / new:.2f} |", flush=True)


main()
