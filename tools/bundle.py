#!/usr/bin/env python3
"""Puts the page into one file: its style, its scripts, the rules of docs/FORMAT.md, and two example tiles.
bundle.py [PAGE.html], which is the package's own where none is named"""
import base64
import collections
import hashlib
import json
import pathlib
import re
import sys

here = pathlib.Path(__file__).resolve().parent
top = here.parent
source = here / "mvt_tools" / "page" / "src"


def scripts(root):
    """The names of the modules that one wants, each behind those that it imports."""
    found = []

    def visit(name):
        for below in re.findall(r"^import .* from '\./(.*)';$", (source / name).read_text(), re.M):
            visit(below)
        if name not in found:
            found.append(name)

    visit(root)
    return found


def script(root):
    """A module and those below it as one: they share a scope, so no two may declare one name."""
    parts = []
    for name in scripts(root):
        text = re.sub(r"^import .*\n", "", (source / name).read_text(), flags=re.M)
        parts.append(f"// ---- {name}\n" + re.sub(r"^export ", "", text, flags=re.M))
    whole = "\n".join(parts)
    declared = collections.Counter(re.findall(r"^(?:async )?(?:const|let|class|function\*?) (\w+)", whole, re.M))
    twice = [name for name, count in declared.items() if count > 1]
    if twice:
        sys.exit(f"bundle.py: below {root} two modules declare {', '.join(twice)}")
    return whole


def rules():
    """The table of refusals: number, name, the rule that is broken, the place."""
    rows = re.findall(r"^\| (\d+) \| (\w+) \| (.*) \| (.*) \|$", (top / "docs/FORMAT.md").read_text(), re.M)
    if len(rows) < 25:
        sys.exit("bundle.py: docs/FORMAT.md has no table of the rules")
    return {number: {"name": name, "rule": rule, "place": place} for number, name, rule, place in rows}


def examples():
    """A tile of GDAL, and the same with a bit flipped, so that a ring of its lake runs the wrong way round."""
    good = (top / "fixtures/tiles/gdal.mvt").read_bytes()
    broken = good[:382] + bytes([good[382] ^ 1]) + good[383:]
    return {name: base64.b64encode(tile).decode() for name, tile in (("good.mvt", good), ("broken.mvt", broken))}


def main():
    page = pathlib.Path(sys.argv[1]) if sys.argv[1:] else here / "mvt_tools" / "page" / "page.html"
    worker = f'"use strict";\n{script("worker.js")}'
    parts = {"rules": rules(), "examples": examples(), "worker": worker}
    data = json.dumps(parts).replace("<", "\\u003c")
    code = f"\n{script('main.js')}"
    mark = base64.b64encode(hashlib.sha256(code.encode()).digest()).decode()
    text = (source / "page.html").read_text()
    for place, content in {
        "/* STYLE */": (source / "style.css").read_text(),
        "SCRIPT-HASH": f"sha256-{mark}",
        "/* DATA */": data,
        "/* SCRIPT */": code,
    }.items():
        if text.count(place) != 1:
            sys.exit(f"bundle.py: page.html must have {place} once")
        text = text.replace(place, content)
    page.write_text(text)


main()
