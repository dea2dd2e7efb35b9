#!/usr/bin/env python3
"""The links of PROVED.md to contracts: contracts.py [--write]

A link reads [`NAME`](../crates/CRATE/src/FILE#LN) and leads to the line where NAME is declared in that crate; FILE::NAME,
as laws are linked, stands in its src/FILE.rt. Without --write the links that lead elsewhere are listed, and the status is 1
where there is one; with it they are mended, and [`NAME`](CRATE) becomes such a link."""

import re
import sys
from pathlib import Path

TOP = Path(__file__).resolve().parents[1]
DOCUMENT = TOP / "docs" / "PROVED.md"
LINK = re.compile(r"\[`(?P<name>[\w:]+)`\]\((?P<target>(?:\.\./crates/)?(?P<crate>mvt_\w+)[^)]*)\)")
DECLARED = r"^\s*pub (?:extern \"C\" )?(?:fn|struct|trait|enum|type) {}\b"


def declared(name, crate):
    """The link to the one line where a crate declares a name."""
    file, _, item = name.rpartition("::")
    folder = TOP / "crates" / crate / "src"
    pattern = re.compile(DECLARED.format(item))
    found = [
        (path, number)
        for path in sorted(folder.rglob("*.rt"))
        if (path.stem == file if file else path.name != "laws.rt")
        for number, line in enumerate(path.read_text().split("\n"), 1)
        if pattern.match(line)
    ]
    if len(found) != 1:
        sys.exit(f"contracts.py: {crate} declares {name} {len(found)} times")
    path, number = found[0]
    return f"../{path.relative_to(TOP)}#L{number}"


def main():
    text = DOCUMENT.read_text()
    wrong = []

    def mended(link):
        wanted = declared(link["name"], link["crate"])
        if link["target"] != wanted:
            wrong.append(f"{link['name']}: {link['target']} -> {wanted}")
        return f"[`{link['name']}`]({wanted})"

    new = LINK.sub(mended, text)
    if sys.argv[1:] == ["--write"]:
        DOCUMENT.write_text(new)
        return
    print("\n".join(wrong) or f"contracts: {len(LINK.findall(text))} links lead to their lines")
    sys.exit(1 if wrong else 0)


if __name__ == "__main__":
    main()
