#!/usr/bin/env python3
"""Makes the manual pages of what the documents, mvt.h and the commands' help say: manual.py FOLDER [PAGE..]

Without a name it makes all. mvt.3 is made of mvt.h alone; the others want pandoc, and those of the commands in Python the
modules libmvt and mvt_tools."""

import os
import re
import subprocess
import sys
from pathlib import Path

TOP = Path(__file__).resolve().parents[1]
HEADER = (TOP / "library" / "c" / "mvt.h").read_text()
VERSION = re.search(r'^#define MVT_VERSION "(.*)"$', HEADER, re.M)[1]

# Of each page the document, the module whose help tells the options, and what it is in a line.
PAGES = {
    "mvt": ("PROGRAM", None, "check, explain, lint, show, draw, rewrite, mend and extract Mapbox Vector Tiles"),
    "mvt-audit": ("AUDIT", "mvt_tools.audit", "judge every tile of folders, archives and servers of vector tiles"),
    "mvt-geojson": ("GEOJSON", "mvt_tools.geojson", "write a vector tile as GeoJSON"),
    "mvt-page": ("PAGE", "mvt_tools.page", "look into vector tiles in the browser"),
    "mvt-tile": ("GEOJSON", "mvt_tools.tile", "take a vector tile out of a store"),
}

# What a line of a terminal has, less the margin.
WIDTH = 70

# In mvt.h a comment, and the declarations below it.
BLOCK = re.compile(r"\s*(?:/\*(.*?)\*/\n)?((?:(?!/\* [A-Z]|\s*/\*.*?\*/\n\w)[^\n]+\n(?:\n(?!/\*))?)*)", re.S)

# Sections for those who work on it.
LEFT_OUT = ("How it is built", "From Python", "What is proved and what is tested")


def _body(document):
    """A document without its title, pictures and links, its sections one level up."""
    text = (TOP / "docs" / f"{document}.md").read_text()
    for title in LEFT_OUT:
        text = re.sub(rf"^## {title}\n.*?(?=^## |\Z)", "", text, flags=re.M | re.S)
    text = re.sub(r"^# .*\n", "", text)
    text = re.sub(r"^!\[.*\n", "", text, flags=re.M)
    text = re.sub(r"\[([^]]*)\]\([^)]*\)", r"\1", text)
    return re.sub(r"^#(#+) ", r"\1 ", text, flags=re.M)


def _help(module):
    run = subprocess.run([sys.executable, "-m", module, "--help"], capture_output=True, text=True, check=True,
                         env={**os.environ, "COLUMNS": "78"})  # fmt: skip
    return "".join(f"    {line}\n" if line else "\n" for line in run.stdout.splitlines())


def _narrowed(page):
    """The page with tables that a terminal of 80 columns has room for."""

    def scaled(line):
        widths = [float(width) for width in re.findall(r"w\((.*?)n\)", line[0])]
        less = min(1, (WIDTH - 3 * len(widths)) / sum(widths))
        return re.sub(r"w\((.*?)n\)", lambda width: f"w({float(width[1]) * less:.1f}n)", line[0])

    # A terminal has one long page, on which a table's row is never cut.
    page = re.sub(r"^(\.TH .*\n)", r"\1.if n .pl 9999\n", page, count=1, flags=re.M)
    return re.sub(r"^l.*w\(.*$", scaled, page, flags=re.M)


def of_command(name):
    document, module, line = PAGES[name]
    parts = [f"# NAME\n\n{name} - {line}\n", "# DESCRIPTION\n", _body(document)]
    if module:
        parts.insert(1, f"# SYNOPSIS\n\n{_help(module)}")
    words = [
        "-V",
        f"title={name.upper()}",
        "-V",
        "section=1",
        "-V",
        f"footer=mvt {VERSION}",
        "-V",
        "header=User Commands",
    ]
    command = ["pandoc", "-s", "-f", "markdown-smart", "-t", "man", *words]
    return _narrowed(subprocess.run(command, input="\n".join(parts), capture_output=True, text=True, check=True).stdout)


def _escaped(text):
    text = text.replace("\\", "\\e").replace("-", "\\-")
    return re.sub(r"^([.'])", r"\\&\1", text, flags=re.M)


def _paragraph(comment):
    """A comment of C as running text, in which examples stay as they are."""
    lines = [re.sub(r"^ ?\* ?", "", line) for line in comment.strip().splitlines()]
    parts = re.split(r"((?:^    .*\n?)+)", "\n".join(lines), flags=re.M)
    told = ""
    for part in parts:
        if part.startswith("    "):
            told += f".RS\n.nf\n{_escaped(part.rstrip())}\n.fi\n.RE\n"
        elif part.strip():
            told += ".PP\n" + _escaped(re.sub(r"\n\n+", "\n.PP\n", part.strip())) + "\n"
    return told.replace("\n\\&.PP\n", "\n.PP\n")


def of_library():
    calls = re.findall(r"\b(mvt_\w+)\([^)]*\);", re.sub(r"/\*.*?\*/", "", HEADER, flags=re.S))
    head = re.search(r"/\* mvt: (.*?)\*/", HEADER, re.S)[1]
    lines = [f'.TH MVT 3 "" "mvt {VERSION}" "Library Functions"', ".SH NAME"]
    lines += [f"{', '.join(calls)} \\- read, judge and write Mapbox Vector Tiles"]
    lines += [
        ".SH SYNOPSIS",
        ".nf",
        "#include <mvt.h>",
        ".fi",
        ".PP",
        "Link with",
        '.BR "pkg\\-config \\-\\-cflags \\-\\-libs mvt" .',
        ".SH DESCRIPTION",
    ]
    lines += [_paragraph(head).rstrip(), ".SH CALLS AND STRUCTURES"]
    body = HEADER[HEADER.index("typedef enum {\n    MVT_OK") : HEADER.rindex("#ifdef __GNUC__")]
    for comment, code in BLOCK.findall(body):
        if code.strip():
            lines += [".PP", ".nf", _escaped(code.strip()), ".fi"]
        if comment.strip():
            lines += [".RS", _paragraph(comment).rstrip(), ".RE"]
    return "\n".join([*lines, ".SH SEE ALSO", ".BR mvt (1)", ""])


def main():
    folder, names = Path(sys.argv[1]), sys.argv[2:] or ["mvt.3", *(f"{name}.1" for name in PAGES)]
    folder.mkdir(parents=True, exist_ok=True)
    for name in names:
        text = of_library() if name == "mvt.3" else of_command(name.removesuffix(".1"))
        (folder / name).write_text(text)


main()
