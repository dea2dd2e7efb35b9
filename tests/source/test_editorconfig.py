"""What .editorconfig says of line ends and blanks, of all sources and documents."""

import subprocess
from pathlib import Path

TOP = Path(__file__).resolve().parents[2]
KINDS = {
    ".c",
    ".cpp",
    ".css",
    ".go",
    ".h",
    ".hpp",
    ".html",
    ".js",
    ".md",
    ".mjs",
    ".py",
    ".rs",
    ".rt",
    ".toml",
    ".yml",
    "",
}
# Where the bytes are somebody else's.
ELSEWHERE = ("evidence/", "fixtures/", "crates/mvt_cli/std", "LICENSE-")
TABS = (".go", "rules")


def wrong():
    files = subprocess.run(["git", "ls-files", "-z"], cwd=TOP, capture_output=True, text=True).stdout.split("\0")
    for name in filter(None, files):
        path = TOP / name
        if path.suffix not in KINDS or name.startswith(ELSEWHERE) or path.is_symlink() or not path.is_file():
            continue
        content = path.read_bytes()
        lines = content.split(b"\n")
        if b"\0" in content or not content:
            continue
        if lines[-1] or b"\r\n" in content or any(line.endswith((b" ", b"\t")) for line in lines):
            yield name
        if not name.endswith(TABS) and any(line.startswith(b"\t") for line in lines):
            yield name


def test_ends_and_blanks():
    assert not list(wrong())
