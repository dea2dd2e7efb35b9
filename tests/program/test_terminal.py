"""What a person at a terminal is told below the program's lines, the version, and a file in the place of a command.

Where standard error is a terminal one line more says what an input looks like that is no tile, or why it can't be read. The
output, the status and the other lines are the same as without a terminal.
"""

import gzip
import os
import pty
import re
import subprocess
import zlib
from pathlib import Path

import pytest

TOP = Path(__file__).resolve().parents[2]
GOOD = (TOP / "fixtures" / "tiles" / "point.mvt").read_bytes()
HTML = b"<!DOCTYPE html><title>502</title>"
LOOKS = {
    gzip.compress(GOOD, mtime=0): "it looks like gzip: gunzip -c {} | mvt check",
    zlib.compress(GOOD): "it looks like zlib: zlib-flate -uncompress < {} | mvt check",
    b"\x28\xb5\x2f\xfd" + GOOD: "it looks like zstd: zstd -dc {} | mvt check",
    b"SQLite format 3\0" + bytes(80): "it looks like MBTiles: mvt-tile {} Z/X/Y | mvt check",
    b"PMTiles\x03" + bytes(80): "it looks like PMTiles: mvt-tile {} Z/X/Y | mvt check",
    HTML: "it looks like HTML, as a server's page about an error",
    b"\x89PNG\r\n": "it looks like a PNG picture",
    b'{"type": 1}': "it looks like JSON",
    b"SQLite format 3\0" + b"CREATE TABLE tiles (tile_column)": "it looks like MBTiles: mvt-tile {} Z/X/Y | mvt check",
    b"\xff\xd8\xff\xe0": "it looks like a JPEG picture",
    b"GIF89a": "it looks like a GIF picture",
    b"RIFF\0\0\0\0WEBP": "it looks like a WebP picture",
    b"fgb\x03": "it looks like FlatGeobuf",
    b"\xfd7zXZ\0\0\4": "it looks like xz: xz -dc {} | mvt check",
    b"BZh9": "it looks like bzip2: bzip2 -dc {} | mvt check",
    b"PK\x03\x04": "it looks like a ZIP archive: unzip -p {} NAME | mvt check",
    b"%PDF-1.7": "it looks like a PDF document",
    b"\0\0\0\x0d\n\tOSMHeader": "it looks like OpenStreetMap data (PBF)",
    b"\xef\xbb\xbf<?xml": "it looks like XML, as a server's message about an error",
    b"404 page not found": "it looks like plain text, as a server's message about an error",
    b"\x1b\x6d\x07" + bytes(449): "it looks like brotli: brotli -dc {} | mvt check",
}


# Names of files, and the words of a shell that name them in a command that is pasted.
WORDS = {
    "town.mvt.gz": "town.mvt.gz",
    "my town.gz": "'my town.gz'",
    "it's.gz": "'it'\\''s.gz'",
    "$(touch gone).gz": "'$(touch gone).gz'",
    "a;b&c|d>e*?.gz": "'a;b&c|d>e*?.gz'",
    "stra\u00dfe.gz": "'stra\u00dfe.gz'",
    "-c.gz": "./-c.gz",
    "-it's.gz": "./'-it'\\''s.gz'",
    # A terminal would obey these.
    "\x1b[31m.gz": "FILE",
    "a\nb.gz": "FILE",
    "\u009b31m.gz": "FILE",
    "\u202ezg.gz": "FILE",
    "\x7f.gz": "FILE",
}


def said(program, words, stdin=b"", is_terminal=True, folder=None):
    """The status, the output, and the lines of errors, over a terminal or a pipe."""
    ours, theirs = pty.openpty() if is_terminal else os.pipe()
    done = subprocess.Popen(
        [program, *map(str, words)], stdin=subprocess.PIPE, stdout=subprocess.PIPE, stderr=theirs, cwd=folder
    )
    os.close(theirs)
    out, _ = done.communicate(stdin, timeout=60)
    lines = b""
    try:
        while piece := os.read(ours, 65536):
            lines += piece
    except OSError:  # a terminal that nobody writes to any more
        pass
    os.close(ours)
    return done.returncode, out, lines.decode().replace("\r\n", "\n").splitlines()


def adds(program, words, stdin, hint):
    """On a terminal there is one line more."""
    status, out, lines = said(program, words, stdin)
    assert (status, out, lines[:-1]) == said(program, words, stdin, False), (words, lines)
    assert lines[-1] == f"mvt: {hint}", lines


def adds_nothing(program, words, stdin=b""):
    assert said(program, words, stdin) == said(program, words, stdin, False), words


@pytest.mark.parametrize("content, hint", LOOKS.items(), ids=[hint.split(":")[0] for hint in LOOKS.values()])
def test_what_an_input_looks_like(mvt, tmp_path, content, hint):
    """For each command over standard input, and over files."""
    for words in (
        ["check"],
        ["explain"],
        ["lint"],
        ["show"],
        ["draw"],
        ["fields"],
        ["rewrite"],
        ["mend"],
        ["extract", "a"],
        [],
    ):
        adds(mvt, words, content, hint.format("FILE"))
    path = tmp_path / "file"
    path.write_bytes(content)
    for command in ("check", "explain", "lint"):
        adds(mvt, [command, path], b"", hint.format(path))


def test_the_first_odd_file_is_told(mvt, tmp_path):
    good, packed, page = tmp_path / "good", tmp_path / "packed", tmp_path / "page"
    for path, content in ((good, GOOD), (packed, gzip.compress(GOOD)), (page, HTML)):
        path.write_bytes(content)
    adds(mvt, ["check", good, packed, page, good, packed], b"", f"it looks like gzip: gunzip -c {packed} | mvt check")


@pytest.mark.parametrize("name, word", WORDS.items(), ids=[f"{name!a}" for name in WORDS])
def test_a_name_is_a_word_of_a_shell(mvt, tmp_path, name, word):
    """The command that is told can be pasted as it stands: it reads that file, and does nothing else."""
    (tmp_path / name).write_bytes(gzip.compress(GOOD))
    _, _, lines = said(mvt, ["check", "--", name], folder=tmp_path)
    hint = f"mvt: it looks like gzip: gunzip -c {word} | mvt check"
    assert lines[-1] == hint
    _, _, lines = said(mvt, ["check", "--", f"no {name}"], folder=tmp_path)
    assert lines[-1] == f"mvt: {'FILE' if word == 'FILE' else quoted(f'no {name}')}: there is no such file"
    if word != "FILE":
        commands = tmp_path / "commands"
        commands.mkdir()
        (commands / "mvt").symlink_to(Path(mvt).resolve())
        pasted = subprocess.run(
            ["sh", "-c", hint.removeprefix("mvt: it looks like gzip: ")],
            cwd=tmp_path,
            env={"PATH": f"{commands}:{os.environ['PATH']}"},
            capture_output=True,
            timeout=60,
        )
        assert pasted.returncode == 0 and pasted.stdout.startswith(b"ok "), pasted
        assert sorted(it.name for it in tmp_path.iterdir()) == sorted([name, "commands"])


def quoted(name):
    return "'" + name.replace("'", "'\\''") + "'"


def test_why_a_file_is_unread(mvt, tmp_path):
    absent, locked = tmp_path / "absent", tmp_path / "locked"
    locked.write_bytes(GOOD)
    locked.chmod(0)
    adds(mvt, ["check", absent], b"", f"{absent}: there is no such file")
    adds(mvt, ["lint", tmp_path, absent], b"", f"{tmp_path}: it is a folder: mvt-audit {tmp_path} --into audit")
    if os.geteuid() != 0:
        adds(mvt, ["explain", locked], b"", f"{locked}: no permission to read it")


@pytest.mark.parametrize(
    "words, stdin", [(["check"], GOOD), (["check"], b"\x1b"), (["chek"], b""), (["--version"], b"")]
)
def test_nothing_odd(mvt, words, stdin):
    adds_nothing(mvt, words, stdin)


@pytest.mark.parametrize("words", [["--version"], ["-V"], ["--version", "check", "/nowhere"]])
def test_the_version_is_that_of_the_library(run, words):
    version = re.search(r'^#define MVT_VERSION "(.*)"$', (TOP / "library" / "c" / "mvt.h").read_text(), re.M)[1]
    assert run(*words) == (0, f"mvt {version}\n".encode(), "")


def test_a_file_in_the_place_of_a_command(run):
    for words, meant in ((["a.mvt"], "a.mvt"), (["./a", "b"], "./a"), (["my town.mvt"], "'my town.mvt'")):
        status, output, errors = run(*words)
        assert (status, output) == (2, b"")
        assert errors.splitlines()[-1] == f"did you mean: mvt check {meant}"
    for word in ("chek", "--a.b", "-a/b"):
        status, output, errors = run(word)
        assert (status, output) == (2, b"") and "did you mean: mvt check" not in errors
