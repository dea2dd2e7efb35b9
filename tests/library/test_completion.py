"""Completion for each shell, the manual pages, and the desktop's entry."""

import os
import shutil
import sys
from pathlib import Path

import pytest
from room import TOP, made, needs, run

COMPLETION = TOP / "packaging" / "completion"
LINE = '. "$0/$1.bash"; COMP_WORDS=("$@"); COMP_CWORD=$(($# - 1)); "_${1//-/_}"; echo "${COMPREPLY[*]}"'
TOOLS = {**os.environ, "PYTHONPATH": f"{TOP}/library/python:{TOP}/tools"}


def completions():
    """The files of completion, those that are made of the commands' help among them."""

    def make(path):
        shutil.copytree(COMPLETION, path)
        run(sys.executable, TOP / "packaging/complete.py", path, env=TOOLS)

    return made("completions", make)


def complete(*words):
    """What the completion of bash offers for a line that ends with these words."""
    return run("bash", "--norc", "-c", LINE, completions(), *words, cwd=TOP).stdout.strip()


@pytest.mark.parametrize(
    "words, wanted",
    [
        (["mvt", ""], "check explain lint fields show draw rewrite mend extract help --version"),
        (["mvt", "r"], "rewrite"),
        (["mvt", "check", "README"], "README.md"),
        (["mvt", "explain", "README"], "README.md"),
        (["mvt", "show", "README"], ""),
        (["mvt-page", "--n"], "--no-browser"),
        (["mvt-page", "README"], "README.md"),
        (["mvt-page", "--port", ""], ""),
        (["mvt-page", "--z"], "--zooms"),
        (["mvt-page", "--zooms", ""], ""),
        (["mvt-audit", "--an"], "--anew"),
        (["mvt-audit", "README"], "README.md"),
        (["mvt-audit", "--into", "docs"], "docs"),
    ],
    ids=lambda it: "-".join(it) if isinstance(it, list) else "",
)
def test_line(words, wanted):
    assert complete(*words) == wanted


@pytest.mark.parametrize("command", ["mvt-audit", "mvt-geojson", "mvt-page", "mvt-tile"])
def test_all_options(command):
    """Each shell is offered each option that the command's help names."""
    told = run(sys.executable, "-m", command.replace("mvt-", "mvt_tools."), "--help", env=TOOLS).stdout
    options = {
        word for word in told.replace("[", " ").replace(",", " ").replace("]", " ").split() if word.startswith("--")
    }
    zsh, fish = (completions().joinpath(name).read_text() for name in (f"_{command}", f"{command}.fish"))
    missing = [
        it for it in options if it not in complete(command, it).split() or it not in zsh or f"-l {it[2:]}" not in fish
    ]
    assert options and not missing


@pytest.mark.parametrize(
    "shell, pattern",
    [pytest.param("zsh", "_*", marks=needs("zsh")), pytest.param("fish", "*.fish", marks=needs("fish"))],
)
def test_other_shells(shell, pattern):
    files = list(completions().glob(pattern))
    assert len(files) >= 5
    for file in files:
        run(shell, "-n", file)


@needs("desktop-file-validate")
def test_the_desktop_s_entry():
    run("desktop-file-validate", TOP / "packaging/desktop/mvt-page.desktop")


@needs("man", "pandoc")
def test_manual_pages(tmp_path):
    """A page and each of its lines are made for a terminal without a warning."""
    run(sys.executable, TOP / "packaging/manual.py", tmp_path, env=TOOLS)
    pages = [path for path in Path(tmp_path).iterdir() if path.suffix in (".1", ".3")]
    assert len(pages) >= 6
    assert not {page.name: told for page in pages if (told := run("man", "--warnings", "-l", page).stderr)}
