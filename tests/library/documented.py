"""The examples in docs/LIBRARY.md, as programs.

Those that list read a tile from standard input; those that make one write it, or print what is in it; those that bound
their memory make JSON of one from standard input.
"""

from pathlib import Path

DOCUMENT = (Path(__file__).resolve().parents[2] / "docs" / "LIBRARY.md").read_text()
BUILD = "\n### A tile made step by step\n"
BOUND = "Texts that are much larger than their tile"
PROGRAMS = {
    "list.c": ("From C", "", "int main(void) { static uint8_t b[1 << 16]; list(b, fread(b, 1, sizeof b, stdin)); }"),
    "water.c": (
        "From C",
        "\n### One layer\n",
        "#include <stdio.h>\nint main(void) { static uint8_t b[1 << 16];"
        ' printf("%zu\\n", water(b, fread(b, 1, sizeof b, stdin))); }',
    ),
    "make.c": (
        "From C",
        BUILD,
        "#include <stdio.h>\nint main(void) { mvt_bytes t; mvt_rows_fault f; if (make(&t, &f) != MVT_OK) return 1;"
        " fwrite(t.data, 1, t.len, stdout); mvt_bytes_free(&t); return 0; }",
    ),
    "list.cpp": (
        "From C++",
        "",
        "#include <iterator>\nint main() { std::string s{std::istreambuf_iterator<char>(std::cin), {}};"
        " list(mvt::bytes_of(s)); }",
    ),
    "make.cpp": ("From C++", BUILD, "#include <iostream>\nint main() { std::cout << make().str(); }"),
    "bound.c": (
        BOUND,
        "and the process goes on.\n",
        "#include <stdio.h>\nint main(void) { static uint8_t b[1 << 20]; mvt_bytes t; mvt_fault f; bound();"
        ' puts(mvt_json(b, fread(b, 1, sizeof b, stdin), &t, &f) == MVT_NO_MEMORY ? "out of memory" : "made"); }',
    ),
    "bound.py": (BOUND, "In Python:\n", ""),
    "list.py": ("From Python", "", ""),
    "make.py": ("From Python", BUILD, ""),
    "list.rs": ("From Rust", "", ""),
    "list.go": ("From Go", "", ""),
}


def example(heading, below):
    """The first indented lines below a heading, and below one of its own."""
    section = DOCUMENT.split(f"\n## {heading}\n")[1].split("\n## ")[0]
    lines = (section.split(below)[1] if below else section).lstrip("\n").split("\n")
    end = next(at for at, line in enumerate(lines) if line and not line.startswith("    "))
    return "\n".join(line[4:] for line in lines[:end])


def program_of(name):
    heading, below, main = PROGRAMS[name]
    return example(heading, below).replace("town.mvt", "/dev/stdin") + "\n" + main + "\n"
