#!/usr/bin/env python3
"""Says the structures, numbers and calls of mvt.h in Rust and for the linker, its rows in JavaScript, and names for its
numbers in JavaScript, Python and Go: layout.py [--check]

Writes the files of the repository that say them (FILES). With --check it writes nothing, names those that aren't what the
header says, and ends with 1 where there is one."""

import re
import sys
from pathlib import Path

HERE = Path(__file__).resolve().parent

# What rustfmt puts into a line at most.
WIDTH = 100

RUST_NUMBERS = {
    "uint8_t": "u8", "uint32_t": "u32", "uint64_t": "u64", "int32_t": "i32", "int64_t": "i64", "size_t": "usize",
    "int": "c_int", "float": "f32", "double": "f64", "char": "c_char", "void": "c_void",
}  # fmt: skip


# The enums whose numbers users of the crate libmvt see too, in a module each.
RUST_MODULES = {
    "mvt_cause": "The causes of an `mvt_fault`.",
    "mvt_rows_cause": "The causes of an `mvt_rows_fault`.",
    "mvt_role": "What an integer of a geometry is, in an `mvt_step`.",
    "mvt_lookalike": "What bytes look like that are no tile.",
}

SIZES = {"uint8_t": 1, "uint32_t": 4, "int32_t": 4, "uint64_t": 8, "int64_t": 8, "size_t": 8, "float": 4, "double": 8}


class Header:
    """What mvt.h declares, in its order.

    `version` is that of the header, `limit` is MVT_LIMIT and `head` MVT_HEAD. `enums` has the names and numbers of each enum by its name;
    `structures` the fields of each structure, `calls` the parameters and the answer of each call. A field or a parameter is
    its name, its type and how it points: "const", "mut" or None."""

    def __init__(self, text):
        self.version = re.search(r'^#define MVT_VERSION "(.*)"$', text, re.M)[1]
        text = re.sub(r"/\*.*?\*/", "", text, flags=re.S)
        self.limit, self.head = (
            int(re.search(rf"^#define MVT_{name} (\d+)$", text, re.M)[1]) for name in ("LIMIT", "HEAD")
        )
        text = re.sub(r"^#.*$", "", text, flags=re.M).replace('extern "C" {', "")
        self.enums = {
            name: re.findall(r"(\w+) = (\d+)", names)
            for names, name in re.findall(r"typedef enum \{(.*?)\} (\w+);", text, re.S)
        }
        self.structures = {
            name: [field for line in fields.split(";") for field in _named(line)]
            for fields, name in re.findall(r"typedef struct \{(.*?)\} (\w+);", text, re.S)
        }
        found = re.findall(r"^((?:const )?\w+) (\*?)(mvt_\w+)\(([^)]*)\);", text, re.M)
        self.calls = {
            name: (_parameters(words), _named(f"{answer} {star}answer")[0]) for answer, star, name, words in found
        }


def _named(line):
    """`const mvt_layer *layers` or `uint64_t start, len`: each name with its type and how it points."""
    if not line.strip():
        return []
    const, kind, names = re.fullmatch(r"\s*(const )?(\w+)\s(.*?)\s*", line, re.S).groups()
    told = (name.strip() for name in names.split(","))
    return [(name.lstrip("*"), kind, ("const" if const else "mut") if "*" in name else None) for name in told]


def _parameters(words):
    return [] if words == "void" else [_named(word)[0] for word in words.split(",")]


def camel(name):
    return "".join(part.capitalize() for part in name.removeprefix("mvt_").split("_"))


def named(header, enum):
    """The names as the program prints them, as `ZeroSegment`, with their numbers."""
    return [(camel(name.removeprefix(f"{enum.upper()}_")), int(number)) for name, number in header.enums[enum]]


def _rust_type(header, kind, pointer):
    said = RUST_NUMBERS.get(kind) or ("u32" if kind in header.enums else camel(kind))
    return f"*{pointer} {said}" if pointer else said


def _rust_call(header, name, parameters, answer):
    """A call as rustfmt lays it out."""
    said = [f"{word}: {_rust_type(header, kind, pointer)}" for word, kind, pointer in parameters]
    gives = "" if answer[1:] == ("void", None) else f" -> {_rust_type(header, *answer[1:])}"
    line = f"    pub fn {name}({', '.join(said)}){gives};"
    if len(line) < WIDTH:
        return [line]
    if gives and len(line) == WIDTH:
        return [line.removesuffix(f"{gives};"), f"       {gives};"]
    return [f"    pub fn {name}(", *(f"        {word}," for word in said), f"    ){gives};"]


def rust(header):
    lines = ["//! What `mvt.h` declares, made of it by `library/layout.py`.", ""]
    lines += ["use std::os::raw::{c_char, c_int, c_void};", ""]
    lines += ["/// A tile has at most so many bytes.", f"pub const LIMIT: usize = {header.limit:_};", ""]
    lines += [
        "/// So many of its first bytes tell what an input looks like that is no tile.",
        f"pub const HEAD: usize = {header.head:_};",
        "",
    ]
    for enum, names in header.enums.items():
        if enum in RUST_MODULES:
            lines += [f"/// {RUST_MODULES[enum]}", f"pub mod {enum.removeprefix('mvt_')} {{"]
            lines += [
                f"    pub const {name.removeprefix(f'{enum.upper()}_')}: u32 = {number};" for name, number in names
            ]
            lines += ["}", ""]
            continue
        lines += [f"pub const {name.removeprefix('MVT_')}: u32 = {number};" for name, number in names]
        lines.append("")
    for name, fields in header.structures.items():
        lines += ["#[repr(C)]", "#[derive(Clone, Copy, Debug, PartialEq, Eq)]", f"pub struct {camel(name)} {{"]
        lines += [f"    pub {field}: {_rust_type(header, kind, pointer)}," for field, kind, pointer in fields]
        lines += ["}", ""]
    lines.append('extern "C" {')
    for name, (parameters, answer) in header.calls.items():
        lines += _rust_call(header, name, parameters, answer)
    return "\n".join([*lines, "}", ""])


# What has a name that is told: the causes of faults, notes, findings, changes, and what bytes look like.
TOLD = ("mvt_cause", "mvt_note", "mvt_finding", "mvt_change", "mvt_lookalike")

# The numbers that the page names, and the rows that it reads. Its words have 32 bits.
PAGE_ENUMS = ("mvt_status", "mvt_kind", "mvt_value_kind")
PAGE_ROWS = ("mvt_note_row", "mvt_finding_row")
WORD = 4


def _placed(header, kind, pointer=None):
    """How many bytes a type has, what its place is a multiple of, and the place of each field of a structure."""
    if pointer or kind not in header.structures:
        size = 8 if pointer else SIZES[kind]
        return size, size, {}
    end, most, places = 0, 1, {}
    for name, of, points in header.structures[kind]:
        size, multiple, _ = _placed(header, of, points)
        places[name] = -(-end // multiple) * multiple
        end, most = places[name] + size, max(most, multiple)
    return -(-end // most) * most, most, places


def _object(name, numbers):
    return f"export const {name} = {{ {', '.join(f'{word}: {number}' for word, number in numbers.items())} }};"


def _words(size):
    assert size % WORD == 0
    return size // WORD


def javascript(header):
    lists = {name: kind for name, kind, pointer in header.structures["mvt_tile"] if pointer}
    lines = ["// What `mvt.h` says of numbers and rows, made of it by `library/layout.py`.", ""]
    lines += ["/** A tile has at most so many bytes. Of a longer input the library reads no more. */"]
    lines += [f"export const LIMIT = {header.limit};", ""]
    for enum in PAGE_ENUMS:
        numbers = {name.removeprefix("MVT_"): number for name, number in header.enums[enum]}
        lines.append(_object(enum.removeprefix("mvt_").upper(), numbers))
    lines += [
        "",
        "/** The numbers of causes, notes, findings and changes, by the names that the program prints, and of what bytes look like. */",
    ]
    lines += [_object(enum.removeprefix("mvt_").upper(), dict(named(header, enum))) for enum in TOLD]
    lines += ["", "/** The lists of a tile in their order, with the bytes of a row. */"]
    lines += [_object("ROW_SIZES", {name: _placed(header, kind)[0] for name, kind in lists.items()}), ""]
    lines += ["/** Of each structure the words of 32 bits that it has, and the word at which each field begins. */"]
    for kind in header.structures:
        if kind in lists.values() or kind in PAGE_ROWS:
            size, _, places = _placed(header, kind)
            words = {"words": _words(size), **{name: _words(place) for name, place in places.items()}}
            lines.append(_object(f"{kind.removeprefix('mvt_').removesuffix('_row').upper()}_ROW", words))
    return "\n".join([*lines, ""])


def python(header):
    lines = ['"""The numbers of `mvt.h` and their names, made of it by `library/layout.py`."""', ""]
    lines += ["# A tile has at most so many bytes.", f"LIMIT = {header.limit}"]
    for enum in TOLD:
        names = [f'    {number}: "{name}",' for name, number in named(header, enum)]
        kind = enum.removeprefix("mvt_")
        lines += ["", f"# What each {kind} is called, by its number.", f"{kind.upper()}S = {{", *names, "}"]
    return "\n".join([*lines, ""])


def go(header):
    lines = [
        "// Code generated by library/layout.py from mvt.h. DO NOT EDIT.",
        "",
        "//go:build cgo",
        "",
        "package libmvt",
        "",
    ]
    lines += ["// Limit is how many bytes a tile has at most.", f"const Limit = {header.limit}"]
    kinds = {
        "mvt_cause": "uint32",
        "mvt_note": "NoteKind",
        "mvt_finding": "FindingKind",
        "mvt_change": "ChangeKind",
        "mvt_role": "Role",
        "mvt_lookalike": "Lookalike",
    }
    for enum, of in kinds.items():
        kind, names = camel(enum), named(header, enum)
        width = max(len(name) for name, _ in names)
        lines += ["", f"// The {kind.lower()}s.", "const ("]
        lines += [f"\t{kind}{name:<{width}} {of} = {number}" for name, number in names]
        lines.append(")")
        if of not in ("uint32", "Role"):
            lines += ["", f"var {kind.lower()}Names = map[{of}]string{{"]
            lines += [f"\t{kind}{name}:{' ' * (width - len(name))} \"{name}\"," for name, _ in names]
            lines.append("}")
    return "\n".join([*lines, ""])


def _series(header):
    """The versions that can stand for each other: until 1.0 those with one minor number."""
    return header.version.rpartition(".")[0]


def exports(header):
    lines = ["/* What mvt.h declares, name by name, made of it by library/layout.py. */"]
    lines += [f"LIBMVT_{_series(header)} {{", "    global:"]
    return "\n".join(
        [*lines, *(f"        {name};" for name in sorted(header.calls)), "    local:", "        *;", "};", ""]
    )


def _c_type(kind, pointer):
    return kind if pointer is None else f"{'const ' if pointer == 'const' else ''}{kind} *"


def told(header):
    """What the header says of the ABI, in the lines of library/c/abi-*.txt."""
    for names in header.enums.values():
        yield from (f"number {name} {number}" for name, number in names)
    for kind, fields in header.structures.items():
        size, _, places = _placed(header, kind)
        yield f"structure {kind} {size}"
        yield from (f"field {kind} {places[name]} {name} {_c_type(of, pointer)}" for name, of, pointer in fields)
    for name, (parameters, answer) in header.calls.items():
        given = ", ".join(_c_type(*parameter[1:]) for parameter in parameters) or "void"
        yield f"call {name} {_c_type(*answer[1:])} ({given})"


def listed(header):
    """The lines of library/c/abi-*.txt, which are written by hand, of the versions that can stand for each other."""
    text = (HERE / f"c/abi-{_series(header)}.txt").read_text()
    return [line for line in text.splitlines() if line and not line.startswith("#")]


def _in_c(line):
    """A line of that list, as the compiler holds it against mvt.h."""
    kind, name, rest = line.split(" ", 2)
    if kind == "number":
        return f'static_assert({name} == {rest}, "{name}");'
    if kind == "structure":
        return f'\nstatic_assert(sizeof({name}) == {rest}, "{name}");'
    if kind == "field":
        place, field, of = rest.split(" ", 2)
        of_that = f"_Generic((({name} *)0)->{field}, {of}: 1, default: 0)"
        return f'static_assert(offsetof({name}, {field}) == {place} && {of_that}, "{name}: {field}");'
    answer, given = re.fullmatch(r"(.*?) (\(.*\))", rest).groups()
    return f"{answer}{'' if answer.endswith('*') else ' '}(*const call_{name}){given} = {name};"


def abi(header):
    series = _series(header)
    lines = [
        f"/* What callers of libmvt {series} were compiled with: library/c/abi-{series}.txt, as library/layout.py says it in C. */"
    ]
    lines += ["#include <mvt.h>", "", "#include <assert.h>", ""]
    lines += [*map(_in_c, listed(header)), "", "int main(void) { return 0; }", ""]
    return "\n".join(lines)


FILES = {
    "rust/libmvt-sys/src/lib.rs": rust,
    "../tools/mvt_tools/page/src/layout.js": javascript,
    "python/libmvt/_numbers.py": python,
    "go/numbers.go": go,
    "c/exports.map": exports,
    "../tests/library/abi.c": abi,
}


def main():
    if sys.argv[1:] not in ([], ["--check"]):
        sys.exit(__doc__.splitlines()[0])
    header, differ = Header((HERE / "c" / "mvt.h").read_text()), False
    for name, say in FILES.items():
        said, file = say(header), HERE / name
        if not sys.argv[1:]:
            file.write_text(said)
        elif not file.exists() or said != file.read_text():
            print(f"{file.resolve().relative_to(HERE.parent)} isn't what mvt.h says: library/layout.py makes it anew")
            differ = True
    sys.exit(differ)


if __name__ == "__main__":
    main()
