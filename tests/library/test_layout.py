"""The rows of the Python module have the sizes and offsets that a compiler gives those of mvt.h.

The environment may name the compiler (CC)."""

import os
import subprocess
import tempfile
import unittest
from pathlib import Path

import libmvt

LIBRARY = Path(__file__).resolve().parents[2] / "library" / "c"
ROWS = {
    "span": libmvt.Span,
    "layer": libmvt.LayerRow,
    "feature": libmvt.FeatureRow,
    "value": libmvt.ValueRow,
    "part": libmvt.PartRow,
    "point": libmvt.PointRow,
}
LISTS = {
    "layers": "mvt_layer",
    "features": "mvt_feature",
    "keys": "mvt_span",
    "values": "mvt_value",
    "tags": "uint32_t",
    "parts": "mvt_part",
    "points": "mvt_point",
    "integers": "uint32_t",
    "texts": "uint8_t",
}


def compiled(expressions):
    """The numbers that a program in C gives for expressions."""
    lines = ["#include <mvt.h>", "#include <stdio.h>", "int main(void) {"]
    lines += ['    printf("%%zu\\n", (size_t)(%s));' % expression for expression in expressions]
    with tempfile.TemporaryDirectory() as folder:
        source, program = Path(folder, "layout.c"), Path(folder, "layout")
        source.write_text("\n".join([*lines, "    return 0;", "}", ""]))
        subprocess.run([os.environ.get("CC", "cc"), "-I", str(LIBRARY), str(source), "-o", str(program)], check=True)
        return [int(line) for line in subprocess.check_output([str(program)], text=True).split()]


def place(row, field):
    """The bytes of a row that a field sets: the first, and how many."""
    made = row()
    setattr(made, field, libmvt.Span(-1, -1) if isinstance(getattr(made, field), libmvt.Span) else -1)
    content = bytes(made)
    start = content.index(b"\xff")
    size = content.count(b"\xff")
    assert content == bytes(start) + b"\xff" * size + bytes(len(content) - start - size)
    return start, size


class Layout(unittest.TestCase):
    def test_sizes_and_offsets(self):
        wanted = {}
        for name, row in ROWS.items():
            wanted["sizeof(mvt_%s)" % name] = len(bytes(row()))
            for field, _ in row._fields_:
                offset, size = place(row, field)
                wanted["offsetof(mvt_%s, %s)" % (name, field)] = offset
                wanted["sizeof(((mvt_%s *)0)->%s)" % (name, field)] = size
        self.assertEqual(dict(zip(wanted, compiled(wanted))), wanted)

    def test_each_field_is_there(self):
        header = (LIBRARY / "mvt.h").read_text()
        for name, row in ROWS.items():
            body = header[: header.index("} mvt_%s;" % name)].rpartition("typedef struct {")[2]
            lines = [line.split("/*")[0].strip() for line in body.split("\n") if ";" in line]
            told = [field.strip() for line in lines for field in line.rstrip(";").split(" ", 1)[1].split(",")]
            self.assertEqual([field for field, _ in row._fields_], told)

    def test_lists(self):
        flat = libmvt.rows(b"")
        sizes = compiled(["sizeof(%s)" % row for row in LISTS.values()])
        self.assertEqual([memoryview(getattr(flat, name)).itemsize for name in LISTS], sizes)

    def test_rows_of_numpy(self):
        try:
            import numpy

            from libmvt import dtype
        except ImportError:
            self.skipTest("numpy isn't there")
        for name, of in LISTS.items():
            if of.startswith("uint"):
                self.assertEqual(dtype(name), numpy.dtype(of.removesuffix("_t")))
                continue
            row = ROWS[of[4:]]
            self.assertEqual(dtype(name).itemsize, len(bytes(row())))
            fields = {field: (at, kind.itemsize) for field, (kind, at, *_) in dtype(name).fields.items()}
            self.assertEqual(fields, {field: place(row, field) for field, _ in row._fields_})


if __name__ == "__main__":
    unittest.main()
