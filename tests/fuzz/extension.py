"""Bytes as calls of the Python module, for extension.cpp: of a builder, with keys, names, errors, numbers and lists that call it
back, and of what reads tiles. A call answers or raises what it may; a tile that is made is one."""

import sys
from importlib.machinery import BuiltinImporter
from types import SimpleNamespace


class Within:
    """Finds the extension in the program."""

    @staticmethod
    def find_spec(name, path=None, target=None):
        return BuiltinImporter.find_spec(name) if name == "libmvt._mvt" else None


sys.meta_path.insert(0, Within)

import libmvt  # noqa: E402
from libmvt import _mvt  # noqa: E402

RAISED = (libmvt.MvtError, TypeError, ValueError, OverflowError)
# So many calls are made of the bytes, and so many may lie within one another.
MOST, DEEPEST = 64, 3


class Error(TypeError):
    """An error that calls back when it is told."""

    def __init__(self, back):
        super().__init__()
        self.back = back

    def __str__(self):
        self.back()
        return "told"


class Key(str):
    """A text that calls back when it is told or ends."""

    back = staticmethod(lambda: None)

    def __repr__(self):
        self.back()
        return "a key"

    def __eq__(self, other):
        self.back()
        return str.__eq__(self, other)

    __hash__ = str.__hash__

    def __del__(self):
        self.back()


class Number:
    """What calls back to be a number, or raises."""

    def __init__(self, back, number):
        self.back, self.number = back, number

    def __index__(self):
        self.back()
        if self.number is None:
            raise Error(self.back)
        return self.number


class Huge(int):
    back = staticmethod(lambda: None)

    def __str__(self):
        self.back()
        return "huge"


class Run:
    """Calls of a builder, one after the other, as bytes say."""

    def __init__(self, data):
        self.bytes, self.builder, self.depth, self.left = iter(data), libmvt.Builder(), 0, min(len(data), MOST)

    def byte(self):
        return next(self.bytes, 0)

    def back(self):
        """A call within a call."""
        if self.depth < DEEPEST and self.left > 0:
            self.call()

    def called(self, made):
        made.back = self.back
        return made

    def text(self):
        kind = self.byte()
        text = ("", "a", "name", "\ud800", "é" * 40, "k" * 300)[kind % 6] + chr(97 + kind // 24)
        return self.called(Key(text)) if kind & 1 else text

    def number(self):
        kind, small = self.byte(), self.byte() - 128
        numbers = (small, small << 24, 1 << 31, 1 << 64, -(1 << 63), 10**400, None)
        number = numbers[kind % len(numbers)]
        if kind > 128 or number is None:
            return Number(self.back, number)
        return self.called(Huge(number)) if kind & 64 else number

    def value(self):
        kind = self.byte() % 8
        if kind < 2:
            return self.text()
        return (self.number(), True, 0.5, libmvt.Float(0.5), None, libmvt.Sint(-5))[kind - 2]

    def points(self):
        kind, count = self.byte(), self.byte() % 6

        def each():
            for number in range(count):
                if kind & 4:
                    self.back()
                yield (number * 7 % 5, number) if kind & 8 else (self.number(), self.number())

        return each() if kind & 1 else list(each()) if kind & 2 else tuple(each())

    def call(self):
        self.depth, self.left = self.depth + 1, self.left - 1
        try:
            self.one_of(self.byte() % 14)
        except RAISED:
            pass
        finally:
            self.depth -= 1

    def one_of(self, call):
        to = self.builder
        if call < 2:
            to.layer(self.text(), *([self.number()] if call else []))
        elif call < 5:
            to.feature(
                ("points", "lines", "polygons", "unknown", self.text())[self.byte() % 5],
                None if call < 4 else self.number(),
            )
        elif call < 7:
            to.tag(self.text(), self.value())
        elif call < 10:
            (to.points, to.line, lambda points: to.ring(points, bool(self.byte() & 1)))[call - 7](self.points())
        elif call == 10:
            (to.key if self.byte() & 1 else to.value)(self.text())
        elif call == 11:
            to.tag_at(self.number(), self.number())
        elif call == 12:
            to.foreign(self.number(), b"\x0a\x01b")
        else:
            self.end(self.byte() % 4)

    def end(self, how):
        if how == 0:
            libmvt.judge(self.builder.finish())
        elif how == 1:
            rows = self.builder.rows()
            assert len([rows.text(layer.name) for layer in rows.layers if layer.version == 2]) <= len(rows.layers)
        elif how == 2:
            self.builder.drop()
        else:
            self.builder.integers([self.number() for _ in range(self.byte() % 4)])


def written(run):
    """A tile of objects that call back while they are written."""
    features = [
        SimpleNamespace(
            id=run.number(), kind="lines", attributes={run.text(): run.value()}, geometry=[run.points(), run.points()]
        )
        for _ in range(run.byte() % 3)
    ]
    layer = SimpleNamespace(name=run.text(), extent=run.number(), features=features)
    try:
        libmvt.judge(libmvt.write(SimpleNamespace(layers=[layer])))
    except RAISED:
        pass


def read(data):
    """What reads tiles, of any bytes."""
    fault = None
    try:
        libmvt.judge(data)
    except libmvt.Refused as why:
        fault = (-1 if why.layer is None else why.layer, -1 if why.feature is None else why.feature, why.at, why.cause)
    _mvt.around_rows(data, fault or (0, 0, len(data), 20))
    for call in (
        _mvt.mend_rows,
        _mvt.looked_at,
        _mvt.lint_rows,
        _mvt.survey_rows,
        _mvt.measured,
        libmvt.rows,
        libmvt.read,
    ):
        try:
            call(data)
        except libmvt.Refused:
            assert fault is not None, call


def one(data):
    read(data)
    run = Run(data)
    while run.left > 0:
        run.call()
    try:
        libmvt.judge(run.builder.finish())
    except libmvt.NoTile:
        pass
    written(Run(data))
