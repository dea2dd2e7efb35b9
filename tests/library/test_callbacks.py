"""What is given to the module may be of any class, and call the module while that looks at it: keys, names and errors that
tell themselves, numbers, kinds, lists and mappings. A call does what it says or raises what it may. test_python.py also runs
this with the extension under AddressSanitizer."""

import itertools
import unittest

import libmvt

RAISED = (libmvt.MvtError, TypeError, ValueError, OverflowError)


def fresh(text):
    """A text that nobody else holds."""
    return "".join(list(text))


# What is done with the builder meanwhile: its layer ends, and what it held of it may be given back.
MEANWHILE = {
    "another layer": lambda builder: builder.layer(fresh("another")),
    "many layers": lambda builder: [builder.layer(fresh(f"another {number}")) for number in range(99)],
    "another feature": lambda builder: builder.layer(fresh("another")).feature("polygons"),
    "many keys": lambda builder: [builder.key(f"{number}" * 99) for number in range(999)],
    "foreign": lambda builder: builder.foreign(1, b"\x0a\x01b"),
    "rows": lambda builder: builder.rows(),
    "finish": lambda builder: builder.finish(),
    "drop": lambda builder: builder.drop(),
    "nothing": lambda builder: None,
}


class Given:
    """Things whose methods call back."""

    def __init__(self, back):
        class Error(TypeError):
            def __str__(self):
                back()
                return "told"

        class Key(str):
            def __repr__(self):
                back()
                return "a key"

        class Name(str):
            def __del__(self):
                back()

        class Raises:
            def __index__(self):
                back()
                raise Error

        class Five:
            def __index__(self):
                back()
                return 5

        class Kind(str):
            def __eq__(self, other):
                back()
                return False

            __hash__ = str.__hash__

        class Huge(int):
            def __str__(self):
                back()
                return "huge"

        def points(last):
            for _ in range(3):
                back()
                yield (1, 1)
            yield last

        self.bad_key, self.key, self.name = Key("\ud800"), Key("k"), Name
        self.kind, self.points = Kind("points"), points
        self.numbers = Raises(), Five(), Huge(1 << 70), Huge(-(1 << 70))


def calls(given):
    """Calls with what is given, each of a builder in whose layer a feature of points is begun."""
    yield lambda builder: builder.layer(given.bad_key)
    yield lambda builder: builder.key(given.bad_key)
    yield lambda builder: builder.tag(given.bad_key, 1)
    yield lambda builder: builder.tag(given.bad_key, fresh("a text"))
    yield lambda builder: builder.feature(given.kind)
    yield lambda builder: builder.points(given.points((2, 2)))
    yield lambda builder: builder.points(given.points((2, 1 << 40)))
    yield lambda builder: builder.rows()
    yield lambda builder: builder.layer(given.name("ends")).feature("points").point(1, 1).layer("next")
    yield lambda builder: builder.layer(given.name("ends")).feature("points").point(1, 1).rows()
    yield lambda builder: builder.layer(given.name("ends")).feature("points").point(1, 1).finish()
    for number in given.numbers:
        yield lambda builder, number=number: builder.layer("a", extent=number)
        yield lambda builder, number=number: builder.foreign(number, b"")
        yield lambda builder, number=number: builder.value(number)
        yield lambda builder, number=number: builder.feature("points", id=number)
        yield lambda builder, number=number: builder.tag(given.key, number)
        yield lambda builder, number=number: builder.tag_at(number, number)
        yield lambda builder, number=number: builder.point(number, 1)
        yield lambda builder, number=number: builder.points([(1, number), (number, 1)])


COUNT = len(list(calls(Given(None))))


class Called(unittest.TestCase):
    def made(self, meanwhile):
        """A builder, and things that do something with it once."""
        builder, left = libmvt.Builder(), []

        def back():
            if left:
                try:
                    MEANWHILE[left.pop()](builder)
                except RAISED:
                    pass

        given = Given(back)
        builder.layer(fresh("a layer")).feature("points").tag("k", 1).point(1, 1)
        left.append(meanwhile)
        return builder, given

    def test_meanwhile(self):
        for meanwhile, number in itertools.product(MEANWHILE, range(COUNT)):
            with self.subTest(meanwhile=meanwhile, call=number):
                builder, given = self.made(meanwhile)
                call = next(itertools.islice(calls(given), number, None))
                try:
                    call(builder)
                except RAISED:
                    pass
                try:
                    builder.finish()
                except libmvt.NoTile:
                    pass
                builder.layer("a").feature("points").point(25, 17)
                self.assertEqual(libmvt.read(builder.finish())["a"].features[0].geometry, [(25, 17)])

    def test_what_is_raised_names_the_layer_in_which_it_was(self):
        builder, given = self.made("another layer")
        with self.assertRaisesRegex(libmvt.NoTile, "^layer 'a layer', feature 0, key a key: a text isn't UTF-8$"):
            builder.tag(given.bad_key, 1)

    def test_a_layer_that_has_ended(self):
        builder, given = self.made("finish")
        with self.assertRaisesRegex(libmvt.MvtError, "^begin a layer first$"):
            builder.value(given.numbers[0])

    def test_rows_are_those_before_the_name_ends(self):
        builder, given = self.made("many layers")
        builder.layer(given.name("ends")).feature("points", id=7).point(3, 4)
        rows = builder.rows()
        self.assertEqual([rows.text(layer.name) for layer in rows.layers], ["a layer", "ends"])
        self.assertEqual([(point.x, point.y) for point in rows.points], [(1, 1), (3, 4)])


class Written(unittest.TestCase):
    """Objects whose lists are emptied while they are written."""

    def tile(self, **changed):
        features = [
            libmvt.Feature(number, {"a": 1, "b": 2}, "lines", [[(0, 0), (1, 1)], [(2, 2), (3, 3)]])
            for number in range(4)
        ]
        for name, value in changed.items():
            setattr(features[0], name, value)
        return libmvt.Tile([libmvt.Layer("a", 4096, features), libmvt.Layer("b", 4096, [])])

    def test_lists_that_are_emptied(self):
        class Empties:
            def __index__(self):
                for items in (tile.layers, tile.layers and tile.layers[0].features, line, lines, attributes):
                    items.clear() if items else None
                return 5

        attributes = {"a": Empties(), **{f"k{number}": number for number in range(50)}}
        line = [(Empties(), 1), *((number, number) for number in range(2, 50))]
        lines = [line, [(0, 0), (1, 1)]]
        for changed in ({"id": Empties()}, {"attributes": attributes}, {"geometry": lines}):
            tile = self.tile(**changed)
            try:
                libmvt.write(tile)
            except (*RAISED, IndexError):
                pass

    def test_attributes_of_any_class(self):
        class Several:
            def __init__(self, *items):
                self.given = items

            def keys(self):
                return [key for key, _ in self.given]

            def items(self):
                return iter(self.given)

            def __getitem__(self, key):
                return dict(self.given)[key]

        tile = self.tile(attributes=Several(("x", 1), ("y", "z")))
        self.assertEqual(libmvt.read(libmvt.write(tile))["a"].features[0].attributes, {"x": 1, "y": "z"})
        for items in ([5], [("x",)], [("x", 1, 2)], [(5, 1)], [("x", None)]):
            with self.assertRaises(RAISED):
                libmvt.write(self.tile(attributes=Several(*items)))


class Numbers(unittest.TestCase):
    def test_thousands_of_digits_are_out_of_range(self):
        """Python spells none of more than 4,300 digits."""
        number = 10**5000
        builder = libmvt.Builder().layer("a").feature("points")
        for call in (
            lambda: builder.point(number, 1),
            lambda: builder.feature("points", id=number),
            lambda: builder.tag("k", number),
            lambda: builder.tag("k", -number),
            lambda: builder.tag("k", libmvt.Int(number)),
            lambda: builder.layer("a", extent=number),
            lambda: libmvt.write(libmvt.Tile([libmvt.Layer("a", number, [])])),
        ):
            with self.assertRaises(libmvt.OutOfRange):
                call()


if __name__ == "__main__":
    unittest.main()
