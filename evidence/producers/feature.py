"""The features of a tile, as their integers, whatever is wrong with their geometry."""
import dataclasses
import pathlib
import sys

sys.path.insert(0, str(pathlib.Path(__file__).resolve().parents[2] / "tests/program"))
from wire import field, packed


def varint(data, at):
    number = shift = 0
    while True:
        byte = data[at]
        at += 1
        number |= (byte & 127) << shift
        shift += 7
        if byte < 128:
            return number, at


def fields(data):
    """The fields of a message: number, and a number or bytes."""
    at = 0
    while at < len(data):
        tag, at = varint(data, at)
        if tag & 7 == 0:
            value, at = varint(data, at)
        else:
            length, at = (8, at) if tag & 7 == 1 else (4, at) if tag & 7 == 5 else varint(data, at)
            value, at = data[at : at + length], at + length
        yield tag >> 3, value


def unzigzag(number):
    return (number >> 1) ^ -(number & 1)


def ring_area(ring):
    """Twice the ring's area, by the surveyor's formula; above 0 for an outer ring, as y grows downwards."""
    return sum(x * v - u * y for (x, y), (u, v) in zip(ring, ring[1:] + ring[:1]))


@dataclasses.dataclass
class Feature:
    where: tuple  # the layer's index, and the feature's in it
    layer: str
    extent: int
    type: int
    integers: list

    def tile(self):
        """A tile of this feature alone, without attributes."""
        feature = field(3, self.type) + field(4, packed(self.integers))
        return field(3, field(15, 2) + field(1, self.layer.encode()) + field(2, feature) + field(5, self.extent))

    def steps(self):
        """For each pair and each command without pairs: the index of the integer, the command, and the position behind it."""
        x = y = at = 0
        while at < len(self.integers):
            command, count = self.integers[at] & 7, self.integers[at] >> 3
            at += 1
            if command == 7:
                yield at - 1, command, (x, y)
                continue
            for _ in range(count):
                x += unzigzag(self.integers[at])
                y += unzigzag(self.integers[at + 1])
                yield at, command, (x, y)
                at += 2

    def paths(self):
        """The rings or lines, each a list of positions."""
        paths = []
        for _, command, position in self.steps():
            if command == 1:
                paths.append([])
            if command != 7:
                paths[-1].append(position)
        return paths

    def first_ring(self):
        return self.paths()[0]

    def position_at(self, index):
        return next(position for at, _, position in self.steps() if at == index)


def numbers_of(body):
    at, numbers = 0, []
    while at < len(body):
        number, at = varint(body, at)
        numbers.append(number)
    return numbers


def features_of(tile):
    """All features of a tile."""
    for index, (_, layer) in enumerate(item for item in fields(tile) if item[0] == 3):
        items = list(fields(layer))
        of = dict(items)
        bodies = [body for number, body in items if number == 2]
        for place, body in enumerate(bodies):
            feature = dict(fields(body))
            yield Feature(
                (index, place), of[1].decode(), of.get(5, 4096), feature.get(3, 0), numbers_of(feature.get(4, b""))
            )
