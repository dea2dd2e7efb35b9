"""What `repr` says of tiles and of what is in them: all of it, or as much as a screen has room for."""

from dataclasses import fields
from typing import Any, Iterable, Iterator, List

# So many letters are shown.
MOST = 1000


class Brief:
    """A dataclass whose repr ends before it fills a screen."""

    def __repr__(self) -> str:
        return brief(pieces(self))


def brief(told: Iterable[str]) -> str:
    """The pieces in one text, whose end is left out where it is long."""
    shown: List[str] = []
    room = MOST
    for piece in told:
        shown.append(piece)
        room -= len(piece)
        if room < 0:
            return "".join(shown)[: MOST - 1] + "…"
    return "".join(shown)


def pieces(value: Any) -> Iterator[str]:
    """The repr of a value, piece by piece, so that of a large one no more is made than is shown."""
    kind: Any = type(value)
    if issubclass(kind, Brief):
        yield kind.__qualname__
        yield from _listed("(", (_named(f"{field.name}=", getattr(value, field.name)) for field in fields(kind)), ")")
    elif isinstance(value, dict):
        yield from _listed("{", (_named(f"{_cut(key)}: ", item) for key, item in value.items()), "}")
    elif isinstance(value, list):
        yield from _listed("[", map(pieces, value), "]")
    else:
        yield _cut(value)


def _named(name: str, value: Any) -> Iterator[str]:
    yield name
    yield from pieces(value)


def _listed(begin: str, items: Iterable[Iterable[str]], end: str) -> Iterator[str]:
    between = begin
    for item in items:
        yield between
        yield from item
        between = ", "
    yield end if between == ", " else begin + end


def _cut(value: Any) -> str:
    """The repr of a text, or of bytes, is that of their beginning where they are long."""
    return repr(value[: MOST + 1] if isinstance(value, (str, bytes)) else value)
