"""The kinds of numbers that Python has one type for."""

import struct
from typing import Any, Optional, Tuple, Union


class Float(float):
    """A number of single precision. It equals the Python number of its value.

    `bits` is its pattern, which for a NaN says more than its value.
    """

    __slots__ = ("bits",)
    bits: int

    def __new__(cls, value: float = 0.0, bits: Optional[int] = None) -> "Float":
        if bits is None:
            [bits] = struct.unpack("<I", struct.pack("<f", value))
        made = super().__new__(cls, struct.unpack("<f", struct.pack("<I", bits))[0])
        made.bits = bits
        return made

    def __reduce_ex__(self, protocol: Any) -> Tuple[Any, ...]:
        return type(self), (0.0, self.bits)


class Int(int):
    """A signed number that was, or is to be, spelled as an int: below zero it takes ten bytes."""

    __slots__ = ()


class Uint(int):
    """A number that isn't negative, spelled as a uint."""

    __slots__ = ()


class Sint(int):
    """A signed number, spelled as a sint."""

    __slots__ = ()


# A text, a double and a truth are Python's own. A number of Python's own is written as a uint or, below zero, as a sint.
Value = Union[str, float, int, bool]
