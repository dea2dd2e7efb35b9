"""The lists of a tile's rows as numpy arrays, and made of them. This file alone wants numpy."""

from typing import Any, Dict

import numpy

from ._mvt import Rows, rows

_LISTS = ("layers", "features", "keys", "values", "tags", "parts", "points", "integers", "texts")
_NONE: Rows = rows(b"")
_DTYPES = {name: numpy.asarray(memoryview(getattr(_NONE, name))).dtype for name in _LISTS}


def dtype(name: str) -> "numpy.dtype[Any]":
    """The type of the rows of a list, such as "points"."""
    return _DTYPES[name]


def array_over(name: str, rows: Any) -> "numpy.ndarray[Any, Any]":
    """An array over the memory of a list."""
    return numpy.ndarray(len(rows), _DTYPES[name], rows if len(rows) else None)


def contents_of(arrays: Dict[str, Any]) -> Dict[str, bytes]:
    """The bytes of each list, of arrays by the names of their lists."""
    unknown = ", ".join(sorted(set(arrays) - set(_LISTS)))
    if unknown:
        raise TypeError("a tile has no list of the name %s" % unknown)
    return {name: _content_of(name, arrays.get(name, ())) for name in _LISTS}


def _content_of(name: str, given: Any) -> bytes:
    """The bytes of a list that was given as an array, or as what numpy makes an array of."""
    if name == "texts" and isinstance(given, (bytes, bytearray, memoryview)):
        return bytes(given)
    wanted, array = _DTYPES[name], numpy.asarray(given)
    if array.size == 0:
        return b""
    made = numpy.zeros(len(array), wanted)
    if array.dtype.names is None and wanted.names is not None:
        _fill_columns(name, made, array)
    else:
        _fill(name, made, array)
    return made.tobytes()


def _fill_columns(name: str, made: Any, array: Any) -> None:
    """Rows of a number for each column, as x and y."""
    leaves = list(_leaves(made))
    if array.ndim != 2 or array.shape[1] != len(leaves):
        raise TypeError("%s are rows of %d numbers, and the array's shape is %r" % (name, len(leaves), array.shape))
    for leaf, column in zip(leaves, array.T):
        _fill(name, leaf, column)


def _leaves(rows: Any) -> Any:
    """The columns of numbers of rows, from the first to the last."""
    if rows.dtype.names is None:
        yield rows
    else:
        for field in rows.dtype.names:
            yield from _leaves(rows[field])


def _fill(name: str, made: Any, array: Any) -> None:
    """Copies numbers that are whole and have room, field by field."""
    if made.dtype.names is not None:
        if array.dtype.names is None or set(array.dtype.names) != set(made.dtype.names):
            raise TypeError("rows of %s have the fields %s" % (name, ", ".join(made.dtype.names)))
        for field in made.dtype.names:
            _fill(name, made[field], array[field])
        return
    if array.shape != made.shape or array.dtype.kind not in "iub":
        raise TypeError("%s are whole numbers, and the array has %s" % (name, array.dtype))
    limits = numpy.iinfo(made.dtype)
    if int(array.min()) < limits.min or int(array.max()) > limits.max:
        raise OverflowError("a number of %s is out of the range of %s" % (name, made.dtype))
    made[...] = array
