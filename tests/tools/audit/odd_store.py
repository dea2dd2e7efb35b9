"""A kind of store that raises what it is asked for: `raise:CALL:ERROR`, such as `raise:state:MemoryError`."""

import builtins
import sqlite3

from mvt_tools.stores import Address, State, Store


def opened(path, options):
    return Odd(*path.split(":")[1:]) if path.startswith("raise:") else None


class Odd(Store):
    kind = "odd"

    def __init__(self, call, error):
        self.path, self.call, self.error = f"raise:{call}:{error}", call, error
        self.fail("opened")

    def fail(self, call):
        if call == self.call:
            raise getattr(builtins, self.error, None or sqlite3.Error)("it was\x1b[2J asked for")

    def state(self):
        self.fail("state")
        return State(1, "always")

    def ranges(self, size):
        self.fail("ranges")
        return iter([0])

    def tiles(self, part):
        self.fail("tiles")
        # a varint that doesn't end
        yield Address(0, 0, 0), b"\xff"

    def tile(self, address):
        self.fail("tile")
        return b"\xff"
