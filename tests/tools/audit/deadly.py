"""A store of which one part ends every process that reads it."""

import os

from mvt_tools.stores import Address, State, Store


class Deadly(Store):
    path = "/deadly"
    kind = "deadly"

    def state(self):
        return State(30, "always")

    def ranges(self, size):
        return iter(range(3))

    def tiles(self, part):
        if part == 1:
            os._exit(1)
        for x in range(10):
            yield Address(4, x, part), b""

    def tile(self, address):
        return b""
