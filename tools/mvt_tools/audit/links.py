"""Links of a store of files that lead out of it: what lies there needn't be for those who read the report or the copy."""

import os

from ..stores import Address, Store


def leads_out(store: Store, address: Address) -> bool:
    """Whether a tile of a folder or a list is a link to a file elsewhere."""
    if store.kind not in ("folder", "list"):
        return False
    folder = store.path if store.kind == "folder" else os.path.dirname(store.path)
    return (store.kind == "folder" or os.path.islink(os.path.join(folder, str(address)))) and is_out(
        folder, str(address)
    )


def is_out(folder: str, name: str) -> bool:
    """Whether a file of a folder is a link to one elsewhere."""
    inner = os.path.realpath(folder)
    return os.path.commonpath([os.path.realpath(os.path.join(inner, name)), inner]) != inner
