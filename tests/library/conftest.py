"""The Python module that is tested: that of the clone, with the extension of $BUILT, or that of $MVT_MODULE; and what its tests
import."""

import os
import sys

from pathlib import Path

from room import BUILT, MVT, TOP

MODULE = Path(os.environ.get("MVT_MODULE", TOP / "library" / "python"))
sys.path[:0] = [str(MODULE), str(TOP / "fixtures" / "tiles"), str(TOP / "tests" / "program")]
os.environ.update(PYTHONPATH=str(MODULE), MVT=str(MVT), BUILT=str(BUILT))
extension, content = MODULE / "libmvt" / "_mvt.abi3.so", (BUILT / "_mvt.abi3.so").read_bytes()
if "MVT_MODULE" not in os.environ and (not extension.exists() or extension.read_bytes() != content):
    new = extension.with_suffix(f".{os.getpid()}")
    new.write_bytes(content)
    new.chmod(0o755)
    new.replace(extension)
