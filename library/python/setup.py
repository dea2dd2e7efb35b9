"""The extension, in which libmvt.a is where MVT_LIB_DIR names its folder; else it finds the libmvt that is installed."""

import os
import subprocess
import sys
from glob import glob

from setuptools import Extension, setup
from setuptools.command.build_ext import build_ext

FOLDER = os.environ.get("MVT_LIB_DIR")
NAMED = {"extra_objects": [f"{FOLDER}/libmvt.a"], "include_dirs": [FOLDER, f"{FOLDER}/../include"]}
WANTED = "MVT_LIB_DIR=FOLDER names the folder of libmvt.a and mvt.h"


class Build(build_ext):
    """Ends with one line where there is no library to build over."""

    def build_extensions(self):
        if FOLDER and not os.path.exists(f"{FOLDER}/libmvt.a"):
            sys.exit(f"{FOLDER} has no libmvt.a: {WANTED}")
        if not self._finds("mvt.h"):
            sys.exit(f"{FOLDER} has no mvt.h: {WANTED}" if FOLDER else f"libmvt isn't installed here: {WANTED}")
        super().build_extensions()

    def _finds(self, header):
        """Whether the compiler finds it. What is wrong with a compiler is told when it is used."""
        folders = [*self.include_dirs, *self.extensions[0].include_dirs]
        words = [*self.compiler.compiler_so, *(f"-I{folder}" for folder in folders), "-E", "-x", "c", "-"]
        asked = f"#if !__has_include(<{header}>)\nmissing\n#endif\n"
        try:
            return (
                "missing" not in subprocess.run(words, input=asked, capture_output=True, text=True).stdout.splitlines()
            )
        except OSError:
            return True


setup(
    cmdclass={"build_ext": Build},
    ext_modules=[
        Extension(
            "libmvt._mvt",
            sorted(glob("src/*.c")),
            depends=glob("src/*.h"),
            extra_compile_args=["-std=c11", "-O2", "-g0", "-fvisibility=hidden"],
            extra_link_args=["-Wl,--exclude-libs,ALL", "-Wl,-z,x86-64-v2"],
            py_limited_api=True,
            **(NAMED if FOLDER else {"libraries": ["mvt"]}),
        )
    ],
    options={"bdist_wheel": {"py_limited_api": "cp39"}},
)
