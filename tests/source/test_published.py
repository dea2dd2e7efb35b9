"""The library has one name where it is published, which is free: libmvt. What is built on the Python module has public names of it
alone, each of which says what it is."""

import ast
import re
import subprocess
from pathlib import Path

import pytest

TOP = Path(__file__).resolve().parents[2]
MODULE = TOP / "library/python/libmvt"
NAMES = dict(
    line.split("=", 1) for line in (TOP / "packaging/names").read_text().splitlines() if not line.startswith("#")
)
# Files of C and C++ have endings that look like names in a module.
ATTRIBUTE = r"(?<![\w./-])mvt\.(?!(?:h|hpp|c|pc|o|bc|xml|\d|codec)\b)[A-Za-z_]"


def files(*endings):
    told = subprocess.run(["git", "ls-files", "-z"], cwd=TOP, capture_output=True, text=True).stdout.split("\0")
    return [
        name
        for name in told
        if name.endswith(endings) and not name.startswith(("crates/", "tests/source/")) and (TOP / name).is_file()
    ]


def test_no_other_name_in_python():
    """`mvt` is another package on PyPI."""
    former = re.compile(rf"^\s*(?:>>> )?(?:import mvt\b|from mvt[. ])|{ATTRIBUTE}", re.M)
    assert [name for name in files(".py", ".pyi", ".md") if former.search((TOP / name).read_text())] == []
    assert re.search(
        r'^packages = \["libmvt", "libmvt\.geojson"\]$', (TOP / "library/python/pyproject.toml").read_text(), re.M
    )


def test_the_crates():
    """`mvt` is another crate on crates.io."""
    told = [
        re.search(r'^name = "(.*)"$', path.read_text(), re.M)[1]
        for path in sorted(TOP.glob("library/rust/*/Cargo.toml"))
    ]
    assert told == ["libmvt", "libmvt-sys"]
    assert [name for name in files(".rs") if re.search(r"(?<![\w:])mvt(_sys)?::", (TOP / name).read_text())] == []


def test_the_go_module():
    """What imports it names the path that packaging/names has."""
    path = NAMES["go_module"]
    assert (TOP / "library/go/go.mod").read_text().startswith(f"module {path}\n")
    package = path.rpartition("/")[2]
    own = {
        re.search(r"^package (\w+)$", (TOP / name).read_text(), re.M)[1]
        for name in files(".go")
        if re.fullmatch(r"library/go/\w+\.go", name)
    }
    assert own == {package, f"{package}_test"}
    host = re.escape(path.partition("/")[0])
    for name in files(".go", ".mod", ".md"):
        assert set(re.findall(rf"(?<![/.@\w]){host}/\w+", (TOP / name).read_text())) <= {path}, name


def public(module):
    """The names that a module's `__all__` has, or None."""
    for node in module.body:
        if isinstance(node, ast.Assign) and [getattr(target, "id", "") for target in node.targets] == ["__all__"]:
            return ast.literal_eval(node.value)
    return None


def parsed(name):
    """A public module, by its name."""
    inside = MODULE.joinpath(*name.split(".")[1:])
    path = inside / "__init__.py" if inside.is_dir() else inside.with_suffix(".py")
    return ast.parse(path.read_text())


def asked(tree):
    """The names that a program has of the module: each with the module in which it is."""
    for node in ast.walk(tree):
        if isinstance(node, ast.ImportFrom) and node.level == 0 and node.module.split(".")[0] == "libmvt":
            yield from ((node.module, alias.name) for alias in node.names)
        if isinstance(node, ast.Import):
            yield from ((alias.name, None) for alias in node.names if alias.name.split(".")[0] == "libmvt")
        if isinstance(node, ast.Attribute) and isinstance(node.value, ast.Name) and node.value.id == "libmvt":
            yield "libmvt", node.attr


@pytest.mark.parametrize("folder", ["tools", "packaging", "bench", "evidence", "examples"])
def test_public_names_alone(folder):
    for name in files(".py"):
        if not name.startswith(f"{folder}/"):
            continue
        for module, of in asked(ast.parse((TOP / name).read_text())):
            assert not any(part.startswith("_") for part in module.split(".")), f"{name}: {module}"
            assert of in (None, "__version__", *public(parsed(module))), f"{name}: {module}.{of}"


@pytest.mark.parametrize("module", ["libmvt", "libmvt.raw", "libmvt.geojson", "libmvt.mercator"])
def test_they_say_what_they_are(module):
    """Each class and function of Python that is public has a docstring; those of the extension are looked at where it is built."""
    wanted, found = set(public(parsed(module))), set()
    for path in sorted(MODULE.rglob("*.py")):
        for node in ast.parse(path.read_text()).body:
            if isinstance(node, (ast.ClassDef, ast.FunctionDef)) and node.name in wanted:
                found.add(node.name)
                assert ast.get_docstring(node), f"{path.name}: {node.name}"
    assert found or module == "libmvt.raw"
