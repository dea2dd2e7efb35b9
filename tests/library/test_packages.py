"""What packaging/build makes, twice with the same bytes: the packages, installed and removed again, and in folders outside the
repository the tarball, the wheels, the source distributions, the crates and the Go module, each with its example. One after
the other: what is installed is for the whole machine."""

import gzip
import io
import os
import re
import shutil
import subprocess
import sys
import tarfile
import zipfile
from pathlib import Path

import pytest
from documented import program_of
from room import BUILT, GO_MODULE, TILES, TOP, all_cases, made, needs, run

pytestmark = [
    pytest.mark.xdist_group("packages"),
    needs("dpkg-deb", "dpkg", "dh", "dh_python3", "pandoc", "pkg-config", "man", "g++"),
]
[VERSION] = re.findall(r'^#define MVT_VERSION "(.*)"$', (TOP / "library/c/mvt.h").read_text(), re.M)
SERIES = VERSION.rpartition(".")[0]
NAMES = ["mvt", f"libmvt{SERIES}", "libmvt-dev", "python3-libmvt", "mvt-tools"]
LAYERS = "places: 3 features\nroads: 2 features\nwater: 2 features\n"
GDAL, REPORT = TILES / "gdal.mvt", (TILES / "gdal.check").read_text()
HERE = Path(__file__).parent
# Of one commit, though another may be made meanwhile.
os.environ["SOURCE_DATE_EPOCH"] = (
    subprocess.run(["git", "log", "-1", "--format=%ct"], cwd=TOP, capture_output=True, text=True).stdout.strip()
    or "315532800"
)
PLAIN = {
    name: value
    for name, value in os.environ.items()
    if name not in ("PYTHONPATH", "PKG_CONFIG_PATH", "MVT_LIB_DIR", "BUILT")
}
OWN_TESTS = ["module", "writing", "building", "lifetimes", "threads"]


def packages():
    return made("packages", lambda path: run(TOP / "packaging/build", path))


def document(name):
    """An example of docs/LIBRARY.md, as a file."""
    return made(name, lambda path: path.write_text(program_of(name)))


def of_gdal(*words, **how):
    with GDAL.open("rb") as tile:
        return run(*words, stdin=tile, **how).stdout


def flags(*words, **how):
    return run("pkg-config", *words, "mvt", **how).stdout.split()


def alone(home):
    """The environment of a user with nothing of this repository in it."""
    return {"PATH": "/usr/bin:/bin", "HOME": str(home), "LANG": "C.UTF-8"}


def test_the_same_bytes_again(tmp_path):
    run(TOP / "packaging/build", tmp_path / "again")
    run("diff", "-r", packages(), tmp_path / "again")


@needs("lintian")
def test_lintian():
    told = subprocess.run(["lintian", *packages().glob("*.deb")], capture_output=True, text=True).stdout
    assert not [line for line in told.splitlines() if line.startswith(("E:", "W:"))]


# ---- what others have written


def contents(path, name):
    """Of an archive, the files of a name."""
    if zipfile.is_zipfile(path):
        with zipfile.ZipFile(path) as files:
            return [files.read(each).decode() for each in files.namelist() if each.endswith(f"/{name}")]
    packed = run("dpkg-deb", "--fsys-tarfile", path, text=False).stdout if path.suffix == ".deb" else path.read_bytes()
    with tarfile.open(fileobj=io.BytesIO(packed)) as files:
        return [
            files.extractfile(each).read().decode()
            for each in files
            if each.isfile() and each.name.endswith(f"/{name}")
        ]


@pytest.mark.parametrize(
    "pattern", ["mvt-*.tar.gz", "libmvt-*.whl", "libmvt-*.tar.gz", "libmvt-sys-*.crate", "go/**/*.zip"]
)
def test_notices(pattern):
    """What has the library in it has the notices of the code that is linked."""
    found = [path for path in packages().glob(pattern) if not path.name.startswith("mvt-tools")]
    if not found and pattern.endswith((".crate", ".whl")):
        pytest.skip("they weren't made")
    for path in found:
        assert set(contents(path, "THIRD-PARTY.md")) == {(TOP / "THIRD-PARTY.md").read_text()}, path
    assert found


@pytest.mark.parametrize("name", NAMES)
def test_copyright(name):
    [path] = packages().glob(f"{name}_*.deb")
    assert contents(path, "copyright") == [(TOP / "packaging/debian/copyright").read_text()]


def test_names(tmp_path):
    """All names come from packaging/names, or from the file that $NAMES names."""
    names = 'repository=https://maps.test/mvt\nmaintainer="A B <a@maps.test>"\ngo_module=maps.test/mvt/go\n'
    (tmp_path / "names").write_text(names)
    run(TOP / "packaging/build", tmp_path / "made", env={**os.environ, "NAMES": str(tmp_path / "names")})
    [codec] = (tmp_path / "made").glob("libmvt-*.tar.gz")
    assert all("\nProject-URL: Repository, https://maps.test/mvt\n" in told for told in contents(codec, "PKG-INFO"))
    [package] = (tmp_path / "made").glob("mvt_*.deb")
    fields = run("dpkg-deb", "-f", package).stdout.splitlines()
    assert {"Maintainer: A B <a@maps.test>", "Homepage: https://maps.test/mvt"} <= set(fields)
    [module] = (tmp_path / "made/go/maps.test/mvt/go/@v").glob("*.zip")
    assert contents(module, "go.mod")[0].startswith("module maps.test/mvt/go\n")
    assert '"maps.test/mvt/go"' in contents(module, "guard.go")[0]
    for crate in (tmp_path / "made").glob("*.crate"):
        assert 'repository = "https://maps.test/mvt"' in contents(crate, "Cargo.toml")[0]


# ---- installed


def named():
    """Files of the system with the packages' names, of which other packages may have some (PostGIS's mvt.bc)."""
    names = ["mvt", "mvt[.-]*", "_mvt", "libmvt*", "python3-libmvt"]
    words = [word for name in names for word in ("-o", "-name", name)][1:]
    return sorted(run("find", "/usr/lib", "/usr/share", "(", *words, ")", "-print").stdout.splitlines())


@pytest.fixture(scope="class")
def installed():
    """The packages, until the tests that want them are through; then nothing of them is left."""
    if os.geteuid() != 0:
        pytest.skip("only root may install")
    states = subprocess.run(["dpkg", "-s", *NAMES], capture_output=True, text=True).stdout
    if "Status: install ok" in states:
        pytest.skip("one of them is installed already")
    before = named()
    run("dpkg", "-i", *packages().glob("*.deb"))
    yield
    run("dpkg", "--purge", *NAMES)
    assert named() == before
    assert not shutil.which("mvt") and not Path("/usr/include/mvt.h").exists()
    assert not [name for name in ("libmvt", "mvt_tools") if Path("/usr/lib/python3/dist-packages", name).exists()]


@pytest.mark.usefixtures("installed")
class TestInstalled:
    def test_the_program(self):
        assert of_gdal("mvt", "check") == REPORT

    @pytest.mark.parametrize(
        "section, name",
        [(1, "mvt"), (1, "mvt-audit"), (1, "mvt-geojson"), (1, "mvt-page"), (1, "mvt-tile"), (3, "mvt")],
    )
    def test_manual_page(self, section, name):
        """It ends with the version that mvt.h has."""
        assert run("man", section, name).stdout.splitlines()[-1].startswith(f"mvt {VERSION} ")

    def test_c(self, tmp_path):
        run("cc", "-std=c11", "-o", tmp_path / "filter", TOP / "examples/c/filter.c", *flags("--cflags", "--libs"))
        assert f"libmvt.so.{SERIES} => /" in run("ldd", tmp_path / "filter").stdout
        run(sys.executable, HERE / "filter.py", tmp_path / "filter")

    def test_c_static(self, tmp_path):
        run(
            "cc",
            "-std=c11",
            "-static",
            "-o",
            tmp_path / "filter",
            TOP / "examples/c/filter.c",
            *flags("--cflags", "--static", "--libs"),
        )
        run(sys.executable, HERE / "filter.py", tmp_path / "filter")

    def test_cpp(self, tmp_path):
        run("g++", "-std=c++20", "-o", tmp_path / "layer", TOP / "examples/cpp/layer.cpp", *flags("--cflags", "--libs"))
        run(sys.executable, HERE / "layer.py", tmp_path / "layer")

    @pytest.mark.parametrize("part", OWN_TESTS)
    def test_python(self, part):
        run("/usr/bin/python3", HERE / f"test_{part}.py", env=PLAIN)

    def test_audit(self, tmp_path):
        audits("mvt-audit", tmp_path)

    def test_page(self):
        serves("mvt-page", "/usr/bin/python3")

    @needs("cargo")
    def test_rust(self, tmp_path):
        """The crate's tests find the installed library by pkg-config."""
        shutil.copytree(TOP / "library/rust", tmp_path / "rust", ignore=shutil.ignore_patterns("prebuilt"))
        environment = {name: value for name, value in all_cases().items() if name in PLAIN or name == "MVT_CASES"}
        run("cargo", "test", "--offline", "--target-dir", tmp_path / "target", cwd=tmp_path / "rust", env=environment)

    @needs("go")
    def test_go(self, tmp_path):
        shutil.copytree(TOP / "library/go", tmp_path / "go")
        environment = {
            **PLAIN,
            "MVT_CASES": all_cases()["MVT_CASES"],
            "GOPROXY": "off",
            "GOCACHE": os.environ["MVT_ROOM"] + "/go-cache",
        }
        run("go", "test", "-tags", "mvt_system", "./...", cwd=tmp_path / "go", env=environment)

    @needs("cmake")
    def test_cmake(self, tmp_path):
        with_cmake(tmp_path)


def with_cmake(folder, *words):
    """CMake finds the library, and projects are built with it: in C, shared and static, and in C++."""
    for project in (".", "cpp"):
        run(
            "cmake",
            "-S",
            HERE / "cmake" / project,
            "-B",
            folder / "made" / project,
            f"-DEXAMPLES={TOP}/examples",
            f"-DSERIES={SERIES}",
            *words,
        )
        run("cmake", "--build", folder / "made" / project)
    for kind in ("shared", "static"):
        run(sys.executable, HERE / "filter.py", folder / "made" / f"filter_{kind}")
    run(sys.executable, HERE / "layer.py", folder / "made" / "cpp" / "layer")


def audits(command, folder):
    """The command over a folder of two tiles, one of which is refused."""
    for place in ("0/0", "1/0"):
        (folder / "cache" / place).mkdir(parents=True)
    (folder / "cache/0/0/0.mvt.gz").write_bytes(gzip.compress(GDAL.read_bytes()))
    shutil.copy(TILES / "broken/20-ZeroSegment.mvt", folder / "cache/1/0/0.mvt")
    told = run(command, "cache", "--into", "audit", "--workers", "2", "--anew", status=1, cwd=folder, env=PLAIN).stdout
    assert "1 refused: ZeroSegment 1" in told.splitlines() and "</html>" in (folder / "audit/report.html").read_text()


def serves(command, python):
    """The command is started, makes calls, and is ended."""
    words = [
        "-m",
        "pytest",
        "-q",
        "-p",
        "no:xdist",
        TOP / "tests/tools/page/test_protocol.py",
        "-k",
        "Calls or Command",
    ]
    run(python, *words, env={**PLAIN, "MVT_PAGE": shutil.which(command) or str(command)})


# ---- the tarball


def unpacked():
    def make(path):
        path.mkdir()
        run("tar", "-xf", packages() / f"mvt-{VERSION}-linux_amd64.tar.gz", "-C", path, "--strip-components=1")

    return made("unpacked", make)


class TestTarball:
    def test_the_program(self, tmp_path):
        assert of_gdal(unpacked() / "bin/mvt", "check", env=alone(tmp_path)) == REPORT

    def test_pkg_config(self, tmp_path):
        words = flags("--cflags", "--libs", env={**os.environ, "PKG_CONFIG_PATH": str(unpacked() / "lib/pkgconfig")})
        run("cc", "-o", tmp_path / "list", document("list.c"), *words, env=alone(tmp_path))
        assert of_gdal(tmp_path / "list", env={**alone(tmp_path), "LD_LIBRARY_PATH": str(unpacked() / "lib")}) == LAYERS

    def test_static(self, tmp_path):
        words = [
            "-std=c++20",
            f"-I{unpacked()}/include",
            "-o",
            tmp_path / "list",
            document("list.cpp"),
            unpacked() / "lib/libmvt.a",
        ]
        run("c++", *words, env=alone(tmp_path))
        assert of_gdal(tmp_path / "list", env=alone(tmp_path)) == LAYERS

    @needs("cmake")
    def test_cmake(self, tmp_path):
        with_cmake(tmp_path, f"-DCMAKE_PREFIX_PATH={unpacked()}")


# ---- crates, and the Go module


@needs("cargo")
def test_crates(tmp_path):
    """The unpacked crates, and the document's example above them."""
    crates = list(packages().glob("*.crate"))
    if not crates:
        pytest.skip("they weren't made")
    for crate in crates:
        run("tar", "-xf", crate, "-C", tmp_path)
    (tmp_path / "src").mkdir()
    (tmp_path / "src/main.rs").write_text(program_of("list.rs"))
    package = f'[package]\nname = "list"\nversion = "1.0.0"\nedition = "2021"\n[dependencies]\nlibmvt = "={VERSION}"\n[patch.crates-io]\n'
    patches = "".join(f'{name} = {{ path = "{name}-{VERSION}" }}\n' for name in ("libmvt", "libmvt-sys"))
    (tmp_path / "Cargo.toml").write_text(f"{package}{patches}[workspace]\n")
    run("cargo", "build", "-q", "--offline", "--target-dir", tmp_path / "target", cwd=tmp_path, env=PLAIN)
    assert of_gdal(tmp_path / "target/debug/list") == LAYERS


@needs("go")
def test_go_module(tmp_path):
    """As a proxy hands it out."""
    (tmp_path / "list").mkdir()
    shutil.copy(document("list.go"), tmp_path / "list")
    environment = {
        **PLAIN,
        "GOPROXY": f"file://{packages()}/go",
        "GONOSUMDB": GO_MODULE.partition("/")[0],
        "GOFLAGS": "-mod=mod -modcacherw",
    }
    environment.update(GOCACHE=os.environ["MVT_ROOM"] + "/go-cache", GOMODCACHE=str(tmp_path / "modules"))
    for words in (["mod", "init", "example.com/list"], ["get", f"{GO_MODULE}@v{VERSION}"], ["build", "-o", "list_go"]):
        run("go", *words, cwd=tmp_path / "list", env=environment)
    assert of_gdal(tmp_path / "list/list_go") == LAYERS


# ---- wheels


def wheels():
    found = [path for path in packages().glob("*.whl")]
    if not found:
        pytest.skip("they weren't made")
    return found


def environment_of(path, python, *words, options=()):
    """A new environment of Python, with what pip installs of no network."""
    run(python, "-m", "venv", *options, path)
    run(path / "bin/python", "-m", "pip", "-q", "install", "--no-index", *words)
    return path / "bin"


def lists(python, home):
    told = of_gdal(python, document("list.py"), env=alone(home))
    assert re.search("^water .*Mill Pond", told, re.M)


@pytest.fixture(scope="module")
def wheel(tmp_path_factory):
    yield environment_of(
        tmp_path_factory.mktemp("wheel") / "venv", sys.executable, *wheels(), options=["--system-site-packages"]
    )


class TestWheel:
    def test_its_platform(self):
        assert [
            path
            for path in wheels()
            if re.fullmatch(r"libmvt-[0-9.]*-cp39-abi3-manylinux_2_[0-9]*_x86_64\.whl", path.name)
        ]

    def test_the_c_library_alone(self):
        told = run("readelf", "-d", BUILT / "_mvt.abi3.so").stdout
        assert re.findall(r"\(NEEDED\).*\[(.*)\]", told) == ["libc.so.6"]

    @pytest.mark.parametrize("part", OWN_TESTS)
    def test_own(self, wheel, part):
        run(wheel / "python", HERE / f"test_{part}.py", env=PLAIN)

    def test_page(self, wheel):
        serves(wheel / "mvt-page", wheel / "python")

    def test_audit(self, wheel, tmp_path):
        audits(wheel / "mvt-audit", tmp_path)

    @pytest.mark.parametrize(
        "name",
        [
            "pmtiles.py Archives.test_the_same_table_as_a_folder_and_mbtiles",
            "server.py Servers.test_the_same_table_as_a_folder",
        ],
    )
    def test_each_kind_of_store(self, wheel, name):
        """One table of the example tiles, whatever they are stored in."""
        file, test = name.split()
        run(
            wheel / "python",
            TOP / f"tests/tools/audit/test_{file}",
            test,
            env={**PLAIN, "MVT_AUDIT": str(wheel / "mvt-audit")},
        )

    def test_alone_with_its_extra(self, tmp_path):
        bare = environment_of(tmp_path / "bare", sys.executable, "--find-links", packages(), "libmvt[tools]")
        lists(bare / "python", tmp_path)
        (tmp_path / "audited").mkdir()
        audits(bare / "mvt-audit", tmp_path / "audited")

    def test_the_codec_alone(self, tmp_path):
        [codec] = [path for path in wheels() if path.name.startswith("libmvt-")]
        lists(environment_of(tmp_path / "codec", sys.executable, codec) / "python", tmp_path)

    def test_the_oldest_python(self, tmp_path):
        found = [*Path("/usr/bin").glob("python3.9"), *Path.home().glob(".pyenv/versions/3.9.*/bin/python")]
        if not found:
            pytest.skip("python3.9 isn't there")
        lists(environment_of(tmp_path / "oldest", found[0], *wheels()) / "python", tmp_path)

    def test_removed(self, tmp_path):
        inside = environment_of(tmp_path / "venv", sys.executable, *wheels())
        run(inside / "python", "-m", "pip", "-q", "uninstall", "-y", "libmvt", "mvt-tools")
        run(inside / "python", "-c", "import libmvt", status=1, env=alone(tmp_path))


def test_source_distributions(tmp_path):
    """They are built over the tarball's library, and run."""
    sources = [packages() / f"{name}-{VERSION}.tar.gz" for name in ("libmvt", "mvt-tools")]
    run(sys.executable, "-m", "venv", "--system-site-packages", tmp_path / "source")
    inside = tmp_path / "source/bin"
    words = ["-m", "pip", "-q", "install", "--no-index", "--no-build-isolation", *sources]
    run(inside / "python", *words, env={**PLAIN, "MVT_LIB_DIR": str(unpacked() / "lib")})
    lists(inside / "python", tmp_path)
    assert run(inside / "mvt-tile", GDAL, env=alone(tmp_path), text=False).stdout == GDAL.read_bytes()


# ---- by hand


@pytest.fixture(scope="module")
def by_hand(tmp_path_factory):
    """What library/build puts below a folder; it builds nothing that is there."""
    prefix = tmp_path_factory.mktemp("by_hand") / "prefix"
    told = run(TOP / "library/build", "--prefix", prefix).stdout
    assert len(told.splitlines()) == 1, told
    return prefix


class TestByHand:
    def test_c(self, by_hand, tmp_path):
        environment = {**os.environ, "PKG_CONFIG_PATH": str(by_hand / "lib/pkgconfig")}
        run(
            "cc",
            "-std=c11",
            "-o",
            tmp_path / "filter",
            TOP / "examples/c/filter.c",
            *flags("--cflags", "--libs", env=environment),
        )
        run(
            sys.executable,
            HERE / "filter.py",
            tmp_path / "filter",
            env={**os.environ, "LD_LIBRARY_PATH": str(by_hand / "lib")},
        )
        assert flags("--modversion", env=environment) == [VERSION] and (by_hand / "share/man/man3/mvt.3").exists()

    @needs("cmake")
    def test_cmake(self, by_hand, tmp_path):
        with_cmake(tmp_path, f"-DCMAKE_PREFIX_PATH={by_hand}")
