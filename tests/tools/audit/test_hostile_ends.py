"""How the command ends when something goes wrong: a status of its own and one line, whatever it is."""

import os
import pty
import resource
import shutil
import signal
import sqlite3
import subprocess
import sys
import tempfile
import threading
from contextlib import closing

import pytest
from common import AUDIT, audit, json, rows, start
from mvt_tools.audit.ending import Signals
from mvt_tools.audit.results import Results


def one_line(error):
    assert error.startswith("mvt-audit: ")
    assert error.count("\n") == 1 and error.endswith("\n"), error
    assert error[:-1].isprintable(), error
    return error


def fails(status, *words, **how):
    got, out, error = audit(*words, **how)
    assert (got, out) == (status, ""), error
    return one_line(error)


def test_results_in_a_file(store, tmp_path):
    (tmp_path / "file").write_text("not to be lost")
    assert "file: File exists" in fails(3, store, "--into", tmp_path / "file")
    assert "file/audit: Not a directory" in fails(3, store, "--into", tmp_path / "file" / "audit")
    assert (tmp_path / "file").read_text() == "not to be lost"


@pytest.mark.parametrize("into", ["/dev/null", "/dev/null/audit", "/proc/audit", "x" * 300, "a\nb" * 200])
def test_results_that_no_folder_can_hold(store, into):
    fails(3, store, "--into", into)


def full(size):
    """As if the disk had so many bytes for a file."""
    return lambda: resource.setrlimit(resource.RLIMIT_FSIZE, (size, size))


@pytest.mark.parametrize("size", [0, 10_000, 100_000, 500_000])
def test_a_full_disk(large, tmp_path, size):
    fails(3, large, "--into", tmp_path / "audit", "--part", 500, preexec_fn=full(size))
    status, _, error = audit(large, "--into", tmp_path / "audit")
    assert status == 1, error
    wanted = large.read_text().count("\n")
    assert rows(tmp_path / "audit", "select count(*) from tiles") == [(wanted,)]
    assert rows(tmp_path / "audit", "pragma integrity_check") == [("ok",)]


def test_a_small_file_system(large, tmp_path):
    room = tmp_path / "room"
    room.mkdir()
    if subprocess.run(["mount", "-t", "tmpfs", "-o", "size=600k", "tmpfs", room], capture_output=True).returncode:
        pytest.skip("no file system can be mounted here")
    try:
        error = fails(3, large, "--into", room / "audit", "--part", 500)
        assert "full" in error or "No space left on device" in error
    finally:
        subprocess.run(["umount", "-l", room], check=True)


@pytest.mark.parametrize("name", ["audit.sqlite", "report.html", "report.html.new"])
def test_a_folder_where_a_file_of_the_results_should_be(store, tmp_path, name):
    (tmp_path / "audit" / name).mkdir(parents=True)
    (tmp_path / "audit" / name / "kept").write_text("")
    fails(3, store, "--into", tmp_path / "audit")
    assert (tmp_path / "audit" / name / "kept").exists()


def test_results_that_are_damaged(store, tmp_path):
    into = tmp_path / "audit"
    audit(store, "--into", into)
    held = (into / "audit.sqlite").read_bytes()
    for begin, end in ((100, 5000), (16384, 60000), (40000, len(held))):
        (into / "audit.sqlite").write_bytes(held[:begin] + b"\xff" * (end - begin) + held[end:])
        status, out, error = audit(store, "--into", into)
        assert status in (2, 3) and out == "", error
        assert "Traceback" not in error and error.count("\n") <= 2, error
    assert audit(store, "--into", into, "--anew")[0] == 1


def test_results_that_somebody_else_writes(store, tmp_path):
    into = tmp_path / "audit"
    audit(store, "--into", into)
    with closing(sqlite3.connect(into / "audit.sqlite", isolation_level=None)) as other:
        other.execute("begin exclusive")
        assert "audit.sqlite: database is locked" in fails(3, store, "--into", into)


def test_a_reader_who_leaves(store, tmp_path):
    for words in (["--json"], []):
        run = start(store, "--into", tmp_path / "audit", *words)
        run.stdout.close()
        run.wait(60)
        error = run.stderr.read().replace("mvt-audit: all 3 tiles are judged already; --anew judges them again\n", "")
        run.stderr.close()
        assert (run.returncode, error) == (-13, "")
    assert (tmp_path / "audit" / "report.html").exists()


def test_an_output_that_takes_nothing(store, tmp_path):
    for number, how in enumerate(
        ({"preexec_fn": lambda: os.dup2(os.open("/dev/full", os.O_WRONLY), 1)}, {"preexec_fn": lambda: os.close(1)})
    ):
        status, out, error = audit(store, "--into", tmp_path / f"audit {number}", **how)
        assert (status, out) == (3, "")
        assert "output" in one_line(error)
        assert (tmp_path / f"audit {number}" / "report.html").exists()


def test_errors_that_nobody_hears(store, tmp_path):
    audit(store, "--into", tmp_path / "audit")
    for how in (lambda: os.dup2(os.open("/dev/full", os.O_WRONLY), 2), lambda: os.close(2)):
        status, out, _ = audit(store, "--into", tmp_path / "audit", preexec_fn=how)
        assert (status, out.splitlines()[:2]) == (1, [f"3 tiles: {store}", "1 accepted"])
        assert audit(store, "--into", "/dev/null", preexec_fn=how)[0] == 3


def test_an_output_of_another_alphabet(store, tmp_path):
    store.rename(tmp_path / "Gewässer")
    status, out, error = audit(
        tmp_path / "Gewässer", "--into", tmp_path / "audit", env={**os.environ, "PYTHONIOENCODING": "ascii"}
    )
    assert (status, error) == (1, "")
    assert r"Gew\xe4sser" in out


def test_the_current_folder_is_gone(store, tmp_path):
    (tmp_path / "gone").mkdir()

    def leave():
        os.chdir(tmp_path / "gone")
        os.rmdir(tmp_path / "gone")

    status, _, error = audit(store, "--into", tmp_path / "audit", preexec_fn=leave)
    assert (status, error) == (1, "")
    fails(3, "store", "--into", tmp_path / "another", preexec_fn=leave_again(tmp_path))


def leave_again(folder):
    def leave():
        os.mkdir(folder / "gone")
        os.chdir(folder / "gone")
        os.rmdir(folder / "gone")

    return leave


def test_a_name_that_is_no_utf_8(store, tmp_path):
    named = os.fsencode(tmp_path) + b"/caf\xe9"
    os.rename(store, named)
    assert r"caf\xe9: this name is no UTF-8" in fails(2, os.fsdecode(named), "--into", tmp_path / "audit")


def test_a_single_tile(store, tmp_path):
    error = fails(3, store / "5" / "0" / "0.mvt", "--into", tmp_path / "audit")
    assert "0.mvt: a single tile, and no store of tiles; `mvt check` judges it" in error


def test_no_temporary_folder(store, tmp_path):
    before = audit(store, "--into", tmp_path / "audit")[0]
    assert before == 1
    env = {**os.environ, "TMPDIR": str(tmp_path / "absent")}
    status, _, error = audit(store, "--into", tmp_path / "another", env=env)
    assert status in (1, 3) and "Traceback" not in error


# What a store of another package raises, and where; the status; and what is told.
RAISED = [
    ("opened", "MemoryError", 4, "out of memory"),
    ("state", "MemoryError", 4, "out of memory"),
    ("ranges", "MemoryError", 4, "out of memory"),
    ("state", "RecursionError", 3, "nested too deeply"),
    ("state", "OSError", 3, "it was"),
    ("state", "ValueError", 3, "a defect of mvt-audit: ValueError: it was"),
    ("ranges", "OSError", 3, "raise:ranges:OSError: it was"),
    ("ranges", "sqlite3.Error", 3, "raise:ranges:sqlite3.Error: it was"),
    ("opened", "KeyError", 3, "KeyError"),
    ("state", "OverflowError", 3, "OverflowError"),
]


@pytest.fixture
def with_odd_stores(tmp_path):
    """Where the kind of store is found by its entry point."""
    folder = tmp_path / "plugin"
    (folder / "odd-1.0.dist-info").mkdir(parents=True)
    (folder / "odd-1.0.dist-info" / "METADATA").write_text("Metadata-Version: 2.1\nName: odd\nVersion: 1.0\n")
    (folder / "odd-1.0.dist-info" / "entry_points.txt").write_text("[mvt_tools.stores]\nodd = odd_store:opened\n")
    shutil.copy(os.path.join(os.path.dirname(__file__), "odd_store.py"), folder)
    return {**os.environ, "PYTHONPATH": f"{folder}{os.pathsep}{os.environ.get('PYTHONPATH', '')}"}


@pytest.mark.parametrize("call, error, status, told", RAISED, ids=[f"{call}-{error}" for call, error, *_ in RAISED])
def test_what_a_store_raises(tmp_path, with_odd_stores, call, error, status, told):
    assert told in fails(status, f"raise:{call}:{error}", "--into", tmp_path / "audit", env=with_odd_stores)


@pytest.mark.parametrize("error", ["MemoryError", "RecursionError", "ValueError", "OSError", "sqlite3.Error"])
def test_what_a_store_raises_for_a_part(tmp_path, with_odd_stores, error):
    status, out, told = audit(f"raise:tiles:{error}", "--into", tmp_path / "audit", "--json", env=with_odd_stores)
    assert status == 3
    assert r": it was\x1b[2J asked for" in one_line(told)
    assert [part["part"] for part in json.loads(out)["unfinished"]] == [0]


@pytest.mark.parametrize("error", ["MemoryError", "RecursionError", "ValueError", "OSError"])
def test_what_a_store_raises_for_an_example(tmp_path, with_odd_stores, error):
    status, _, told = audit(f"raise:tile:{error}", "--into", tmp_path / "audit", env=with_odd_stores)
    assert (status, told) == (1, "")
    assert "asked for" in (tmp_path / "audit" / "report.html").read_text()


def test_an_option_with_controls(store):
    run = start(store, "--into", "x", "--\x1b[2Jodd")
    _, error = run.communicate(timeout=60)
    assert run.returncode == 2
    assert "\x1b" not in error and r"\x1b[2J" in error


@pytest.fixture
def without_extras(tmp_path):
    """As if neither tqdm nor Dask were there."""
    (tmp_path / "without").mkdir()
    (tmp_path / "without" / "sitecustomize.py").write_text(
        "import importlib.util as util\nfound = util.find_spec\n"
        "util.find_spec = lambda name, *more: None if name in ('tqdm', 'distributed') else found(name, *more)\n"
    )
    return {**os.environ, "PYTHONPATH": f"{tmp_path / 'without'}{os.pathsep}{os.environ.get('PYTHONPATH', '')}"}


def test_a_scheduler_without_dask(store, tmp_path, without_extras):
    error = fails(3, store, "--into", tmp_path / "audit", "--scheduler", "tcp://127.0.0.1:1", env=without_extras)
    assert "--scheduler wants Dask: pip install distributed, or Debian's python3-distributed" in error


def test_a_terminal_without_tqdm(large, tmp_path, without_extras):
    ours, theirs = pty.openpty()
    run = subprocess.Popen(
        [*AUDIT, large, "--into", tmp_path / "audit", "--part", "200"],
        stdout=subprocess.DEVNULL,
        stderr=theirs,
        env=without_extras,
    )
    os.close(theirs)
    shown = b""
    while True:
        try:
            more = os.read(ours, 10_000)
        except OSError:
            break
        if not more:
            break
        shown += more
    os.close(ours)
    run.wait(60)
    assert run.returncode == 1
    wanted = large.read_text().count("\n")
    assert f"100%: {wanted:,} of {wanted:,} tiles, ".encode() in shown
    assert b" broken" in shown


@pytest.fixture
def signals():
    """Signals that this process heeds as the command does."""
    before = {number: signal.getsignal(number) for number in (signal.SIGINT, signal.SIGTERM)}
    yield Signals()
    for number, handler in before.items():
        signal.signal(number, handler)


def test_a_signal_in_a_long_call_of_sqlite(tmp_path, signals):
    with closing(Results(tmp_path)) as results:
        signals.heed()
        timer = threading.Timer(0.3, os.kill, [os.getpid(), signal.SIGTERM])
        timer.start()
        with pytest.raises((sqlite3.OperationalError, KeyboardInterrupt)):
            results.database.execute(
                "with recursive c(x) as (select 1 union all select x + 1 from c) select sum(x) from c"
            ).fetchall()
        assert (signals.number, signals.status()) == (signal.SIGTERM, 143)
        with pytest.raises(KeyboardInterrupt):
            signals.check()
        timer.join()


def test_only_the_first_signal_is_raised(signals):
    signals.heed()
    with pytest.raises(KeyboardInterrupt):
        signal.raise_signal(signal.SIGINT)
    signal.raise_signal(signal.SIGINT)
    signal.raise_signal(signal.SIGTERM)
    assert signals.status() == 130


@pytest.mark.skipif(os.getuid() != 0, reason="only root can become somebody else")
def test_the_current_folder_may_not_be_entered(store):
    with tempfile.TemporaryDirectory(dir="/var/tmp") as room:
        shutil.copytree(store, f"{room}/store")
        os.mkdir(f"{room}/closed", 0o700)
        os.chmod(room, 0o777)

        def leave():
            os.chdir(f"{room}/closed")
            os.setgid(65534)
            os.setuid(65534)

        if subprocess.run([sys.executable, "-c", "import libmvt"], preexec_fn=leave, capture_output=True).returncode:
            pytest.skip("the module is closed to others")
        env = {**os.environ, "TMPDIR": room}
        status, out, error = audit(f"{room}/store", "--into", f"{room}/audit", preexec_fn=leave, env=env)
        assert (status, error) == (1, "")
        assert out.splitlines()[-1] == f"written: {room}/audit/audit.sqlite, {room}/audit/report.html"
        os.mkdir(f"{room}/shut", 0o755)
        assert "unable to open database file" in fails(
            3, f"{room}/store", "--into", f"{room}/shut", preexec_fn=leave, env=env
        )
        assert "Permission denied" in fails(
            3, f"{room}/store", "--into", f"{room}/shut/audit", preexec_fn=leave, env=env
        )
