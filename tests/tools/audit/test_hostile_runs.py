"""Runs in folders of strangers, beside other users, and under signals: nothing of the folder runs, nothing listens, and who
is killed loses and doubles nothing."""

import os
import random
import signal
import subprocess
import sys
import time

import pytest
from common import AUDIT, TOP, audit, rows, start
from processes import below, of_session, sockets, until

SCRIPT = AUDIT if "MVT_AUDIT" in os.environ else [sys.executable, TOP / "tools" / "mvt-audit"]
MODULE = [sys.executable, "-m", "mvt_tools.audit"]

# What the audit, its workers and Python itself import at one time or another.
NAMES = """argparse ast asyncio brotli bz2 collections concurrent contextlib copyreg ctypes dataclasses distributed enum errno
functools gzip hashlib heapq html http importlib inspect io json linecache logging lzma multiprocessing numpy operator pickle
queue random re resource_tracker runpy secrets select selectors shlex shutil signal sitecustomize socket sqlite3 ssl
statistics string struct subprocess tempfile textwrap threading token tokenize tornado tqdm traceback types typing
unicodedata urllib usercustomize uuid warnings weakref zlib zstandard""".split()

# What `python3 -m` itself imports, from the current folder first, before any module that it is asked for.
IMPORTED_BY_PYTHON = {
    "collections",
    "contextlib",
    "functools",
    "importlib",
    "keyword",
    "operator",
    "reprlib",
    "runpy",
    "types",
    "warnings",
}
if sys.version_info < (3, 11):
    IMPORTED_BY_PYTHON |= {"enum", "heapq", "pkgutil", "re", "typing", "weakref"}


def strangers(folder, names):
    """Modules that tell by a file that they were imported, and an entry point of a store."""
    told = folder.parent / "told"
    for name in names:
        (folder / f"{name}.py").write_text(f"open({str(told)!r}, 'a').write('{name} ')\n")
    metadata = folder / "evil-1.0.dist-info"
    metadata.mkdir()
    (metadata / "METADATA").write_text("Name: evil\nVersion: 1.0\n")
    (metadata / "entry_points.txt").write_text("[mvt_tools.stores]\nevil = evil:opened\n")
    (folder / "evil.py").write_text(
        f"open({str(told)!r}, 'a').write('evil ')\ndef opened(path, options):\n    return None\n"
    )
    return lambda: told.read_text() if told.exists() else ""


@pytest.mark.parametrize("words", [SCRIPT, MODULE], ids=["command", "module"])
def test_nothing_of_the_current_folder_runs(store, tmp_path, words):
    names = NAMES if words is SCRIPT else [name for name in NAMES if name not in IMPORTED_BY_PYTHON]
    told = strangers(store, names)
    run = subprocess.run(
        [*words, ".", "--into", "../audit", "--workers", "2"], cwd=store, capture_output=True, text=True
    )
    assert (run.returncode, run.stderr, told()) == (1, "", "")
    assert rows(tmp_path / "audit", "select count(*) from tiles") == [(3,)]


@pytest.mark.parametrize("name", ["multiprocessing", "socket", "pickle", "struct", "signal"])
def test_a_module_beside_the_tiles_does_not_run(store, name):
    told = strangers(store, [name])
    run = subprocess.run(
        [*MODULE, ".", "--into", "../audit", "--workers", "1"], cwd=store, capture_output=True, text=True
    )
    assert (run.returncode, run.stderr, told()) == (1, "", "")


def test_an_empty_entry_of_the_path_is_not_the_current_folder(store):
    told = strangers(store, ["multiprocessing", "socket", "pickle", "brotli", "tqdm", "zstandard"])
    path = os.environ.get("PYTHONPATH", "") + os.pathsep
    run = subprocess.run(
        [*MODULE, ".", "--into", "../audit", "--workers", "1"],
        cwd=store,
        capture_output=True,
        text=True,
        env={**os.environ, "PYTHONPATH": path},
    )
    assert (run.returncode, run.stderr, told()) == (1, "", "")


def test_the_folder_that_the_workers_start_in_is_removed(store, tmp_path):
    (tmp_path / "temporary").mkdir()
    status, _, error = audit(
        store, "--into", tmp_path / "audit", env={**os.environ, "TMPDIR": str(tmp_path / "temporary")}
    )
    assert (status, error, list((tmp_path / "temporary").iterdir())) == (1, "", [])


def test_nothing_listens(large, tmp_path):
    run = start(large, "--into", tmp_path / "audit", "--workers", 3, "--part", 100)
    seen, open_sockets = set(), []
    while run.poll() is None:
        here = [run.pid, *below(run.pid)]
        seen.update(here)
        open_sockets += [(pid, name) for pid in here for name in sockets(pid)]
        time.sleep(0.01)
    assert run.communicate()[1] == ""
    assert len(seen) >= 4
    assert open_sockets == []


def whole(into, large):
    """Each tile stands in the results as often as in the list, and the counts are those of the tiles."""
    wanted = large.read_text().count("\n")
    assert rows(into, "select count(*), sum(tiles) from tiles") == [(wanted, wanted)]
    assert rows(into, "select sum(tiles) from counts") == [(wanted,)]
    assert rows(into, "select count(distinct name) * 1.0 / count(*) * ? from tiles", wanted)[0][0] == len(
        set(large.read_text().splitlines())
    )
    assert rows(into, "select count(*) - count(distinct part) from parts") == [(0,)]
    assert rows(into, "select max(n) - min(n) from (select count(*) n from tiles group by name)") == [(0,)]
    assert rows(into, "pragma integrity_check") == [("ok",)]


def workers_of(run):
    """The workers of a run: what it began by multiprocessing, but for what looks after its resources."""
    found = []
    for pid in below(run.pid):
        try:
            with open(f"/proc/{pid}/cmdline") as file:
                words = file.read()
        except OSError:
            continue
        if "spawn_main" in words:
            found.append(pid)
    return found


def test_killed_workers_lose_and_double_nothing(large, tmp_path):
    into, killed = tmp_path / "audit", 0
    run = start(large, "--into", into, "--workers", 3, "--part", 100)
    chosen = random.Random(1)
    while run.poll() is None and killed < 10:
        found = workers_of(run)
        if found:
            with_signal = chosen.choice([signal.SIGKILL, signal.SIGTERM])
            try:
                os.kill(chosen.choice(found), with_signal)
                killed += 1
            except ProcessLookupError:
                pass
        time.sleep(chosen.uniform(0.05, 0.3))
    out, error = run.communicate(timeout=120)
    assert killed
    if run.returncode == 3:
        # A part over which three workers ended is told, or that none starts, and the next run does what is left.
        assert "unfinished" in error or "no worker starts" in error
        status, out, error = audit(large, "--into", into)
        assert status == 1
    else:
        assert run.returncode == 1, error
    assert "Traceback" not in error
    whole(into, large)


def test_a_part_whose_worker_is_killed_is_done_by_another(large, tmp_path):
    run = start(large, "--into", tmp_path / "audit", "--workers", 2, "--part", 100)
    until(lambda: len(workers_of(run)) == 2 and _parts(tmp_path / "audit"))
    os.kill(workers_of(run)[0], signal.SIGKILL)
    _, error = run.communicate(timeout=120)
    assert run.returncode == 1
    assert error in ("", "mvt-audit: 1 of the workers ended before their time; others did their parts\n")
    whole(tmp_path / "audit", large)


def test_killed_clients_lose_and_double_nothing_and_leave_no_worker(large, tmp_path):
    chosen = random.Random(2)
    for _ in range(5):
        run = start(large, "--into", tmp_path / "audit", "--workers", 2, "--part", 100)
        time.sleep(chosen.uniform(0.1, 1.2))
        run.kill()
        _, error = run.communicate(timeout=60)
        assert "Traceback" not in error, error
        until(lambda: not of_session(run.pid))  # noqa: B023
    status, _, error = audit(large, "--into", tmp_path / "audit")
    assert status == 1, error
    whole(tmp_path / "audit", large)


@pytest.mark.parametrize("to_all", [False, True], ids=["alone", "group"])
@pytest.mark.parametrize("number, status", [(signal.SIGINT, 130), (signal.SIGTERM, 143)], ids=["ctrl-c", "sigterm"])
@pytest.mark.parametrize("after", [0.05, 0.1, 0.15, 0.2, 0.3, 0.4, 0.6, 0.9])
def test_a_signal_ends_it_at_once(larger, tmp_path, after, number, status, to_all):
    run = start(larger, "--into", tmp_path / "audit", "--workers", 3, "--part", 100)
    time.sleep(after)
    (os.killpg if to_all else os.kill)(run.pid, number)
    out, error = run.communicate(timeout=60)
    if "Traceback" not in error or "/mvt/audit" in error:  # else Python itself was only about to begin
        # A shell says 128 and the signal's number where the command didn't yet heed it.
        assert run.returncode in (status, -number), error
        assert (out, error.count("\n") <= 1, "Traceback" in error) == ("", True, False), error
    until(lambda: not of_session(run.pid))


def test_the_run_after_a_signal_goes_on(large, tmp_path):
    into = tmp_path / "audit"
    for number in (signal.SIGINT, signal.SIGTERM):
        run = start(large, "--into", into, "--workers", 2, "--part", 100)
        before = _parts(into)
        until(lambda: _parts(into) > before + 3)  # noqa: B023
        run.send_signal(number)
        _, error = run.communicate(timeout=60)
        assert run.returncode == 128 + number
        assert "tiles are judged; the same command goes on from here" in error
    status, _, error = audit(large, "--into", into)
    assert status == 1
    assert "goes on" in error
    whole(into, large)


def _parts(into):
    try:
        return rows(into, "select count(*) from parts")[0][0]
    except Exception:
        return 0
