"""The command as the tests start it: $MVT_PAGE where that names an installed one."""

import http.client
import os
import re
import signal
import socket
import struct
import subprocess
import sys
import tempfile
import time
from pathlib import Path

TOP = Path(__file__).resolve().parents[3]
TILES = TOP / "fixtures" / "tiles"
COMMAND = [os.environ["MVT_PAGE"]] if "MVT_PAGE" in os.environ else [sys.executable, "-m", "mvt_tools.page"]


def heed_signals():
    """Who runs the tests in the background may ignore Ctrl-C and hanging up, and what is started here would too."""
    for number in (signal.SIGINT, signal.SIGHUP):
        signal.signal(number, signal.SIG_DFL)


def until(said):
    """Waits until that is so, for a minute at most."""
    for _ in range(1200):
        if said():
            return
        time.sleep(0.05)
    raise AssertionError("it never was so")


class Serving:
    """A server that runs until the block ends."""

    def __init__(self, *words, browser=False, env=None, **how):
        self.how = {"preexec_fn": heed_signals, **how}
        self.words = [*COMMAND, *map(str, words), *([] if browser else ["--no-browser"])]
        self.env = {**os.environ, **(env or {})}

    def __enter__(self):
        self.log = tempfile.TemporaryDirectory()
        self.out, self.error = Path(self.log.name, "out"), Path(self.log.name, "error")
        with self.out.open("w") as out, self.error.open("w") as error:
            self.process = subprocess.Popen(self.words, stdout=out, stderr=error, env=self.env, **self.how)
        for _ in range(1200):
            found = re.search(r"http://127\.0\.0\.1:(\d+)(/\S+/)\n.*\n", self.out.read_text())
            if found is not None:
                self.address, self.port, self.path = f"http://127.0.0.1:{found[1]}{found[2]}", int(found[1]), found[2]
                return self
            time.sleep(0.05)
        said = self.end()
        self.log.cleanup()
        raise AssertionError(f"it doesn't begin: {said}")

    def __exit__(self, *_):
        self.end()
        self.log.cleanup()

    def end(self, number=signal.SIGTERM):
        """Ends it by a signal: its status, and what it said."""
        if self.process.poll() is None:
            self.process.send_signal(number)
        return self.process.wait(timeout=60), self.out.read_text(), self.error.read_text()

    def memory(self, what="VmRSS"):
        """Its memory, in MB."""
        told = Path(f"/proc/{self.process.pid}/status").read_text()
        return int(re.search(rf"{what}:\s+(\d+)", told)[1]) / 1000

    def ask(self, method, path, body=None, headers=(), timeout=60):
        """One request in a connection of its own: the status, the headers and the body."""
        connection = http.client.HTTPConnection("127.0.0.1", self.port, timeout=timeout)
        try:
            connection.request(method, self.path + path, body, dict(headers))
            answer = connection.getresponse()
            return answer.status, answer.headers, answer.read()
        finally:
            connection.close()

    def call(self, name, body):
        """A call's answer, which has to come."""
        status, _, answer = self.ask("POST", name, body)
        assert status == 200, (status, answer)
        return answer

    def raw(self, sent, ends=True, timeout=60):
        """What comes back for bytes; nothing where the connection is only closed. `ends`: that no more bytes come is told."""
        with socket.create_connection(("127.0.0.1", self.port), timeout=timeout) as connection:
            got = b""
            try:
                for piece in [sent] if isinstance(sent, bytes) else sent:
                    connection.sendall(piece)
                if ends:
                    connection.shutdown(socket.SHUT_WR)
            except OSError:
                pass  # the server has ended it already
            try:
                while piece := connection.recv(65536):
                    got += piece
            except ConnectionError:
                pass
            return got


def frames(*parts):
    return struct.pack(f"<I{len(parts)}I", len(parts), *map(len, parts)) + b"".join(parts)


def parts_of(body):
    (count,) = struct.unpack_from("<I", body)
    lengths, at, found = struct.unpack_from(f"<{count}I", body, 4), 4 + 4 * count, []
    for length in lengths:
        found.append(body[at : at + length])
        at += length
    return found
