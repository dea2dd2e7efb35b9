"""README.md's line for a tile of a server ($MVT is the program): right for each way in which a server sends a tile, and a
failure where it sends none."""

import gzip
import http.server
import os
import re
import shutil
import socket
import subprocess
import tempfile
import threading
import unittest
from pathlib import Path

TOP = Path(__file__).resolve().parents[2]
TILE = (TOP / "fixtures" / "tiles" / "gdal.mvt").read_bytes()
WANTED = (TOP / "fixtures" / "tiles" / "gdal.check").read_text()


def line():
    """The commands of the example, in one line."""
    text = (TOP / "README.md").read_text(encoding="utf-8")
    commands = re.findall(r"^    \$ (.*)\n", text, re.MULTILINE)
    [at] = [number for number, command in enumerate(commands) if command.startswith("curl ")]
    return "\n".join(commands[at - 1 : at + 1])


class Tiles(http.server.BaseHTTPRequestHandler):
    """A tile; in gzip where that is asked for and the server does so."""

    packs = False

    def do_GET(self):
        is_packed = self.packs and "gzip" in self.headers.get("Accept-Encoding", "")
        body = gzip.compress(TILE) if is_packed else TILE
        self.send_response(200 if self.path == "/14/8192/8191.mvt" else 404)
        if is_packed:
            self.send_header("Content-Encoding", "gzip")
        self.send_header("Content-Length", str(len(body)))
        self.end_headers()
        self.wfile.write(body)

    def log_message(self, *_):
        pass


class Packing(Tiles):
    packs = True


@unittest.skipUnless(shutil.which("curl"), "curl isn't there")
class Line(unittest.TestCase):
    def run_it(self, port, path="/14/8192/8191.mvt"):
        words = line().replace("127.0.0.1:8080/14/8192/8191.mvt", f"127.0.0.1:{port}{path}")
        with tempfile.TemporaryDirectory() as folder:
            Path(folder, "mvt").symlink_to(Path(os.environ["MVT"]).resolve())
            env = {**os.environ, "PATH": f"{folder}:{os.environ['PATH']}"}
            run = subprocess.run(["bash", "-c", words], capture_output=True, text=True, timeout=60, env=env)
        return run.returncode, run.stdout

    def served(self, handler):
        server = http.server.ThreadingHTTPServer(("127.0.0.1", 0), handler)
        self.addCleanup(server.server_close)
        self.addCleanup(server.shutdown)
        threading.Thread(target=server.serve_forever, daemon=True).start()
        return server.server_port

    def test_a_tile_that_is_sent_plain_or_packed(self):
        for handler in (Tiles, Packing):
            self.assertEqual(self.run_it(self.served(handler)), (0, WANTED))

    def test_a_server_that_gives_no_tile(self):
        self.assertNotEqual(self.run_it(self.served(Tiles), "/1/1/1.mvt")[0], 0)
        with socket.create_server(("127.0.0.1", 0)) as free:
            port = free.getsockname()[1]
        self.assertNotEqual(self.run_it(port)[0], 0)


if __name__ == "__main__":
    unittest.main()
