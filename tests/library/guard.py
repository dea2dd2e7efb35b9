"""The example of a guard: a good tile passes, a broken one is answered 502 with its fault, and mended where that is asked for:
guard.py PROGRAM"""

import functools
import http.server
import subprocess
import sys
import threading
import urllib.error
import urllib.request
from pathlib import Path

TILES = Path(__file__).resolve().parents[2] / "fixtures" / "tiles"


class Quiet(http.server.SimpleHTTPRequestHandler):
    def log_message(self, *words):
        pass


upstream = http.server.ThreadingHTTPServer(("127.0.0.1", 0), functools.partial(Quiet, directory=TILES))
threading.Thread(target=upstream.serve_forever, daemon=True).start()


def guarded(*words):
    """What a guard with these words answers for a good tile and for a broken one: the status and the body."""
    command = [sys.argv[1], "-listen", "127.0.0.1:0", *words, f"http://127.0.0.1:{upstream.server_port}"]
    with subprocess.Popen(command, stdout=subprocess.PIPE, stderr=subprocess.DEVNULL, text=True) as run:
        try:
            address = run.stdout.readline().strip()
            return [asked(f"{address}/{name}.mvt") for name in ("gdal", "broken/22-FirstRing")]
        finally:
            run.kill()


def asked(address):
    try:
        with urllib.request.urlopen(address, timeout=60) as answer:
            return answer.status, answer.read()
    except urllib.error.HTTPError as answer:
        return answer.code, answer.read()


good = 200, (TILES / "gdal.mvt").read_bytes()
# The ring (20, 34), (3, 6), (8, 12).
mended = 200, bytes.fromhex("1a1778020a0161120d180322090928441221370a0c0f288020")
plain, mending = guarded(), guarded("-mend")
assert plain[0] == mending[0] == good
assert plain[1][0] == 502 and b"22 FirstRing" in plain[1][1] and b"mvt mend mends this" in plain[1][1], plain
assert mending[1] == mended, mending
