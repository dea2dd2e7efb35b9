"""What the server answers to whom: its calls' spelling, requests that are no good, and how the command ends."""

import fnmatch
import http.client
import json
import os
import random
import re
import shlex
import signal
import socket
import sqlite3
import stat
import struct
import subprocess
import tempfile
import threading
import time
import unittest
from contextlib import closing
from pathlib import Path
from xml.etree import ElementTree

import libmvt
from libmvt.raw import measured
from mvt_tools.page.differ import first_difference
from serving import COMMAND, TILES, Serving, frames, parts_of, until

GDAL = (TILES / "gdal.mvt").read_bytes()
BROKEN = (TILES / "broken" / "22-FirstRing.mvt").read_bytes()


class Served(unittest.TestCase):
    """Tests that share a server."""

    @classmethod
    def setUpClass(cls):
        cls.serving = Serving()
        cls.serving.__enter__()

    @classmethod
    def tearDownClass(cls):
        cls.serving.__exit__()

    def head(self, method="GET", path=None, **headers):
        """The head of a request as a browser writes it, with some headers changed; None leaves one out."""
        told = {
            "Host": f"127.0.0.1:{self.serving.port}",
            "Connection": "close",
            **{name.replace("_", "-"): value for name, value in headers.items()},
        }
        lines = [f"{method} {self.serving.path if path is None else path} HTTP/1.1"]
        lines += [
            f"{name}: {each}"
            for name, value in told.items()
            if value is not None
            for each in (value if isinstance(value, list) else [value])
        ]
        return ("\r\n".join(lines) + "\r\n\r\n").encode()

    def status(self, sent):
        """The status of the answer; 0 where there is none."""
        got = self.serving.raw(sent, ends=False)
        return int(got.split(b" ")[1]) if got.startswith(b"HTTP/1.") else 0

    def is_there(self):
        self.assertEqual(self.serving.call("judge", GDAL), struct.pack("<II", 0, 0))


class Calls(Served):
    def test_texts_and_bytes(self):
        told = libmvt.survey(GDAL)
        counts = struct.pack("<3Q", told.layers, told.features, told.canonical)
        for name, wanted in [
            ("survey", counts),
            ("json", libmvt.to_json(GDAL).encode()),
            ("svg", libmvt.to_svg(GDAL).encode()),
            ("rewrite", libmvt.rewrite(GDAL)),
            ("judge", b""),
            ("findings", b""),
        ]:
            self.assertEqual(self.serving.call(name, GDAL), struct.pack("<II", 0, 0) + wanted, name)

    def test_notes_and_findings(self):
        # The layer `a` with a feature of unknown type without integers, and the layer `b` without features.
        tile = bytes.fromhex("1a077802 0a0161 1200 1a057802 0a0162")
        note = struct.pack("<II4Q", 3, 0, 1, 0, 0, 0)
        self.assertEqual(self.serving.call("survey", tile), struct.pack("<II3Q", 0, 0, 2, 1, 0) + note)
        self.assertEqual(
            self.serving.call("findings", tile), struct.pack("<II", 0, 0) + struct.pack("<II3Qii", 2, 1, 0, 0, 0, 0, 0)
        )

    def test_layers_that_are_named(self):
        call = lambda *names: self.serving.call("extract", frames(*names, GDAL))
        self.assertEqual(call(b"water", b"roads"), struct.pack("<II", 0, 0) + libmvt.extract(GDAL, ["water", "roads"]))
        self.assertEqual(call(), struct.pack("<II", 0, 0))
        self.assertEqual(call(b"rivers"), struct.pack("<II", 4, 0))
        self.assertEqual(call(b"\xff"), struct.pack("<II", 5, 0))
        self.assertEqual(call(b""), struct.pack("<II", 4, 0))

    def test_a_fault(self):
        wanted = struct.pack("<IIqqQII", 1, 0, 0, 0, 8, 22, 9) + b"FirstRing"
        for name in ("judge", "read", "survey", "findings", "rewrite", "json", "svg"):
            self.assertEqual(self.serving.call(name, BROKEN), wanted, name)
        self.assertEqual(self.serving.call("extract", frames(b"a", BROKEN)), wanted)
        self.assertEqual(
            self.serving.call("judge", b"\0"), struct.pack("<IIqqQII", 1, 0, -1, -1, 0, 3, 11) + b"FieldNumber"
        )

    def test_what_is_round_a_fault(self):
        def around(tile):
            return json.loads(self.serving.call("around", tile)[8:])

        told = around(BROKEN)
        self.assertEqual((told["integers"]["list"], told["integers"]["index"]), ("geometry", 8))
        self.assertIsNotNone(told["shape"])
        nothing = {"integers": None, "shape": None}
        self.assertEqual(around(GDAL), nothing)
        # The same behind a field 100 of 8 MiB, which no reader knows: of so large a tile nothing more is told.
        self.assertEqual(around(b"\xa2\x06\x80\x80\x80\x04" + bytes(1 << 23) + BROKEN), nothing)

    def test_a_mended_tile(self):
        told = self.serving.call("mend", BROKEN)
        self.assertEqual(told[:8], struct.pack("<II", 0, 0))
        said, mended = parts_of(told[8:])
        self.assertEqual(mended, libmvt.mend(BROKEN).bytes)
        said = json.loads(said)
        self.assertEqual(
            (said["kinds"], said["lines"]), ([{"kind": "TurnedRing", "count": 1}], ["layer 0 feature 0: TurnedRing 0"])
        )
        [feature] = said["features"]
        self.assertEqual(feature["before"]["parts"], [[[20, 34], [8, 12], [3, 6], [20, 34]]])
        self.assertEqual(feature["after"]["parts"], [[[20, 34], [3, 6], [8, 12], [20, 34]]])
        said, mended = parts_of(self.serving.call("mend", GDAL)[8:])
        self.assertEqual((json.loads(said), mended), ({"kinds": [], "lines": [], "features": []}, libmvt.rewrite(GDAL)))
        self.assertEqual(self.serving.call("mend", b"\0"), self.serving.call("judge", b"\0"))

    def test_features_that_are_left_out(self):
        """Two lines of one point twice, and between them one that is mended to two points: what comes after has another index."""
        gone, kept = bytes.fromhex("120a180222060904040a0000"), bytes.fromhex("120c1802220809040612000000 08")
        layer = bytes.fromhex("78020a0161") + gone + kept + gone
        said, _ = parts_of(self.serving.call("mend", bytes([0x1A, len(layer)]) + layer)[8:])
        said = json.loads(said)
        self.assertEqual(
            said["lines"],
            [
                "layer 0 feature 0: FeatureLeftOut count 2",
                "layer 0 feature 1: RepeatedPoint 0 count 1",
                "layer 0 feature 2: FeatureLeftOut count 2",
            ],
        )
        self.assertEqual(
            [each["after"] and each["after"]["parts"] for each in said["features"]], [None, [[[2, 3], [2, 7]]], None]
        )
        self.assertEqual(said["features"][0]["before"]["parts"], [[[2, 2], [2, 2]]])

    def test_what_differs_from_the_canonical_form(self):
        told = json.loads(self.serving.call("canonical", GDAL)[8:])
        self.assertEqual((told["isSame"], told["length"]), (False, len(libmvt.rewrite(GDAL))))
        self.assertEqual(told["difference"], json.loads(json.dumps(first_difference(GDAL, libmvt.rewrite(GDAL)))))
        told = json.loads(self.serving.call("canonical", libmvt.rewrite(GDAL))[8:])
        self.assertEqual((told["isSame"], told["difference"]), (True, None))
        self.assertEqual(self.serving.call("canonical", BROKEN), self.serving.call("judge", BROKEN))
        # Behind a field 100 of 8 MiB, which the canonical form doesn't have: of so large a tile no difference is told.
        told = json.loads(self.serving.call("canonical", b"\xa2\x06\x80\x80\x80\x04" + bytes(1 << 23) + GDAL)[8:])
        self.assertEqual((told["isSame"], told["difference"]), (False, None))

    def test_what_bytes_look_like(self):
        """The number of a GIF in mvt_lookalike, and the sentence."""
        sentence = b"This isn't a tile, but looks like a GIF picture."
        wanted = (
            struct.pack("<IIqqQII", 1, 10, -1, -1, 0, 4, 8) + b"WireType" + struct.pack("<I", len(sentence)) + sentence
        )
        for name in ("judge", "read", "survey", "findings", "rewrite", "json", "svg"):
            self.assertEqual(self.serving.call(name, b"GIF89a"), wanted, name)
        self.assertEqual(self.serving.call("extract", frames(b"a", b"GIF89a")), wanted)
        self.assertEqual(
            self.serving.call("surveys", frames(b"GIF89a", BROKEN)), frames(wanted, self.serving.call("judge", BROKEN))
        )

    def test_a_place(self):
        told, fault = self.serving.call("explain", BROKEN), self.serving.call("judge", BROKEN)
        sentence = "The first ring goes the wrong way round. An exterior ring has positive area, which is clockwise on the screen.".encode()
        # The layer `a`; the feature has no id; the ClosePath is byte 21.
        self.assertEqual(told, fault + struct.pack("<IIQQQII", 1, 0, 0, 21, 22, 1, len(sentence)) + b"a" + sentence)
        outside = self.serving.call("explain", b"\0")
        told = b"A field begins here whose number is 0 or far too large."
        self.assertEqual(
            outside, self.serving.call("judge", b"\0") + struct.pack("<IIQQQII", 0, 0, 0, 0, 1, 0, len(told)) + told
        )
        for tile in (GDAL, b""):
            self.assertEqual(self.serving.call("explain", tile), struct.pack("<II", 0, 0))

    def test_rows(self):
        rows, told = libmvt.rows(GDAL), self.serving.call("read", GDAL)
        names = ("layers", "features", "keys", "values", "tags", "parts", "points", "integers", "texts")
        self.assertEqual(struct.unpack_from("<II9Q", told), (0, 0, *(len(getattr(rows, name)) for name in names)))
        at = 80
        for name in names:
            content = bytes(memoryview(getattr(rows, name)))
            self.assertEqual(told[at : at + len(content)], content, name)
            at += -(-len(content) // 8) * 8
        self.assertEqual(at, len(told))

    def test_sizes(self):
        told = self.serving.call("sizes", GDAL)
        self.assertEqual(told[:8], struct.pack("<II", 0, 0))
        self.assertEqual(json.loads(told[8:]), [[layer[2], layer[3]] for layer in measured(GDAL)])
        self.assertEqual(self.serving.call("sizes", BROKEN), struct.pack("<II", 2, 0))

    def test_geojson(self):
        degrees = self.serving.call("geojson", frames(b"14/8192/8191", GDAL))
        self.assertEqual(degrees[:8], struct.pack("<II", 0, 0))
        self.assertEqual(json.loads(degrees[8:]), libmvt.to_geojson(GDAL, 14, 8192, 8191))
        units = json.loads(self.serving.call("geojson", frames(b"", GDAL))[8:])
        wanted = [
            {**each, "layer": layer.name} for layer in libmvt.read(GDAL) for each in layer.__geo_interface__["features"]
        ]
        self.assertEqual(units, json.loads(json.dumps({"type": "FeatureCollection", "features": wanted})))
        self.assertEqual(json.loads(self.serving.call("geojson", frames(b"", b""))[8:])["features"], [])
        self.assertEqual(self.serving.call("geojson", frames(b"", BROKEN)), self.serving.call("judge", BROKEN))
        for parts in ((GDAL,), (b"14/0", GDAL), (b"31/0/0", GDAL), (b"\xff", GDAL), (b"0/0/0", GDAL, GDAL), ()):
            self.assertEqual(self.serving.ask("POST", "geojson", frames(*parts))[0], 400, parts)

    def test_several_tiles(self):
        told = parts_of(self.serving.call("surveys", frames(GDAL, BROKEN, b"")))
        self.assertEqual(told, [self.serving.call("survey", tile) for tile in (GDAL, BROKEN, b"")])
        self.assertEqual(parts_of(self.serving.call("surveys", frames())), [])

    def test_the_longest_body(self):
        longest = bytes([0x20, 0]) * (1 << 25) + bytes([0x20])
        self.assertEqual(
            self.serving.call("judge", longest), struct.pack("<IIqqQII", 1, 0, -1, -1, 1 << 26, 25, 8) + b"TooLarge"
        )
        self.assertEqual(
            self.status(self.head("POST", self.serving.path + "judge", Content_Length=str(len(longest) + 1))), 413
        )

    def test_one_connection_has_many_calls(self):
        with socket.create_connection(("127.0.0.1", self.serving.port)) as connection, connection.makefile(
            "rb"
        ) as answers:
            for _ in range(3):
                connection.sendall(
                    self.head("POST", self.serving.path + "judge", Content_Length=str(len(GDAL)), Connection=None)
                    + GDAL
                )
                self.assertEqual(answers.readline(), b"HTTP/1.1 200 OK\r\n")
                while answers.readline() != b"\r\n":
                    pass
                self.assertEqual(answers.read(8), bytes(8))


class Denied(Served):
    def test_what_each_answer_says(self):
        for path in ("", "given", "nothing"):
            status, headers, _ = self.serving.ask("GET", path)
            self.assertIn("frame-ancestors 'none'", headers["Content-Security-Policy"])
            wanted = {
                "Cross-Origin-Opener-Policy": "same-origin",
                "Cross-Origin-Resource-Policy": "same-origin",
                "Referrer-Policy": "no-referrer",
                "X-Content-Type-Options": "nosniff",
                "Cache-Control": "no-store",
            }
            self.assertEqual({name: headers[name] for name in wanted}, wanted)
            self.assertNotIn("Access-Control-Allow-Origin", headers)
            self.assertNotIn("Set-Cookie", headers)
            self.assertEqual(status, 404 if path == "nothing" else 200)

    def test_the_policy_of_the_page(self):
        _, _, page = self.serving.ask("GET", "")
        self.assertIn(b"connect-src 'self'; ", page)
        for word in (b"wasm", b"unsafe-eval"):
            self.assertNotIn(word, page.split(b"</head>")[0])

    def test_hosts(self):
        port = self.serving.port
        for host, status in [
            (f"127.0.0.1:{port}", 200),
            (f"localhost:{port}", 200),
            (f"LOCALHOST:{port}", 200),
            ("127.0.0.1", 403),
            ("localhost", 403),
            (f"evil.example:{port}", 403),
            (f"127.0.0.1.evil.example:{port}", 403),
            (f"127.0.0.1:{port + 1}", 403),
            ("", 403),
            (None, 403),
            (f"[::1]:{port}", 403),
            (f"0.0.0.0:{port}", 403),
            (f"127.1:{port}", 403),
            ([f"127.0.0.1:{port}"] * 2, 403),
        ]:
            self.assertEqual(self.status(self.head(Host=host)), status, host)

    def test_origins(self):
        port, path = self.serving.port, self.serving.path + "judge"
        for origin, status in [
            (None, 200),
            (f"http://127.0.0.1:{port}", 200),
            ("null", 403),
            ("http://evil.example", 403),
            (f"https://127.0.0.1:{port}", 403),
            (f"http://127.0.0.1:{port + 1}", 403),
            (f"http://localhost:{port}", 403),
            ("", 403),
            ("file://", 403),
        ]:
            sent = self.head("POST", path, Origin=origin, Content_Length=str(len(GDAL))) + GDAL
            self.assertEqual(self.status(sent), status, origin)

    def test_sites(self):
        for site, status in [
            ("none", 200),
            ("same-origin", 200),
            ("same-site", 403),
            ("cross-site", 403),
            ("", 403),
            (["none", "cross-site"], 403),
        ]:
            self.assertEqual(
                self.status(self.head(path=self.serving.path + "given", Sec_Fetch_Site=site)), status, site
            )
        link = {"Sec_Fetch_Site": "cross-site", "Sec_Fetch_Mode": "navigate", "Sec_Fetch_Dest": "document"}
        self.assertEqual(self.status(self.head(**link)), 200)
        self.assertEqual(self.status(self.head(path=self.serving.path + "given", **link)), 403)
        for change in (
            {"Sec_Fetch_Dest": "iframe"},
            {"Sec_Fetch_Mode": "no-cors"},
            {"Sec_Fetch_Dest": "script"},
            {"Sec_Fetch_Mode": None},
        ):
            self.assertEqual(self.status(self.head(**{**link, **change})), 403, change)

    def test_tokens(self):
        token = self.serving.path.strip("/")
        self.assertEqual(len(token), 32)
        for path in (
            "/",
            "/given",
            f"/{token[:-1]}/",
            f"/{token}a/",
            f"/{token.swapcase()}/",
            f"/x/{token}/",
            f"/{token}",
            "/é/",
            f"/{token}/../{token}/",
            f"http://127.0.0.1:{self.serving.port}/{token}/",
            f"/%{ord(token[0]):02x}{token[1:]}/",
            f"/{token}\0/",
        ):
            self.assertIn(self.status(self.head(path=path)), (400, 404), path)
        with Serving() as other:
            self.assertNotEqual(other.path, self.serving.path)

    def test_methods(self):
        for method in ("PUT", "DELETE", "OPTIONS", "TRACE", "CONNECT", "PATCH", "get", "X"):
            self.assertEqual(self.status(self.head(method)), 405, method)
        self.assertEqual(self.status(self.head("GET", self.serving.path + "judge")), 404)
        self.assertEqual(self.status(self.head("POST", Content_Length="0")), 404)
        self.assertTrue(self.serving.raw(self.head("HEAD")).endswith(b"\r\n\r\n"))

    def test_no_path_leads_to_a_file(self):
        with tempfile.TemporaryDirectory() as folder:
            Path(folder, "a.mvt").write_bytes(GDAL)
            with Serving(f"{folder}/a.mvt") as serving:
                self.assertEqual(serving.ask("GET", "files/0")[::2], (200, GDAL))
                for path in (
                    "files/1",
                    "files/-1",
                    "files/00",
                    "files/",
                    "files",
                    "files/0/",
                    "files/a.mvt",
                    "files/../files/0",
                    "files/%30",
                    "files/..%2f0",
                    "/etc/passwd",
                    "../../../etc/passwd",
                    "page.html",
                    "main.py",
                    "files/99999999999999999999",
                ):
                    self.assertEqual(serving.ask("GET", path)[0], 404, path)

    def test_lengths(self):
        path = self.serving.path + "judge"
        for length, status in [
            (None, 411),
            ("x", 400),
            ("-1", 400),
            ("+1", 400),
            ("1_0", 400),
            ("0x1", 400),
            ("", 400),
            ("1 1", 400),
            ("١", 400),
            (["1", "1"], 400),
            (["1", "2"], 400),
            ("67108866", 413),
            ("9" * 30, 400),
            ("99999999999999999", 413),
        ]:
            self.assertEqual(self.status(self.head("POST", path, Content_Length=length) + b"\0"), status, length)
        self.assertEqual(
            self.status(self.head("POST", path, Transfer_Encoding="chunked") + b"1\r\n\0\r\n0\r\n\r\n"), 411
        )
        self.assertEqual(
            self.status(self.head("POST", path, Transfer_Encoding="chunked", Content_Length="1") + b"\0"), 411
        )
        self.assertEqual(self.status(self.head(Content_Length="3") + b"abc"), 400)
        self.assertEqual(self.status(self.head(Transfer_Encoding="chunked") + b"0\r\n\r\n"), 400)

    def test_frames(self):
        for body in (
            b"",
            b"\1\0\0",
            struct.pack("<I", 1),
            struct.pack("<II", 1, 2) + b"a",
            struct.pack("<II", 1, 0) + b"a",
            struct.pack("<I", 2**32 - 1),
            b"\xff" * 12,
        ):
            self.assertEqual(self.serving.ask("POST", "surveys", body)[0], 400, body)
            self.assertEqual(self.serving.ask("POST", "extract", body)[0], 400, body)
        self.assertEqual(self.serving.ask("POST", "extract", frames())[0], 400)


class Malformed(Served):
    def requests(self):
        """Two hundred requests that are no good, and how many statuses they may be answered by."""
        chance, good = (
            random.Random(64),
            self.head("POST", self.serving.path + "judge", Content_Length=str(len(GDAL))) + GDAL,
        )
        yield [b"GET /" + b"a" * (1 << 20) + b" HTTP/1.1\r\n\r\n"]
        yield [b"GET / HTTP/1.1\r\nA: ", *[b"a" * (1 << 20)] * 100, b"\r\n\r\n"]
        yield [b"GET / HTTP/1.1\r\n", *[b"A: b\r\n" * 1000] * 100]
        yield from (
            [line]
            for line in (
                b"",
                b"\r\n",
                b"\n\n\n",
                b"GET\r\n\r\n",
                b"GET /\r\n\r\n",
                b"GET / HTTP/9.9\r\n\r\n",
                b"GET / FTP/1.0\r\n\r\n",
                b"GET / HTTP/1.1",
                b"POST / HTTP/1.1\r\n\r\n",
                b"\0" * 1000,
                b"\xff" * 1000,
                b"\x16\x03\x01\x02\x00\x01\x00",
                b"PRI * HTTP/2.0\r\n\r\nSM\r\n\r\n",
                b"GET  /  HTTP/1.1\r\n\r\n",
                b" GET / HTTP/1.1\r\n\r\n",
                b"GET / HTTP/1.1\r\nno colon\r\n\r\n",
                b"GET / HTTP/1.1\r\n: a\r\n\r\n",
            )
        )
        yield [good[:-1]]
        yield [good.replace(b"Content-Length: 499", b"Content-Length: 5000")]
        yield [good.replace(b"Content-Length: 499", b"Content-Length: 499\r\nContent-Length: 3")]
        yield [good.replace(b"Content-Length: 499", b"Transfer-Encoding: chunked") + b"zz\r\n"]
        yield [good.replace(b"/judge", b"/../judge")]
        while True:
            cut = bytearray(good[: chance.randrange(len(good))])
            for _ in range(chance.randrange(1, 20)):
                cut.insert(chance.randrange(len(cut) + 1), chance.choice(b"\0\r\n: /.%\xff\x7fGH1"))
            yield [bytes(cut)]

    def test_two_hundred_leave_it_serving(self):
        for number, sent in zip(range(200), self.requests()):
            got = self.serving.raw(sent)
            with self.subTest(number=number, sent=sent[0][:100]):
                self.assertNotIn(b"Traceback", got)
                self.assertTrue(not got or got.startswith((b"HTTP/1.1 4", b"HTTP/1.1 505")), got[:100])
            if number % 20 == 0:
                self.is_there()
        self.is_there()
        self.assertLess(self.serving.memory("VmHWM"), 400)

    def test_connections_have_a_bound(self):
        held = []
        try:
            for _ in range(100):
                held.append(socket.create_connection(("127.0.0.1", self.serving.port)))
            time.sleep(0.5)
            self.assertLess(len(list(Path(f"/proc/{self.serving.process.pid}/task").iterdir())), 70)
        finally:
            for connection in held:
                connection.close()
        time.sleep(0.5)
        self.is_there()

    def test_a_body_that_ends_early_is_given_up(self):
        for _ in range(80):
            with socket.create_connection(("127.0.0.1", self.serving.port)) as connection:
                connection.sendall(self.head("POST", self.serving.path + "judge", Content_Length="67108864") + b"\x1a")
        self.is_there()
        self.assertLess(self.serving.memory("VmHWM"), 400)


class Turns(Served):
    def spent(self):
        """The seconds of a processor that the server has used."""
        return (
            sum(map(int, Path(f"/proc/{self.serving.process.pid}/stat").read_text().rpartition(")")[2].split()[11:13]))
            / 100
        )

    def test_what_is_given_up_before_its_turn_never_begins(self):
        tile = bytes([0x1A, 0xFB, 0xFF, 0xFF, 0x03, 0x78, 2, 0x0A, 1, 0x61]) + bytes([0x12, 0]) * 4_194_299
        before = self.spent()
        self.serving.call("survey", tile)
        single = self.spent() - before
        asked = self.head("POST", self.serving.path + "survey", Content_Length=str(len(tile))) + tile
        held = [socket.create_connection(("127.0.0.1", self.serving.port)) for _ in range(50)]
        for connection in held:
            threading.Thread(target=self.send_quietly, args=(connection, asked), daemon=True).start()
        time.sleep(0.3)
        for connection in held:
            connection.shutdown(socket.SHUT_RDWR)
            connection.close()
        self.is_there()
        time.sleep(2 * single)
        self.assertLess(self.spent() - before, (2 * os.cpu_count() + 4) * single + 2)

    def send_quietly(self, connection, asked):
        try:
            connection.sendall(asked)
        except OSError:
            pass  # it was given up


class Patience(Served):
    def test_a_head_that_drips_is_ended(self):
        """Also where a byte comes now and then."""
        began = time.monotonic()
        with socket.create_connection(("127.0.0.1", self.serving.port), timeout=60) as connection:
            try:
                for byte in self.head():
                    connection.sendall(bytes([byte]))
                    time.sleep(0.5)
                self.fail("it waited")
            except ConnectionError:
                pass
        self.assertGreater(time.monotonic() - began, 29)
        self.is_there()


class Command(unittest.TestCase):
    def run_it(self, *words, env=None):
        run = subprocess.run(
            [*COMMAND, *map(str, words)], capture_output=True, text=True, timeout=60, env={**os.environ, **(env or {})}
        )
        return run.returncode, run.stdout, run.stderr

    def test_signals_end_it(self):
        for number in (signal.SIGINT, signal.SIGTERM, signal.SIGHUP):
            with Serving() as serving:
                status, _, error = serving.end(number)
                self.assertEqual((status, error), (0, ""))

    def test_it_ends_while_calls_run(self):
        """Where some run and others wait."""
        tile = bytes([0x1A, 0xFB, 0xFF, 0xFF, 0x1F, 0x78, 2, 0x0A, 1, 0x61]) + bytes([0x12, 0]) * 33_554_427
        for _ in range(3):
            with Serving() as serving:
                asked = [threading.Thread(target=self.ask_quietly, args=(serving, tile)) for _ in range(6)]
                for each in asked:
                    each.start()
                time.sleep(1)
                self.assertEqual(serving.end()[::2], (0, ""))
                for each in asked:
                    each.join()

    def ask_quietly(self, serving, tile):
        try:
            serving.call("json", tile)
        except (OSError, http.client.HTTPException):
            pass  # it has ended

    def test_it_says_what_it_is(self):
        with Serving() as serving:
            self.assertRegex(
                serving.end()[1],
                r"^The page is at http://127\.0\.0\.1:\d+/\S{32}/\nOnly this machine can see it.*Ctrl-C.*\n$",
            )

    def test_words_that_are_no_good(self):
        for words, why in [
            (("--port", "x"), "no port"),
            (("--port", "65536"), "no port"),
            (("--port", "-1"), "no port"),
            (("--nothing",), "unrecognized"),
        ]:
            status, out, error = self.run_it(*words)
            self.assertEqual((status, out), (2, ""))
            self.assertIn(why, error.splitlines()[-1])

    def test_a_port_that_is_taken(self):
        with Serving() as serving:
            status, out, error = self.run_it("--port", serving.port, "--no-browser")
            self.assertEqual((status, out, error), (2, "", f"mvt-page: port {serving.port}: Address already in use\n"))

    def test_what_cannot_be_read(self):
        with tempfile.TemporaryDirectory() as folder:
            for name, why in [("absent.mvt", "No such file"), ("absent.mbtiles", "No such file")]:
                status, out, error = self.run_it("--no-browser", f"{folder}/{name}")
                self.assertEqual((status, out), (3, ""))
                self.assertRegex(error, rf"^mvt-page: {folder}/{name}: {why}.*\n$")

    def test_names_do_not_command_the_terminal(self):
        """Those of files, and those that a database has in its schema."""
        with tempfile.TemporaryDirectory() as folder:
            odd = Path(folder, "\x1b]0;owned\x07\nall is well.mvt")
            schema = Path(folder, "a.mbtiles")
            with closing(sqlite3.connect(schema)) as database, database:
                database.execute("create table tiles (zoom_level, tile_column, tile_row, tile_data)")
                database.execute("pragma writable_schema = on")
                database.execute(
                    "update sqlite_master set sql = 'no table', name = ?",
                    ("x\x1b[2J\n0 refused: all is well" + "y" * 1000,),
                )
            for name, words in [
                (odd, "\\x1b]0;owned\\x07\\x0aall is well.mvt: No such file"),
                (schema, "x\\x1b[2J\\x0a0 refused"),
                (Path(folder, "z" * 200), "z…: No such file"),
            ]:
                status, out, error = self.run_it("--no-browser", name)
                self.assertEqual((status, out), (3, ""))
                self.assertIn(words, error)
                self.assertNotRegex(error[:-1], "[\0-\x1f\x7f]")
                self.assertLess(len(error), 500)

    def test_a_port_that_is_named(self):
        with socket.create_server(("127.0.0.1", 0)) as free:
            port = free.getsockname()[1]
        with Serving("--port", port) as serving:
            self.assertEqual(serving.port, port)

    def test_it_listens_here_alone(self):
        with Serving() as serving:
            listening = Path("/proc/net/tcp").read_text() + Path("/proc/net/tcp6").read_text()
            addresses = [
                line.split()[1]
                for line in listening.splitlines()
                if f":{serving.port:04X} " in line and line.split()[3] == "0A"
            ]
            self.assertEqual(addresses, [f"0100007F:{serving.port:04X}"])

    def test_a_signal_that_another_thread_is_given_ends_it_too(self):
        with Serving() as serving:
            others = [
                int(thread)
                for thread in os.listdir(f"/proc/{serving.process.pid}/task")
                if int(thread) != serving.process.pid
            ]
            os.kill(others[0], signal.SIGTERM)
            self.assertEqual(serving.process.wait(timeout=60), 0)

    def test_ssh_is_told_where_no_browser_is(self):
        """By the address and the port through which the user came."""
        none = {"DISPLAY": "", "WAYLAND_DISPLAY": "", "BROWSER": "", "USER": "ann"}
        for came, way in [
            ("10.0.0.1 5 10.0.0.2 22", "ann@10.0.0.2"),
            ("10.0.0.1 5 fe80::1 2222", "-p 2222 ann@fe80::1"),
            ("", "ann@THIS-MACHINE"),
        ]:
            with Serving(browser=True, env={**none, "SSH_CONNECTION": came}) as serving:
                wanted = f"ssh -L {serving.port}:127.0.0.1:{serving.port} {way}\n"
                until(lambda: wanted in serving.out.read_text())  # noqa: B023
                self.assertEqual(serving.end()[0], 0)

    def test_a_browser_is_opened_by_a_file(self):
        with tempfile.TemporaryDirectory() as folder:
            browser = Path(folder, "browser")
            browser.write_text(f'#!/bin/sh\necho "$1" >{folder}/told.new\nmv {folder}/told.new {folder}/told\n')
            browser.chmod(0o755)
            with Serving(browser=True, env={"BROWSER": f"{browser} %s", "XDG_RUNTIME_DIR": folder}) as serving:
                told = Path(folder, "told")
                until(told.exists)
                url = told.read_text().strip()
                file = Path(url.replace("file://", ""))
                self.assertNotIn(serving.path.strip("/"), url)
                self.assertEqual(stat.S_IMODE(file.stat().st_mode), 0o600)
                self.assertIn(f'content="0;url={serving.address}"', file.read_text())
                self.assertEqual(serving.end()[0], 0)
                self.assertFalse(file.exists())

    def test_the_entry_of_the_desktop(self):
        """It hands over names as they are, and where the command fails its window stays until Enter."""
        entry = Path(TILES.parents[1], "packaging", "desktop", "mvt-page.desktop").read_text()
        line = re.search("^Exec=(.*)$", entry, re.MULTILINE)[1].replace("\\\\", "\\")
        names = ["/a/my town.mvt", '/b/$HOME "x".mbtiles']
        words = [each for word in shlex.split(line) for each in (names if word == "%F" else [word.replace("\\$", "$")])]
        with tempfile.TemporaryDirectory() as folder:
            command = Path(folder, "mvt-page")
            for status, told in [(0, ""), (3, "Enter closes this window.\n")]:
                command.write_text(f'#!/bin/sh\nprintf "%s\\n" "$@"\nexit {status}\n')
                command.chmod(0o755)
                run = subprocess.run(
                    words,
                    input="\n",
                    capture_output=True,
                    text=True,
                    timeout=60,
                    env={"PATH": f"{folder}:/usr/bin:/bin"},
                )
                self.assertEqual((run.stdout, run.stderr), ("".join(f"{name}\n" for name in names) + told, ""))

    def test_files_that_the_desktop_opens(self):
        """Tiles by their ending, of .pbf files those that are named by a row, and stores."""
        kinds = ElementTree.parse(TILES.parents[1] / "packaging" / "desktop" / "mvt.xml").getroot()
        globs = [(glob.get("pattern"), kind.get("type")) for kind in kinds for glob in kind.findall("{*}glob")]
        tile = "application/vnd.mapbox-vector-tile"
        for name, wanted in [
            ("town.mvt", tile),
            ("0.pbf", tile),
            ("1451.pbf", tile),
            ("268435455.pbf", tile),
            ("a.mbtiles", "application/x-mbtiles"),
            ("a.pmtiles", "application/vnd.pmtiles"),
            ("planet.osm.pbf", None),
            ("planet-220101.osm.pbf", None),
            ("0-255.pbf", None),
            ("roads.pbf", None),
        ]:
            self.assertEqual(
                next((kind for pattern, kind in globs if fnmatch.fnmatchcase(name, pattern)), None), wanted, name
            )

    def test_words_of_help(self):
        status, out, error = self.run_it("--help")
        self.assertEqual((status, error), (0, ""))
        for word in ("--port", "--no-browser", "--zooms", "--bounds", "--requests", "--timeout", "WHAT", "Status"):
            self.assertIn(word, out)
