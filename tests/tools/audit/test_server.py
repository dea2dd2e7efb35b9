"""A server of tiles, on the loopback address: good answers, none, slow, wrong and broken ones."""

import gzip
import http.server
import json
import socket
import threading
import time
import unittest

from common import Case, at_places, audit, example_tiles, make_tree, rows
from mvt_tools import stores
from mvt_tools.audit import judging
from mvt_tools.stores import Address, Options
from mvt_tools.stores.server import _blocks


class Handler(http.server.BaseHTTPRequestHandler):
    """Answers by the server's own function of a path: a status, headers and a body, or bytes as they are sent."""

    protocol_version = "HTTP/1.1"

    def do_GET(self):
        server = self.server
        with server.lock:
            server.asked.append((self.path, dict(self.headers)))
            server.now += 1
            server.most = max(server.most, server.now)
        try:
            answer = server.answer(self.path)
            if callable(answer):
                answer(self)
            else:
                status, headers, body = answer
                self.send_response(status)
                for name, value in {"Content-Length": str(len(body)), **headers}.items():
                    self.send_header(name, value)
                self.end_headers()
                self.wfile.write(body)
        except OSError:
            self.close_connection = True
        finally:
            with server.lock:
                server.now -= 1

    def log_message(self, *_):
        pass


class Server(http.server.ThreadingHTTPServer):
    def __init__(self, answer):
        super().__init__(("127.0.0.1", 0), Handler)
        self.answer, self.asked, self.lock, self.now, self.most, self.connections = (
            answer,
            [],
            threading.Lock(),
            0,
            0,
            0,
        )
        self.address = f"http://127.0.0.1:{self.server_port}"
        threading.Thread(target=self.serve_forever, daemon=True).start()

    def get_request(self):
        self.connections += 1
        return super().get_request()

    def handle_error(self, *_):
        pass


def sent(content, ends=True):
    """An answer of these very bytes."""

    def send(handler):
        handler.wfile.write(content)
        handler.wfile.flush()
        handler.close_connection = ends

    return send


def drip(handler):
    """An answer of which a byte comes every tenth of a second, for ever."""
    handler.wfile.write(b"HTTP/1.1 200 OK\r\nContent-Length: 100000\r\n\r\n")
    for _ in range(100_000):
        handler.wfile.write(b"x")
        handler.wfile.flush()
        time.sleep(0.1)


class Servers(Case):
    def serving(self, answer):
        server = Server(answer)
        self.addCleanup(server.server_close)
        self.addCleanup(server.shutdown)
        return server

    def store(self, path, **options):
        store = stores.opened(path, Options(**options))
        return store, store.state()

    def one(self, answer, timeout=60):
        """The row of the one tile of a server."""
        server = self.serving(lambda path: answer)
        store, _ = self.store(server.address + "/{z}/{x}/{y}.pbf", zooms=(0, 0), timeout=timeout)
        [(address, content)] = [each for part in store.ranges(10) for each in store.tiles(part)]
        return None if content is None else judging.judged(address, content)

    def test_the_same_table_as_a_folder(self):
        tiles = at_places(
            [gzip.compress(tile) for name, tile in example_tiles().items() if name != "04-WireType-gzip"], z=6
        )

        def answer(path):
            z, x, y = (int(number) for number in path[1:-4].split("/"))
            if (z, x, y) not in tiles:
                return (204, {}, b"") if x % 2 else (404, {}, b"no such tile")
            return 200, {"Content-Encoding": "gzip"}, tiles[z, x, y]

        server = self.serving(answer)
        tree = make_tree(self.room / "tree", tiles)
        audit(tree, "--into", self.room / "of tree")
        words = [server.address + "/{z}/{x}/{y}.pbf", "--zooms", "6", "--requests", 6, "--into", self.into]
        status, out, error = audit(*words)
        self.assertEqual((status, error), (1, ""))
        query = f"select {', '.join(judging.Row._fields[:3] + judging.Row._fields[4:])} from tiles order by z, x, y"
        self.assertEqual(rows(self.into, query), rows(self.room / "of tree", query))
        # Those of broken tiles are asked for once more, for the page.
        self.assertLess(4**6, len(server.asked))
        self.assertLess(len(server.asked), 4**6 + 200)
        self.assertLessEqual(server.most, 6)
        self.assertLess(server.connections, 200)
        self.assertTrue(all(headers["Accept-Encoding"] == "gzip" for _, headers in server.asked))
        page = (self.into / "report.html").read_text()
        self.assertIn(f'<a href="{server.address}/6/', page)
        self.assertRegex(
            page,
            f"mvt-page &#x27;{server.address}/{{z}}/{{x}}/{{y}}.pbf&#x27; 6/[0-9]+/[0-9]+ --zooms 6-6 --requests 6<",
        )
        status, _, error = audit(*words)
        self.assertIn("all 4,096 tiles are judged already", error)

    def test_rows_counted_from_the_south(self):
        server = self.serving(lambda path: (200, {}, path.encode()))
        store, state = self.store(server.address + "/{z}/{x}/{-y}", zooms=(2, 2))
        self.assertEqual(state.tiles, 16)
        found = {address: content for part in store.ranges(5) for address, content in store.tiles(part)}
        self.assertEqual(found[Address(2, 1, 0)], b"/2/1/3")
        self.assertEqual(store.tile(Address(2, 3, 3)), b"/2/3/0")

    def test_answers(self):
        good = example_tiles()["gdal"]
        packed = gzip.compress(good)
        head = b"HTTP/1.1 200 OK\r\n"
        chunked = b"Transfer-Encoding: chunked\r\n\r\n"
        told = lambda body: self.one(body)  # noqa: E731
        self.assertEqual(told((200, {}, good)).verdict, "accepted")
        self.assertEqual(told((200, {"Content-Encoding": "gzip"}, packed)).verdict, "accepted")
        self.assertEqual(told((200, {}, packed)).verdict, "accepted")
        self.assertEqual(told((200, {"Content-Encoding": "gzip"}, packed[:-20])).notes, "cut off")
        self.assertEqual(told((200, {}, b"")).verdict, "empty")
        self.assertIsNone(told((204, {}, b"")))
        self.assertIsNone(told((404, {}, b"not here")))
        whole = head + chunked + b"%x\r\n" % len(good) + good + b"\r\n0\r\n\r\n"
        self.assertEqual(told(sent(whole)).verdict, "accepted")
        for answer, why in [
            ((503, {}, b"later"), "503 Service Unavailable"),
            ((301, {"Location": "/x"}, b""), "301 Moved Permanently"),
            ((200, {"Content-Encoding": "br"}, b"x"), "it answers in the encoding br"),
            (sent(b""), "the server ended the connection and answered nothing"),
            (sent(b"what?\r\n\r\n"), "no HTTP: BadStatusLine what?"),
            (sent(head + b"Content-Length: 20\r\n\r\nten bytes.."), "the body ends early: 11 of 20 bytes came"),
            (sent(head + chunked + b"ff\r\nshort"), "the body ends early"),
        ]:
            row = told(answer)
            self.assertEqual((row.verdict, row.notes), ("unread", why))
        for answer in (drip, lambda _: time.sleep(10)):
            row = self.one(answer, timeout=1)
            self.assertEqual((row.verdict, row.notes), ("unread", "no whole answer within 1 seconds"))

    def test_a_body_larger_than_the_limit_is_read_no_further(self):
        read = []

        def endless(handler):
            handler.wfile.write(b"HTTP/1.1 200 OK\r\nContent-Length: 1000000000000\r\n\r\n")
            while True:
                read.append(handler.wfile.write(b"\x10\x00" * 500_000))

        row = self.one(endless)
        self.assertEqual((row.verdict, row.cause_name), ("refused", "TooLarge"))
        self.assertLess(sum(read), 200_000_000)

    def test_a_server_that_is_not_there(self):
        held = socket.create_server(("127.0.0.1", 0))
        port = held.getsockname()[1]
        held.close()
        status, out, _ = audit(f"http://127.0.0.1:{port}/{{z}}/{{x}}/{{y}}", "--zooms", "0-1", "--into", self.into)
        self.assertEqual(status, 3)
        self.assertEqual(
            rows(self.into, "select distinct verdict, notes from tiles"), [("unread", "Connection refused")]
        )

    def test_a_connection_that_was_kept_and_is_gone(self):
        def once(handler):
            handler.wfile.write(b"HTTP/1.1 200 OK\r\nContent-Length: 2\r\n\r\n\x1a\x00")
            handler.close_connection = True  # though nothing said so

        server = self.serving(lambda path: once)
        store, _ = self.store(server.address + "/{z}/{x}/{y}", zooms=(0, 2))
        found = [content for part in store.ranges(100) for _, content in store.tiles(part)]
        self.assertEqual(found, [b"\x1a\x00"] * 21)

    def test_tilejson(self):
        said = {"tiles": ["tiles/{z}/{x}/{y}.pbf"], "minzoom": 1, "maxzoom": 3, "bounds": [0, 0, 90, 60]}
        server = self.serving(
            lambda path: (200, {}, json.dumps(said).encode() if path.endswith("json") else path.encode())
        )
        store, state = self.store(server.address + "/world/tiles.json")
        found = {str(address): content for part in store.ranges(100) for address, content in store.tiles(part)}
        self.assertEqual(set(found), {"1/1/0", "2/2/1", "3/4/2", "3/4/3", "3/5/2", "3/5/3"})
        self.assertEqual((found["3/4/2"], state.tiles), (b"/world/tiles/3/4/2.pbf", 6))
        said.update(scheme="tms", tiles=[server.address + "/{z}/{x}/{y}"])
        store, _ = self.store(server.address + "/tiles.json", zooms=(1, 1), bounds=(-180, -90, 180, 90))
        found = {str(address): content for part in store.ranges(100) for address, content in store.tiles(part)}
        self.assertEqual(found["1/1/0"], b"/1/1/1")

    def test_plain_errors(self):
        server = self.serving(
            lambda path: {"/a": (200, {}, b"[]"), "/b": (200, {}, b"{}"), "/c": (500, {}, b"")}.get(
                path, (200, {}, b"<html>")
            )
        )
        for path, words, pattern in [
            ("/{z}/{x}/{y}", [], "which zooms. say --zooms 0-14"),
            ("/{z}/{x}", ["--zooms", "0"], "an address of tiles has {z}, {x} and {y} or {-y} in it"),
            ("/a", [], "no TileJSON, and no address with {z}, {x} and {y} in it"),
            ("/b", [], "this TileJSON has no 'tiles'"),
            ("/c", [], "500 Internal Server Error"),
            ("/d", [], "Expecting value"),
        ]:
            self.fails([server.address + path, *words], 3, pattern)
        make_tree(self.room / "tree", at_places([b""]))
        for words in (["--zooms", "3"], ["--bounds", "-10.5,-10,10,10"]):
            self.fails([self.room / "tree", *words], 2, "--zooms and --bounds are of a server, and none is named")

    def test_bounds(self):
        def places(zooms, bounds):
            return [block.place(number) for block in _blocks(zooms, bounds) for number in range(block.tiles())]

        self.assertEqual(places((0, 1), (-180, -90, 180, 90)), [(0, 0, 0), (1, 0, 0), (1, 0, 1), (1, 1, 0), (1, 1, 1)])
        self.assertEqual(places((2, 2), (-90, 0, 0, 66)), [(2, 1, 1)])
        self.assertEqual(places((2, 2), (170, 1, -170, 2)), [(2, 3, 1), (2, 0, 1)])
        self.assertEqual(places((0, 1), (170, 1, -170, 2)), [(0, 0, 0), (1, 1, 0), (1, 0, 0)])
        self.assertEqual(places((3, 3), (10, 10, 10, 10)), [(3, 4, 3)])

    def test_words_that_name_it_again(self):
        options = Options((0, 14), (-10.25, 40, 5.123456789, 50), 4, 5)
        self.assertEqual(
            stores.opened("http://a/{z}/{x}/{y}", options).options(),
            ["--zooms", "0-14", "--bounds", "-10.25,40,5.123456789,50", "--requests", "4", "--timeout", "5"],
        )
        self.assertEqual(stores.opened("http://a/tiles.json").options(), [])


if __name__ == "__main__":
    unittest.main()
