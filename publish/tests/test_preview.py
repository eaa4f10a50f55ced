"""The server that shows the pages: who is answered, which files it sends, and what it tells open pages."""
import http.client
import json
import os
import socket
import threading
import time

from cases import Case
from publishing import preview
from publishing.message import Stop
from publishing.preview import Preview

PAGE = b"<!DOCTYPE html>\n<html><head><title>T</title></head>\n<body>\n<h1>T</h1>\n</body></html>\n"


class Served(Case):
    """A test with a server of some files."""

    def setUp(self) -> None:
        super().setUp()
        self.put({"index.html": PAGE, "use/a b.html": PAGE, "use/\u00e4.html": PAGE, "p/a.png": b"\x89PNG", "dita_desk.css": b"p {}", "own.html": b"<p>",
                  "x.data": b"?"}, self.out)
        self.put({"secret.html": PAGE}, self.root)
        self.server = Preview(self.out, 0)
        self.addCleanup(self.server.server_close)
        self.server.start()
        self.addCleanup(self.server.shutdown)
        self.port = self.server.server_port

    def ask(self, path: str, method: str = "GET", **fields: str) -> tuple[int, dict[str, str], bytes]:
        """The status, the fields and the bytes of an answer."""
        link = http.client.HTTPConnection("127.0.0.1", self.port, timeout=10)
        self.addCleanup(link.close)
        link.putrequest(method, path, skip_host="Host" in fields)
        for name, value in fields.items():
            link.putheader(name.replace("_", "-"), value)
        link.endheaders()
        answer = link.getresponse()
        return answer.status, {name.lower(): value for name, value in answer.getheaders()}, answer.read()

    def raw(self, request: bytes) -> bytes:
        with socket.create_connection(("127.0.0.1", self.port), 10) as link:
            link.sendall(request)
            answer = b""
            while data := link.recv(1 << 16):
                answer += data
        return answer

    def line(self) -> bytes:
        return b'<script src="/.publish-live.js" data-since="%s"></script>' % self.server.news.name().encode()


class Files(Served):
    def test_a_page_has_one_line_more_and_stands_in_out_without_it(self):
        for path in ("/", "/index.html", "/use/a%20b.html", "/use/%C3%A4.html", "/index.html?x=1"):
            status, fields, data = self.ask(path)
            self.assertEqual((status, fields["content-type"], fields["cache-control"]), (200, "text/html; charset=utf-8", "no-store"))
            self.assertEqual(data, PAGE.replace(b"</head>", b"\n" + self.line() + b"\n</head>"), path)
        self.assertEqual((self.out / "index.html").read_bytes(), PAGE)

    def test_other_files_are_sent_as_they_are(self):
        for path, kind, data in [("/p/a.png", "image/png", b"\x89PNG"), ("/dita_desk.css", "text/css; charset=utf-8", b"p {}"),
                                 ("/own.html", "text/html; charset=utf-8", b"<p>"), ("/x.data", "application/octet-stream", b"?")]:
            status, fields, came = self.ask(path)
            self.assertEqual((status, fields["content-type"], came, fields["x-content-type-options"]), (200, kind, data, "nosniff"))

    def test_the_script(self):
        status, fields, data = self.ask("/.publish-live.js")
        self.assertEqual((status, fields["content-type"], data), (200, "text/javascript; charset=utf-8", preview.SCRIPT_FILE.read_bytes()))

    def test_the_head_of_a_page_alone(self):
        status, fields, data = self.ask("/p/a.png", "HEAD")
        self.assertEqual((status, fields["content-length"], data), (200, "4", b""))

    def test_other_methods_are_refused(self):
        for method in ("POST", "PUT", "DELETE", "OPTIONS", "PATCH", "CONNECT", "FLY"):
            status, fields, _ = self.ask("/index.html", method)
            self.assertEqual((status, fields["allow"]), (405, "GET, HEAD"), method)

    def test_another_host_is_refused(self):
        for host in (f"127.0.0.1:{self.port}", f"localhost:{self.port}", f"LOCALHOST:{self.port}"):
            self.assertEqual(self.ask("/index.html", Host=host)[0], 200, host)
        for host in ("example.org", f"example.org:{self.port}", "127.0.0.1", f"127.0.0.1:{self.port + 1}", f"127.0.0.1.example.org:{self.port}",
                     f"user@127.0.0.1:{self.port}", ""):
            for path in ("/index.html", "/.publish-live", "/.publish-live.js"):
                status, _, data = self.ask(path, Host=host)
                self.assertEqual((status, PAGE[:20] in data), (403, False), host)
        own = f"Host: 127.0.0.1:{self.port}\r\n".encode()
        for request in (b"GET /index.html HTTP/1.0\r\n\r\n", b"GET /index.html HTTP/1.1\r\n" + own + own + b"\r\n", b"GET /index.html\r\n\r\n",
                        b"GET http://example.org/index.html HTTP/1.1\r\n" + own + b"\r\n"):
            answer = self.raw(request)
            self.assertTrue(b"<h1>" not in answer and b" 200 " not in answer, answer)

    def test_it_listens_on_this_machine_alone(self):
        self.assertEqual(self.server.server_address, ("127.0.0.1", self.port))
        with self.assertRaisesRegex(Stop, f"--port {self.port}: nothing can listen there: Address already in use"):
            Preview(self.out, self.port)

    def test_paths_that_leave_out(self):
        os.symlink(self.root / "secret.html", self.out / "leads-out.html")
        os.symlink(self.root, self.out / "around")
        os.symlink(self.out / "index.html", self.out / "within.html")
        os.mkfifo(self.out / "pipe.html")
        self.assertEqual(self.ask("/within.html")[0], 200)
        for path in ("/../secret.html", "/%2e%2e/secret.html", "/use/../../secret.html", "/use/..%2f..%2fsecret.html", "//secret.html",
                     f"/{self.root}/secret.html", "/leads-out.html", "/around/secret.html", "/pipe.html", "/use", "/use/", "/./index.html",
                     "/index.html/", "/index.html%00", "/gone.html", "/%ff", "/" + "x" * 5000):
            status, _, data = self.ask(path)
            self.assertEqual((status, b"<h1>" in data), (404, False), path)

    def test_a_page_that_is_not_there_says_so_and_waits(self):
        status, _, data = self.ask("/gone.html")
        self.assertEqual(status, 404)
        self.assertIn(b"There is no such page now. <a href=\"/\">Contents</a>", data)
        self.assertIn(self.line(), data)


class Events(Served):
    def stream(self, since: str, **fields: str) -> http.client.HTTPResponse:
        link = http.client.HTTPConnection("127.0.0.1", self.port, timeout=10)
        self.addCleanup(link.close)
        link.request("GET", f"/.publish-live?since={since}", headers={name.replace("_", "-"): value for name, value in fields.items()})
        return link.getresponse()

    def event(self, stream: http.client.HTTPResponse) -> tuple[str, object]:
        """The name and the data of the next event."""
        lines = [stream.readline().decode().rstrip("\n") for _ in range(3)]
        self.assertEqual((lines[0][:4], lines[1][:6], lines[2]), ("id: ", "data: ", ""), lines)
        return lines[0][4:], json.loads(lines[1][6:])

    def test_a_stream_tells_each_build_that_changed_something(self):
        start = self.server.news.name()
        stream = self.stream(start)
        self.assertEqual((stream.status, stream.getheader("Content-Type")), (200, "text/event-stream"))
        time.sleep(0.1)
        self.server.news.tell({"use/a b.html", "p/a.png"})
        name, paths = self.event(stream)
        self.assertEqual((name, paths), (self.server.news.name(), ["/p/a.png", "/use/a%20b.html"]))
        self.server.news.tell({"index.html"})
        self.assertEqual(self.event(stream)[1], ["/index.html"])

    def test_what_came_before_the_stream_is_told_too(self):
        start = self.server.news.name()
        self.server.news.tell({"a.html"})
        self.server.news.tell({"b.html", "\udcff.html"})
        self.assertEqual(self.event(self.stream(start))[1], ["/%FF.html", "/a.html", "/b.html"])
        middle = start.split("-")[0] + "-1"
        self.assertEqual(self.event(self.stream(start, Last_Event_ID=middle))[1], ["/%FF.html", "/b.html"])

    def test_a_build_of_another_server_or_one_that_is_forgotten(self):
        for since in ("", "x", "00000000-0", f"{self.server.news.server}-x"):
            self.assertEqual(self.event(self.stream(since)), (self.server.news.name(), None))
        start = self.server.news.name()
        for _ in range(preview.REMEMBERED + 1):
            self.server.news.tell({"a.html"})
        self.assertEqual(self.event(self.stream(start))[1], None)

    def test_as_many_streams_as_there_are(self):
        start = self.server.news.name()
        self.server.free_streams = threading.Semaphore(2)
        streams = [self.stream(start) for _ in range(2)]
        self.assertEqual(self.stream(start).status, 503)
        self.assertEqual(self.ask("/index.html")[0], 200)
        streams.pop().close()
        for _ in range(100):
            self.server.news.tell({"a.html"})
            if self.stream(start).status == 200:
                return
            time.sleep(0.05)
        self.fail("a stream that was left is not free again")
