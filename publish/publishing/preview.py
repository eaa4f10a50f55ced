"""The pages in a browser: an HTTP server on this machine alone, which has open pages load themselves again when they change.

What is sent is what stands in OUT; to a page of the desk one line is added in its head, which loads the script `live.js`. The script
follows a stream of events, each of which names the files that a build changed."""
from __future__ import annotations

import collections
import http.server
import json
import os
import pathlib
import secrets
import socketserver
import stat
import threading
import urllib.parse
from collections.abc import Iterable

import style
from publishing.message import Stop

HOST = "127.0.0.1"
STREAM, SCRIPT = "/.publish-live", "/.publish-live.js"
SCRIPT_FILE = pathlib.Path(__file__).resolve().parent.parent / "live.js"
STREAMS = 64
REMEMBERED = 1_000
PULSE_SECONDS = 10
IDLE_SECONDS = 30
PAGES = (".html", ".htm")
TYPES = {".html": "text/html; charset=utf-8", ".htm": "text/html; charset=utf-8", ".css": "text/css; charset=utf-8",
         ".js": "text/javascript; charset=utf-8", ".json": "application/json", ".txt": "text/plain; charset=utf-8",
         ".csv": "text/csv; charset=utf-8", ".xml": "application/xml", ".svg": "image/svg+xml", ".png": "image/png", ".jpg": "image/jpeg",
         ".jpeg": "image/jpeg", ".gif": "image/gif", ".webp": "image/webp", ".avif": "image/avif", ".ico": "image/vnd.microsoft.icon",
         ".bmp": "image/bmp", ".pdf": "application/pdf", ".zip": "application/zip", ".mp4": "video/mp4", ".webm": "video/webm",
         ".mp3": "audio/mpeg", ".woff": "font/woff", ".woff2": "font/woff2"}
GONE = ("<!DOCTYPE html>\n<html><head><meta charset=\"utf-8\"><title>Not there</title></head>\n<body>\n"
        "<p>There is no such page now. <a href=\"/\">Contents</a></p>\n</body></html>\n").encode("ascii")


def address_of(path: str) -> str:
    """The address of a file of OUT, without the server's."""
    return "/" + urllib.parse.quote(os.fsencode(path))


def with_script(page: bytes, since: str) -> bytes:
    """A page with the line that loads the script; the page is as it was behind the build of a name."""
    return style.add_line(page, f'<script src="{SCRIPT}" data-since="{since}"></script>'.encode("ascii"))


class News:
    """Which files each build changed, for those who wait for it. A build is named by its number behind the name of this server."""

    def __init__(self) -> None:
        self.server = secrets.token_hex(4)
        self.number = 0
        self.changes: collections.deque[tuple[int, list[str]]] = collections.deque(maxlen=REMEMBERED)
        self.more = threading.Condition()

    def name(self) -> str:
        return f"{self.server}-{self.number}"

    def tell(self, paths: Iterable[str]) -> None:
        """Tells that files of OUT changed."""
        with self.more:
            self.number += 1
            self.changes.append((self.number, sorted(map(address_of, paths))))
            self.more.notify_all()

    def since(self, name: str, seconds: float) -> tuple[str, list[str] | None]:
        """Waits for a build behind the one of a name; gives the name of the last, and what changed since, or none if that is not
        known. Nothing changed if no build came in time."""
        server, _, number = name.partition("-")
        if server != self.server or not number.isascii() or not number.isdecimal():
            return self.name(), None
        with self.more:
            self.more.wait_for(lambda: self.number > int(number), seconds)
            first = self.changes[0][0] if self.changes else 1
            if int(number) < first - 1:
                return self.name(), None
            return self.name(), sorted({path for it, paths in self.changes if it > int(number) for path in paths})


class Preview(http.server.ThreadingHTTPServer):
    """The server of a folder. It holds its port from the beginning, and answers once it is started."""

    daemon_threads = True
    request_queue_size = 64

    def __init__(self, out: pathlib.Path, port: int) -> None:
        self.out = out
        self.news = News()
        self.script = SCRIPT_FILE.read_bytes()
        self.free_streams = threading.Semaphore(STREAMS)
        try:
            super().__init__((HOST, port), Handler)
        except OSError as error:
            raise Stop(f"--port {port}: nothing can listen there: {error.strerror}") from None
        self.hosts = {f"{name}:{self.server_port}" for name in (HOST, "localhost")}
        if self.server_port == 80:
            self.hosts |= {HOST, "localhost"}

    @property
    def address(self) -> str:
        return f"http://{HOST}:{self.server_port}/"

    def start(self) -> None:
        threading.Thread(target=self.serve_forever, args=(0.1,), daemon=True).start()

    def server_bind(self) -> None:
        """Takes the port, and asks nobody for the name of this machine."""
        socketserver.TCPServer.server_bind(self)
        self.server_name, self.server_port = HOST, self.server_address[1]

    def handle_error(self, *_: object) -> None:
        """A browser that goes away is no fault."""

    def file_of(self, path: str) -> str | None:
        """The file of OUT to which an address leads, by a path without links; none if there is none, or it lies elsewhere."""
        segments = os.fsdecode(urllib.parse.unquote_to_bytes(path)).split("/")[1:]
        if segments[-1:] == [""]:
            segments[-1] = style.CONTENTS_PAGE
        if any(it in ("", ".", "..") or "\0" in it for it in segments):
            return None
        out = os.path.realpath(self.out)
        found = os.path.realpath(os.path.join(out, *segments))
        try:
            is_file = stat.S_ISREG(os.stat(found).st_mode)
        except OSError:
            return None
        return found if is_file and found.startswith(os.path.join(out, "")) else None


class Handler(http.server.BaseHTTPRequestHandler):
    """One connection, with one request."""

    server: Preview
    server_version, sys_version = "publish", ""
    timeout = IDLE_SECONDS
    disable_nagle_algorithm = True

    def log_message(self, *_: object) -> None:
        """Nothing is told of requests."""

    def parse_request(self) -> bool:
        """Whether this is a request that is answered; any other one is refused."""
        if not super().parse_request():
            return False
        if self.command not in ("GET", "HEAD"):
            return self.refuse(405, "pages can be read, and nothing else", ("Allow", "GET, HEAD"))
        hosts = [it.strip().lower() for it in self.headers.get_all("Host", [])]
        if len(hosts) != 1 or hosts[0] not in self.server.hosts:
            return self.refuse(403, "this server is for the browsers of its own machine")
        if not self.path.startswith("/"):
            return self.refuse(400, "this is no address of a page")
        return True

    def refuse(self, status: int, sentence: str, *fields: tuple[str, str]) -> bool:
        self.respond(status, TYPES[".txt"], sentence.encode("ascii") + b"\n", *fields)
        return False

    def do_GET(self) -> None:
        path, _, query = self.path.partition("#")[0].partition("?")
        if path == STREAM:
            self.follow(urllib.parse.parse_qs(query).get("since", [""])[0])
        elif path == SCRIPT:
            self.respond(200, TYPES[".js"], self.server.script)
        else:
            self.answer_file(path)

    do_HEAD = do_GET

    def answer_file(self, path: str) -> None:
        """Sends a file of OUT."""
        ending = os.path.splitext(path)[1].lower() if not path.endswith("/") else PAGES[0]
        since = self.server.news.name()  # from before the file is read, so that no change of it is missed
        try:
            found = self.server.file_of(path)
            data = pathlib.Path(found).read_bytes() if found is not None else None
        except OSError:
            data = None
        if data is None:
            self.respond(404, TYPES[".html"], with_script(GONE, since))
        else:
            self.respond(200, TYPES.get(ending, "application/octet-stream"), with_script(data, since) if ending in PAGES else data)

    def respond(self, status: int, kind: str, data: bytes, *fields: tuple[str, str]) -> None:
        """Sends an answer as a whole."""
        self.send_response(status)
        for name, value in (("Content-Type", kind), ("Content-Length", str(len(data))), ("Cache-Control", "no-store"),
                            ("X-Content-Type-Options", "nosniff"), ("Connection", "close"), *fields):
            self.send_header(name, value)
        self.end_headers()
        if self.command != "HEAD":
            self.wfile.write(data)

    def follow(self, since: str) -> None:
        """Sends what each build changes, as long as somebody listens."""
        since = self.headers.get("Last-Event-ID") or since
        if not self.server.free_streams.acquire(blocking=False):
            self.refuse(503, "too many pages listen already")
            return
        try:
            self.send_response(200)
            self.send_header("Content-Type", "text/event-stream")
            self.send_header("Cache-Control", "no-store")
            self.end_headers()
            while self.command != "HEAD":
                name, paths = self.server.news.since(since, PULSE_SECONDS)
                told = f"id: {name}\ndata: {json.dumps(paths)}\n\n" if name != since else ":\n\n"
                self.wfile.write(told.encode("ascii"))
                since = name
        finally:
            self.server.free_streams.release()
