#!/usr/bin/env python3
"""A desk that knows `serve` whichever program is found, for the tests: it speaks the server's side of WebSocket, and has that program
judge documents and build in the mode `clean`. A page has the row that it had if its bytes are the same.

The requests go to the file that DESK_LOG names. It is full behind as many entries as DESK_FULL says, dies at a build if DESK_DIES is a
file, which it removes, and says DESK_ANSWERS in the place of each answer to an edit."""
from __future__ import annotations

import base64
import hashlib
import os
import pathlib
import socket
import subprocess
import sys
import tempfile
from collections.abc import Iterator

sys.path.insert(0, str(pathlib.Path(__file__).resolve().parent.parent))

from batch_desk import lines_below  # noqa: E402  (the line above makes it importable)
from publishing import program  # noqa: E402
from publishing.transcript import Entry, Request, entries_of, requests_of  # noqa: E402

HELP = "Arguments:\n  <MODE>  clean: answers .. [possible values: clean, terms, serve]\n"
GUID = b"258EAFA5-E914-47DA-95CA-C5AB0DC85B11"


def taken(link: socket.socket, count: int) -> bytes:
    data = b""
    while len(data) < count:
        data += link.recv(count - len(data)) or sys.exit("the peer is gone")
    return data


def shake_hands(link: socket.socket) -> None:
    head = b""
    while not head.endswith(b"\r\n\r\n"):
        head += taken(link, 1)
    [key] = [line.partition(b": ")[2] for line in head.split(b"\r\n") if line.startswith(b"Sec-WebSocket-Key: ")]
    answer = base64.b64encode(hashlib.sha1(key + GUID).digest())
    link.sendall(b"HTTP/1.1 101 Switching Protocols\r\nUpgrade: websocket\r\nConnection: Upgrade\r\n"
                 b"Sec-WebSocket-Accept: " + answer + b"\r\n\r\n")


def received(link: socket.socket) -> bytes:
    """The bytes of the next message, each of which has one frame."""
    first, second = taken(link, 2)
    count = second & 127
    if count > 125:
        count = int.from_bytes(taken(link, 2 if count == 126 else 8), "big")
    mask, data = taken(link, 4), taken(link, count)
    if first & 15 not in (1, 2):
        sys.exit(0)
    return bytes(byte ^ mask[place % 4] for place, byte in enumerate(data)) if count < 200 else unmasked(data, mask)


def unmasked(data: bytes, mask: bytes) -> bytes:
    key = int.from_bytes((mask * (len(data) // 4 + 1))[:len(data)], "big")
    return (int.from_bytes(data, "big") ^ key).to_bytes(len(data), "big")


def sent(link: socket.socket, text: bytes) -> None:
    count = len(text)
    head = bytes([count]) if count < 126 else b"\x7e" + count.to_bytes(2, "big") if count < 1 << 16 else b"\x7f" + count.to_bytes(8, "big")
    link.sendall(b"\x81" + head + text)


def requests(link: socket.socket) -> Iterator[Request]:
    """The requests that come, each as soon as it is whole."""
    text = b""
    while True:
        text += received(link)
        kind = text.split(b" ")[0].split(b"\n")[0]
        end = {b"group": b"\nend\n", b"putif": b"\n.\n"}.get(kind, b"\n")
        if text.endswith(end):
            first, _, rest = text.decode("utf-8").partition("\n")
            yield next(requests_of(f"1 {first}\n{rest}"))
            text = b""


def clean(script: str, folder: str) -> list[Entry]:
    ended = subprocess.run([*program.find(), "clean", "--out", folder], input=script.encode("utf-8"), stdout=subprocess.PIPE, check=True)
    return entries_of(ended.stdout.decode("utf-8"))


class Desk:
    """What is stored, each name with its lines and its version, and the rows."""

    def __init__(self) -> None:
        self.stored: dict[str, tuple[str, int]] = {}
        self.rows: dict[tuple[str, bytes], int] = {}
        self.place = -1

    def edit(self, request: Request) -> str:
        """The reply to a group or to one edit."""
        stored, edits = dict(self.stored), request.edits
        puts = "".join(f"1 put {it.name}\n" + "".join(f"{line}\n" for line in it.body) + ".\n" for it in edits if it.words[0] == "putif")
        with tempfile.TemporaryDirectory() as folder:
            judged = iter(clean(puts, folder) if puts else ())
        for number, it in enumerate(edits, 1):
            version = stored.get(it.name, ("", 0))[1]
            reply = next(judged).reply if it.words[0] == "putif" else ["removed" if version else "absent", str(version)]
            if reply[0] == "stored" and int(it.words[1]) != version:
                reply = ["conflict", str(version)]
            if reply[0] not in ("stored", "removed"):
                return " ".join(["stopped", str(number), *reply] if request.words[0] == "group" else reply)
            stored.pop(it.name, None)
            if reply[0] == "stored":
                stored[it.name] = ("".join(f"{line}\n" for line in it.body), self.place + 1)
        self.stored = stored
        return f"grouped {len(edits)}" if request.words[0] == "group" else f"{reply[0]} {self.place + 1 if reply[0] == 'stored' else version}"

    def build(self, asked: list[str]) -> Iterator[bytes]:
        """The messages that answer a build."""
        script = "".join(f"1 put {name}\n{body}.\n" for name, (body, _) in self.stored.items())
        with tempfile.TemporaryDirectory() as folder:
            built = clean(f"{script}1 build {' '.join(asked)}\n", folder)[-1]
            rows = []
            for place, line in enumerate(built.below[:int(built.reply[1])] if built.reply[0] == "built" else ()):
                name = line.split(" ")[1]
                data = pathlib.Path(folder, f"b{built.number}", name).read_bytes()
                serial = self.rows.setdefault((name, data), 2 * len(self.rows) + 3)
                built.below[place] = f"page {name} row {serial}"
                rows.append(f"row {serial} page {asked[0]} - {place} {data.count(10)}\n".encode() + lines_below(data))
        yield self.entry(" ".join(built.reply), built.below)
        yield from rows

    def entry(self, reply: str, below: list[str]) -> bytes:
        return "".join([f"entry {self.place} 1 {self.place + 1} {reply}\n", *(f"|{line}\n" for line in below)]).encode("utf-8")

    def answers(self, request: Request) -> Iterator[bytes]:
        self.place += 1
        if request.words[0] != "build":
            yield os.environ.get("DESK_ANSWERS", "").encode() or self.entry(self.edit(request), [])
            return
        if os.path.exists(os.environ.get("DESK_DIES", "")):
            os.unlink(os.environ["DESK_DIES"])
            sys.exit(5)
        yield from self.build(request.words[1:])


def serve() -> None:
    door = socket.create_server(("127.0.0.1", 0))
    print(f"listening on 127.0.0.1:{door.getsockname()[1]}", file=sys.stderr, flush=True)
    link, _ = door.accept()
    shake_hands(link)
    desk, most = Desk(), int(os.environ.get("DESK_FULL", 1 << 30))
    for request in requests(link):
        if log := os.environ.get("DESK_LOG"):
            with open(log, "a", encoding="utf-8") as file:
                print(*request.words[:2] if request.words[0] == "putif" else request.words, *(it.name for it in request.edits), file=file)
        if desk.place + 1 == most:
            sent(link, f"full {most} 1000\n".encode())
            link.sendall(b"\x88\x00")
            return
        for message in desk.answers(request):
            sent(link, message)


def main(words: list[str]) -> int:
    if words == ["--help"]:
        print(HELP, end="")
        return 0
    os.environ.pop("DITA_DESK", None)
    if words[0] == "serve":
        serve()
        return 0
    return subprocess.run([*program.find(), *words]).returncode


if __name__ == "__main__":
    sys.exit(main(sys.argv[1:]))
