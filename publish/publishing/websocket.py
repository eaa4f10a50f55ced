"""A client of WebSockets (RFC 6455) over a connection of this machine: messages go out masked, and come in whole.

One thread sends and receives. While a message does not go out since the other side sends too, what it sends is taken in, so neither side
waits for the other for good."""
from __future__ import annotations

import base64
import hashlib
import os
import select
import socket
import time

GUID = b"258EAFA5-E914-47DA-95CA-C5AB0DC85B11"
CONTINUED, TEXT, BINARY, CLOSE, PING, PONG = 0, 1, 2, 8, 9, 10
MOST = 16 << 20  # bytes of a message; the desk's largest is a page of 4 MiB with a `|` before each line, or a build's entry
HEAD_MOST = 1 << 16
AT_ONCE = 1 << 20


class Broken(Exception):
    """Why the connection is of no use any more."""


def masked(data: bytes, mask: bytes) -> bytes:
    """The bytes, each xor the byte of the mask that is its turn."""
    count = len(data)
    key = int.from_bytes((mask * (count // 4 + 1))[:count], "little")
    return (int.from_bytes(data, "little") ^ key).to_bytes(count, "little")


def frame(kind: int, data: bytes, mask: bytes, is_last: bool = True) -> bytes:
    """A frame of a client."""
    first, count = kind | (0x80 if is_last else 0), len(data)
    if count < 126:
        head = bytes([first, 0x80 | count])
    elif count < 1 << 16:
        head = bytes([first, 0x80 | 126]) + count.to_bytes(2, "big")
    else:
        head = bytes([first, 0x80 | 127]) + count.to_bytes(8, "big")
    return head + mask + masked(data, mask)


def accepted(key: bytes) -> bytes:
    """What a server answers to a key."""
    return base64.b64encode(hashlib.sha1(key + GUID).digest())


def check_handshake(head: bytes, key: bytes) -> None:
    """Breaks if a server's head does not accept the connection."""
    first, *lines = head.split(b"\r\n")
    if first.split(b" ")[:2] != [b"HTTP/1.1", b"101"]:
        raise Broken(f"the server refuses the connection: {first[:60].decode('ascii', 'replace')}")
    fields = {name.strip().lower(): value.strip() for name, _, value in (line.partition(b":") for line in lines)}
    if fields.get(b"upgrade", b"").lower() != b"websocket" or b"upgrade" not in fields.get(b"connection", b"").lower():
        raise Broken("the server does not speak WebSocket")
    if fields.get(b"sec-websocket-accept") != accepted(key):
        raise Broken("the server answers another key")
    if b"sec-websocket-extensions" in fields or b"sec-websocket-protocol" in fields:
        raise Broken("the server speaks an extension or a protocol that was not asked for")


class WebSocket:
    """A connection whose handshake is done. `came` are the bytes that were received and not read, from `at` on."""

    def __init__(self, link: socket.socket) -> None:
        self.link = link
        self.came, self.at = bytearray(), 0
        self.parts: list[bytes] = []
        self.is_within = self.is_closed = False

    def close(self) -> None:
        """Drops the connection."""
        self.is_closed = True
        self.link.close()

    def send(self, data: bytes, kind: int = BINARY) -> None:
        """Sends a message."""
        self.write(frame(kind, data, os.urandom(4)))

    def write(self, data: bytes) -> None:
        """Sends bytes, and takes in meanwhile what comes."""
        left = memoryview(data)
        while left:
            readable, writable, _ = select.select([self.link], [self.link], [])
            if readable:
                self.take_in()
            if writable:
                left = left[self.sent(left):]

    def sent(self, data: memoryview) -> int:
        """How many of these bytes went out."""
        try:
            return self.link.send(data)
        except BlockingIOError:
            return 0
        except OSError as error:
            raise Broken(f"the connection failed: {error.strerror}") from None

    def take_in(self) -> None:
        """Receives what is there, or breaks if nothing will come any more."""
        try:
            data = self.link.recv(AT_ONCE)
        except BlockingIOError:
            return
        except OSError as error:
            raise Broken(f"the connection failed: {error.strerror}") from None
        if not data:
            raise Broken("the connection ended")
        if self.at:
            del self.came[:self.at]
            self.at = 0
        self.came += data

    def take(self, count: int, until: float | None) -> bytes:
        """The next so many bytes."""
        while len(self.came) - self.at < count:
            left = None if until is None else max(0.0, until - time.monotonic())
            if not select.select([self.link], [], [], left)[0]:
                raise Broken("nothing came in time")
            self.take_in()
        self.at += count
        return bytes(memoryview(self.came)[self.at - count:self.at])

    def receive(self, seconds: float | None = None) -> bytes | None:
        """The bytes of the next message, of whichever kind; none if the other side closes. Breaks if none comes in so many seconds."""
        until = None if seconds is None else time.monotonic() + seconds
        while not self.is_closed:
            kind, is_last, data = self.next_frame(until)
            if kind == PING:
                self.write(frame(PONG, data, os.urandom(4)))
            elif kind == CLOSE:
                self.is_closed = True
                self.write(frame(CLOSE, data[:2], os.urandom(4)))
            elif kind != PONG and (message := self.joined(kind, is_last, data)) is not None:
                return message
        return None

    def joined(self, kind: int, is_last: bool, data: bytes) -> bytes | None:
        """A message whose last frame this is; none if others follow."""
        if (kind == CONTINUED) != self.is_within:
            raise Broken("a message begins within another, or goes on without a beginning")
        self.is_within = not is_last
        if is_last and not self.parts:
            return data
        self.parts.append(data)
        if sum(map(len, self.parts)) > MOST:
            raise Broken("a message is too long")
        if not is_last:
            return None
        whole = b"".join(self.parts)
        self.parts.clear()
        return whole

    def next_frame(self, until: float | None) -> tuple[int, bool, bytes]:
        """The kind of the next frame, whether it is the last of its message, and its bytes."""
        first, second = self.take(2, until)
        kind, is_last, count = first & 15, first >= 0x80, second
        if first & 0x70 or kind not in (CONTINUED, TEXT, BINARY, CLOSE, PING, PONG) or second >= 0x80:
            raise Broken("a frame comes that no server sends")
        if kind >= CLOSE and (count > 125 or not is_last):
            raise Broken("a control frame is too long, or in parts")
        if count >= 126:
            count = int.from_bytes(self.take(2 if count == 126 else 8, until), "big")
        if count > MOST:
            raise Broken("a message is too long")
        return kind, is_last, self.take(count, until)


def connect(port: int, path: str = "/", seconds: float = 20) -> WebSocket:
    """A connection to a server of this machine."""
    try:
        link = socket.create_connection(("127.0.0.1", port), seconds)
    except OSError as error:
        raise Broken(f"nobody listens at port {port}: {error.strerror or error}") from None
    it = WebSocket(link)
    try:
        link.setsockopt(socket.IPPROTO_TCP, socket.TCP_NODELAY, 1)
        link.setblocking(False)
        shake_hands(it, f"127.0.0.1:{port}", path, time.monotonic() + seconds)
    except BaseException:
        it.close()
        raise
    return it


def shake_hands(it: WebSocket, host: str, path: str, until: float) -> None:
    """Asks for a WebSocket, and reads the answer."""
    key = base64.b64encode(os.urandom(16))
    it.write(f"GET {path} HTTP/1.1\r\nHost: {host}\r\nUpgrade: websocket\r\nConnection: Upgrade\r\n"
             f"Sec-WebSocket-Key: {key.decode('ascii')}\r\nSec-WebSocket-Version: 13\r\n\r\n".encode("ascii"))
    head = b""
    while not head.endswith(b"\r\n\r\n"):
        head += it.take(1, until)
        if len(head) > HEAD_MOST:
            raise Broken("the answer to the handshake is too long")
    check_handshake(head[:-4], key)
