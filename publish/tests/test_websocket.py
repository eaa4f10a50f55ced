"""The client of WebSockets: frames of known bytes, by RFC 6455, and servers that do not keep to it."""
import socket
import threading
import unittest
from collections.abc import Callable

from publishing import websocket
from publishing.websocket import BINARY, PING, TEXT, Broken, WebSocket, frame

MASK = b"\x37\xfa\x21\x3d"


class Frames(unittest.TestCase):
    """What goes out."""

    def test_a_masked_text_of_the_standard(self):
        self.assertEqual(frame(TEXT, b"Hello", MASK), bytes.fromhex("818537fa213d7f9f4d5158"))

    def test_a_fragment_of_the_standard_and_a_ping(self):
        self.assertEqual(frame(TEXT, b"Hel", b"\0\0\0\0", is_last=False), b"\x01\x83\0\0\0\0Hel")
        self.assertEqual(frame(PING, b"Hello", MASK), bytes.fromhex("898537fa213d7f9f4d5158"))

    def test_lengths_of_seven_sixteen_and_sixty_four_bits(self):
        for count, head in [(0, b"\x82\x80"), (1, b"\x82\x81"), (125, b"\x82\xfd"), (126, b"\x82\xfe\x00\x7e"), (65_535, b"\x82\xfe\xff\xff"),
                            (65_536, b"\x82\xff\0\0\0\0\0\x01\0\0")]:
            self.assertEqual(frame(BINARY, b"x" * count, b"\0\0\0\0"), head + b"\0\0\0\0" + b"x" * count, count)

    def test_each_byte_is_xor_the_byte_of_the_mask_that_is_its_turn(self):
        for count in (0, 1, 2, 3, 4, 5, 127, 1_000):
            data = bytes(place * 7 % 256 for place in range(count))
            self.assertEqual(websocket.masked(data, MASK), bytes(byte ^ MASK[place % 4] for place, byte in enumerate(data)))

    def test_the_answer_to_a_key_of_the_standard(self):
        self.assertEqual(websocket.accepted(b"dGhlIHNhbXBsZSBub25jZQ=="), b"s3pPLMBiTxaQ9kYGzzhZRbK+xOo=")


class Messages(unittest.TestCase):
    """What comes in, from the other end of a pair of sockets."""

    def setUp(self) -> None:
        own, self.peer = socket.socketpair()
        own.setblocking(False)
        self.link = WebSocket(own)
        self.addCleanup(own.close)
        self.addCleanup(self.peer.close)

    def heard(self, data: bytes, count: int = 1) -> list[bytes | None]:
        self.peer.sendall(data)
        return [self.link.receive(5) for _ in range(count)]

    def test_texts_and_binary_messages(self):
        self.assertEqual(self.heard(b"\x81\x05Hello\x82\x02\x00\xff\x81\x00", 3), [b"Hello", b"\x00\xff", b""])

    def test_lengths(self):
        for count, head in [(125, b"\x7d"), (126, b"\x7e\x00\x7e"), (65_535, b"\x7e\xff\xff"), (65_536, b"\x7f\0\0\0\0\0\x01\0\0"),
                            (3_000_000, b"\x7f" + (3_000_000).to_bytes(8, "big"))]:
            sending = threading.Thread(target=self.peer.sendall, args=(b"\x81" + head + b"y" * count + b"\x81\x01z",))
            sending.start()
            self.assertEqual([self.link.receive(5), self.link.receive(5)], [b"y" * count, b"z"])
            sending.join()

    def test_fragments_with_a_ping_between(self):
        self.assertEqual(self.heard(b"\x01\x03Hel\x89\x02hi\x80\x02lo"), [b"Hello"])
        pong = self.peer.recv(100)
        self.assertEqual((pong[:2], websocket.masked(pong[6:], pong[2:6])), (b"\x8a\x82", b"hi"))
        self.assertEqual(self.heard(b"\x02\x00\x00\x01a\x80\x00"), [b"a"])

    def test_bytes_that_come_one_by_one(self):
        for byte in b"\x81\x7e\x00\x80" + b"x" * 128:
            self.peer.sendall(bytes([byte]))
        self.assertEqual(self.link.receive(5), b"x" * 128)

    def test_pongs_are_passed_over(self):
        self.assertEqual(self.heard(b"\x8a\x02hi\x81\x01x"), [b"x"])

    def test_a_close_is_answered_and_is_the_end(self):
        self.assertEqual(self.heard(b"\x88\x02\x03\xe8\x81\x01x", 2), [None, None])
        answer = self.peer.recv(100)
        self.assertEqual((answer[:2], websocket.masked(answer[6:], answer[2:6])), (b"\x88\x82", b"\x03\xe8"))

    def test_what_no_server_sends(self):
        for data, said in [(b"\x81\x85\0\0\0\0Hello", "no server sends"), (b"\xc1\x01x", "no server sends"), (b"\x83\x01x", "no server sends"),
                           (b"\x80\x01x", "without a beginning"), (b"\x01\x01x\x81\x01y", "begins within another"),
                           (b"\x89\x7e\x00\x7e", "too long, or in parts"), (b"\x09\x01x", "too long, or in parts"),
                           (b"\x81\x7f\0\0\0\x01\0\0\0\0", "a message is too long")]:
            own, peer = socket.socketpair()
            with own, peer, self.assertRaisesRegex(Broken, said):
                peer.sendall(data)
                WebSocket(own).receive(5)

    def test_fragments_that_are_too_long_together(self):
        self.link.parts, self.link.is_within = [bytes(websocket.MOST)], True
        with self.assertRaisesRegex(Broken, "a message is too long"):
            self.heard(b"\x80\x01x")

    def test_an_end_without_a_close(self):
        self.peer.sendall(b"\x81\x05Hel")
        self.peer.close()
        with self.assertRaisesRegex(Broken, "the connection ended"):
            self.link.receive(5)

    def test_nothing_in_time(self):
        with self.assertRaisesRegex(Broken, "nothing came in time"):
            self.link.receive(0.05)

    def test_both_sides_send_more_than_fits_between_them(self):
        theirs, ours = b"\x82\x7f" + (4_000_000).to_bytes(8, "big") + b"t" * 4_000_000, b"o" * 4_000_000
        got = []

        def peer() -> None:
            self.peer.sendall(theirs)
            left = 14 + len(ours)
            while left:
                got.append(self.peer.recv(min(left, 1 << 16)))
                left -= len(got[-1])

        sending = threading.Thread(target=peer)
        sending.start()
        self.link.send(ours)
        self.assertEqual(self.link.receive(5), b"t" * 4_000_000)
        sending.join()
        whole = b"".join(got)
        self.assertEqual(websocket.masked(whole[14:], whole[10:14]), ours)

    def test_a_peer_that_is_gone(self):
        self.peer.close()
        with self.assertRaises(Broken):
            for _ in range(3):
                self.link.send(b"x" * 100_000)


class Handshake(unittest.TestCase):
    def answer(self, answer: Callable[[bytes], bytes]) -> tuple[WebSocket, bytes]:
        """A connection to a server that answers so to a key, and what it was asked."""
        door = socket.create_server(("127.0.0.1", 0))
        self.addCleanup(door.close)
        asked = []

        def serve() -> None:
            link, _ = door.accept()
            self.addCleanup(link.close)
            head = b""
            while not head.endswith(b"\r\n\r\n"):
                head += link.recv(1 << 16)
            asked.append(head)
            link.sendall(answer(head.partition(b"Sec-WebSocket-Key: ")[2].partition(b"\r\n")[0]))

        serving = threading.Thread(target=serve)
        serving.start()
        try:
            link = websocket.connect(door.getsockname()[1], seconds=5)
            self.addCleanup(link.close)
            return link, asked[0]
        finally:
            serving.join()

    @staticmethod
    def well(key: bytes, *more: bytes) -> bytes:
        fields = [b"HTTP/1.1 101 Switching Protocols", b"upgrade: WebSocket", b"Connection: keep-alive, Upgrade",
                  b"Sec-WebSocket-Accept: " + websocket.accepted(key), *more, b"\r\n"]
        return b"\r\n".join(fields)

    def test_what_is_asked_and_what_follows_the_answer(self):
        link, asked = self.answer(lambda key: self.well(key) + b"\x81\x02hi")
        self.assertEqual(link.receive(5), b"hi")
        self.assertTrue(asked.startswith(b"GET / HTTP/1.1\r\nHost: 127.0.0.1:"), asked)
        for field in (b"\r\nUpgrade: websocket\r\n", b"\r\nConnection: Upgrade\r\n", b"\r\nSec-WebSocket-Version: 13\r\n"):
            self.assertIn(field, asked)
        self.assertNotIn(b"Origin", asked)

    def test_answers_that_are_none(self):
        for answer, said in [
            (lambda key: self.well(b"another"), "the server answers another key"),
            (lambda key: b"HTTP/1.1 403 Forbidden\r\n\r\n", "the server refuses the connection: HTTP/1.1 403 Forbidden"),
            (lambda key: b"HTTP/1.1 101 Well\r\n\r\n", "the server does not speak WebSocket"),
            (lambda key: self.well(key, b"Sec-WebSocket-Extensions: permessage-deflate"), "an extension or a protocol"),
            (lambda key: b"HTTP/1.1 101 Well\r\nX: " + b"x" * 70_000, "the answer to the handshake is too long"),
        ]:
            with self.assertRaisesRegex(Broken, said):
                self.answer(answer)

    def test_nobody_listens(self):
        with socket.create_server(("127.0.0.1", 0)) as door:
            port = door.getsockname()[1]
        with self.assertRaisesRegex(Broken, f"nobody listens at port {port}"):
            websocket.connect(port, seconds=5)
