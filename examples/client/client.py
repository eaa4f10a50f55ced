"""The clients of one desk: eight editors who write and build at once, one that goes away within a request, one that never reads, one that
sends what is no request, one that is no WebSocket, and a page of another machine.

Their messages are cut at random bytes, and go out without waiting for answers."""
from __future__ import annotations

import asyncio
import dataclasses
import random
from collections.abc import Iterator

import websockets

EDITORS = 8
ROUNDS = 4
CONNECTIONS = EDITORS + 5
MAP = "m.ditamap"
BIG_LINES = 3000
GETS = 300


@dataclasses.dataclass
class Heard:
    """What one connection asked, each request with its lines, and the messages that came."""

    asked: list[list[str]] = dataclasses.field(default_factory=list)
    messages: list[str] = dataclasses.field(default_factory=list)

    @property
    def entries(self) -> list[str]:
        return [message for message in self.messages if message.startswith("entry ")]


def topic(ident: str, sentence: str) -> list[str]:
    return ["(topic", "Aclass - topic/topic ", f"Aid {ident}", "(title", "Aclass - topic/title ", f"-{ident}", ")title", "(body",
            "Aclass - topic/body ", "(p", "Aclass - topic/p ", f"-{sentence}", ")p", ")body", ")topic", "."]


def ditamap(names: list[str]) -> list[str]:
    refs = [line for name in names for line in ("(topicref", "Aclass - map/topicref ", f"Ahref {name}", ")topicref")]
    return ["(map", "Aclass - map/map ", *refs, ")map", "."]


def editor_requests(number: int) -> Iterator[list[str]]:
    """An editor writes a topic of its own and the map of all, and builds the map again and again."""
    own = f"e{number}.dita"
    yield [f"put {MAP}", *ditamap([f"e{other}.dita" for other in range(EDITORS)])]
    for turn in range(ROUNDS):
        yield [f"put {own}", *topic(f"e{number}", f"Turn {turn}: äöü €")]
        yield [f"build {MAP}"]
        yield [f"get e{(number + turn) % EDITORS}.dita"]
        yield [f"putif {turn} {own}", *topic(f"e{number}", "Only if nobody came between.")]
    yield ["names"]
    yield ["get nothing.dita"]


def pieces(data: bytes, chance: random.Random) -> Iterator[str | bytes]:
    """Messages that together have these bytes: texts and binary ones, some of them empty."""
    at = 0
    while at < len(data):
        piece = data[at:at + chance.choice([0, 1, 2, 7, 50, 400])]
        at += len(piece)
        try:
            yield piece.decode("utf-8") if chance.random() < 0.5 else piece
        except UnicodeDecodeError:
            yield piece


def text_of(requests: list[list[str]]) -> bytes:
    return "".join(line + "\n" for lines in requests for line in lines).encode("utf-8")


def messages_to_come(message: str) -> int:
    """How many messages follow one: a build shows each of its pages."""
    words = message.split("\n", 1)[0].split(" ")
    return int(words[5]) if words[0] == "entry" and words[4] == "built" else 0


async def hear(link: websockets.WebSocketClientProtocol, heard: Heard, entries: int) -> None:
    """Takes messages until so many requests are answered."""
    left = entries
    while left > 0:
        heard.messages.append(await link.recv())
        left += messages_to_come(heard.messages[-1])
        left -= 1


def connect(port: int, **options: object) -> websockets.connect:
    return websockets.connect(f"ws://127.0.0.1:{port}/", compression=None, ping_interval=None, max_size=None, **options)


async def editor(port: int, number: int, chance: random.Random) -> Heard:
    heard = Heard(list(editor_requests(number)))
    async with connect(port) as link:
        hearing = asyncio.create_task(hear(link, heard, len(heard.asked)))
        for piece in pieces(text_of(heard.asked), chance):
            await link.send(piece)
            if chance.random() < 0.02:
                await (await link.ping())
        await hearing
    return heard


async def leaver(port: int) -> Heard:
    """Goes away within a request, without a word."""
    heard = Heard([["put left.dita", *topic("left", "Still here.")]])
    async with connect(port) as link:
        await link.send(text_of(heard.asked))
        await hear(link, heard, 1)
        await link.send("put left.dita\n(topic\nAclass - topic/to")
        link.transport.abort()
    return heard


async def writer_without_ears(port: int, done: asyncio.Event) -> Heard:
    """Asks for more than fits between it and the server, and reads nothing until the others are done, and then goes away."""
    heard = Heard([["put big.dita", *topic("big", "x" * 80)[:-3], *["(p", "Aclass - topic/p ", "-" + "y" * 80, ")p"] * BIG_LINES, ")body",
                    ")topic", "."], *[["get big.dita"]] * GETS])
    async with connect(port, max_queue=1) as link:
        await link.send(text_of(heard.asked))
        await done.wait()
        link.transport.abort()
    return heard


async def babbler(port: int) -> Heard:
    """Sends what is no request."""
    heard = Heard([["names"]])
    async with connect(port) as link:
        await link.send("# a comment\n\nnames\nfly\nnames\n")
        await hear(link, heard, 1)
        heard.messages.append(await link.recv())
    return heard


async def stranger(port: int) -> Heard:
    """Is no WebSocket: the server closes."""
    reader, writer = await asyncio.open_connection("127.0.0.1", port)
    writer.write(b"names\r\n\r\n")
    heard = Heard([], ["closed" if await reader.read() == b"" else "answered"])
    writer.close()
    return heard


async def page(port: int) -> Heard:
    """Is a page of another machine: the server refuses it."""
    try:
        async with connect(port, origin="https://example.org"):
            return Heard([], ["connected"])
    except websockets.InvalidStatusCode as refused:
        return Heard([], [f"status {refused.status_code}"])


async def all_clients(port: int, chance: random.Random) -> dict[str, Heard]:
    """All clients at once; the one that never reads stays until the others are done."""
    done = asyncio.Event()
    deaf = asyncio.create_task(writer_without_ears(port, done))
    names = [*(f"editor {number}" for number in range(EDITORS)), "leaver", "babbler", "stranger", "page"]
    calls = [*(editor(port, number, random.Random(chance.random())) for number in range(EDITORS)), leaver(port), babbler(port),
             stranger(port), page(port)]
    heard = dict(zip(names, await asyncio.gather(*calls), strict=True))
    done.set()
    heard["deaf"] = await deaf
    return heard
