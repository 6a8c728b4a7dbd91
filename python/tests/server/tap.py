"""What stands between a client of MQTT and its broker, and takes down what goes either way."""

from __future__ import annotations

import asyncio
from typing import NamedTuple

PUBLISH, PUBACK, SUBACK = 3, 4, 9


class Published(NamedTuple):
    """A message as the broker sent it."""

    topic: str
    payload: bytes
    mid: int


class Tap:
    """Passes packets on. It stays while clients and the broker come and go."""

    def __init__(self, port: int, older: bool = False) -> None:
        self._broker = port
        self._older = older
        self._tasks: set[asyncio.Task[None]] = set()
        self._writers: list[asyncio.StreamWriter] = []
        self.port = 0
        self.versions: list[int] = []
        """The version of the protocol that each connection asked for."""
        self.kinds: list[int] = []
        """The kinds of packets that clients sent."""
        self.answers: list[int] = []
        """Those that the broker sent."""
        self.delivered: list[Published] = []
        """The messages of QoS 1 that the broker sent."""
        self.acknowledged: list[Published] = []
        """Those of them that clients acknowledged."""
        self._under_way: list[dict[int, Published]] = []

    async def __aenter__(self) -> Tap:
        self._server = await asyncio.start_server(self._client, "127.0.0.1", 0)
        self.port = self._server.sockets[0].getsockname()[1]
        return self

    async def __aexit__(self, *_error: object) -> None:
        self._server.close()
        self.cut()

    @property
    def waiting(self) -> int:
        """How many messages were sent by connections that stand, and aren't acknowledged."""
        return sum(map(len, self._under_way))

    @property
    def connected(self) -> bool:
        """Whether a client is connected."""
        return bool(self._under_way)

    def cut(self) -> None:
        """Cuts all connections."""
        for writer in self._writers:
            writer.transport.abort()
        self._writers.clear()

    async def _client(self, reader: asyncio.StreamReader, writer: asyncio.StreamWriter) -> None:
        self._writers.append(writer)
        under_way: dict[int, Published] = {}
        self._under_way.append(under_way)
        try:
            first = await _packet(reader)
            version = first[len(first) - _size(first) + 6]
            self.versions.append(version)
            if self._older and version == 5:
                writer.write(b"\x20\x02\x00\x01")     # what a broker of 3.1.1 says to a newer version
                writer.close()
                return
            back, forth = await asyncio.open_connection("127.0.0.1", self._broker)
            self._writers.append(forth)
            forth.write(first)
            self._tasks.add(asyncio.create_task(self._back(back, writer, version, under_way)))
            while True:
                packet = await _packet(reader)
                self.kinds.append(packet[0] >> 4)
                if packet[0] >> 4 == PUBACK:
                    self.acknowledged.append(under_way.pop(int.from_bytes(packet[2:4], "big")))
                if forth.is_closing():
                    break
                forth.write(packet)
        except (OSError, asyncio.IncompleteReadError):
            self._cut_both(writer)
        finally:
            self._under_way = [each for each in self._under_way if each is not under_way]

    async def _back(self, reader: asyncio.StreamReader, writer: asyncio.StreamWriter, version: int,
                    under_way: dict[int, Published]) -> None:
        try:
            while not writer.is_closing():
                packet = await _packet(reader)
                self.answers.append(packet[0] >> 4)
                if packet[0] >> 4 == PUBLISH and packet[0] & 6:
                    found = _published(packet, version)
                    under_way[found.mid] = found
                    self.delivered.append(found)
                writer.write(packet)
        except (OSError, asyncio.IncompleteReadError):
            self._cut_both(writer)

    def _cut_both(self, writer: asyncio.StreamWriter) -> None:
        """One side is gone: the other sees it, too."""
        at = self._writers.index(writer) if writer in self._writers else len(self._writers)
        for each in self._writers[at:at + 2]:
            each.close()
        del self._writers[at:at + 2]


async def _packet(reader: asyncio.StreamReader) -> bytes:
    """One packet: its kind, its length in up to four bytes of seven bits, and the rest."""
    data = await reader.readexactly(2)
    while data[-1] & 128:
        data += await reader.readexactly(1)
    return data + await reader.readexactly(_size(data))


def _size(packet: bytes) -> int:
    """The length that stands in a packet."""
    return _number(packet, 1)[0]


def _number(packet: bytes, at: int) -> tuple[int, int]:
    """A number in bytes of seven bits, and the place after it."""
    number = shift = 0
    while True:
        number |= (packet[at] & 127) << shift
        shift += 7
        at += 1
        if not packet[at - 1] & 128:
            return number, at


def _published(packet: bytes, version: int) -> Published:
    """The message of a packet."""
    _, at = _number(packet, 1)
    end = at + 2 + int.from_bytes(packet[at:at + 2], "big")
    topic = packet[at + 2:end].decode("utf-8")
    mid = int.from_bytes(packet[end:end + 2], "big")
    at = end + 2
    if version == 5:
        size, at = _number(packet, at)
        at += size
    return Published(topic, packet[at:], mid)
