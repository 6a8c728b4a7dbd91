"""A broker's messages by QoS 1, whose acknowledgements wait until they are told to go.

paho 1.6 sends the PUBACK of a message as soon as `on_message` has returned, and has no way of its
own to hold it back. So `HeldClient` replaces the one method that sends it: there the call does
nothing, and `acknowledge` makes it later. All else is paho's, in the loop of asyncio.

The session lasts: what isn't acknowledged the broker sends again when the connection is there again.
A message that comes again while its first delivery is known still isn't taken twice. That knowledge
ends with this process. So after a kill of the service a message may be taken twice; one that has a
time of its own is found to be there, and one without may be kept a second time, at a later time.

MQTT 5 is spoken, and 3.1.1 to a broker that knows no other. Nothing more is read from the connection
while READ_AHEAD messages wait here, so that the broker's own queue grows, and not this process. The
receive maximum of MQTT 5 says how many messages the broker sends without an acknowledgement. It is
large unless the configuration says less, since mosquitto 2.0.11 keeps the order of messages only while
it doesn't have to queue them. Packets of more than 1 MiB are refused by MQTT 5.
"""

from __future__ import annotations

import asyncio
import logging
import random
from collections import OrderedDict, deque
from collections.abc import Iterable, Sequence
from contextlib import suppress
from dataclasses import dataclass
from typing import Any

import paho.mqtt.client as paho
from paho.mqtt.packettypes import PacketTypes
from paho.mqtt.properties import Properties

from .configuration import MqttSettings
from .errors import ConfigurationError
from .private import password_in

KEEPALIVE = 60
FIRST_WAIT, LONGEST_WAIT = 1.0, 60.0
"""Seconds before a connection is tried again: twice as many after each that failed."""
SETTLES, QUIET = 2.0, 0.1
"""Messages that come within so many seconds of a connection are gathered until none comes for so long."""
LARGEST_PACKET = 1 << 20
FOR_EVER = 0xFFFFFFFF
READ_AT_ONCE = 200
READ_AHEAD = 1000
"""So many messages wait here at most."""
KNOWN = 4 * READ_AHEAD
"""So many messages at least are known again when they come again: all that wait or are under way, and
those that were done last."""
FAILED = 128
"""Reasons from here on are failures."""
UNSUPPORTED_PROTOCOL = 132
"""The reason that paho gives, and MQTT 5 has, where a broker doesn't know the version."""

log = logging.getLogger("summarystored")

if not callable(getattr(paho.Client, "_send_puback", None)):
    raise ImportError("this version of paho-mqtt can't be kept from acknowledging at once: 1.6 can")


def _number(reason: Any) -> int:
    """A reason of MQTT 5, or a code of 3.1.1, as a number."""
    return int(getattr(reason, "value", reason))


class HeldClient(paho.Client):
    """paho's client, but that acknowledgements of QoS 1 go out when `acknowledge` says so."""

    def _send_puback(self, mid: int) -> int:
        """paho calls it when `on_message` has returned: the message isn't stored then."""
        return int(paho.MQTT_ERR_SUCCESS)

    def acknowledge(self, mid: int) -> None:
        """Sends the acknowledgement."""
        super()._send_puback(mid)   # type: ignore[misc]


@dataclass(eq=False, slots=True)
class Message:
    """A message of the broker."""

    topic: str
    payload: bytes
    retained: bool
    mid: int | None = None
    connection: int = 0
    done: bool = False


class Subscriber:
    """The connection to one broker: made, lost, and made again, until it is closed."""

    def __init__(self, settings: MqttSettings) -> None:
        if settings.broker is None:
            raise ValueError("no broker is given")
        self._settings = settings
        self._host, self._port = settings.broker
        self._protocol: int = paho.MQTTv5
        self._loop = asyncio.get_running_loop()
        self._client: HeldClient | None = None
        self._waiting: deque[Message] = deque()
        self._arrived = asyncio.Event()
        self._lost = asyncio.Event()
        self._closing = asyncio.Event()
        self._open: OrderedDict[int, Message] = OrderedDict()
        self._paused = False
        self._settled = 0.0
        self._connection = 0
        self._taken = 0
        self.connected = False
        self.why = "not connected yet"
        """Why no messages come, where it isn't connected."""
        self.connections = 0
        """How often it was connected."""

    @property
    def waiting(self) -> int:
        """How many messages wait to be taken."""
        return len(self._waiting)

    @property
    def unacknowledged(self) -> int:
        """How many messages of QoS 1 came whose acknowledgement hasn't gone out."""
        return sum(not message.done for message in self._open.values())

    # ---- messages -----------------------------------------------------------------------

    async def next_batch(self, most: int, seconds: float | None) -> Sequence[Message]:
        """The messages that wait, as they came, as soon as there is one, or none after so many seconds.

        When a session has just been taken up again, all that come together are one batch.
        """
        if not self._waiting:
            self._arrived.clear()
            with suppress(asyncio.TimeoutError):
                await asyncio.wait_for(self._arrived.wait(), seconds)
        while self._loop.time() < self._settled and len(self._waiting) < READ_AHEAD:
            before = len(self._waiting)
            await asyncio.sleep(QUIET)
            if before == len(self._waiting):
                self._settled = 0.0
        batch = [self._waiting.popleft() for _ in range(min(most, len(self._waiting)))]
        if self._paused and len(self._waiting) < READ_AHEAD:
            self._resume()
        return batch

    def acknowledge(self, messages: Iterable[Message]) -> None:
        """These are done: the broker may forget them. What came by an older connection comes again."""
        for message in messages:
            message.done = True
            if message.mid is not None and message.connection == self._connection:
                self._acknowledge(message.mid)

    def publish(self, topic: str, payload: bytes) -> bool:
        """Sends a message of QoS 1. Whether it is on its way."""
        if self._client is None or not self.connected:
            return False
        return bool(self._client.publish(topic, payload, 1).rc == paho.MQTT_ERR_SUCCESS)

    def _acknowledge(self, mid: int) -> None:
        if self.connected and self._client is not None:
            self._client.acknowledge(mid)

    def _on_message(self, _client: paho.Client, _data: Any, found: paho.MQTTMessage) -> None:
        self._taken += 1
        payload = bytes(found.payload)
        mid = found.mid if found.qos else None
        try:
            topic = found.topic
        except UnicodeDecodeError:      # no topic, and no reading: it can't come right
            log.warning("mqtt: a message with a topic that isn't UTF-8 is left out")
            if mid is not None:
                self._acknowledge(mid)
            return
        known = self._open.get(mid) if mid is not None and found.dup else None
        if known is not None and (known.topic, known.payload) == (topic, payload):
            known.connection = self._connection
            if known.done:
                self._acknowledge(found.mid)
            return
        self._wait(Message(topic, payload, bool(found.retain), mid, self._connection))

    def _wait(self, message: Message) -> None:
        if message.mid is not None:
            self._open.pop(message.mid, None)
            self._open[message.mid] = message
            if len(self._open) > KNOWN:
                self._forget_done()
        self._waiting.append(message)
        self._arrived.set()
        if len(self._waiting) >= READ_AHEAD:
            self._pause()

    def _forget_done(self) -> None:
        """Forgets two old messages that are done. Others stay known until they are."""
        for _ in range(2):
            mid, oldest = self._open.popitem(last=False)
            if not oldest.done:
                self._open[mid] = oldest

    # ---- the connection -----------------------------------------------------------------

    async def run(self) -> None:
        """Keeps the connection until `close`."""
        wait = FIRST_WAIT
        while not self._closing.is_set():
            before, protocol = self.connections, self._protocol
            try:
                await self._connect()
                await self._stay()
            except (OSError, ValueError, ConfigurationError) as error:
                self._say(f"{self._host}:{self._port}: {error}")
            finally:
                self._disconnected()
            if self.connections > before:
                wait = FIRST_WAIT
            if self._protocol == protocol:
                await self._pause_between(wait * (0.5 + random.random() / 2))
                wait = min(2 * wait, LONGEST_WAIT)

    async def _pause_between(self, seconds: float) -> None:
        with suppress(asyncio.TimeoutError):
            await asyncio.wait_for(self._closing.wait(), seconds)

    def _say(self, why: str) -> None:
        if why != self.why:
            log.warning("mqtt: %s", why)
        self.why = why

    async def _connect(self) -> None:
        self._lost.clear()
        client = self._client = self._new_client()
        await asyncio.to_thread(client.reconnect)
        sock = client.socket()
        if sock is None:
            raise OSError("the connection was closed at once")
        self._loop.add_reader(sock, self._readable)

    def _new_client(self) -> HeldClient:
        settings = self._settings
        five = self._protocol == paho.MQTTv5
        client = HeldClient(settings.client, None if five else False, protocol=self._protocol,
                            reconnect_on_failure=False)
        client.on_connect, client.on_disconnect = self._on_connect, self._on_disconnect
        client.on_message, client.on_subscribe = self._on_message, self._on_subscribe
        client.on_socket_register_write = self._on_writes
        client.on_socket_unregister_write = self._on_no_writes
        client.on_socket_close = self._on_socket_close
        if settings.user is not None:
            client.username_pw_set(settings.user, self._password())
        if settings.certificates is not None:
            client.tls_set(settings.certificates)
        if five:
            client.connect_async(self._host, self._port, KEEPALIVE, clean_start=False,
                                 properties=self._properties())
        else:
            client.connect_async(self._host, self._port, KEEPALIVE)
        return client

    def _password(self) -> str | None:
        return password_in(self._settings.password_file)

    def _properties(self) -> Properties:
        properties = Properties(PacketTypes.CONNECT)
        properties.ReceiveMaximum = self._settings.receive_maximum
        properties.SessionExpiryInterval = FOR_EVER
        properties.MaximumPacketSize = LARGEST_PACKET
        return properties

    async def _stay(self) -> None:
        """Waits until the connection is lost or to be closed, and keeps it alive."""
        client = self._client
        assert client is not None
        while client.socket() is not None and not self._closing.is_set():
            try:
                await asyncio.wait_for(self._lost.wait(), 1)
            except asyncio.TimeoutError:
                client.loop_misc()

    # paho tells these of its socket: some from the thread that connects.

    def _on_writes(self, client: paho.Client, _data: Any, _sock: Any) -> None:
        self._loop.call_soon_threadsafe(self._watch_writes, client)

    def _watch_writes(self, client: paho.Client) -> None:
        sock = client.socket()
        if client is self._client and sock is not None and client.want_write():
            self._loop.add_writer(sock, client.loop_write)

    def _on_no_writes(self, _client: paho.Client, _data: Any, sock: Any) -> None:
        self._loop.remove_writer(sock)

    def _on_socket_close(self, _client: paho.Client, _data: Any, sock: Any) -> None:
        self._unwatch(sock)

    def _unwatch(self, sock: Any) -> None:
        self._loop.remove_reader(sock)
        self._loop.remove_writer(sock)

    def _readable(self) -> None:
        """Reads messages, as many as there are and there is room for."""
        client, before, most = self._client, -1, self._taken + READ_AT_ONCE
        while client is not None and not self._paused and before < self._taken < most:
            before = self._taken
            client.loop_read()

    def _pause(self) -> None:
        sock = None if self._client is None else self._client.socket()
        if not self._paused and sock is not None:
            self._paused = True
            self._loop.remove_reader(sock)

    def _resume(self) -> None:
        self._paused = False
        sock = None if self._client is None else self._client.socket()
        if sock is not None:
            self._loop.add_reader(sock, self._readable)
            self._loop.call_soon(self._readable)    # TLS may hold what it read already

    def _on_connect(self, client: paho.Client, _data: Any, flags: dict[str, int], reason: Any,
                    *_rest: Any) -> None:
        number = _number(reason)
        if number == UNSUPPORTED_PROTOCOL and self._protocol == paho.MQTTv5:
            self._protocol = paho.MQTTv311
            return
        if number != 0:
            self._say(f"the broker refuses the connection: {reason}")
            return
        self._connection += 1
        self.connections += 1
        if not flags.get("session present"):
            self._open.clear()
        self._settled = self._loop.time() + SETTLES
        self.connected, self.why = True, ""
        log.info("mqtt: connected to %s:%d", self._host, self._port)
        client.subscribe([(topic, 1) for topic in self._settings.topics])

    def _on_subscribe(self, _client: paho.Client, _data: Any, _mid: int, granted: Iterable[Any],
                      *_rest: Any) -> None:
        for topic, reason in zip(self._settings.topics, granted):
            if _number(reason) >= FAILED:
                self._say(f"the broker doesn't give the topic {topic}: {reason}")

    def _on_disconnect(self, _client: paho.Client, _data: Any, reason: Any, *_rest: Any) -> None:
        if self.connected and not self._closing.is_set():
            text = paho.error_string(reason) if isinstance(reason, int) else str(reason)
            self._say(f"the connection was lost: {text.rstrip('.')}")
        self._lost.set()

    def _disconnected(self) -> None:
        """Puts the connection down. What it brought and isn't done comes again."""
        client, self._client = self._client, None
        self.connected = self._paused = False
        sock = None if client is None else client.socket()
        if sock is not None:
            self._unwatch(sock)
            sock.close()

    def close(self) -> None:
        """Ends `run`. What was acknowledged until now is on its way to the broker."""
        self._closing.set()
        if self._client is not None and self.connected:
            self._client.disconnect()
            self._client.loop_write()
