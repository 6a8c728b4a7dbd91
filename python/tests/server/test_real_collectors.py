"""Collectors as they are: collectd, and lines that Telegraf sends. All of them are stored."""

from __future__ import annotations

import asyncio
import subprocess
from collections import defaultdict
from collections.abc import Sequence
from decimal import ROUND_HALF_EVEN, Decimal
from pathlib import Path

import pytest

from summarystore.server.graphite import GraphiteListener

from ..conftest import HOME
from ..waiting import ended, run, soon
from .conftest import Serving
from .real import found, needs
from .serving import over_http

COLLECTD = """
Hostname "box.example"
BaseDir "{folder}"
PIDFile "{folder}/pid"
TypesDB "/usr/share/collectd/types.db"
Interval 2
LoadPlugin logfile
<Plugin logfile>
  File "{folder}/collectd.log"
</Plugin>
LoadPlugin cpu
LoadPlugin load
LoadPlugin memory
LoadPlugin contextswitch
LoadPlugin uptime
LoadPlugin write_graphite
<Plugin write_graphite>
  <Node "it">
    Host "127.0.0.1"
    Port "{port}"
    Protocol "tcp"
    Prefix "collectd."
    StoreRates true
    EscapeCharacter "_"
  </Node>
</Plugin>
"""
MAPPING = """
[[mapping]]
match = "collectd.**"
source = "graphite"
scale = "0.000001"
rounding = "half-even"
target = "exp 2 60 1"
"""
NONE = ("nan", "-nan")
STARTER = HOME / "service" / "mappings"


class Copy:
    """Stands before a server, and keeps a copy of what comes."""

    def __init__(self, port: int) -> None:
        self._port = port
        self.data = bytearray()
        self.port = 0
        self.open = 0

    async def start(self) -> None:
        """Listens."""
        self._server = await asyncio.start_server(self._client, "127.0.0.1", 0)
        self.port = self._server.sockets[0].getsockname()[1]

    async def _client(self, reader: asyncio.StreamReader, writer: asyncio.StreamWriter) -> None:
        self.open += 1
        _, forth = await asyncio.open_connection("127.0.0.1", self._port)
        while data := await reader.read(65536):
            self.data += data
            forth.write(data)
            await forth.drain()
        forth.close()
        writer.close()
        self.open -= 1

    def close(self) -> None:
        """Takes no more."""
        self._server.close()

    @property
    def lines(self) -> Sequence[Sequence[str]]:
        """The words of the lines."""
        return [line.split() for line in self.data.decode("ascii").splitlines() if line]


@pytest.mark.parametrize("mapping", [MAPPING, (STARTER / "collectd.toml").read_text("utf-8")])
def test_collectd(mapping: str, serving: Serving, folder: Path) -> None:
    """Each line that it sent is stored with its value, but for those whose value is no number."""
    needs("collectd")

    async def work() -> None:
        async with serving(mapping) as service:
            listener = GraphiteListener(service, ("127.0.0.1", 0))
            await listener.start()
            copy = Copy(listener.port)
            await copy.start()
            file = folder / "collectd.conf"
            file.write_text(COLLECTD.format(folder=folder, port=copy.port))
            with open(folder / "said", "wb") as said:
                words = [str(found("collectd")), "-f", "-C", str(file)]
                process = subprocess.Popen(words, stdout=said, stderr=said)
            await soon(lambda: len(copy.lines) > 100)      # those of the third time among them
            process.terminate()
            await asyncio.to_thread(ended, process)
            await soon(lambda: copy.open == 0)
            lines = copy.lines
            await soon(lambda: service.counters.total("readings") == len(lines))
            sent: dict[str, list[Decimal]] = defaultdict(list)
            for name, value, _time in lines:
                if value not in NONE:
                    route = service.intake.mappings.route(name, {}, "graphite")
                    assert route is not None and route.mapping is not None
                    scale = Decimal(route.mapping.description.scale)
                    steps = (Decimal(value) / scale).quantize(Decimal(1), ROUND_HALF_EVEN)
                    sent[route.stream].append(steps * scale)
            assert len(lines) > 40 and len(sent) > 10
            store = service.store()
            for name, values in sent.items():
                assert await store.query(name, "count") == len(values)
                assert await store.query(name, "sum") == sum(values)
            refused = sum(value in NONE for _, value, _ in lines)
            assert service.counters.total("refused") == refused
            copy.close()
            await listener.stop()
    run(work())


TELEGRAF = """\
cpu,cpu=cpu0,host=box usage_user=1.2012012012012,usage_system=0.4,usage_idle=98.39839839839839 {0}
cpu,cpu=cpu-total,host=box usage_user=1.5,usage_guest=0 {0}
mem,host=box available_percent=71.61236471,total=16571396096i,used_percent=20.8041 {0}
disk,device=sda1,fstype=ext4,host=box,mode=rw,path=/ free=41234567168i,used_percent=12.345678 {0}
diskio,host=box,name=sda reads=12345i,io_time=99i,write_time=17i {0}
net,host=box,interface=eth0 bytes_sent=123456789u,err_in=0u {0}
kernel,host=box boot_time=1764300000i,context_switches=2661294i {0}
processes,host=box blocked=0i,running=1i,sleeping=123i {0}
swap,host=box free=0i,used_percent=0 {0}
system,host=box load1=0.13,load15=0.05,load5=0.1,n_cpus=4i,n_users=1i {0}
system,host=box uptime=106800i {0}
system,host=box uptime_format="1 day,  5:40" {0}
"""
"""Lines as Telegraf 1.2x sends them from the inputs that are on after its installation."""
KEPT = {"box/cpu/cpu0/user": "1.2", "box/cpu/cpu0/idle": "98.4", "box/cpu/cpu-total/guest": "0",
        "box/memory/available percent": "71.61", "box/memory/total": "16571396096",
        "box/disk/sda1/used percent": "12.35", "box/load/15 min": "0.05",
        "diskio,host=box,name=sda/io_time": "99", "net,host=box,interface=eth0/bytes_sent": "123456789",
        "disk,device=sda1,fstype=ext4,host=box,mode=rw,path=//free": "41234567168",
        "system,host=box/uptime": "106800", "kernel,host=box/boot_time": "1764300000"}


def test_telegraf(path: Path) -> None:
    async def work() -> None:
        async with over_http((STARTER / "telegraf.toml").read_text("utf-8"), path) as client:
            for at in (0, 10):
                body = TELEGRAF.format((1764406800 + at) * 10**9)
                assert await client.post("/api/v2/write?bucket=telegraf&org=it", body, 204) is None
            store = client.service.store()
            for stream, value in KEPT.items():
                assert await store.query(stream, "min") == await store.query(stream, "max") == Decimal(value)
                assert await store.query(stream, "count") == 2
            counted = client.service.counters.of("readings")
            assert counted == {("influx", "stored"): 56, ("influx", "ignored"): 2}
    run(work())
