"""A cluster of RabbitMQ on this machine: three nodes by names on the loopback, in a folder of their own."""

from __future__ import annotations

import os
import shutil
import signal
import subprocess
import time
from collections.abc import Mapping, Sequence
from contextlib import suppress
from pathlib import Path
from typing import IO

from ..ports import free_port, listens

SECONDS = float(os.environ.get("SUMMARYSTORE_BROKER_SECONDS", "240"))
"""A cluster that isn't up after so many seconds can't be used."""
PLUGIN = "rabbitmq_consistent_hash_exchange"
KEPT = 'exec 3<&0; (read _ <&3; kill -s KILL -- -$$) & "$@" < /dev/null'
"""Runs a program in a group of its own, which ends when the pipe to it does, and so with this process."""
CONFIGURATION = """listeners.tcp.1 = 127.0.0.1:{port}
cluster_formation.peer_discovery_backend = classic_config
cluster_formation.discovery_retry_limit = 200
cluster_formation.discovery_retry_interval = 200
log.file.level = error
disk_free_limit.absolute = 1MB
"""


def server() -> str | None:
    """The program of a node, without the wrapper that wants to be another user."""
    found = sorted(Path("/usr/lib/rabbitmq/lib").glob("rabbitmq_server-*/sbin/rabbitmq-server"))
    return str(found[-1]) if found and shutil.which("epmd") else None


def kept(words: Sequence[str], environment: Mapping[str, str], out: IO[bytes] | int
         ) -> subprocess.Popen[bytes]:
    """Starts a program that ends with this process, however that ends."""
    return subprocess.Popen(["sh", "-c", KEPT, "sh", *words], env=environment, stdin=subprocess.PIPE,
                            stdout=out, stderr=out, start_new_session=True)


def end(process: subprocess.Popen[bytes]) -> None:
    """Kills it, and all that it started."""
    with suppress(ProcessLookupError):
        os.killpg(process.pid, signal.SIGKILL)
    process.wait()
    assert process.stdin is not None
    process.stdin.close()


class Node:
    """One node. It joins the first one."""

    def __init__(self, home: Path, number: int, mapper: int) -> None:
        self.port = free_port()
        self._folder = home / f"n{number}"
        self._folder.mkdir()
        name = f"n{number}@localhost"
        peers = "".join(f"cluster_formation.classic_config.nodes.{at + 1} = n{at}@localhost\n"
                        for at in ((0, number) if number else (0,)))
        (self._folder / "rabbitmq.conf").write_text(CONFIGURATION.format(port=self.port) + peers)
        (self._folder / "plugins").write_text(f"[{PLUGIN}].\n")
        self._environment = {
            **os.environ, "HOME": str(home), "ERL_EPMD_PORT": str(mapper), "ERL_EPMD_ADDRESS": "127.0.0.1",
            "RABBITMQ_NODENAME": name, "RABBITMQ_NODE_PORT": str(self.port),
            "RABBITMQ_DIST_PORT": str(free_port()), "RABBITMQ_MNESIA_BASE": str(self._folder),
            "RABBITMQ_LOG_BASE": str(self._folder), "RABBITMQ_PID_FILE": str(self._folder / "pid"),
            "RABBITMQ_CONFIG_FILE": str(self._folder / "rabbitmq.conf"),
            "RABBITMQ_CONF_ENV_FILE": "/dev/null",
            "RABBITMQ_ENABLED_PLUGINS_FILE": str(self._folder / "plugins"),
            "RABBITMQ_SERVER_ADDITIONAL_ERL_ARGS": "+S 1:1 -kernel inet_dist_use_interface {127,0,0,1}"}
        self._process: subprocess.Popen[bytes] | None = None

    @property
    def url(self) -> str:
        """Where it is."""
        return f"amqp://127.0.0.1:{self.port}"

    @property
    def said(self) -> str:
        """What it has said."""
        return (self._folder / "said").read_text("utf-8", "replace")

    def start(self) -> None:
        """Starts it, without a wait."""
        found = server()
        assert found is not None
        with open(self._folder / "said", "ab") as out:
            self._process = kept([found], self._environment, out)

    @property
    def up(self) -> bool:
        """Whether it runs."""
        return self._process is not None and self._process.poll() is None

    def is_well(self) -> bool:
        """Whether it runs and listens."""
        return self.up and listens(self.port)

    def is_one_of(self, nodes: int, seconds: float) -> str | None:
        """Waits until its cluster has so many nodes. Where it hasn't it is said why."""
        done = self.asked("await_online_nodes", str(nodes), "--timeout", str(max(1, int(seconds))))
        return None if done.returncode == 0 else f"no cluster: {(done.stdout + done.stderr)[-500:]!r}"

    def asked(self, *words: str) -> subprocess.CompletedProcess[str]:
        """What its control says."""
        found = server()
        assert found is not None
        return subprocess.run([str(Path(found).with_name("rabbitmqctl")), *words], env=self._environment,
                              capture_output=True, text=True, check=False)

    def kill(self) -> None:
        """Kills it, and all that it started."""
        process, self._process = self._process, None
        if process is not None:
            end(process)


class Cluster:
    """Three nodes, and the mapper of their names."""

    def __init__(self, home: Path, nodes: int = 3) -> None:
        self._mapper_port = free_port()
        self._names = 0
        environment = {**os.environ, "ERL_EPMD_ADDRESS": "127.0.0.1", "HOME": str(home)}
        self._mapper = kept(["epmd", "-port", str(self._mapper_port)], environment, subprocess.DEVNULL)
        (home / ".erlang.cookie").write_text("summarystore")
        (home / ".erlang.cookie").chmod(0o400)
        self.nodes = [Node(home, number, self._mapper_port) for number in range(nodes)]

    def start(self) -> str | None:
        """Starts all nodes, and waits until they listen, as one cluster. Where they don't, it is said why.

        A node that finds none to join goes on as a cluster of its own, in which all works but what is sent
        to another.
        """
        first, *others = self.nodes
        end = time.monotonic() + SECONDS
        for some in ([first], others):      # alone: else it may wait for a node that waits for it
            for node in some:
                node.start()
            for node in some:
                while not listens(node.port):
                    if not node.up or time.monotonic() > end:
                        return f"a node doesn't listen: {node.said[-500:]!r}"
                    time.sleep(0.1)
        return first.is_one_of(len(self.nodes), end - time.monotonic())

    def new_name(self, name: str) -> str:
        """A name for a log. A test that is run again finds nothing of the time before."""
        self._names += 1
        return f"{name}-{self._names}"

    @property
    def urls(self) -> list[str]:
        """Where the nodes are."""
        return [node.url for node in self.nodes]

    def close(self) -> None:
        """Ends all."""
        for node in self.nodes:
            node.kill()
        end(self._mapper)
