"""Servers that scripts of this folder run beside the program, on ports of this machine alone."""

import contextlib
import http.client
import os
import shutil
import signal
import socket
import subprocess
import time
import urllib.parse

from shared import fail


def free_port():
    """A port on which nothing listens."""
    with socket.socket() as sock:
        sock.bind(("127.0.0.1", 0))
        return sock.getsockname()[1]


def wait_for(port, child, seconds=300):
    """Waits until something listens."""
    end = time.monotonic() + seconds
    while True:
        with socket.socket() as sock:
            if sock.connect_ex(("127.0.0.1", port)) == 0:
                return
        if child.poll() is not None or time.monotonic() > end:
            fail(f"{child.args[0]} doesn't listen")
        time.sleep(0.05)


@contextlib.contextmanager
def running(words, port, folder, end=signal.SIGTERM, environment=None):
    """A server, until the end of the block."""
    with open(os.path.join(folder, f"{os.path.basename(words[0])}.said"), "ab") as said:
        child = subprocess.Popen(words, stdout=said, stderr=said, stdin=subprocess.DEVNULL, env=environment)
    try:
        wait_for(port, child)
        yield child
    finally:
        child.send_signal(end)
        try:
            child.wait(30)
        except subprocess.TimeoutExpired:
            child.kill()
            child.wait()


@contextlib.contextmanager
def victoria(folder):
    """VictoriaMetrics with its own settings."""
    port = free_port()
    words = [shutil.which("victoria-metrics"), f"-storageDataPath={folder}/victoria", f"-httpListenAddr=127.0.0.1:{port}",
             "-retentionPeriod=100y"]
    with running(words, port, folder) as child:
        yield {"http": port, "pid": child.pid}


def asked(port, path, words, method="GET", connection=None):
    """An answer by HTTP."""
    kept = connection or http.client.HTTPConnection("127.0.0.1", port, timeout=120)
    kept.request(method, f"{path}?{urllib.parse.urlencode(words)}")
    answer = kept.getresponse()
    body = answer.read()
    if answer.status >= 300:
        fail(f"{path} of {port}: {answer.status} {body[:300]}")
    if connection is None:
        kept.close()
    return body
