"""The files of an installation: the unit for systemd, and the example of a configuration."""

from __future__ import annotations

import re
import subprocess
from configparser import ConfigParser
from pathlib import Path

import pytest

from summarystore.server import main
from summarystore.server.commands import WRONG_USE
from summarystore.server.configuration import Configuration, parse, read
from summarystore.server.mapping import Mappings

from ..conftest import HOME
from .real import needs

FILES = HOME / "service"
UNIT, CONFIGURATION = FILES / "summarystored.service", FILES / "summarystored.toml"
LEVEL = re.compile(r"^→ Overall exposure level for summarystored\.service: ([0-9.]+) ", re.MULTILINE)
OPTION = re.compile(r"#(?=\[|[a-z_]+ = )")


def analyzed(*words: str) -> str:
    """What systemd-analyze says, which has to be content."""
    done = subprocess.run(["systemd-analyze", *words], capture_output=True, text=True, check=False)
    if done.returncode != 0 and "namespace" in done.stderr:
        pytest.skip(f"systemd-analyze doesn't run here: {done.stderr.strip()[:200]}")
    assert done.returncode == 0, done.stdout + done.stderr
    return done.stdout + done.stderr


def test_the_unit_is_one(folder: Path) -> None:
    needs("systemd-analyze")
    tried = folder / UNIT.name      # the command isn't installed where this is tried
    tried.write_text(UNIT.read_text("utf-8").replace("/usr/bin/summarystored", "/bin/true"))
    said = analyzed("verify", "--man=no", "--recursive-errors=no", str(tried))
    assert UNIT.name not in said, said


def test_the_unit_is_exposed_little() -> None:
    needs("systemd-analyze")
    found = LEVEL.search(analyzed("security", "--offline=yes", "--no-pager", str(UNIT)))
    assert found is not None and float(found[1]) < 2.0


def test_the_unit_does_as_the_service_does() -> None:
    unit = ConfigParser(strict=False, interpolation=None)
    unit.optionxform = str      # type: ignore[assignment]
    unit.read(UNIT, "utf-8")
    service = unit["Service"]
    assert service["Type"] == "notify" and int(service["WatchdogSec"]) > 0
    # The service lets its program end. A signal to both would cut off what was taken.
    assert service["KillMode"] == "mixed" and float(service["TimeoutStopSec"]) > main.LATEST
    assert service["RestartPreventExitStatus"] == str(WRONG_USE)
    words = service["ExecStart"].split()
    assert words[0] == "/usr/bin/summarystored" and words[1] == "--config"
    assert Path(words[2]).name == CONFIGURATION.name
    path = example().store.path
    assert path is not None and Path(path).parent == Path("/var/lib") / service["StateDirectory"]


def example() -> Configuration:
    """The example as it stands."""
    return read(str(CONFIGURATION))


def test_the_example_is_a_configuration() -> None:
    found = example()
    assert found.http.listen == ("127.0.0.1", 8087) and found.limits == Configuration().limits
    assert found.graphite.listen is None and found.mqtt.broker is None and found.tokens.file is None
    route = Mappings(found.mappings).route("home/hall/temperature", {}, "mqtt")
    assert route is not None and route.stream == "home/hall/temperature"
    assert main.main(["--config", str(CONFIGURATION), "--check"]) == 0


def test_each_option_that_it_shows_is_one() -> None:
    lines = CONFIGURATION.read_text("utf-8").splitlines()
    found = parse("\n".join(OPTION.sub("", line, count=1) for line in lines), CONFIGURATION.name)
    # The limits that it shows are those that hold without them.
    assert found.limits == Configuration().limits
    assert found.mqtt.topics == ("home/#", "zigbee2mqtt/+") and found.mqtt.client == "summarystored"
    assert found.tokens.file == "/etc/summarystore/tokens" and found.http.hosts == ("readings.example",)
    mappings = Mappings(found.mappings)
    assert [route.stream for route in mappings.json_routes("zigbee2mqtt/hall", "mqtt")] == [
        "home/hall/temperature"]


def test_what_it_says_is_said_in_sentences() -> None:
    said = ""
    for line in CONFIGURATION.read_text("utf-8").splitlines():
        assert len(line) <= 120
        if line.startswith("# "):
            said += line[2:] + " "
        elif said:
            assert said.endswith(". ") and said[0] in "`ABCDEFGHIJKLMNOPQRSTUVWXYZ", said
            said = ""
