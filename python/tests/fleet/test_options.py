"""Where the nodes of a broker are named: on the command line, in a file, or in the environment."""

from __future__ import annotations

from pathlib import Path

import pytest

from summarystore.fleet import follow, send
from summarystore.fleet.options import BROKER, brokers_of
from summarystore.server.errors import ConfigurationError

ONE, TWO, THREE = (f"amqp://me:secret@{name}:5672" for name in ("one", "two", "three"))


@pytest.fixture(params=[send, follow], ids=["send", "follow"])
def command(request: pytest.FixtureRequest) -> object:
    """Each of the commands that have a broker."""
    return request.param


def named(command: object, *words: str) -> list[str]:
    """The nodes that a command line names."""
    return list(brokers_of(getattr(command, "parser")().parse_args(["any.store", *words])))


def test_nodes_of_a_broker(command: object, folder: Path, monkeypatch: pytest.MonkeyPatch) -> None:
    file = folder / "broker"
    file.touch(0o600)
    file.write_text(f"# the nodes\n\n{ONE}\n  {TWO}\n")
    assert named(command, "--broker", ONE, "--broker", TWO) == [ONE, TWO]
    assert named(command, "--broker-file", str(file)) == [ONE, TWO]
    assert named(command, "--broker-file", str(file), "--broker", THREE) == [THREE, ONE, TWO]
    monkeypatch.setenv(BROKER, f"{TWO} {THREE}")
    assert named(command) == [TWO, THREE] and named(command, "--broker", ONE) == [ONE]


@pytest.mark.parametrize("text, mode, reason", [
    (ONE, 0o644, "others can read it"), ("# none\n", 0o600, "no URL of a node stands in it"),
    (None, 0, "No such file")])
def test_files_that_are_refused(command: object, folder: Path, text: str | None, mode: int, reason: str,
                                capsys: pytest.CaptureFixture[str]) -> None:
    file = folder / "broker"
    if text is not None:
        file.write_text(text)
        file.chmod(mode)
    with pytest.raises(ConfigurationError, match=reason):
        named(command, "--broker-file", str(file))
    words = [str(folder / "any.store"), "--broker-file", str(file)]
    assert getattr(command, "main")(words) == 2
    said = capsys.readouterr().err
    assert "not started" in said and reason in said and "secret" not in said
    assert not (folder / "any.store").exists()


def test_no_node_is_named(command: object, folder: Path, monkeypatch: pytest.MonkeyPatch,
                          capsys: pytest.CaptureFixture[str]) -> None:
    monkeypatch.delenv(BROKER, raising=False)
    assert getattr(command, "main")([str(folder / "any.store")]) == 2
    assert "a node is to be named" in capsys.readouterr().err
