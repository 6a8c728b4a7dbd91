"""Checked stores: a new one is checked unless somebody says otherwise, and one that stands is what it is."""

from __future__ import annotations

import asyncio
import os
from collections.abc import Callable
from pathlib import Path

import pytest

import summarystore
from summarystore import aio, errors, importing
from summarystore.fleet.edge import Edge
from summarystore.fleet.spool import Spool
from summarystore.fleet.taking import Follow
from summarystore.program import command, is_unmade
from summarystore.store import Store

PLAIN, CHECKED = b"SSTORE01", b"SSTORE02"
STANDS = b"\xa5" + PLAIN + bytes(36855)


def kind_of(path: Path) -> bytes:
    """The magic of a file."""
    return path.read_bytes()[1:9]


@pytest.mark.parametrize("content, new", [
    (None, True), (b"", True), (b"x", True), (b"\xa5", True), (bytes(36864), True),
    (b"\0" + CHECKED, True), (STANDS, False), (b"x" + CHECKED, False), (b"hello", False)])
def test_what_is_not_made_yet(folder: Path, content: bytes | None, new: bool) -> None:
    path = folder / "any.store"
    if content is not None:
        path.write_bytes(content)
    assert is_unmade(str(path)) is new
    asked = {checked: command("p", str(path), checked, "--batch") for checked in (None, True, False)}
    with_it, without = ["p", "--batch", "--checked", str(path)], ["p", "--batch", str(path)]
    assert asked == {None: with_it if new else without, True: with_it, False: without}


def test_what_is_no_file(folder: Path) -> None:
    os.mkfifo(folder / "pipe")      # nobody writes to it, and whoever read it would wait
    (folder / "link").symlink_to(folder / "nowhere")
    (folder / "file").touch()
    assert not is_unmade(str(folder / "pipe")) and not is_unmade(str(folder))
    assert is_unmade(str(folder / "link")) and not is_unmade(str(folder / "file" / "below"))


def test_a_new_store_is_checked(path: Path, backend: str) -> None:
    for _ in range(2):
        with summarystore.open(path) as store:
            assert store.list() == []
        assert kind_of(path) == CHECKED
    with summarystore.open(path, checked=False) as store:   # it says what a new one is to be
        assert store.check().streams == 0


def test_a_plain_one_stays_plain(path: Path, backend: str) -> None:
    summarystore.open(path, checked=False).close()
    for checked in (None, False):
        summarystore.open(path, checked=checked).close()
        assert kind_of(path) == PLAIN
    before = path.read_bytes()
    with pytest.raises(errors.StoreFileError) as refused:
        summarystore.open(path, checked=True)
    assert refused.value.status == 4 and "checked" in refused.value.text and path.read_bytes() == before


def test_a_process_that_takes_its_place_keeps_the_kind(path: Path) -> None:
    for checked, kind in ((None, CHECKED), (True, CHECKED), (False, PLAIN)):
        path.unlink(missing_ok=True)
        with Store(path, checked=checked, renew_at=100) as store:
            store.create("a", "exp 2 1 1")
            first = store.pid
            assert [store.append("a", time, 1).values for time in range(1, 20)][-1] == 19
            assert store.pid != first and kind_of(path) == kind


def test_asyncio(path: Path) -> None:
    async def opened(checked: bool | None) -> None:
        async with await aio.open(path, checked=checked):
            pass
    for checked, kind in ((None, CHECKED), (True, CHECKED), (False, PLAIN)):
        path.unlink(missing_ok=True)
        asyncio.run(opened(checked))
        assert kind_of(path) == kind
    with pytest.raises(errors.StoreFileError):
        asyncio.run(opened(True))


def test_the_service(path: Path) -> None:
    pytest.importorskip("aiohttp")
    from summarystore.server.app import Service
    from summarystore.server.configuration import parse

    async def served(text: str) -> str:
        service = Service(parse(f"[store]\n{text}", "test.toml"), str(path))
        await service.start()
        state = service.supervisor.state.value
        await service.stop()
        return state
    for text, kind in (("", CHECKED), ("checked = true", CHECKED), ("checked = false", PLAIN)):
        path.unlink(missing_ok=True)
        assert asyncio.run(served(text)) == "open" and kind_of(path) == kind
    assert asyncio.run(served("checked = true")) == "failed" and kind_of(path) == PLAIN


@pytest.mark.parametrize("words, kind", [([], CHECKED), (["--checked"], CHECKED), (["--no-checked"], PLAIN)])
def test_an_import(path: Path, folder: Path, backend: str, words: list[str], kind: bytes) -> None:
    (folder / "a.csv").write_text("time,value\n1764406800,1\n")
    assert importing.main([str(path), str(folder / "a.csv"), "--quiet", *words]) == 0
    assert kind_of(path) == kind


@pytest.mark.parametrize("checked, kind", [(None, CHECKED), (True, CHECKED), (False, PLAIN)])
def test_edges_and_followers(folder: Path, program: str, checked: bool | None, kind: bytes) -> None:
    edge = Edge(folder / "edge.store", Spool(folder / "spool"), program, checked)
    assert list(edge.open()) == []
    frames = b"".join(edge.take(["create a exp 2 1 1", "append a 1 1"]).frames)
    edge.close()

    async def followed() -> list[str]:
        follow = Follow(folder / "follower.store", program, checked)
        try:
            return [*await follow.names(), *await follow.take(frames)]
        finally:
            await follow.close()
    assert asyncio.run(followed()) == ["ok 0 0", "ok 1 1"]
    assert kind_of(folder / "edge.store") == kind_of(folder / "follower.store") == kind


def test_what_the_program_is_given(fake: Callable[[str], str], folder: Path) -> None:
    """A new store is to be checked at the first start, and not at the next one, when it stands."""
    path = folder / "a.store"
    program = fake(f"echo \"$@\" >> {folder}/words; printf '\\245SSTORE02' > {path}; "
                   "read line; echo '@0 refused NO_CURSOR'; cat > /dev/null")
    for checked in (None, None, True, False):
        Store(path, program=program, checked=checked).close()
    assert (folder / "words").read_text().splitlines() == [
        f"--batch{option} {path} sessions" for option in (" --checked", "", " --checked", "")]
