"""Stores that have to be there."""

from __future__ import annotations

import asyncio
import os
import signal
from pathlib import Path

import pytest

import summarystore
from summarystore import aio, errors, exporting, importing


def test_a_store_that_has_to_be_there(path: Path, backend: str) -> None:
    with pytest.raises(errors.NoStoreError) as missing:
        summarystore.open(path, existing=True)
    assert isinstance(missing.value, FileNotFoundError) and isinstance(missing.value, errors.StoreFileError)
    assert missing.value.status == 4 and str(path) in str(missing.value)
    with pytest.raises(FileNotFoundError):
        summarystore.open(path.parent / "missing" / "a.store", existing=True)

    async def opened() -> None:
        with pytest.raises(errors.NoStoreError):
            await aio.open(path, existing=True)
        async with await aio.open(path) as store:
            await store.create("a", "exp 2 1 1")
    assert not list(path.parent.iterdir())
    asyncio.run(opened())
    with summarystore.open(path, existing=True) as store:
        assert [stream.name for stream in store.list()] == ["a"]


def test_no_store_is_made_by_looking(path: Path, folder: Path, backend: str) -> None:
    (folder / "a.csv").write_text("1764406800,1\n")
    assert exporting.main([str(path), "a", "--windows"]) == 3
    assert importing.main([str(path), str(folder / "a.csv"), "--dry-run", "--quiet"]) == 0
    assert [file.name for file in folder.iterdir()] == ["a.csv"]


def test_a_store_that_is_gone_is_not_made_anew(path: Path) -> None:
    async def work() -> None:
        async with await aio.open(path) as store:
            assert store.pid is not None
            os.kill(store.pid, signal.SIGKILL)
            with pytest.raises(errors.KilledError):
                await store.list()
            path.rename(path.parent / "elsewhere")
            with pytest.raises(errors.NoStoreError):
                await store.list()
    asyncio.run(work())
    assert not path.exists()
