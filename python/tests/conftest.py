"""What tests share: the program, a folder in memory for each test, and stores in it."""

from __future__ import annotations

import os
import shutil
import tempfile
from collections.abc import Callable, Iterator
from pathlib import Path

import pytest
from hypothesis import HealthCheck, settings

import summarystore
from summarystore import backends, library
from summarystore.errors import (CommandError, LibraryMissingError, ProgramMissingError,
                                 UnknownStreamError)
from summarystore.program import find_program
from summarystore.store import Store

# A busy machine is no failure, and nothing is written beside the sources. Each run tries the same examples,
# so what fails was changed. Others are looked for in long runs, and where somebody asks for that.
RANDOM = bool(os.environ.get("SUMMARYSTORE_LONG") or os.environ.get("SUMMARYSTORE_TEST_RANDOM"))
settings.register_profile("summarystore", deadline=None, database=None, derandomize=not RANDOM,
                          suppress_health_check=[HealthCheck.too_slow])
settings.load_profile("summarystore")

ROWS = int(os.environ.get("SUMMARYSTORE_TEST_ROWS", "20000"))
"""How many rows the large tests send. The gate takes more."""
IMPORTED = int(os.environ.get("SUMMARYSTORE_TEST_IMPORT_ROWS", "20000"))
"""How many rows the import has that is killed. The gate takes a million."""

LIBRARY = os.environ.get(library.VARIABLE)
"""The library that is tested. Without it that is the system's."""

HOME = Path(__file__).resolve().parents[1]


@pytest.fixture(scope="session")
def program() -> str:
    """The path of the program."""
    try:
        return find_program()
    except ProgramMissingError as error:
        pytest.fail(str(error))


def pytest_generate_tests(metafunc: pytest.Metafunc) -> None:
    """What has a backend is tested over both, but for what is marked as one of the program alone."""
    if "backend" in metafunc.fixturenames:
        alone = metafunc.definition.get_closest_marker("by_program") is not None
        metafunc.parametrize("backend", ["program"] if alone else backends.NAMES, indirect=True)


@pytest.fixture(autouse=True)
def by_program(monkeypatch: pytest.MonkeyPatch) -> None:
    """The program is what a test asks that doesn't say anything else, also by other processes."""
    monkeypatch.setattr(backends, "DEFAULT", "program")
    monkeypatch.delenv(library.VARIABLE, raising=False)


def must_have_library() -> library.Library:
    """The library. A test is left out where it isn't built."""
    try:
        return library.find_library(LIBRARY)
    except LibraryMissingError:
        pytest.skip("what is asked by the library: it isn't built (make lib)")


@pytest.fixture
def backend(request: pytest.FixtureRequest, by_program: None, program: str,
            monkeypatch: pytest.MonkeyPatch) -> str:
    """By what the stores of a test are asked. `.ci/python` says which library that is."""
    name = str(request.param)
    if name == "library":
        monkeypatch.setenv(library.VARIABLE, must_have_library().path)
    monkeypatch.setattr(backends, "DEFAULT", name)
    return name


@pytest.fixture
def folder() -> Iterator[Path]:
    """An empty folder, in memory where there is some."""
    memory = "/dev/shm" if os.access("/dev/shm", os.W_OK) else None
    made = tempfile.mkdtemp(prefix="summarystore-", dir=memory)
    yield Path(made)
    shutil.rmtree(made)


@pytest.fixture
def path(folder: Path, program: str) -> Path:
    """The path of a store that isn't there yet."""
    return folder / "any.store"


@pytest.fixture
def store(path: Path, backend: str) -> Iterator[Store]:
    """A store with names and scales."""
    with summarystore.open(path) as opened:
        yield opened


@pytest.fixture
def plain(path: Path, backend: str) -> Iterator[Store]:
    """A store of whole numbers."""
    with Store(path) as opened:
        yield opened


@pytest.fixture
def fake(folder: Path) -> Callable[[str], str]:
    """Makes a program of these lines of shell, for what the true one does rarely."""
    def made(lines: str) -> str:
        script = folder / "fake"
        script.write_text(f"#!/bin/sh\n{lines}\n")
        script.chmod(0o755)
        return str(script)
    return made


def must_have_means(store: Store) -> None:
    """Leaves a test out where the program is older and has no means."""
    try:
        store.estimate("no-such-stream", "mean", 0, 1)
    except CommandError:
        pytest.skip("the program is older and has no means")
    except UnknownStreamError:
        pass
