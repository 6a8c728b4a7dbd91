"""By what a store is asked: the library in this process, or the program as a process of its own."""

from __future__ import annotations

import os
from collections.abc import Sequence
from typing import Literal, Protocol, TypeVar

from . import library as libraries
from .connection import Connection, ProcessConnection
from .errors import LibraryMissingError
from .library_connection import LibraryConnection
from .program import find_program

Name = Literal["library", "program"]
NAMES: Sequence[Name] = ("library", "program")
DEFAULT: Name | None = None
"""What is taken where a call names nothing. Without it the library, where it is found."""
File = str | os.PathLike[str]
C = TypeVar("C", bound=Connection, covariant=True)


class Backend(Protocol[C]):
    """Opens stores."""

    name: Name
    ended: str
    """What is said of a store that has to be opened again."""

    def open(self, path: str, existing: bool, checked: bool | None) -> C:
        """A store, which may still be refused at the first request. With `existing` it has to be there."""


class ByProgram:
    """Opens each store by a process of the program."""

    name: Name = "program"
    ended = "the program had ended"

    def __init__(self, program: File | None = None) -> None:
        self._program = find_program(program)

    def open(self, path: str, existing: bool, checked: bool | None) -> ProcessConnection:
        """Starts a process."""
        return ProcessConnection(self._program, path, existing, checked)


class ByLibrary:
    """Opens each store in this process."""

    name: Name = "library"
    ended = "the library had stopped"

    def __init__(self, library: File | None = None) -> None:
        self._library = libraries.find_library(library)

    def open(self, path: str, existing: bool, checked: bool | None) -> LibraryConnection:
        """Opens it by the library."""
        return LibraryConnection(self._library, path, existing, checked)


def backend_of(name: str | None, program: File | None, library: File | None) -> ByLibrary | ByProgram:
    """The one that is named. Else the library, where it is found and no program is named, or the program."""
    if name is not None and name not in NAMES:
        raise ValueError(f"the backend is one of {', '.join(NAMES)}, and not {name!r}")
    if name is None:
        name = "library" if library is not None else "program" if program is not None else DEFAULT
    if name == "program":
        return ByProgram(program)
    try:
        return ByLibrary(library)
    except LibraryMissingError:
        if name is not None or libraries.is_named():
            raise
    return ByProgram(program)
