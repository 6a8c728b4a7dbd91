"""What the sources of the crates say of themselves: their order, and the definitions in `specs/` with the comments above them."""

import re
from pathlib import Path
from typing import NamedTuple

TOP = Path(__file__).resolve().parent.parent
BEGUN = re.compile(r"(?:(?:pub|abbrev|unfoldable|record|data) )+(?!mod |use )([^\s:({]+)")
FIELD = re.compile(r"( {2,4})(?:pub )?([^\s:()]+) : (.*)")


class Field(NamedTuple):
    """A field of a record: its name, what the comment above it says, and its type."""

    name: str
    told: str
    type: str


class Definition(NamedTuple):
    """A definition: its name, what the comment above it says, and its lines without comments, with the fields where it is a record."""

    name: str
    told: str
    text: list
    fields: list

    def is_relation(self):
        """Whether it says something of what it is given: it isn't a type of values."""
        head = []
        for line in self.text:
            if head and line.startswith(self.name):
                break
            head.append(line)
            if line.endswith(" where"):
                break
        told = " ".join(head).removesuffix(" where").rstrip()
        return told.endswith("Type 0") and ("(" in told or "→" in told) and "data" not in head[0].split()


def libraries():
    """The crates of crates.txt, lowest first."""
    lines = (line.split("#")[0] for line in (TOP / "crates.txt").read_text(encoding="utf-8").splitlines())
    return [line.split(":")[0].split()[0] for line in lines if ":" in line]


def fields_of(lines):
    """The fields of a record, by its lines with their comments."""
    fields, comment, indent = [], [], None
    for line in lines:
        begun = FIELD.match(line)
        if begun and begun[1] == (indent or begun[1]):
            fields.append(Field(begun[2], " ".join(comment), begun[3].strip()))
            comment, indent = [], begun[1]
        elif line.lstrip().startswith("--"):
            comment.append(line.strip()[2:].strip())
        elif fields and line.strip():
            fields[-1] = fields[-1]._replace(type=f"{fields[-1].type} {line.strip()}")
    return fields


def defined(name, told, lines):
    """A definition of a name, by what its comment says and its lines with comments."""
    text = [line for line in lines if not line.lstrip().startswith("--")]
    return Definition(name, told, text, fields_of(lines[1:]) if "record" in lines[0].split() else [])


def definitions_of(source):
    """The definitions of a file. Each goes on over its equations and its fields, up to the next one."""
    name, told, lines, comment = None, "", [], []
    for line in source.splitlines():
        begun = BEGUN.match(line)
        if begun:
            if name:
                yield defined(name, told, lines)
            name, told, lines, comment = begun[1], " ".join(comment), [line], []
        elif line.startswith("--"):
            comment.append(line[2:].strip())
        elif not line.strip():
            comment = []
        else:
            lines.append(line)
            comment = []
    if name:
        yield defined(name, told, lines)


def modules_of(crate):
    """The modules of a crate that define something, in order, each as its name and its definitions."""
    folder = TOP / "crates" / crate / "specs"
    for file in sorted(folder.rglob("*.antt")):
        definitions = list(definitions_of(file.read_text(encoding="utf-8")))
        if definitions:
            yield str(file.relative_to(folder).with_suffix("")), definitions


def anchor(crate, module):
    """The heading of a module in docs/INDEX.md, as links have it."""
    return f"{crate}-{module}".lower().replace("/", "")


def cell(text):
    """A text as it stands in a cell of a table."""
    return text.replace("|", "\\|")
