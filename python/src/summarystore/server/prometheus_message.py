"""The message of Prometheus' remote_write: protobuf in snappy's blocks, as its first version has it.

Only what is read of it stands here. Exemplars and metadata say nothing of a sample, and are passed over.
"""

from __future__ import annotations

import struct
from collections.abc import Iterator, Mapping
from typing import NamedTuple, Protocol

import snappy
from google.protobuf import descriptor_pb2, descriptor_pool, message_factory
from google.protobuf.message import DecodeError

NAME = "__name__"
STALE = 0x7FF0000000000002
"""The bits of the value by which Prometheus says that a series has ended."""
_FIELD = descriptor_pb2.FieldDescriptorProto
_FIELDS = (
    ("WriteRequest", "timeseries", 1, _FIELD.TYPE_MESSAGE, "TimeSeries"),
    ("TimeSeries", "labels", 1, _FIELD.TYPE_MESSAGE, "Label"),
    ("TimeSeries", "samples", 2, _FIELD.TYPE_MESSAGE, "Sample"),
    ("TimeSeries", "histograms", 4, _FIELD.TYPE_MESSAGE, "Histogram"),
    ("Label", "name", 1, _FIELD.TYPE_STRING, ""),
    ("Label", "value", 2, _FIELD.TYPE_STRING, ""),
    ("Sample", "value", 1, _FIELD.TYPE_DOUBLE, ""),
    ("Sample", "timestamp", 2, _FIELD.TYPE_INT64, ""))
"""Of each message its fields, with their numbers and types. What is a message stands there many times."""


class MessageError(ValueError):
    """A body is no message of remote_write."""


class Sample(NamedTuple):
    """A value of a series, in milliseconds since 1970. A native histogram has none."""

    name: str
    labels: Mapping[str, str]
    value: float | None
    milliseconds: int = 0

    @property
    def is_end(self) -> bool:
        """Whether it says that the series has ended."""
        return self.value is not None and struct.pack("<d", self.value) == struct.pack("<Q", STALE)


class _Label(Protocol):
    name: str
    value: str


def _request() -> type:
    """The class of the whole message."""
    file = descriptor_pb2.FileDescriptorProto(name="summarystore/remote_write.proto", package="prometheus",
                                              syntax="proto3")
    messages = {}
    for name in ("WriteRequest", "TimeSeries", "Label", "Sample", "Histogram"):
        messages[name] = file.message_type.add(name=name)
    for message, name, number, kind, of in _FIELDS:
        field = messages[message].field.add(name=name, number=number, type=kind)
        field.label = _FIELD.LABEL_REPEATED if of else _FIELD.LABEL_OPTIONAL
        if of:
            field.type_name = f".prometheus.{of}"
    pool = descriptor_pool.DescriptorPool()
    pool.Add(file)
    found = pool.FindMessageTypeByName("prometheus.WriteRequest")
    if hasattr(message_factory, "GetMessageClass"):
        made: type = message_factory.GetMessageClass(found)
    else:       # of versions before 4.22
        made = message_factory.MessageFactory(pool).GetPrototype(found)
    return made


_REQUEST = _request()


def unpacked(data: bytes, most: int) -> bytes:
    """What a block of snappy holds: at most so many bytes."""
    length = shift = 0
    for byte in data[:5]:
        length |= (byte & 127) << shift
        shift += 7
        if byte < 128:
            break
    if length > most:
        raise MessageError(f"a body has at most {most} bytes, and this one would have {length}")
    try:
        found: bytes = snappy.uncompress(data)
    except Exception as error:      # of snappy, whose versions have other kinds
        raise MessageError(f"the body isn't packed by snappy: {error}") from None
    return found


def samples(data: bytes) -> Iterator[Sample]:
    """The samples of a message, series by series."""
    request = _REQUEST()
    try:
        request.ParseFromString(data)
    except DecodeError as error:
        raise MessageError(f"the body is no message of remote_write: {error}") from None
    for series in request.timeseries:
        labels = _labels(series.labels)
        name = labels.pop(NAME, "")
        for sample in series.samples:
            yield Sample(name, labels, sample.value, sample.timestamp)
        for _ in series.histograms:
            yield Sample(name, labels, None)


def _labels(given: Iterator[_Label]) -> dict[str, str]:
    found: dict[str, str] = {}
    for label in given:
        if label.name in found:
            raise MessageError(f"the label {label.name[:40]!r} stands twice")
        found[label.name] = label.value
    return found
