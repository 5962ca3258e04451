"""Traces: their records, and the same by column."""

from __future__ import annotations

import ctypes
from typing import Any, Iterator, NamedTuple, Sequence

from .library import accepted, buffer, load_library
from .models import BytesLike, lent, sequence, whole

# The most bytes of a record.
RECORD_BYTES = 12

# What the reader of records answers at or past the end.
_NO_MORE = 30


class Record(NamedTuple):
    """One record of a trace; outcome 0 is entered, 1 began to wait."""

    clock: int
    transaction: int
    block: int
    outcome: int

    @property
    def entered(self) -> bool:
        """Whether the transaction entered the block."""
        return self.outcome == 0


def records(trace: BytesLike) -> Iterator[Record]:
    """The records of a trace, one after the other; `Refused` where it does not read on."""
    return _records(lent("trace", trace))


def _records(data: bytes) -> Iterator[Record]:
    read = load_library().covrith_read_record
    numbers = buffer(ctypes.c_uint64, 5)
    position = 0
    while True:
        answer = read(data, len(data), position, numbers)
        if answer == _NO_MORE:
            return
        accepted(answer, position)
        clock, transaction, block, outcome, position = numbers[:]
        yield Record(clock, transaction, block, outcome)


def record_bytes(record: Sequence[int]) -> bytes:
    """The bytes of one record; a trace is the bytes of its records one after the other."""
    names = Record._fields
    if len(sequence("record", record)) != len(names):
        raise ValueError(f"record: expected {', '.join(names)}, got {len(record)} numbers")
    numbers = [whole(name, number, 0, 2**64 - 1) for name, number in zip(names, record)]
    rest, written = buffer(ctypes.c_uint8, RECORD_BYTES), buffer(ctypes.c_uint64, 1)
    accepted(load_library().covrith_write_record(rest, RECORD_BYTES, *numbers, written))
    return ctypes.string_at(rest, written[0])


def count(trace: BytesLike) -> int:
    """How many bytes are below 80 hexadecimal: of a trace that reads, four for each record."""
    data = lent("trace", trace)
    return load_library().covrith_count(data, len(data))


def to_columns(trace: BytesLike) -> bytes:
    """The columns of a trace (docs/COLUMNS.md); `Refused` where it is not taken."""
    data = lent("trace", trace)
    return _turned(load_library().covrith_columns, data, len(data) + 4)


def from_columns(columns: BytesLike) -> bytes:
    """The trace that produces these columns; `Refused` where none does."""
    data = lent("columns", columns)
    return _turned(load_library().covrith_uncolumns, data, 2 * len(data))


def _turned(turn: Any, data: bytes, room: int) -> bytes:
    out = buffer(ctypes.c_uint8, room)
    written = buffer(ctypes.c_uint64, 1)
    accepted(turn(data, len(data), out, room, written))
    return bytes(out[: written[0]])
