"""Runs of a model on a tape, and two models joined to one."""

from __future__ import annotations

import ctypes
import os
import pathlib
from dataclasses import dataclass
from typing import Iterable, Iterator, Sequence, Tuple, Union

from .library import accepted, buffer, load_library
from .models import BytesLike, Model, model_bytes, tape_bytes, whole
from .names import End
from .reports import Header, Report
from .traces import RECORD_BYTES, Record, records

#: What a run asks of its work buffer, in 32-bit numbers.
WORK_NUMBERS = 16_384
#: What a run asks of its report buffer, in bytes.
REPORT_BYTES = 10_240
#: Turns and bytes of trace, if a caller names no others.
BUDGET = 1_000_000
TRACE_BYTES = 65_536

# The longest buffer that is lent: a run writes 100,000,000 records at most.
_MOST_LENT = RECORD_BYTES * 100_000_000


@dataclass(frozen=True)
class Run:
    """An accepted run."""

    end: End
    clock: int
    turns: int
    made: int
    ended: int
    trace: bytes
    report: Report
    report_bytes: bytes

    def records(self) -> Iterator[Record]:
        """The records of its trace."""
        return records(self.trace)


def load(folder: Union[str, os.PathLike]) -> Tuple[bytes, bytes]:
    """The bytes of model.bin and tape.bin of a folder."""
    path = pathlib.Path(folder)
    return (path / "model.bin").read_bytes(), (path / "tape.bin").read_bytes()


def join(
    model1: Union[BytesLike, Model],
    tape1: Union[BytesLike, Sequence[Iterable[int]]],
    model2: Union[BytesLike, Model],
    tape2: Union[BytesLike, Sequence[Iterable[int]]],
) -> Tuple[bytes, bytes]:
    """The bytes of the model and the tape that two models with their tapes are joined to, the second numbered on after the first.

    `Refused` as a run refuses the first model, its tape, the second model or its tape; with 61 where the editions differ, or a
    joined count or the counter passes its limit.
    """
    given = model_bytes(model1), tape_bytes(tape1), model_bytes(model2), tape_bytes(tape2)
    # A number of the second takes at most one byte more when it is numbered on.
    model_room, tape_room = len(given[0]) + 2 * len(given[2]), len(given[1]) + len(given[3])
    model, tape_out = buffer(ctypes.c_uint8, model_room), buffer(ctypes.c_uint8, tape_room)
    written = buffer(ctypes.c_uint64, 2)
    lent_bytes = [argument for data in given for argument in (data, len(data))]
    accepted(load_library().covrith_join(*lent_bytes, model, model_room, tape_out, tape_room, written))
    return ctypes.string_at(model, written[0]), ctypes.string_at(tape_out, written[1])


def run(
    model: Union[BytesLike, Model],
    tape: Union[BytesLike, Sequence[Iterable[int]]],
    budget: int = BUDGET,
    trace_bytes: int = TRACE_BYTES,
    *,
    work_numbers: int = WORK_NUMBERS,
    report_bytes: int = REPORT_BYTES,
) -> Run:
    """Runs a model on a tape for at most `budget` turns, with room for `trace_bytes` bytes of trace.

    Model and tape are bytes, or a `Model` and the lists of times. `Refused` where the engine refuses them. Buffers for work and
    report have the lengths that it asks for; shorter ones are refused with 1 and 2. Runs of several threads go on at the same time.
    """
    model_data, tape_data = model_bytes(model), tape_bytes(tape)
    budget = whole("budget", budget, 0, 2**64 - 1)
    trace_bytes = whole("trace_bytes", trace_bytes, 0, _MOST_LENT)
    work_numbers = whole("work_numbers", work_numbers, 0, _MOST_LENT)
    report_bytes = whole("report_bytes", report_bytes, 0, _MOST_LENT)
    work = buffer(ctypes.c_uint32, work_numbers)
    trace = buffer(ctypes.c_uint8, trace_bytes)
    report = buffer(ctypes.c_uint8, report_bytes)
    outcome = buffer(ctypes.c_uint64, 8)
    given = (model_data, len(model_data), tape_data, len(tape_data), budget)
    load_library().covrith_run(*given, work, work_numbers, trace, trace_bytes, report, report_bytes, outcome)
    refusal, end, clock, turns, made, ended, trace_used, report_used = outcome
    accepted(refusal)
    report_data = ctypes.string_at(report, report_used)
    return Run(
        end=End(end),
        clock=clock,
        turns=turns,
        made=made,
        ended=ended,
        trace=ctypes.string_at(trace, trace_used),
        report=Report.read(report_data, Header.read(model_data)),
        report_bytes=report_data,
    )
