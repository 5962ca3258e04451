"""Streams of random numbers, and tapes that are drawn from distributions."""

from __future__ import annotations

import ctypes
from typing import Iterator, List, Sequence, Tuple

from .library import accepted, buffer, load_library
from .models import Distribution, Drawn, sequence, tape, tape_arguments, whole
from .names import Refusal, Refused

# The most bytes of a count or a time of a tape that is drawn, and the most times of a list.
_TIME_BYTES = 3
_MOST_TIMES = 65_535

# The most lists of a tape, the last stream, and the longest time.
_MOST_LISTS = 16
_LAST_STREAM = 511
_LONGEST = 10_000_000_000


def draws(stream: int) -> Iterator[int]:
    """The numbers 1 to 2,147,483,646 of a stream without end, the same on each machine; `Refused` for a stream above 511."""
    state = buffer(ctypes.c_uint32, 1)
    accepted(load_library().covrith_stream_start(whole("stream", stream, 0, 2**32 - 1), state))
    return _draws(state[0])


def _draws(state: int) -> Iterator[int]:
    step = load_library().covrith_stream_step
    while True:
        state = step(state)
        yield state


def make_tape(stream: int, lists: Sequence[Tuple[Distribution, int]]) -> bytes:
    """The tape that a stream draws, list by list: each is a `Fixed`, `Spread` or `Curve` and how many times are drawn from it.

    `Refused` with 41 for a stream above 511, with 42 for a distribution or a count outside its rules.
    """
    stream = whole("stream", stream, 0, 2**32 - 1)
    numbers, doubles = tape_arguments(lists)
    # A count above the limit is refused before anything is written, so that it wants no room.
    room = _TIME_BYTES * sum(1 + count for count in numbers[1::4] if count <= _MOST_TIMES)
    given, values = buffer(ctypes.c_uint32, len(numbers)), buffer(ctypes.c_double, len(doubles))
    given[: len(numbers)], values[: len(doubles)] = numbers, doubles
    data, written = buffer(ctypes.c_uint8, room), buffer(ctypes.c_uint64, 1)
    accepted(load_library().covrith_make_tape(stream, given, len(numbers), values, len(doubles), data, room, written))
    return ctypes.string_at(data, written[0])


def draw_tape(lists: Sequence[Drawn], tape_number: int = 0) -> bytes:
    """The tape that `covrith tape --stream N` draws: lists with a stream of their own by a call each, the others together.

    With N a list draws from its stream, or from stream 0, plus N times one more than the largest that a list names. ValueError where two
    lists name one stream or one names stream 0, the tape's own; `Refused` as by `make_tape`.
    """
    number = whole("tape_number", tape_number, 0, 2**32 - 1)
    for place, one in enumerate(sequence("lists", lists), 1):
        if not isinstance(one, Drawn):
            raise TypeError(f"list {place} of the tape: expected a Drawn, got {type(one).__name__}")
    if len(lists) > _MOST_LISTS:
        raise Refused(Refusal.NOT_DISTRIBUTION)
    named = [whole("stream of a list", one.stream, 1, _LAST_STREAM) for one in lists if one.stream is not None]
    if len(set(named)) < len(named):
        raise ValueError("two lists name one stream, and would get the same draws")
    first = number * (1 + max(named, default=0))
    together = iter(_lists(make_tape(first, [(one.distribution, one.count) for one in lists if one.stream is None])))
    drawn = []
    for one in lists:
        alone = () if one.stream is None else _lists(make_tape(first + one.stream, [(one.distribution, one.count)]))
        factor = whole("times", one.times, 1, _LONGEST)
        drawn.append([factor * time for time in (alone[0] if alone else next(together))])
    if any(time > _LONGEST for times in drawn for time in times):
        raise ValueError(f"a time of a tape is at most {_LONGEST}: count in larger ticks")
    return tape(drawn)


def _lists(data: bytes) -> List[List[int]]:
    """The lists of a tape that the engine wrote."""
    numbers, number = [], 0
    for byte in data:
        number = number << 7 | byte & 0x7F
        if byte < 0x80:
            numbers.append(number)
            number = 0
    lists, at = [], 0
    while at < len(numbers):
        lists.append(numbers[at + 1 : at + 1 + numbers[at]])
        at += 1 + numbers[at]
    return lists
