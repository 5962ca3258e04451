"""Models and tapes from lists. Only the form is asked for here: the engine judges ranges and rules, and refuses by number."""

from __future__ import annotations

import operator
from dataclasses import dataclass
from typing import Any, Iterable, Iterator, List, Optional, Sequence, Tuple, Union

from .names import Kind

BytesLike = Union[bytes, bytearray, memoryview]

# ---------------------------------------------------------------------------------------------------------------------------
# Arguments: each is asked for its type before it goes on to the engine


def lent(name: str, given: BytesLike, wanted: str = "bytes") -> bytes:
    """The bytes that are given."""
    if isinstance(given, bytes):
        return given
    if isinstance(given, (bytearray, memoryview)):
        return bytes(given)
    raise TypeError(f"{name}: expected {wanted}, got {type(given).__name__}")


def whole(name: str, given: int, low: int, high: Optional[int] = None) -> int:
    """A whole number in a range; TypeError or ValueError names what was given instead."""
    if isinstance(given, bool) or not hasattr(given, "__index__"):
        raise TypeError(f"{name}: expected a whole number, got {type(given).__name__}")
    number = operator.index(given)
    if number < low or (high is not None and number > high):
        raise ValueError(f"{name}: expected {low}..{'' if high is None else high}, got {number}")
    return number


def double(name: str, given: float) -> float:
    """A double; the engine judges its value."""
    if isinstance(given, (bool, str)) or not (hasattr(given, "__float__") or hasattr(given, "__index__")):
        raise TypeError(f"{name}: expected a number, got {type(given).__name__}")
    try:
        return float(given)
    except OverflowError:
        raise ValueError(f"{name}: too large for a double") from None


def sequence(name: str, given: Any) -> Sequence[Any]:
    """A list or tuple."""
    if not isinstance(given, (list, tuple)):
        raise TypeError(f"{name}: expected a list, got {type(given).__name__}")
    return given


# ---------------------------------------------------------------------------------------------------------------------------
# Terms

_SYMBOLS = {
    **{"+": 0, "-": 1},
    **{"=": 1, "<>": 2, "<": 3, "<=": 4, ">": 5, ">=": 6},
    **{"U": 1, "NU": 2, "E": 3, "NE": 4, "F": 5, "NF": 6},
}

Term = Tuple[Any, ...]

#: The clock as a term.
CLOCK: Term = (3, 0)


def constant(number: int) -> Term:
    """A constant, or a minus constant where it is below 0."""
    return (0, number) if number >= 0 else (1, -number)


def parameter(number: int) -> Term:
    """Parameter 1..4 of the transaction."""
    return (2, number)


def entries(block: int) -> Term:
    """How often a block was entered."""
    return (4, block)


def content(queue: int) -> Term:
    """The content of a queue."""
    return (5, queue)


def units_in_use(storage: int) -> Term:
    """The units in use of a storage."""
    return (6, storage)


def units_free(storage: int) -> Term:
    """The units free of a storage."""
    return (7, storage)


def in_use(facility: int) -> Term:
    """1 where a facility is in use, else 0."""
    return (8, facility)


def value(number: int) -> Term:
    """A value of the model."""
    return (9, number)


def comparison(left: Term, relation: str, right: Term) -> Term:
    """Inside a value: 1 where the relation holds, else 0."""
    return (10, relation, left, right)


def bracket(*parts: Tuple[str, Term]) -> Term:
    """Inside a value: a sum in brackets."""
    return (11, summed(*parts))


def summed(*parts: Tuple[str, Term]) -> Term:
    """A value: terms, each with "+" or "-" before it, as in `summed(("+", content(1)), ("-", constant(3)))`."""
    for part in parts:
        if len(sequence("part of a sum", part)) != 2 or part[0] not in ("+", "-"):
            raise ValueError(f"part of a sum: expected a sign and a term, got {part!r}")
    return (len(parts), parts)


# ---------------------------------------------------------------------------------------------------------------------------
# Models and tapes


def number_bytes(number: int) -> bytes:
    """Groups of seven bits, highest first, the top bit on all bytes but the last."""
    groups = [number & 0x7F]
    while number > 0x7F:
        number >>= 7
        groups.append(0x80 | number & 0x7F)
    return bytes(reversed(groups))


def _flat(name: str, items: Sequence[Any]) -> Iterator[int]:
    for item in items:
        if isinstance(item, str):
            if item not in _SYMBOLS:
                raise ValueError(f"{name}: {item!r} is no sign, relation or code")
            yield _SYMBOLS[item]
        elif isinstance(item, (list, tuple)):
            yield from _flat(name, item)
        else:
            yield whole(name, item, 0)


def _kind(name: str, given: Union[str, int, Kind]) -> Kind:
    if isinstance(given, Kind):
        return given
    try:
        return Kind[given.upper()] if isinstance(given, str) else Kind(whole(name, given, 0))
    except (KeyError, ValueError):
        raise ValueError(f"{name}: {given!r} is no kind of block") from None


def _block(number: int, given: Any) -> List[int]:
    name = f"block {number}"
    words = sequence(name, given)
    if not words:
        raise ValueError(f"{name}: expected a kind and its operands, got nothing")
    kind = _kind(name, words[0])
    operands = list(_flat(name, words[1:]))
    if len(operands) != kind.operands:
        raise ValueError(f"{name}: {kind.name} takes {kind.words}, {kind.operands} in numbers, got {len(operands)}")
    return [kind.number, *operands]


@dataclass(frozen=True)
class Model:
    """A model from lists; `bytes(model)` is its stored form.

    A block is its kind (a `Kind`, its name or its number) and its operands, as in ("ENTER", 1, 2) or
    ("IF", content(1), ">=", constant(3), 9) or ("WAITIF_SERVER", "U", 1), or ("WAITIF_JOINED", "U", 2, 1) with how many
    blocks it goes back, or ("ASSEMBLE", 3). Storages are given by their capacities.
    """

    blocks: Sequence[Sequence[Any]]
    facilities: int = 0
    storages: Sequence[int] = ()
    queues: int = 0
    values: Sequence[Term] = ()
    lists: int = 0
    counter: int = 1
    edition: int = 1

    def __bytes__(self) -> bytes:
        storages = sequence("storages", self.storages)
        values = sequence("values", self.values)
        blocks = sequence("blocks", self.blocks)
        numbers = [
            whole("edition", self.edition, 0),
            whole("facilities", self.facilities, 0),
            len(storages),
            *(whole("capacity of a storage", units, 0) for units in storages),
            whole("queues", self.queues, 0),
            len(values),
            *(number for value in values for number in _flat("value", sequence("value", value))),
            whole("lists", self.lists, 0),
            whole("counter", self.counter, 0),
            len(blocks),
        ]
        for number, block in enumerate(blocks, 1):
            numbers += _block(number, block)
        return b"".join(map(number_bytes, numbers))


def tape(lists: Sequence[Iterable[int]]) -> bytes:
    """A tape from its lists of times: `tape([[3, 2], [5, 4]])`."""
    data = bytearray()
    for number, times in enumerate(sequence("tape", lists), 1):
        name = f"list {number} of the tape"
        if isinstance(times, (str, bytes)) or not isinstance(times, Iterable):
            raise TypeError(f"{name}: expected its times, got {type(times).__name__}")
        numbers = [whole(name, time, 0) for time in times]
        for time in (len(numbers), *numbers):
            data += number_bytes(time)
    return bytes(data)


# ---------------------------------------------------------------------------------------------------------------------------
# Distributions


@dataclass(frozen=True)
class Fixed:
    """The same time always; it draws nothing."""

    time: float


@dataclass(frozen=True)
class Spread:
    """Times from mean - half to mean + half, evenly."""

    mean: float
    half: float


@dataclass(frozen=True)
class Curve:
    """Times on the line through points of u and time, u rising from 0 to 1."""

    points: Sequence[Tuple[float, float]]


Distribution = Union[Fixed, Spread, Curve]


@dataclass(frozen=True)
class Drawn:
    """A list that `draw_tape` draws: how many times, from a stream of its own if it has one, each multiplied."""

    distribution: Distribution
    count: int
    stream: Optional[int] = None
    times: int = 1


def tape_arguments(lists: Sequence[Tuple[Distribution, int]]) -> Tuple[List[int], List[float]]:
    """The numbers and doubles of a call, as include/covrith.h describes them."""
    numbers: List[int] = []
    doubles: List[float] = []
    for number, given in enumerate(sequence("lists", lists), 1):
        name = f"list {number} of the tape"
        if len(sequence(name, given)) != 2:
            raise ValueError(f"{name}: expected a distribution and a count, got {given!r}")
        distribution, count = given
        kind, points = 0, 0
        if isinstance(distribution, Fixed):
            own = [distribution.time]
        elif isinstance(distribution, Spread):
            kind, own = 1, [distribution.mean, distribution.half]
        elif isinstance(distribution, Curve):
            kind, points, own = 2, len(sequence(name, distribution.points)), []
            for point in distribution.points:
                if len(sequence(name, point)) != 2:
                    raise ValueError(f"{name}: expected points of u and time, got {point!r}")
                own += point
        else:
            raise TypeError(f"{name}: expected a Fixed, Spread or Curve, got {type(distribution).__name__}")
        numbers += [kind, whole(f"count of {name}", count, 0, 2**32 - 1), len(doubles), points]
        doubles += [double(name, one) for one in own]
    return numbers, doubles


# ---------------------------------------------------------------------------------------------------------------------------
# What a run is given


def model_bytes(given: Union[BytesLike, Model]) -> bytes:
    """The stored form of a model."""
    return bytes(given) if isinstance(given, Model) else lent("model", given, "bytes or a Model")


def tape_bytes(given: Union[BytesLike, Sequence[Iterable[int]]]) -> bytes:
    """The stored form of a tape."""
    return tape(given) if isinstance(given, (list, tuple)) else lent("tape", given, "bytes or lists of times")
