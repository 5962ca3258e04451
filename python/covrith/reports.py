"""Reports by names, read from their bytes."""

from __future__ import annotations

from dataclasses import dataclass
from typing import List, Optional, Tuple, Union

from .models import BytesLike, Model, lent, model_bytes
from .names import NoReport, Place, Refusal, Refused

# The most bytes and the largest number, of a model and of a report.
_MODEL_NUMBER = (5, 2**32 - 1)
_REPORT_NUMBER = (9, 2**64 - 1)

# The front of a model.
_MOST_EDITION = 2
_MOST_SERVERS = 32
_MOST_UNITS = 65_535


class _Numbers:
    """Takes numbers from bytes, one after the other."""

    def __init__(self, data: bytes):
        self.data = data
        self.position = 0

    def take(self, size: Tuple[int, int]) -> Optional[int]:
        """The next number; none if it is not whole, shortest and in size, and the position stays."""
        most_bytes, most = size
        number = 0
        for at, byte in enumerate(self.data[self.position : self.position + most_bytes]):
            if at == 0 and byte == 0x80:
                return None  # a leading group of zeros: not the shortest form
            number = number << 7 | byte & 0x7F
            if byte < 0x80:
                if number > most:
                    return None
                self.position += at + 1
                return number
        return None

    def of_model(self, low: int, high: int) -> int:
        """The next number of a model, in the range of its field."""
        number = self.take(_MODEL_NUMBER)
        if number is None:
            raise Refused(Refusal.MODEL_NUMBER)
        if not low <= number <= high:
            raise Refused(Refusal.MODEL_RANGE)
        return number

    def of_report(self) -> int:
        number = self.take(_REPORT_NUMBER)
        if number is None:
            raise NoReport(self.position)
        return number


@dataclass(frozen=True)
class Header:
    """The front of a model, which a reader of reports must know."""

    edition: int
    facilities: int
    capacities: List[int]
    queues: int

    @staticmethod
    def read(model: Union[BytesLike, Model]) -> "Header":
        """Reads it from a model; what follows the number of queues is not looked at. `Refused` as by `run`."""
        numbers = _Numbers(model_bytes(model))
        edition = numbers.of_model(1, _MOST_EDITION)
        facilities = numbers.of_model(0, _MOST_SERVERS)
        storages = numbers.of_model(0, _MOST_SERVERS)
        capacities = [numbers.of_model(1, _MOST_UNITS) for _ in range(storages)]
        return Header(edition, facilities, capacities, queues=numbers.of_model(0, _MOST_SERVERS))


@dataclass(frozen=True)
class Server:
    """A facility or a storage.

    How often it was entered; its units in use, summed over the ticks; waits begun; the length of its QL, summed over the ticks;
    the longest QL before a clock move.
    """

    entries: int
    unit_ticks: int
    waits_begun: int
    ticks_waited: int
    longest: int


@dataclass(frozen=True)
class Queue:
    """A queue: its arrivals; its content, summed over the ticks; the most content at a clock move."""

    arrivals: int
    content_ticks: int
    longest: int


@dataclass(frozen=True)
class Living:
    """A living transaction and where it stands."""

    transaction: int
    place: Place


@dataclass(frozen=True)
class Report:
    """What a run reports at its end; facility 1 is `facilities[0]`."""

    clock: int
    made: int
    ended: int
    facilities: List[Server]
    storages: List[Server]
    queues: List[Queue]
    living: List[Living]

    @staticmethod
    def read(report: BytesLike, header: Header) -> "Report":
        """Reads the report of a model with this header: all of its bytes and no more. Else `NoReport`."""
        if not isinstance(header, Header):
            raise TypeError(f"header: expected a Header, got {type(header).__name__}")
        numbers = _Numbers(lent("report", report))

        def fields(count: int) -> List[int]:
            return [numbers.of_report() for _ in range(count)]

        found = Report(
            *fields(3),
            facilities=[Server(*fields(5)) for _ in range(header.facilities)],
            storages=[Server(*fields(5)) for _ in header.capacities],
            queues=[Queue(*fields(3)) for _ in range(header.queues)],
            living=[_living(numbers) for _ in range(numbers.of_report())],
        )
        if numbers.position < len(numbers.data):
            raise NoReport(numbers.position)
        return found


def _living(numbers: _Numbers) -> Living:
    transaction = numbers.of_report()
    try:
        return Living(transaction, Place(numbers.of_report()))
    except ValueError:
        raise NoReport(numbers.position) from None
