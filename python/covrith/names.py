"""The numbers of documents 01 and 02 that stand for something, each with its name and its words. A new number is a new line."""

from __future__ import annotations

import enum
from typing import Optional


class _Named(enum.Enum):
    """A number with its name and its words; `str` gives the words."""

    words: str

    def __new__(cls, number: int, words: str) -> "_Named":
        member = object.__new__(cls)
        member._value_ = number
        member.words = words
        return member

    @property
    def number(self) -> int:
        """Its number in the documents."""
        return self.value

    def __str__(self) -> str:
        return self.words


class End(_Named):
    """Why a run ended."""

    DRY = 1, "dry: nobody is moving, and REL and FEL are both empty"
    COUNTER = 2, "a TERMINATE brought the counter to 0 or below"
    BUDGET = 3, "the budget of turns is used"
    TRACE_FULL = 4, "fewer than 12 bytes are left in the trace"
    NO_PLACE = 21, "no living place is free for a new transaction"
    CLOCK_LIMIT = 22, "a move time would pass the limit of the clock"
    NO_TIME = 23, "an ADVANCE found no time left in its list"
    NOT_IN_USE = 24, "a RELEASE or a RETURN found its facility idle, or a LEAVE found fewer units in use than it frees"
    NO_CONTENT = 25, "a DEPART found its queue without content"
    RUN_LIMIT = 26, "the last serial given is above 99,997,952, or 100,000,000 turns are done"
    NOT_HOLDER = 27, "a RELEASE by another than the one that seized its facility, or a RETURN by another than the one that preempted it"
    STILL_HOLDS = 28, "one that still holds a facility would end, at a TERMINATE or an ASSEMBLE"


class Refusal(_Named):
    """Why a call was refused."""

    SHORT_WORK = 1, "the work buffer has fewer than 16,384 32-bit numbers"
    SHORT_REPORT = 2, "the report buffer has fewer than 10,240 bytes"
    MODEL_NUMBER = 3, "a number of the model is not whole, not in its shortest form or not in size"
    MODEL_RANGE = 4, "a number of the model is outside its field's range"
    VALUE_LIMIT = 5, "a value passes 64 numbers, four open brackets or two mentions of values"
    AFTER_MODEL = 6, "bytes follow the model"
    BLOCK_ORDER = 7, (
        "a GENERATE is out of place or named by a target, the last block is neither TERMINATE nor GOTO, "
        "a value names a block that does not exist, or a group of joined waits is broken"
    )
    TAPE_NUMBER = 8, "a number of the tape is not whole, not in its shortest form or not in size"
    TAPE_RANGE = 9, "a number of the tape is outside its field's range"
    AFTER_TAPE = 10, "bytes follow the tape"
    RECORD_NUMBER = 31, "a number of the record is not whole, not in its shortest form or not in size"
    RECORD_RANGE = 32, "a number of the record is outside its field's range"
    RECORD_ROOM = 33, "the record does not fit in the rest of the trace"
    NO_STREAM = 41, "the stream is above 511"
    NOT_DISTRIBUTION = 42, "a distribution or a count is outside its rules, or there is a seventeenth"
    TAPE_ROOM = 43, "the tape needs more bytes than were lent"
    NOT_COLUMNS = 51, "not a trace that is taken, or not the columns of one"
    COLUMNS_ROOM = 52, "the output needs more bytes than were lent"
    NOT_JOINED = 61, "the editions differ, or a joined count or the counter passes its limit"
    JOIN_ROOM = 62, "the joined model or tape needs more bytes than were lent"


class Place(_Named):
    """Where a living transaction stands."""

    QL = 1, "QL"
    WEL = 2, "WEL"
    WSL = 3, "WSL"
    FEL = 4, "FEL"
    REL = 5, "REL"
    MOVING = 6, "moving"
    GATHERING = 7, "gathering"
    INTERRUPTED = 8, "interrupted"


class Kind(_Named):
    """A kind of block; its words are its operands, a term being a tag and a number."""

    GENERATE = 1, "list priority"
    ADVANCE = 2, "list"
    TERMINATE = 3, "amount"
    SEIZE = 4, "facility"
    RELEASE = 5, "facility"
    ENTER = 6, "storage units"
    LEAVE = 7, "storage units"
    WAITIF_SERVER = 8, "code server"
    WAITIF = 9, "term relation term"
    IF = 10, "term relation term target"
    GOTO = 11, "target"
    LET = 12, "parameter term"
    PRIORITY = 13, "priority"
    SPLIT = 14, "copies target"
    ARRIVE = 15, "queue"
    DEPART = 16, "queue"
    WAITIF_JOINED = 17, "code server back"
    ASSEMBLE = 18, "count"
    PREEMPT = 19, "facility"
    RETURN = 20, "facility"

    @property
    def operands(self) -> int:
        """How many numbers follow the kind."""
        operands = self.words.split()
        return len(operands) + operands.count("term")


class Refused(Exception):
    """A call that breaks the rules: `number` and `rule` say which; `position` is that of a record, where one was read."""

    def __init__(self, refusal: Refusal, position: Optional[int] = None):
        self.refusal = refusal
        self.number = refusal.number
        self.rule = refusal.words
        self.position = position
        where = "" if position is None else f" (record at byte {position})"
        super().__init__(f"refused {self.number}: {self.rule}{where}")


class NoReport(ValueError):
    """Bytes that are no report of a model with this header; `position` is where that shows."""

    def __init__(self, position: int):
        self.position = position
        super().__init__(f"no report of this model: byte {position}")
