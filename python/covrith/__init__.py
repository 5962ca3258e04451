"""Covrith from Python: runs of block models on the proved engine, their records and their reports as plain objects.

    import covrith
    model = covrith.Model(
        facilities=1, lists=2, counter=2,
        blocks=[("GENERATE", 1, 0), ("SEIZE", 1), ("ADVANCE", 2), ("RELEASE", 1), ("TERMINATE", 1)],
    )
    run = covrith.run(model, [[3, 2], [5, 4]])
    print(run.end, run.report.facilities[0].ticks_waited)
    for record in run.records():
        print(record.clock, record.transaction, record.block, record.outcome)

Needs the standard library and libcovrith.so, which `pip install` packs with it and tools/sharedlib writes to target/sharedlib;
COVRITH_LIB names another folder.
A call that breaks the rules of document 01 raises `Refused`, an argument of a wrong form TypeError or ValueError.
"""

from .distributions import discrete, empirical, erlang, exponential, lognormal, normal, triangular, uniform, weibull
from .models import (
    CLOCK, Curve, Distribution, Drawn, Fixed, Model, Spread, bracket, comparison, constant, content, entries, in_use, parameter, summed, tape, units_free,
    units_in_use, value,
)  # fmt: skip
from .names import End, Kind, NoReport, Place, Refusal, Refused
from .reports import Header, Living, Queue, Report, Server
from .runs import BUDGET, REPORT_BYTES, TRACE_BYTES, WORK_NUMBERS, Run, join, load, run
from .tapes import draw_tape, draws, make_tape
from .traces import Record, count, from_columns, record_bytes, records, to_columns

__all__ = [
    "__version__",
    "run", "load", "Run", "Header", "Report", "Server", "Queue", "Living", "Record", "records", "record_bytes", "count", "to_columns", "from_columns", "draws",
    "make_tape", "draw_tape", "join", "Distribution", "Fixed", "Spread", "Curve", "Drawn",
    "exponential", "uniform", "normal", "erlang", "triangular", "lognormal", "weibull", "discrete", "empirical",
    "End", "Kind", "NoReport", "Place", "Refusal", "Refused", "Model", "tape", "CLOCK", "bracket", "comparison", "constant", "content",
    "entries", "in_use", "parameter", "summed", "units_free", "units_in_use", "value",
    "BUDGET", "REPORT_BYTES", "TRACE_BYTES", "WORK_NUMBERS",
]  # fmt: skip

__version__ = "1.0.0"
