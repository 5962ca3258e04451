"""objects.py < FILE: runs the cases of a file and prints what each gives as a line of JSON. A line of the file has model, tape, budget,
and the lengths of work, trace and report; bytes are hexadecimal, `-` for none.
objects.py --words: all ends, refusals and places with their words.
"""

import dataclasses
import json
import sys

import covrith


def outcome(model: bytes, tape: bytes, budget: int, work: int, trace: int, report: int) -> dict:
    """What a run gives, as plain dictionaries and lists."""
    try:
        run = covrith.run(model, tape, budget, trace, work_numbers=work, report_bytes=report)
    except covrith.Refused as refused:
        return {"refusal": refused.number}
    return {
        "refusal": 0,
        "end": run.end.number,
        "turns": run.turns,
        "clock": run.clock,
        "made": run.made,
        "ended": run.ended,
        "records": list(run.records()),
        "report": dataclasses.asdict(run.report),
    }


def case(line: str) -> str:
    """The line of JSON for the line of a case."""
    model, tape, *lengths = line.split()[:6]
    data = [bytes.fromhex("" if word == "-" else word) for word in (model, tape)]
    found = outcome(*data, *map(int, lengths))
    return json.dumps(found, default=lambda place: place.number, separators=(",", ":"))


if __name__ == "__main__":
    if sys.argv[1:] == ["--words"]:
        for named in (covrith.End, covrith.Refusal, covrith.Place):
            for member in named:
                print(named.__name__.lower(), member.number, member)
    else:
        for text in sys.stdin:
            print(case(text))
