"""fifty.py --cases: the fifty runs with four berths of docs/PYTHON.md, a line each.
fifty.py < CASES: microseconds a run, of the best of several passes over the cases: run and report as objects; with all records read.
"""

import pathlib
import re
import sys
import time

import covrith

PAGE = pathlib.Path(__file__).resolve().parent.parent / "docs/PYTHON.md"
PASSES = 10


def cases() -> None:
    names: dict = {"covrith": covrith}
    for text in re.findall(r"^```python\n(def .*?)^```$", PAGE.read_text(), re.DOTALL | re.MULTILINE):
        exec(text, names)
    for tape in names["tapes"]:
        print(bytes(names["harbour"](4)).hex(), tape.hex())


def measure() -> None:
    given = [tuple(map(bytes.fromhex, line.split())) for line in sys.stdin]
    for reading in (False, True):
        best, read = float("inf"), 0
        for _ in range(PASSES):
            start = time.process_time()
            read = 0
            for model, tape in given:
                run = covrith.run(model, tape)
                if reading:
                    read += sum(1 for _ in run.records())
            best = min(best, time.process_time() - start)
        print(f"{best * 1e6 / len(given):.2f} {read}")


if __name__ == "__main__":
    cases() if sys.argv[1:] == ["--cases"] else measure()
