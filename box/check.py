#!/usr/bin/env python3
"""Checks stored runs and archives with machine.py alone.

  check.py FILE..      each line of FILE (runs.txt, which says its form) is a run: results, trace and report are compared
  check.py ARCHIVE..   each archive: its sums are compared, then it is run again with the budget and the lengths of its page
                       (archive.txt), and results, trace and report are compared

Prints a line for each and ends with status 1 if one differs. It needs machine.py beside it and Python 3.10.
"""
import hashlib
import pathlib
import re
import sys

sys.dont_write_bytecode = True
import machine  # noqa: E402

RESULTS = "refusal end clock turns made ended trace-bytes report-bytes".split()
LENGTHS = "budget work-buffer trace-buffer report-buffer".split()


def difference(results, trace, report, *wanted):
    """what differs first, or nothing"""
    for name, mine, theirs in zip(RESULTS, results, wanted[0]):
        if mine != theirs:
            return f"{name} {theirs}, and {mine} by machine.py"
    for name, mine, theirs in (("trace", trace, wanted[1]), ("report", report, wanted[2])):
        if mine != theirs:
            at = next((k for k, pair in enumerate(zip(mine, theirs)) if pair[0] != pair[1]), min(len(mine), len(theirs)))
            return f"the {name} at byte {at}"
    return ""


# ---- Runs


def stored_runs(path):
    """(line number, model, tape, budget, lengths, results, trace, report) of each line"""
    for number, line in enumerate(path.read_text().splitlines(), 1):
        if line.startswith("#"):
            continue
        words = line.split()
        model, tape, trace, report = (b"" if words[k] == "-" else bytes.fromhex(words[k]) for k in (0, 1, 14, 15))
        yield number, (model, tape, *map(int, words[2:6])), (list(map(int, words[6:14])), trace, report)


def check_runs(path, run=machine.run):
    """how many there are, and what differs"""
    count, differing = 0, []
    for number, given, wanted in stored_runs(path):
        count += 1
        found = difference(*run(*given), *wanted)
        if found:
            differing.append(f"line {number}: {found}")
    return count, differing


# ---- Archives


def sums(folder):
    """what differs from the sums of an archive: manifests of a bag, or the lines of the page of form 1"""
    pages = [folder / name for name in ("manifest-sha256.txt", "tagmanifest-sha256.txt") if (folder / name).exists()]
    for page in pages or [folder / "archive.txt"]:
        for line in page.read_text().splitlines():
            found = re.fullmatch(r"([0-9a-f]{64})  (.*)", line)
            if found and not (folder / found[2]).exists():
                yield f"{found[2]} is missing"
            elif found and hashlib.sha256((folder / found[2]).read_bytes()).hexdigest() != found[1]:
                yield f"{found[2]}: its SHA-256 is another one than {page.name} has"


def trace_of(folder):
    """the trace, or the one that the columns give (docs/FORMAT.md, Columns)"""
    if not (folder / "columns.bin").exists():
        return (folder / "trace.bin").read_bytes()
    numbers = machine.Numbers((folder / "columns.bin").read_bytes(), 34_359_738_367, 51, 51)
    count = numbers.next(0, 100_000_000)
    differences, *others = ([numbers.next(0, machine.LAST_CLOCK) for _ in range(count)] for _ in range(4))
    clock, trace = 0, bytearray()
    for ticks, *rest in zip(differences, *others):
        clock += ticks
        trace += b"".join(map(machine.groups, (clock, *rest)))
    return bytes(trace)


def check_archive(folder):
    """what differs"""
    found = list(sums(folder))
    data = folder / "data" if (folder / "data").is_dir() else folder
    page = dict(re.findall(r"^([a-z-]+) (\d+)$", (data / "archive.txt").read_text(), re.M))
    given = [(data / name).read_bytes() for name in ("model.bin", "tape.bin")] + [int(page[name]) for name in LENGTHS]
    wanted = [int(page[name]) for name in RESULTS], trace_of(data), (data / "report.bin").read_bytes()
    return found + [text for text in [difference(*machine.run(*given), *wanted)] if text]


def main(names):
    if not names:
        sys.exit(__doc__)
    worst = 0
    for name in names:
        path = pathlib.Path(name)
        try:
            if path.is_dir():
                differing, same = check_archive(path), "same"
            else:
                count, differing = check_runs(path)
                same = f"{count} runs, all as stored"
        except (OSError, KeyError, ValueError, IndexError, machine.No) as error:
            differing, same = [f"cannot be judged: {type(error).__name__} {error}"], ""
        print(f"{name}: {same}" if not differing else "\n".join(f"{name}: {text}" for text in differing))
        worst |= bool(differing)
    sys.exit(int(worst))


if __name__ == "__main__":
    main(sys.argv[1:])
