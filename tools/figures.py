"""Figures in the prose of the documents that come from definitions and sources: limits, numbers of ends and refusals, the text form."""
import pathlib
import re
import subprocess
import tempfile

from documents import MANUAL, READING, WORDS, check, number, prose, root, says, table


def check_limits_told(values, ends, refusals):
    """limits that the pages mention, and what the programs are lent"""
    docs = root / "docs"
    clock, time, bits = values["in_force.max_clock"], values["in_force.max_time"], values["max_constant"]
    stream, records, parameters = values["streams.last_stream"], values["columns.max_records"], values["parameter_count"]
    says(root / "README.md", f"Clocks go up to {clock:,} and times to {time:,}")
    parts, draws = values["floats.time_parts"], values["floats.draw_parts"]
    says(
        docs / "TEXT.md",
        f"whole ticks from 0 to {time:,}",
        f"`p1` to `p{parameters}`",
        f"the clock itself below {bits + 1:,}",
        f"(0 to {values['tapes.most_times']:,})",
        f"from a stream of its own, 1 to {stream}",
        f"MEAN at most {values['floats.max_mean']:,} |",
        f"{values['tapes.fewest_points']} to {values['tapes.most_points']} points",
        f"multiples of 1/{parts} ({1 / parts}) from 0 to {values['floats.max_time']:,}; u may be any decimal and is rounded to {draws:,}ths",
    )
    plain = dict(re.findall(r"const PLAIN_(\w+): \w+ = ([\d_]+);", (root / "command/src/commands/run.rs").read_text()))
    budget, room, file = (int(plain[name]) for name in ("BUDGET", "ROOM", "FILE"))
    check(f"BUDGET: u64 = {budget:_};" in (root / "crates/runmodel/src/main.rt").read_text(), f"runmodel: another budget than {budget:,}")
    before, stops = ([end for end in ends.values() if (end > 20) == stopped] for stopped in (False, True))
    says(
        docs / "COMMAND.md",
        f"the budget is {values['max_turns']:,} turns and the room {values['max_turns'] * values['record_room']:,}",
        f"`--stream N`, 0 to {stream}",
        f"{budget:,} turns, {room:,} bytes of trace, and of model and tape the first {file:,} bytes each",
        f"Clocks go up to {clock:,} ticks",
        f"ends {before[0]} to {before[-1]} included",
        f"stopped (ends {stops[0]} to {stops[-1]},",
        f"A run that is stopped ({stops[0]} to {stops[-1]})",
        f"A RELEASE or RETURN by another ({ends['NOT_HOLDER']}) tells the holder, and a TERMINATE or ASSEMBLE of a holder ({ends['STILL_HOLDS']})",
    )
    says(
        docs / "COLUMNS.md",
        f"one number, 0 to {records:,}",
        f"at most {WORDS[values['max_number_bytes']]} bytes each; clocks go up to {clock:,}",
        f"with at most {records:,} records",
        f"or {refusals['NOT_COLUMNS']} (not a trace that is taken, not the columns of one), or then {refusals['COLUMNS_ROOM']} (the output needs",
        f"{refusals['NOT_COLUMNS']} whatever was lent, {refusals['COLUMNS_ROOM']} only after it",
    )
    says(docs / "PYTHON.md", f"random numbers from 1 to {values['streams.modulus'] - 1:,} of stream 0 to {stream}", f"with times to {time:,}")
    says(MANUAL, f"one of {WORDS[parameters]} numbers that a transaction carries, p1 to p{parameters}")
    says(MANUAL, f"from {bits + 1:,} on it turns; a difference of two clock terms is still right over {bits:,} ticks")
    says(root / "models/port-year/README.md", f"whose own times end at {values['floats.max_time']:,}", f"end the run with {ends['CLOCK_LIMIT']}")
    says(READING, f"end 4 when fewer than {values['record_room']} bytes are left")
    # the questions before a turn, in the order of the definition
    asked = (root / "crates/machine/specs/Run.antt").read_text().split("end_before_lem budget room s =\n")[1].split("\n\n")[0]
    asked = re.findall(r"^    \(cond .* (\d+)$", asked, re.M)
    told = re.search(r"May there be a turn\? In this order: (.*)", MANUAL.read_text())[1]
    check(re.findall(r"end (\d+)", told) == asked, f"docs/MANUAL.md: before a turn {told}; Run.antt has {asked}")
    first, second, high, low, whole = re.search(r"`([0-9A-F]{2}) ([0-9A-F]{2})` is (\d+) × 128 \+ (\d+) = (\d+)", MANUAL.read_text()).groups()
    check([int(first, 16) - 128, int(second, 16)] == [int(high), int(low)] and int(high) * 128 + int(low) == int(whole), "docs/MANUAL.md: from bytes to the number")
    layout = (root / "crates/rows_laws/specs/Layout.antt").read_text()
    rows, fields, lists = (int(re.search(rf"^{name} = (\d+)$", layout, re.M)[1]) for name in ("row_count", "field_count", "list_count"))
    servers = values["max_facilities"] + values["max_storages"]
    says(
        docs / "ARCHITECTURE.md",
        f"(none of {fields} is spare)",
        f"its {servers} cells in `layout`",
        f"the starts of {stream + 1} streams",
    )
    row = re.search(r"\bwaiting; (.*?) and the WS scheme", (docs / "ARCHITECTURE.md").read_text())[1]
    listed = "; ".join(re.findall(r"\(([\d, to]+)\)", row))
    covered = [n for low, high in re.findall(r"(\d+)(?: to (\d+))?", listed) for n in range(int(low), int(high or low) + 1)]
    kinds = [int(row[0]) for row in table(MANUAL.read_text(), "Kind", "Example")]
    check(sorted(covered) == kinds, f"docs/ARCHITECTURE.md: the crates of blocks have the kinds {listed}")
    says(docs / "DECISIONS.md", f"the {rows - lists} cells behind the heads of the {lists} lists hold hints")


def check_grouped(values):
    """every figure of more than three digits is a limit of the definitions or beside one, or its section says that it was measured"""
    known = {int(n) for file in root.glob("crates/*/specs/*.antt") for n in re.findall(r"^\w+ = (\d+)$", file.read_text(), re.M)}
    known |= {n + 1 for n in known} | {n - 1 for n in known}
    known |= {values["max_turns"] * values["record_room"], values["floats.max_mean"]}
    known |= {int(n.replace("_", "")) for n in re.findall(r"\b\d+_[\d_]+", (root / "studies/check").read_text())}
    known |= {int(n) for n in re.findall(r"= (\d+);", (root / "crates/machine/specs/Rules.antt").read_text())}
    known |= {3_600}  # seconds of an hour
    for path in (root / "README.md", *sorted(root.glob("docs/*.md"))):
        for section in re.split(r"^(?=#)", prose(path), flags=re.M):
            for figure in re.findall(r"(?<![\d,])\d{1,3}(?:,\d{3})+(?!,?\d)", section):
                told = number(figure) in known or "measured" in section
                check(told, f"{path.relative_to(root)}: {figure} is no limit of the definitions, and its section does not say when it was measured")


# ---- The text form


def check_text_form():
    """statements, tapes and distributions of docs/TEXT.md assemble; what is left out and what says a status are those of the sources"""
    path, words = root / "docs/TEXT.md", (root / "text/src/words.rs").read_text()
    text = path.read_text()
    left = {word: n for word, n in re.findall(r'kind\(\w+, "(\w+)", "\w+", Some\((\d)\)\)', words)}
    told = {}
    for cell, _ in table(text, "Block", "Kind"):
        default = re.search(r"\((?:\w+ )?(\d) if left out\)", cell)
        told |= {word: default[1] for word in re.findall(r"`([A-Z]+)", cell) if default}
    check(told == left, f"docs/TEXT.md: left out {told}, text/src/words.rs has {left}")
    server = {"true": "tug", "false": "berth"}
    codes = re.findall(r'code\("(\w+)", (\w+), "(.\$)", "(.*?)"\)', words)
    says(path, ", ".join(f"`{term}{server[facility]} {holds}`{' says' if code == 'U' else ''} {code}" for code, facility, term, holds in codes[:5])
         + " and `{}{} {}` {}".format(codes[5][2], "berth", codes[5][3], codes[5][0]))  # fmt: skip
    declared = [row[0].strip("`") for row in table(text, "Statement", "Meaning")]
    blocks = ["GENERATE arrivals", "ADVANCE stays", "TERMINATE 1"]
    tape, distributions = ("\n".join(line[4:] for line in block.splitlines()) + "\n" for block in re.findall(r"(?:^    .*\n)+", text, re.M)[:2])
    with tempfile.TemporaryDirectory() as scratch:
        folder = pathlib.Path(scratch)
        (folder / "model.txt").write_text("\n".join(declared + blocks) + "\n")
        (folder / "tape.txt").write_text(tape)
        (folder / "distributions.txt").write_text(distributions)
        for words in (["folder", folder], ["distributions", folder / "distributions.txt"]):
            done = subprocess.run([root / "target/release/modeltext", *words], capture_output=True, text=True)
            check(done.returncode == 0, f"docs/TEXT.md: {done.stdout}{done.stderr}")


def check_all(values, ends, refusals):
    """limits, ends and refusals by name"""
    check_limits_told(values, ends, refusals)
    check_grouped(values)
    check_text_form()
