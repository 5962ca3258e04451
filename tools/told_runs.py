"""Figures in the prose of the documents that come from runs: the drawings, the trace read by hand, the questions, slow jobs, columns, Python."""
import pathlib
import re
import subprocess
import tempfile

from documents import MANUAL, READING, WORDS, check, number, root, says, table


def drawn(folder):
    """what tools/lists draws, block by block"""
    printed = subprocess.run([root / "tools/lists", folder], check=True, capture_output=True, text=True).stdout
    return printed.rstrip("\n").split("\n\n")


def happens(path, told, drawing, pairs):
    """what the text says, in so many words, is drawn"""
    for said, seen in pairs.items():
        for found in re.findall(said, told):
            given = [found] if isinstance(found, str) else found
            check(re.search(seen.format(*given), drawing, re.M), f"{path.relative_to(root)}: {told.strip()}\nbut drawn is\n{drawing.strip()}")


# what the text before some drawings of the worked run says, and what is drawn in them
WORKED = {
    r"clock moves to (\d+)": r"\A\s*turn \d+, clock {}:",
    r"(?:FEL at time|FEL at \d+ \+ \d+ =|for time) (\d+)": r"FEL .* at {}\]",
    r"(?:[Tt]ruck|transaction) (\d+)": r"\[{0} p|clock \d+: {0} at",
    r"serial (\d+)": r" s{}[\] ]",
    r"serial \d+ before (\d+)": r" s{}[\] ]",
    r"transaction (\d+), on REL with the fresh serial (\d+)": r"REL .*\[{} p0 s{}\]",
    r"Truck (\d+) comes, .* and waits on the QL with serial (\d+)": r"QL .*\[{} p0 s{}\]",
    r"put back on the QL with its old serial (\d+)": r"QL .* s{} r\]",
    r"has priority (\d+) and stands ahead": r"REL +\[\d+ p{} ",
}


def check_between_drawings():
    """what the text says between the drawings of the worked run"""
    text = MANUAL.read_text()
    text = text[text.index("\n## A worked run") : text.index("\n## Papers")]
    parts = re.split(r"^```lists .*?$(.*?)^```$", text, flags=re.M | re.S)
    for told, drawing in zip(parts[0:-1:2], parts[1::2]):
        told = " ".join(told.split("\n\n")[-2].split())
        happens(MANUAL, told, drawing, WORKED)
        for a, b, c in re.findall(r"(\d+) \+ (\d+) = (\d+)", told):
            check(int(a) + int(b) == int(c), f"docs/MANUAL.md: {told}")
    turns = {turn: body for turn, body in re.findall(r"^turn (\d+), (.*?)(?=\n\n|\n```)", text, re.M | re.S)}
    who, turn = re.search(r"Truck (\d+) was woken at turn (\d+)", text).groups()
    check(re.search(rf"REL .*\[{who} p\d+ s\d+ r\]", turns[turn]), f"docs/MANUAL.md: truck {who} was not woken at turn {turn}")
    clocks = [(int(turn), int(clock)) for turn, clock in re.findall(r"^turn (\d+), clock (\d+)", text, re.M)]
    at = int(re.search(r"at clock (\d+), which no turn has", text)[1])
    last = max(turn for turn, clock in clocks if clock < at)
    check(at not in [clock for _, clock in clocks], f"docs/MANUAL.md: a turn has the clock {at}")
    says(MANUAL, f"at clock {at}, which no turn has, the lists are those of turn {last}")


def check_by_hand():
    """the first example of docs/READING.md: its bytes, its numbers, and what happens in each turn"""
    text = READING.read_text()
    model, tape = (bytes.fromhex(digits) for digits in re.search(r"The first example: model `([0-9A-F ]+)`, tape `([0-9A-F ]+)`", text).groups())
    stored = root / "crates/runmodel/data"
    check((model, tape) == ((stored / "model.bin").read_bytes(), (stored / "tape.bin").read_bytes()), "docs/READING.md: another first example than runmodel's")
    head, blocks, times = re.search(r"all of one byte: (.*?) blocks: (.*?)\. The tape: (.*?)\.\n", text, re.S).groups()
    check([int(n) for n in re.findall(r"\d+", head)] == list(model[:8]), f"docs/READING.md: the model begins {head}")
    check(bytes.fromhex(" ".join(re.findall(r"`([0-9A-F ]+)`", blocks))) == model[8:], f"docs/READING.md: the blocks are {blocks}")
    for operands, digits in re.findall(r"[A-Z]+ ([\d, ]+) \(`([0-9A-F ]+)`\)", blocks):
        check([int(n) for n in operands.split(",")] == list(bytes.fromhex(digits))[1:], f"docs/READING.md: {operands} is not {digits}")
    lists = [[int(n) for n in re.findall(r"\d+", part)] for part in times.split(";")]
    check(sum(([len(one[1:]), *one[1:]] for one in lists), []) == list(tape), f"docs/READING.md: the tape is {times}")
    start = re.search(r"^Start: (.*)$", text, re.M)[1]
    rows = table(text, "Turn", "Clock")
    check([row[0] for row in rows] == [str(k) for k in range(1, len(rows) + 1)], "docs/READING.md: the turns are not numbered from 1")
    turns = drawn(stored)
    for told, after in zip([start, *(row[2] for row in rows)], turns):
        happens(READING, told, after, BY_HAND)
    for word, k in (("GENERATE", 0), ("ADVANCE", 1)):
        used = [int(n) for told in [start, *(row[2] for row in rows)] for n in re.findall(rf"{word} takes the time (\d+)", told)]
        check(used == lists[k][1:], f"docs/READING.md: {word} takes the times {used}")
    # the sums: ticks in use before each clock move
    clocks = [0, *(int(row[1]) for row in rows)]
    use = [b - a for a, b, before in zip(clocks, clocks[1:], turns) if b > a and " 1 of 1" in before]
    for told, ticks in zip([row[2] for row in rows if "in use" in row[2] and "clock move" in row[2]], use):
        check(f"{WORDS[ticks]} ticks in use" in told, f"docs/READING.md: {told}, and not {ticks} ticks")
    end, sums = ([int(n) for n in line.split()[1:]] for line in re.search(r"prints `(end [\d ]+)` and `(f [\d ]+)`", text).groups())
    first = stored.parent / "stdout"
    first = [int(n) for line in first.read_text().splitlines()[:2] for n in line.split()]
    says(
        READING,
        f"clock {end[1]}, made {end[2]}, ended {end[3]}; facility {sums[0]}: {sums[1]} entries, {' + '.join(map(str, use))} = {sums[2]} unit ticks, "
        f"{sums[3]} wait begun, {sums[4]} ticks waited, longest QL {sums[5]}; nobody living.",
        f"The trace is these records as bytes: `{bytes(first).hex(' ').upper()} ..`",
    )


# what the page says of a turn, and what is drawn of it
BY_HAND = {
    r"clock move to (\d+)": r"clock {}:",
    r"(\d+)(?: stands)? on the FEL at (\d+), serial (\d+)": r"FEL .*\[{0} p0 s{2} at {1}\]",
    r"(\d+) on the FEL at (\d+)(?!, serial)": r"FEL .*\[{0} p0 s\d+ at {1}\]",
    r"(\d+) (?:goes )?to REL(?: with|,) serial (\d+)": r"moving +\[{} p0 s{}\]",
    r"(\d+) goes to REL, returning, serial (\d+) kept": r"REL .*\[{} p0 s{} r\]",
    r"(\d+) waits on the QL with serial (\d+)": r"QL .*\[{} p0 s{}\]",
    r"(\d+) (?:enters|ends|is taken)": r"clock \d+: {} at block",
}


def records(name):
    """records and the other lines of a stored run"""
    lines = [line.split() for line in (root / "models" / name / "expected.txt").read_text().splitlines()]
    return [list(map(int, line)) for line in lines if line[0].isdigit()], [line for line in lines if not line[0].isdigit()]


def check_questions():
    """the answers of docs/READING.md about the loading bay, and what docs/COMMAND.md says of the ships"""
    rows, others = records("loading-bay")
    end, clock = map(int, others[0][1:3])
    ticks = int(others[1][3])
    entered = lambda block: [(c, who) for c, who, b, outcome in rows if (b, outcome) == (block, 0)]
    turns = [block.splitlines()[0] for block in drawn(root / "models/loading-bay")[1:]]
    back = [line for line in turns if "put back" in line]
    began = next(k for k, row in enumerate(rows) if row[1:] == [2, 3, 1])
    holds = [*entered(3)[:1], *entered(11)[:1]]
    answers = {
        1: f"end {end}, the counter: truck {entered(8)[0][1]} left at clock {clock}",
        2: f"{WORDS[len(entered(1))]} came (entries of block 1), {WORDS[len(entered(8))]} left (block 8)",
        3: f"{100 * ticks / clock:.1f}% of {clock} ticks: {ticks}",
        5: f"from {rows[began][0]} to {entered(3)[1][0]}",
        6: f"truck {holds[0][1]} until {holds[1][0]}, then sweeper {holds[1][1]}",
        8: f"truck 2 was put back {['never', 'once'][len(back)]}, at {back[0].split(',')[0]}",
        9: f"it is the {['ninth', 'tenth', 'eleventh'][began - 8]} record; all numbers are below 128, so at byte {4 * began}",
    }
    told = {int(row[0].split(".")[0]): row for heading in ("first", "second") for row in questions(heading)}
    for k, answer in answers.items():
        check(told[k][1] == answer, f"docs/READING.md, question {k}: {told[k][1]}, and not {answer}")
    check(f"{len(turns)} turns and {len(rows)} records" in told[8][0], f"docs/READING.md: {told[8][0]}")
    check(max(max(row) for row in rows) < 128, "docs/READING.md: a number of the trace is above 127")
    check(f"at {holds[1][0]}," in told[7][0] and f"at {holds[1][0]};" in told[7][1], f"docs/READING.md: {told[7]}")

    rows, others = records("ship-and-tug")
    came = sum(row[2:] == [7, 0] for row in rows)
    made = int(others[0][3])
    check(made == came + 3, "docs/COMMAND.md: not only a ship is to come, a storm and the closing hour")
    says(root / "docs/COMMAND.md", f"{came} ships came, one is on its way, and with the storm and the closing hour these are the {made}.")


def questions(which):
    """the rows of the first or second table of questions"""
    found = READING.read_text().split("| Question | Answer | From |\n")[1 if which == "first" else 2]
    return [[cell.strip() for cell in line.strip("|").split("|")] for line in found.splitlines()[1:] if line.startswith("|")][: 4 if which == "first" else 6]


# ---- Slow jobs, columns, Python


def ends_of(model, lists):
    """clocks and transactions at TERMINATE, and each one's entries, of a model's text on a tape, by the second implementation"""
    with tempfile.TemporaryDirectory() as scratch:
        folder = pathlib.Path(scratch)
        (folder / "model.txt").write_text(model)
        (folder / "tape.txt").write_text("".join(f"{name}: {' '.join(map(str, times))}\n" for name, times in lists.items()))
        subprocess.run([root / "target/release/modeltext", "folder", folder], check=True, capture_output=True)
        printed = subprocess.run([root / "reference/target/release/run", folder], check=True, capture_output=True, text=True).stdout
    rows = [list(map(int, line.split())) for line in printed.splitlines() if line[0].isdigit()]
    kinds = [line.split() for line in model.splitlines() if not re.match(r"\s*(FACILITY|LIST|COUNTER)", line)]
    last = {k for k, words in enumerate(kinds, 1) if "TERMINATE" in words}
    return [row[0] for row in rows if row[2] in last and row[3] == 0], rows


def check_slow_job():
    path = root / "docs/SLOW-JOB.md"
    text = path.read_text()
    one, two = ("\n".join(line[4:] for line in block.splitlines()) + "\n" for block in re.findall(r"(?:^    .*\n)+", text, re.M))
    several = lambda cell: [int(n) for n in re.findall(r"\d+", cell.split(":")[0])]
    more = int(re.search(r"(\d+) ticks more for the first job", text)[1])
    for arrivals, services, before, after, delays in table(text, "arrivals", "services"):
        comes, times = several(arrivals), several(services)
        between = [b - a for a, b in zip([0, *comes], comes)]
        was = ends_of(one, {"arrivals": between, "services": times})[0]
        now = ends_of(one, {"arrivals": between, "services": [times[0] + more, *times[1:]]})[0]
        found = (was, now, [b - a for a, b in zip(was, now)])
        check(found == (several(before), several(after), several(delays)), f"docs/SLOW-JOB.md: of {arrivals} and {services} ends and delays are {found}")
        idle = re.search(r"the facility was idle for (\d+) ticks", delays)
        check(not idle or int(idle[1]) == comes[1] - was[0], f"docs/SLOW-JOB.md: of {arrivals} and {services} {delays}")
    says(path, f"the tape has the times between them: {', '.join(map(str, between))} in the last line")
    jobs = table(text, "job", "comes")
    between = [int(n) for n in re.search(r"`arrivals: ([\d ]+)`", text)[1].split()]
    clocks = [sum(between[: k + 1]) for k in range(4)]
    says(path, "Jobs come at {}, {}, {} and {} (".format(*clocks))
    times = [int(n) for n in re.search(r"the service times are ([\d, ]+)\.", text)[1].split(",")]
    first, raised = map(int, re.search(r"The first is raised from (\d+) to (\d+)", text).groups())
    check(first == times[0] and [int(job[1]) for job in jobs[:-1]] == clocks, "docs/SLOW-JOB.md: the jobs of two lines")
    for column, services in ((2, times), (3, [raised, *times[1:]])):
        ends, rows = ends_of(two, {"arrivals": between, "services": services})
        check(several(jobs[-1][column]) == sorted(ends), f"docs/SLOW-JOB.md: ends {jobs[-1][column]}, and not {ends}")
        for job in jobs[:-1]:
            mine = [(row[0], row[2], row[3]) for row in rows if row[1] == int(job[0])]
            seized = next((clock, "first" if block == 3 else "second") for clock, block, outcome in mine if block in (3, 7) and outcome == 0)
            waits = "waits for " if any(outcome for _, _, outcome in mine) else ""
            wanted = f"{waits}{seized[1]}, {seized[0]} to {mine[-1][0]}"
            check(job[column].replace("*", "") == wanted, f"docs/SLOW-JOB.md: job {job[0]}: {job[column]}, and not {wanted}")


def check_columns():
    """records, bytes of trace and of columns of the stored models, and the shares that the text takes from its table"""
    text = (root / "docs/COLUMNS.md").read_text()
    size = lambda n: 1 if n < 128 else 1 + size(n >> 7)
    shares = []
    for name, *cells in table(text, "model", "records"):
        count, trace, columns, trace_xz, columns_xz, trace_zstd, columns_zstd = map(number, cells)
        shares.append([100 - 100 * b / a for a, b in ((trace_xz, columns_xz), (trace_zstd, columns_zstd), (trace, columns))])
        if (root / "models" / name).exists():
            rows, _ = records(name)
            steps = [b[0] - a[0] for a, b in zip([[0]] + rows, rows)]
            rest = sum(size(n) for row in rows for n in row[1:])
            found = (len(rows), rest + sum(size(row[0]) for row in rows), size(len(rows)) + rest + sum(map(size, steps)))
            check(found == (count, trace, columns), f"docs/COLUMNS.md: {name} has {found}")
    least, most = ([round(pick(share)) for share in zip(*shares)] for pick in (min, max))
    says(root / "docs/COLUMNS.md", f"Packed columns are {least[0]} to {most[0]} % smaller than the packed trace with `xz`, {least[1]} to {most[1]} % with `zstd`. "
         f"Unpacked they are {least[2]} to {most[2]} % smaller")  # fmt: skip


def check_python_study():
    """what docs/PYTHON.md says of its distributions, and of its measured times"""
    path = root / "docs/PYTHON.md"
    text = path.read_text()
    come, tow, unload = [tuple(map(int, pair)) for pair in re.findall(r"covrith\.uniform\((\d+), (\d+)\)", text)]
    middle = [sum(one) // 2 for one in (come, tow, unload)]
    says(
        path,
        f"Ships come every {come[0]} to {come[1]} minutes. Each takes a berth, is towed in for {tow[0]} to {tow[1]} minutes, unloads for {unload[0]} to {unload[1]} ",
        f"ships come every {middle[0]} minutes and hold a berth for {middle[2] + 2 * middle[1]}.",
    )
    (c, python, more), (c_all, python_all, more_all) = ([number(cell) for cell in row[1:]] for row in table(text, "", "C"))
    count = number(re.search(r"some ([\d,]+) records each", text)[1])
    check(more == python - c and abs(more_all - (python_all - c_all)) < 10, "docs/PYTHON.md: what Python costs more")
    says(path, f"So a run costs {more / 1000:.2f} ms more than from C, and a record {more_all / count:.1f} microseconds.")


def check_all():
    check_between_drawings()
    check_by_hand()
    check_questions()
    check_slow_job()
    check_columns()
    check_python_study()
