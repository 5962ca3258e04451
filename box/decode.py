#!/usr/bin/env python3
"""Decodes models, tapes, traces and reports. It knows the form of numbers and reads all else from the tables of FORMAT.

  decode.py FORMAT model MODEL                     the model as text
  decode.py FORMAT tape MODEL TAPE                 the times of each list
  decode.py FORMAT trace TRACE                     the records, a line each
  decode.py FORMAT report MODEL REPORT             every field of the report, a line each
  decode.py FORMAT plain MODEL TRACE REPORT END    what `runmodel` prints of a run with this end
  decode.py FORMAT columns COLUMNS                 the records of a trace that is stored by column

FORMAT is docs/FORMAT.md, or FORMAT.txt of an archive.
"""
import os
import pathlib
import re
import sys


class Wrong(Exception):
    """What is wrong with the bytes: `number` (form or size), `range`, or `rest` (bytes that follow)."""


class Numbers:
    """The bytes of a file, read number by number."""

    def __init__(self, data, most_bytes, largest):
        self.data, self.at, self.most_bytes, self.largest = data, 0, most_bytes, largest

    def next(self):
        number, start = 0, self.at
        while True:
            if self.at == len(self.data) or self.at - start == self.most_bytes:
                raise Wrong("number")
            byte = self.data[self.at]
            if byte == 0x80 and self.at == start:
                raise Wrong("number")
            self.at += 1
            number = number * 128 + byte % 128
            if byte < 0x80:
                break
        if number > self.largest:
            raise Wrong("number")
        return number


# ---- The tables


def cells(line):
    return [cell.strip() for cell in line.strip().strip("|").split("|")]


def code(cell):
    """what stands between the marks of a cell, spaces in front included"""
    return cell.strip("`")


class Format:
    def __init__(self, text):
        """`tables` by the first two words of their headings, `parts` by their names"""
        self.tables, self.parts = {}, {}
        part, rows = None, []
        for line in text.splitlines() + [""]:
            if line.startswith("#"):
                found = re.match(r"### Part (\w+)$", line)
                part = found and found[1]
            if line.startswith("|"):
                rows.append(cells(line))
            elif rows:
                head, body = rows[0], rows[2:]
                table = [dict(zip(head, row)) for row in body]
                self.tables[head[0], head[1]] = table
                if part and head[0] == "Field":
                    self.parts[part] = table
                rows = []

        def by(first, second):
            return {row[first]: row for row in self.tables[first, second]}

        self.files = by("File", "Bytes of a number, at most")
        self.kinds = by("Kind", "Operands, in stored order")
        self.operands = by("Operand", "Range")
        self.tags = by("Tag", "Behind it")
        self.codes, self.relations, self.signs = by("Code", "Written"), by("Relation", "Written"), by("Sign", "The first")

    # ---- Reading: a part is a dictionary of what was read by field; `known` has the numbers that ranges and repeats name

    def file(self, name, data, known=None):
        sizes = self.files[name]
        most, largest = (int(sizes[column].replace(",", "")) for column in ("Bytes of a number, at most", "Largest number"))
        numbers = Numbers(data, most, largest)
        read = self.part(name, numbers, dict(known or {}))
        if numbers.at != len(data):
            raise Wrong("rest")
        return read

    def part(self, name, numbers, known):
        if name == "term":
            return self.term(numbers, known)
        if name == "block":
            return self.block(numbers, known)
        read = {}
        for row in self.parts[name]:
            field, repeats = row["Field"], row["Repeats"]
            if repeats == "once":
                read[field] = known[field] = self.field(row["Range"], numbers, known)
            elif repeats == "to the end":
                read[field] = []
                while numbers.at < len(numbers.data):
                    read[field].append(self.field(row["Range"], numbers, known))
            else:
                read[field] = known[field] = []
                for k in range(1, known[repeats] + 1):
                    within = {**known, "k": k} if field == "value" else known
                    read[field].append(self.field(row["Range"], numbers, within))
        return read

    def field(self, allowed, numbers, known):
        """a number in its range, or a part"""
        if allowed.startswith("part "):
            return self.part(allowed.removeprefix("part "), numbers, known)
        number = numbers.next()
        low, high = allowed.split("..")
        if not int(low) <= number <= self.bound(high, known):
            raise Wrong("range")
        return number

    def bound(self, word, known):
        if word == "k - 1":
            return known["k"] - 1
        if word not in known:
            return int(word.replace(",", ""))
        if isinstance(known[word], list):  # of the storage that stands just before
            return known[word][known["storage"] - 1]
        return known[word]

    def term(self, numbers, known):
        tag = numbers.next()
        row = self.tags.get(str(tag), {})
        allowed = row.get("In a value" if "k" in known else "In a block", "-")
        if allowed == "-":
            raise Wrong("range")
        read = {"tag": tag}
        if allowed == "allowed":
            for name in row["Behind it"].split(", "):
                read[name] = self.part("sum", numbers, dict(known)) if name == "sum" else self.operand(name, numbers, known)
        else:
            read[row["Behind it"]] = self.field(allowed, numbers, known)
        return read

    def block(self, numbers, known):
        kind = numbers.next()
        if str(kind) not in self.kinds:
            raise Wrong("range")
        read = {"kind": kind}
        for name in self.kinds[str(kind)]["Operands, in stored order"].split(", "):
            read[name] = self.operand(name, numbers, {**known, **read})
        return read

    def operand(self, name, numbers, known):
        allowed = self.operands[name]["Range"]
        if name == "server":
            allowed = self.operands[self.codes[str(known["code"])]["Server"]]["Range"]
        return self.field(allowed, numbers, known)

    # ---- Writing

    def operand_text(self, name, read):
        written = self.operands[name]["Written"]
        if name == "code":
            return code(self.codes[str(read["code"])]["Written"])
        if name == "relation":
            return code(self.relations[str(read["relation"])]["Written"])
        if name == "server":
            kind = self.codes[str(read["code"])]["Server"]
            return code(self.operands[kind]["Written"]).format(**{kind: read["server"]})
        if written == "as a term":
            return self.term_text(read[name])
        return code(written).format(**{name: read[name]})

    def term_text(self, read):
        row = self.tags[str(read["tag"])]
        texts = dict(read)
        if "sum" in read:
            texts["sum"] = self.sum_text(read["sum"])
        if "relation" in read:
            texts = {name: self.operand_text(name, read) for name in ("left", "relation", "right")}
        return code(row["Written"]).format(**texts)

    def sum_text(self, read):
        text = ""
        for addend in read["addend"]:
            row = self.signs[str(addend["sign"])]
            text += code(row["A later one" if text else "The first"]).format(term=self.term_text(addend["term"]))
        return text

    def block_text(self, read):
        row = self.kinds[str(read["kind"])]
        texts = {name: self.operand_text(name, read) for name in read if name != "kind"}
        return code(row["Written"]).format(**texts)

    def model_lines(self, model):
        """declarations, then (number, label, statement) of each block"""
        lines = []
        for row in self.tables["Line", "Printed"]:
            line, printed = code(row["Line"]), row["Printed"]
            if printed.startswith("for each "):
                field = printed.removeprefix("for each ")
                for k, read in enumerate(model[field], 1):
                    lines.append(line.format(k=k, **{field: self.sum_text(read) if field == "value" else read}))
            elif printed == "always":
                lines.append(line.format(**model))
            else:
                field, absent = re.fullmatch(r"unless (\w+) is (\d+)", printed).groups()
                if model[field] != int(absent):
                    each = ", ".join(code(row["Each"]).format(k=k) for k in range(1, model[field] + 1))
                    lines.append(line.format(each=each, **model))
        named = set(blocks_named(model["block"])) | set(blocks_named(model["value"]))
        statements = [(k, f"b{k}" if k in named else "", self.block_text(read)) for k, read in enumerate(model["block"], 1)]
        return lines, statements

    def record_lines(self, trace):
        form = next(code(row["Line"]) for row in self.tables["Line", "For each"] if row["For each"] == "record")
        return [form.format(**record) for record in trace["record"]]

    def plain_lines(self, trace, report, end):
        """the lines of `run --plain`"""
        forms = {row["For each"]: code(row["Line"]) for row in self.tables["Line", "For each"]}
        lines = self.record_lines(trace)
        lines.append(forms["run"].format(end=end, **report))
        for kind in ("facility", "storage", "queue"):
            lines += [forms[kind].format(k=k, **read) for k, read in enumerate(report[kind], 1)]
        return lines

    def tape_lines(self, tape):
        return [f"l{k}:" + "".join(f" {time}" for time in read["time"]) for k, read in enumerate(tape["list"], 1)]


def records_of_columns(read):
    """the records of a trace that is stored by column"""
    clock, records = 0, []
    for difference, transaction, block, outcome in zip(*(read[name] for name in ("difference", "transaction", "block", "outcome"))):
        clock += difference
        records.append({"clock": clock, "transaction": transaction, "block": block, "outcome": outcome})
    return {"record": records}


def fields(read, before=""):
    """every number of what was read, with its name"""
    for name, one in read.items():
        if isinstance(one, list):
            for k, each in enumerate(one, 1):
                if isinstance(each, dict):
                    yield from fields(each, f"{before}{name} {k} ")
                else:
                    yield f"{before}{name} {k} {each}"
        elif isinstance(one, dict):
            yield from fields(one, f"{before}{name} ")
        else:
            yield f"{before}{name} {one}"


def blocks_named(read):
    """the blocks that targets and tags 4 name"""
    if isinstance(read, list):
        for one in read:
            yield from blocks_named(one)
    elif isinstance(read, dict):
        for name, one in read.items():
            if name in ("target", "block"):
                yield one
            else:
                yield from blocks_named(one)


def main(words):
    try:
        page, what, *names = words
        form = Format(pathlib.Path(page).read_text(encoding="utf-8"))
        given = [name if name.isdigit() else pathlib.Path(name).read_bytes() for name in names]
        model = form.file("model", given[0]) if what in ("model", "tape", "report", "plain") else None
        if what == "model":
            lines, statements = form.model_lines(model)
            lines += [f"{k:5}  {label:5}  {statement}".rstrip() for k, label, statement in statements]
        elif what == "tape":
            lines = form.tape_lines(form.file("tape", given[1], model))
        elif what == "trace":
            lines = form.record_lines(form.file("trace", given[0]))
        elif what == "report":
            lines = fields(form.file("report", given[1], model))
        elif what == "plain":
            lines = form.plain_lines(form.file("trace", given[1]), form.file("report", given[2], model), given[3])
        elif what == "columns":
            lines = form.record_lines(records_of_columns(form.file("columns", given[0])))
        else:
            raise ValueError
    except (ValueError, IndexError):
        sys.exit(__doc__)
    except OSError as error:
        sys.exit(f"decode.py: {error.filename}: {error.strerror}")
    except Wrong as wrong:
        sys.exit(f"decode.py: {wrong}")
    try:
        print("\n".join(lines), flush=True)
    except BrokenPipeError:  # the reader of the lines went away
        os.dup2(os.open(os.devnull, os.O_WRONLY), sys.stdout.fileno())


if __name__ == "__main__":
    main(sys.argv[1:])
