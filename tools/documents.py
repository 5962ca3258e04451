"""The documents as the checks read them: pages, tables and fenced blocks."""
import pathlib
import re
import sys

root = pathlib.Path(__file__).resolve().parent.parent

MANUAL = root / "docs/MANUAL.md"
READING = root / "docs/READING.md"
# notes of the move to today's Rattle name what stood before
NOTES = {*root.glob("docs/PORT*.md"), *root.glob("docs/port-notes*.md")}
PAGES = [*sorted(root.glob("*.md")), *sorted({*root.glob("docs/**/*.md")} - NOTES), root / "models/README.md", *sorted(root.glob("models/*/README.md"))]

failures = []


def check(holds, what):
    if not holds:
        failures.append(what)


def verdict(line):
    if failures:
        sys.exit("\n".join(failures))
    print(line)


def tables(text):
    """each table as its rows, the heading first, a row being its cells"""
    found, rows = [], []
    for line in text.splitlines() + [""]:
        if line.startswith("|"):
            cells = [cell.strip() for cell in line.strip().strip("|").split("|")]
            if not all(re.fullmatch(r":?-+:?", cell) for cell in cells):
                rows.append(cells)
        elif rows:
            found.append(rows)
            rows = []
    return found


def table(text, *heading):
    """the rows of the table whose heading begins so"""
    for rows in tables(text):
        if tuple(rows[0][: len(heading)]) == heading:
            return rows[1:]
    raise SystemExit(f"no table with the heading {heading}")


def fences(text):
    """(info, body, line) of each fenced block"""
    found, info, body, at = [], None, [], 0
    for number, line in enumerate(text.splitlines(), 1):
        if info is None and line.startswith("```"):
            info, body, at = line[3:].strip(), [], number
        elif info is not None and line == "```":
            found.append((info, body, at))
            info = None
        elif info is not None:
            body.append(line)
    return found


def number(cell):
    return int(cell.replace(",", ""))


WORDS = ["none", "one", "two", "three", "four", "five", "six", "seven", "eight", "nine", "ten"]


def prose(path):
    """a page without its fenced blocks"""
    return re.sub(r"^```.*?^```$", "", path.read_text(), flags=re.M | re.S)


def says(path, *phrases):
    page = " ".join(path.read_text().split())
    for phrase in phrases:
        check(phrase in page, f"{path.relative_to(root)} does not say: {phrase}")
