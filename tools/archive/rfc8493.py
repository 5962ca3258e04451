"""Whether a folder is a complete and valid bag: RFC 8493, section by section, and nothing of Covrith.

The words behind § are sections of the RFC. `problems(folder)` gives a list, empty for a valid bag.
"""
import datetime
import hashlib
import os
import pathlib
import re


def lines_of(path, said):
    """the lines of a tag file, which is UTF-8 and ends its lines with LF, CR or CRLF (§2.1.1, §2.2.2)"""
    data = path.read_bytes()
    if data.startswith(b"\xef\xbb\xbf"):
        said.append(f"{path.name}: begins with a byte-order mark (§2.1.1)")
    try:
        text = data.decode("utf-8")
    except UnicodeDecodeError:
        said.append(f"{path.name}: not UTF-8")
        return []
    return re.split(r"\r\n|\n|\r", text)[:-1] if re.search(r"[\r\n]$", text) else re.split(r"\r\n|\n|\r", text)


def declaration(folder, said):
    """§2.1.1: bagit.txt has exactly two lines, version and encoding"""
    path = folder / "bagit.txt"
    if not path.is_file():
        said.append("bagit.txt: missing (§2.1.1)")
        return
    lines = lines_of(path, said)
    if len(lines) != 2 or not re.fullmatch(r"BagIt-Version: \d+\.\d+", lines[0]):
        said.append("bagit.txt: not a version and an encoding (§2.1.1)")
    elif lines[0] != "BagIt-Version: 1.0" or lines[1] != "Tag-File-Character-Encoding: UTF-8":
        said.append("bagit.txt: not version 1.0 in UTF-8")


def sums(path, said):
    """§2.1.3, §2.2.1: lines of a checksum, whitespace and a path; CR, LF and % are percent-encoded"""
    found = {}
    for line in lines_of(path, said):
        parts = re.fullmatch(r"([0-9A-Fa-f]+)[ \t]+(?:\*|\./)?(.+)", line)
        if not parts:
            said.append(f"{path.name}: not a sum and a path: {line!r}")
            continue
        name = re.sub(r"%(0[DdAa]|25)", lambda m: chr(int(m[1], 16)), parts[2])
        if name in found:
            said.append(f"{path.name}: {name} twice (§2.1.3)")
        if name.startswith(("/", "~")) or ".." in name.split("/"):
            said.append(f"{path.name}: {name} leads out of the bag (§5.2)")
            continue
        found[name] = parts[1].lower()
    return found


def compare(folder, path, said):
    """the files of a manifest are there and have their sums (§3)"""
    algorithm = path.stem.rsplit("-", 1)[1]
    if algorithm not in ("sha256", "sha512"):
        said.append(f"{path.name}: the sum is not of a name that this program knows")
        return {}
    found = sums(path, said)
    for name, sum in found.items():
        file = folder / name
        if not file.is_file():
            said.append(f"{path.name}: {name} is missing (§3)")
        elif hashlib.new(algorithm, file.read_bytes()).hexdigest() != sum:
            said.append(f"{path.name}: {name} has another sum (§3)")
    return found


def information(folder, payload, said):
    """§2.2.2: labels and values; Payload-Oxum and Bagging-Date at most once"""
    path = folder / "bag-info.txt"
    if not path.is_file():
        return
    values = []
    for line in lines_of(path, said):
        if re.match(r"[ \t]", line) and values:
            values[-1][1] += " " + line.strip()
        elif re.fullmatch(r"[^\s:]([^:]*[^\s:])?:([ \t].*)?", line):
            label, _, value = line.partition(":")
            values.append([label.lower(), value.strip()])
        else:
            said.append(f"bag-info.txt: not a label and a value: {line!r}")
    for label in ("payload-oxum", "bagging-date"):
        if sum(one[0] == label for one in values) > 1:
            said.append(f"bag-info.txt: {label} twice (§2.2.2)")
    given = dict(values)
    oxum = f"{sum((folder / name).stat().st_size for name in payload)}.{len(payload)}"
    if given.get("payload-oxum", oxum) != oxum:
        said.append(f"bag-info.txt: Payload-Oxum is {given['payload-oxum']}, and the payload {oxum}")
    try:
        datetime.date.fromisoformat(given.get("bagging-date", "2000-01-01"))
    except ValueError:
        said.append("bag-info.txt: Bagging-Date is no day (§2.2.2)")


def problems(folder):
    folder, said = pathlib.Path(folder), []
    declaration(folder, said)
    if not (folder / "data").is_dir():
        said.append("data: missing (§2.1.2)")
    files = {os.path.relpath(os.path.join(at, name), folder) for at, _, names in os.walk(folder) for name in names}
    payload = {name for name in files if name.startswith("data/")}
    manifests = [name for name in sorted(files) if re.fullmatch(r"manifest-\w+\.txt", name)]
    if not manifests:
        said.append("no payload manifest (§2.1.3)")
    for name in manifests:
        listed = set(compare(folder, folder / name, said))
        said += [f"{name}: {other} is not listed (§3)" for other in sorted(payload - listed)]
        said += [f"{name}: {other} is no payload (§2.1.3)" for other in sorted(listed) if not other.startswith("data/")]
    for name in (name for name in sorted(files) if re.fullmatch(r"tagmanifest-\w+\.txt", name)):
        listed = set(compare(folder, folder / name, said))
        said += [f"{name}: {other} is no tag file (§2.2.1)" for other in sorted(listed) if other.startswith(("data/", "tagmanifest-"))]
        said += [f"{name}: {other} is not listed (§2.2.1)" for other in manifests if other not in listed]
    if "fetch.txt" in files:
        said.append("fetch.txt: the bag is not whole (§2.2.3)")
    information(folder, payload, said)
    return said
