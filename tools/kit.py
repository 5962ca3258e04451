"""What tools/ know of the Rattle kit and of crates.txt: which crates there are, and how rattle is called over their built libraries.

    kit.py below CRATE          the crates that it rests on, lowest first, itself last
    kit.py left CRATE           whether `rt ci` left all that this static library or program rests on, and the program itself, as the crates stand
    kit.py static CRATE FILE    proves a static library over the libraries in crates/*/out and writes it to FILE"""
import os
import pathlib
import shutil
import subprocess
import sys

ROOT = pathlib.Path(__file__).resolve().parents[1]
KIT = pathlib.Path(os.environ.get("RATTLE_HOME") or pathlib.Path(shutil.which("rt") or "/usr/local/bin/rt").resolve().parents[1])
PARTS = ("src", "specs", "proofs")


class Crate:
    """A line of crates.txt."""

    def __init__(self, name, is_static, uses):
        self.name, self.is_static, self.uses = name, is_static, uses
        self.folder = ROOT / "crates" / name
        self.main = next((f for f in ("src/main.rt", "src/lib.rt") if (self.folder / f).exists()), "src/lib.rt")

    @property
    def library(self):
        return self.folder / "out/rlib" / (self.name + ".rlib")

    def files(self):
        return sorted(file for part in PARTS for file in (self.folder / part).rglob("*") if file.is_file())


def crates():
    """each crate of crates.txt by its name"""
    found = {}
    for line in (ROOT / "crates.txt").read_text(encoding="utf-8").splitlines():
        head, _, uses = line.split("#")[0].partition(":")
        if head.strip():
            name, *marks = head.split()
            found[name] = Crate(name, "staticlib" in marks, uses.split())
    return found


ALL = crates()


def below(name, found=None):
    """the names of the repository's crates that this one rests on, lowest first, itself last"""
    found = [] if found is None else found
    if name in ALL and name not in found:
        for use in ALL[name].uses:
            below(use, found)
        found.append(name)
    return found


def words(name, of_crate=None):
    """what rattle check and rattle build are told of a crate over the libraries in crates/*/out; of a new crate, which stands in no crates.txt, too"""
    crate = of_crate or ALL[name]
    given = ["--crate-name", crate.name, crate.main, "--extern", f"std={KIT}/rlibs/std.rlib", "-L", f"dependency={KIT}/rlibs"]
    own = [use for use in crate.uses if use in ALL]
    for use in crate.uses:
        given += ["--extern", f"{use}={ALL[use].library if use in own else KIT / 'rlibs' / (use + '.rlib')}"]
    rests = []
    for use in own:
        below(use, rests)
    for use in rests:
        given += ["-L", f"dependency={ALL[use].library.parent}"]
    given += ["--antt-project", f"{KIT}/rattle/logic/antt-project.json", "--logic-built", f"{KIT}/logic_built", "--links", f"{crate.name}="]
    return given + (["--crate-type", "staticlib"] if crate.is_static else [])


def left_by_ci(names):
    """did `rt ci` leave all of these libraries and programs, of the crates as they stand? (those of other commands have a stamp, which rt reads)"""
    newest = (ROOT / "crates.txt").stat().st_mtime
    for name in names:
        crate = ALL[name]
        is_program = crate.main == "src/main.rt"
        made = crate.folder / "out" / name if is_program else crate.library
        stamp = crate.folder / "out" / (name + ".stamp") if is_program else crate.library.parent / "stamp"
        newest = max([newest, *(file.stat().st_mtime for file in crate.files())])
        if not made.exists() or stamp.exists() or made.stat().st_mtime < newest:
            return False
    return True


def libraries(names):
    """sees that the libraries that these crates use stand in crates/*/out: those that `rt ci` left, or else rt proves what is not proved yet"""
    wanted = []
    for name in names:
        for use in ALL[name].uses if name in ALL else [name]:
            below(use, wanted)
    if left_by_ci(wanted):
        return
    tops = [name for name in wanted if not any(name in below(other)[:-1] for other in wanted)]
    for name in tops:
        built = subprocess.run(["rt", "lib"], cwd=ALL[name].folder, stdout=subprocess.PIPE, stderr=subprocess.STDOUT, text=True, errors="replace", check=False)
        if built.returncode != 0:
            sys.exit("\n".join([*built.stdout.splitlines()[-20:], f"rt lib of crate {name} failed"]))


def main():
    if sys.argv[1:2] == ["below"] and len(sys.argv) == 3 and sys.argv[2] in ALL:
        print("\n".join(below(sys.argv[2])))
    elif sys.argv[1:2] == ["left"] and len(sys.argv) == 3 and sys.argv[2] in ALL:
        sys.exit(0 if left_by_ci([name for name in below(sys.argv[2]) if not ALL[name].is_static]) else 1)
    elif sys.argv[1:2] == ["static"] and len(sys.argv) == 4 and sys.argv[2] in ALL:
        crate, file = ALL[sys.argv[2]], pathlib.Path(sys.argv[3]).resolve()
        command = [KIT / "bin/rattle", "build", *words(crate.name), "--jobs", "2", "--toolchain", f"{KIT}/toolchain", "--backend", "llvm", "-o", file]
        sys.exit(subprocess.run(command, cwd=crate.folder, check=False).returncode)
    else:
        sys.exit(__doc__)


if __name__ == "__main__":
    main()
