"""The crates of the repository: what each is made of, the checksums of that, and which of them are proved."""
import hashlib
import os
import pathlib
import re

TOP = pathlib.Path(__file__).resolve().parent.parent.parent
PROVED = TOP / "PROVED"
# What of a crate's folder is proved. The wrong edits of must-fail/ are none of it.
PARTS = ("src", "specs", "proofs")


class Line:
    """A line of crates.txt: a crate, the libraries that it names, and whether it is a static library."""

    def __init__(self, text):
        head, _, below = text.partition(":")
        self.name, *self.words = head.split()
        self.names = below.split()
        self.text = text.strip()

    def is_static(self):
        return "staticlib" in self.words


def lines_of(file):
    """The lines of a crates.txt by the crate that each names."""
    texts = (line.partition("#")[0] for line in file.read_text(encoding="utf-8").split("\n"))
    return {it.name: it for it in (Line(text) for text in texts if ":" in text)}


CRATES = lines_of(TOP / "crates.txt")


def folder_of(crate):
    return TOP / "crates" / crate


def own_libraries(crate):
    """The libraries of this repository that the crate names."""
    return [name for name in CRATES[crate].names if name in CRATES]


def with_those_below(*crates):
    """These crates and all that they stand on, each behind those that it stands on."""
    found = {}

    def take(crate):
        if crate not in found:
            for below in own_libraries(crate):
                take(below)
            found[crate] = True

    for crate in crates:
        take(crate)
    return list(found)


def files_of(crate):
    """The files that a crate is made of, in one order on every machine. What an editor leaves behind is none."""
    found = []
    for part in PARTS:
        for at, folders, files in os.walk(f"{TOP}/crates/{crate}/{part}"):
            found += [f"{at}/{name}" for name in files if not name.startswith(".") and not name.endswith("~")]
    return sorted(found)


def count_of_tests(crate):
    """How many tests the crate has."""
    sources = (pathlib.Path(file) for file in files_of(crate) if file.endswith(".rt"))
    return sum(len(re.findall(r"^\s*#\[test\]", file.read_text(encoding="utf-8"), re.M)) for file in sources)


def has_tests(crate):
    """Whether the crate has a test."""
    return count_of_tests(crate) > 0


# What the crates may do is part of what is proved of them.
HANDLES = (TOP / "HANDLES").read_text(encoding="utf-8")


class Sums:
    """The checksum of each crate: of its files, its line of crates.txt, the handles, and the checksums of those below it."""

    def __init__(self):
        self.known = {}

    def of(self, crate):
        if crate not in self.known:
            made = hashlib.sha256(f"{HANDLES}{CRATES[crate].text}".encode())
            for file in files_of(crate):
                with open(file, "rb") as opened:
                    data = opened.read()
                made.update(f"\n{os.path.relpath(file, TOP)} {len(data)}\n".encode())
                made.update(data)
            for below in own_libraries(crate):
                made.update(f"\n{below} {self.of(below)}".encode())
            self.known[crate] = made.hexdigest()
        return self.known[crate]


def read_proofs(file):
    """The crates that a file says were proved, each with its checksum and the logic that proved it. A line that reads otherwise, or a
    second one of a crate, makes the crate one that wasn't."""
    try:
        lines = file.read_text(encoding="utf-8").split("\n")
    except FileNotFoundError:
        return {}
    proofs = {}
    for row in (line.split() for line in lines if line.strip() and not line.startswith("#")):
        is_good = len(row) == 3 and row[0] not in proofs
        proofs[row[0]] = (row[1], row[2]) if is_good else ("", "")
    return proofs


HEADING = """# What was proved: each crate with the checksum of its sources and of those below it, and the logic of the toolchain that
# proved it. `./rheap prove` writes this file, and the gate compares it with what it proves.
"""


def write_proofs(file, proofs):
    """Writes such a file, the crates in the order of their names."""
    rows = [f"{crate} {' '.join(proofs[crate])}\n" for crate in sorted(proofs)]
    made = file.with_name(f".{file.name}.new")
    made.write_text(HEADING + "".join(rows), encoding="utf-8")
    made.replace(file)


def changed(sums, *crates):
    """The crates, of these and those below them, whose sources aren't those that were proved, although those of all
    libraries that they name are: what was changed itself, and not what stands above it."""
    proofs, names = read_proofs(PROVED), with_those_below(*crates)
    differs = {crate for crate in names if proofs.get(crate, ("", ""))[0] != sums.of(crate)}
    return [crate for crate in names if crate in differs and not differs & set(own_libraries(crate))]


def proved_by_turns():
    """The crates that the gate proves by turns: tests and benches, of which PROVED has no line."""
    rows = (TOP / ".ci/turns").read_text(encoding="utf-8").split("\n")
    return {name for row in rows if not row.startswith("#") for name in row.split() if not any((folder_of(name) / "must-fail").glob("*.edit"))}
