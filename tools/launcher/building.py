"""Which program there is, and building it where none is there: proved, at full speed of proved sources, or with all checks."""
import contextlib
import hashlib
import os
import shutil
import subprocess
import time

import quick
import toolchain
from progress import Progress, minutes
from tree import CRATES, TOP, Sums, changed, folder_of, with_those_below
from workshop import OUT, Trouble, Workshop, end_by_signals, processors, say

# Megabytes of disk that a build without proof takes meanwhile.
MEGABYTES = 500
# What the steps of a build take on the measured machine, in seconds: on four processors, and where there are fewer.
STEPS = {
    "quick": [("reading the sources", 65), ("making parts", 15), ("compiling", 35 if processors() > 3 else 70)],
    "checked": [("building with checks", 150)],
}


# What of this repository builds without proof, beside the toolchain: what it built is built anew where one of these was changed.
BUILDERS = [*(f"tools/launcher/{name}.py" for name in ("building", "module", "parts", "quick", "toolchain")), "include/rheap_memory.c"]


def builder():
    """The checksum of what builds without proof."""
    return hashlib.sha256(b"".join((TOP / it).read_bytes() for it in BUILDERS)).hexdigest()


class Built:
    """A file that is built, with notes beside it: of what sources, with which toolchain, and, without proof, by what of this repository."""

    def __init__(self, file, name, by=""):
        self.file, self.notes, self.by = file, file.with_name(f"{name}.built"), by

    def is_of(self, state):
        """Whether the file is there and of these sources. One that is newer than its notes was made by another command."""
        try:
            noted = self.notes.read_text().split("\n")
            return [noted[0], *noted[2:3]] == [state, self.by] and self.file.stat().st_mtime <= self.notes.stat().st_mtime
        except OSError:
            return False

    def keep(self, made, state, with_version):
        """Puts a file that was made into its place, and notes what it was made of."""
        self.notes.unlink(missing_ok=True)
        quick.put(made, self.file)
        self.notes.write_text(f"{state}\n{with_version}\n{self.by}")
        # A clock that was set back meanwhile doesn't make the file the newer one.
        made = self.file.stat()
        os.utime(self.notes, ns=(made.st_atime_ns, made.st_mtime_ns))

    def toolchain(self):
        """The toolchain that it was built with."""
        return self.notes.read_text().split("\n")[1]


PROVED = Built(folder_of("rheap") / "out/rheap", "rheap")
BY = builder()
QUICK = Built(OUT / "quick/rheap", "rheap", BY)
CHECKED = Built(OUT / "checked/rheap", "rheap", BY)
# One that the toolchain's own `rt try` built, whose parts aren't known here.
TRIED = Built(OUT / "tried/rheap", "rheap", BY)
LIBRARY = Built(OUT / "quick/librheap.a", "librheap", BY)
# A library of sources that aren't those that were proved, for tests alone.
CHANGED_LIBRARY = Built(OUT / "changed/librheap.a", "librheap", BY)


class Sources:
    """The sources as they are now: the checksum of the program, and whether all that it is made of was proved."""

    def __init__(self, *crates):
        self.sums, self.crates = Sums(), crates or ("rheap",)
        self.state = " ".join(self.sums.of(it) for it in self.crates)
        self.changed = changed(self.sums, *self.crates)

    def why(self):
        """Which crates aren't as they were proved."""
        names = self.changed
        listed = ", ".join(names[:3]) + (f" and {len(names) - 3} more" if len(names) > 3 else "")
        return f"{listed} {'is' if len(names) == 1 else 'are'} not as PROVED has {'it' if len(names) == 1 else 'them'}"

    def are_as_before(self):
        """Whether nothing was changed since."""
        return Sources(*self.crates).state == self.state


def current(sources):
    """The program that is there of these sources, or None: a proved one first."""
    return PROVED if PROVED.is_of(sources.state) else unproved(sources)


def unproved(sources):
    """The program that is there of these sources and was built without proof, or None."""
    ours = [CHECKED if sources.changed else QUICK, TRIED]
    return next((it for it in ours if it.is_of(sources.state)), None)


def program():
    """The program, which is built where none is there."""
    sources = Sources()
    found = current(sources)
    if not found:
        kind = "checked" if sources.changed else "quick"
        found = built_in_turn(sources, kind, lambda: current(sources))
    if found in (CHECKED, TRIED):
        why = f"{sources.why()}: " if sources.changed else ""
        say(f"{why}this program is not proved, checks each step, and is slow")
    return found


def checked_program():
    """The program that checks each step, which is built where it isn't there."""
    sources = Sources()
    there = lambda: next((it for it in (CHECKED, TRIED) if it.is_of(sources.state)), None)
    return there() or built_in_turn(sources, "checked", there)


def built_in_turn(sources, kind, there):
    """Builds the program, where another launcher hasn't built it meanwhile."""
    toolchain.rt()
    end_by_signals()
    with Workshop(OUT / kind / "build.log", MEGABYTES) as shop:
        return there() or build(shop, sources, kind)


def build(shop, sources, kind):
    """Builds the program, with a line of progress."""
    built, label = (CHECKED, quick.CHECKED) if kind == "checked" else (QUICK, quick.OF_PROVED)
    progress = Progress(f"building the {kind} program", STEPS[kind])
    why = f"{sources.why()}, so that it checks each step; " if sources.changed else "without proof, "
    say(f"building the program, {why}once, in about {minutes(progress.whole())}; log: {shop.log}")
    begin = progress.begin
    work = quick.build_checked if kind == "checked" else quick.build_program
    is_done, made = False, None
    try:
        made = shop.all_of(progress.tick, lambda: work(shop, begin, label))[0]
        is_done = True
    except toolchain.UnknownToolchain:
        pass
    finally:
        progress.end(is_done)
    if not made:
        shop.begin_again()
        built, made = TRIED, build_slowly(shop)
    keep(shop, built, made, sources)
    return built


def keep(shop, built, made, sources):
    """Puts what was made into its place, where the sources are still the same."""
    if not sources.are_as_before():
        raise Trouble("a source changed while this was built; run it again")
    try:
        built.keep(made, sources.state, toolchain.version())
    except OSError as error:
        raise shop.trouble_of(error) from None


def program_in(shop, rank):
    """The program for tests, in a workshop that is held already: one that is built without proof, as users get it. The gate tries the
    proved one."""
    sources = Sources()
    found = unproved(sources)
    if not found:
        built, work, label = QUICK, quick.build_program, quick.OF_PROVED
        if sources.changed:
            built, work, label = CHECKED, quick.build_checked, quick.CHECKED
        try:
            made = work(shop, lambda step: None, label, rank)
        except toolchain.UnknownToolchain:
            built, made = TRIED, build_slowly(shop)
        keep(shop, built, made, sources)
        found = built
    return found


def library_in(shop, rank):
    """The folder of a library for tests, in such a workshop. One of sources that weren't proved says so, and isn't installed."""
    sources = Sources(*quick.LIBRARIES)
    built, label = (CHANGED_LIBRARY, quick.NOT_PROVED) if sources.changed else (LIBRARY, quick.OF_PROVED)
    if not built.is_of(sources.state):
        keep(shop, built, build_library(shop, label, rank), sources)
    return built.file.parent


def build_library(shop, label, rank=0):
    """Builds the library for C at full speed, with no check, and returns the archive."""
    objects = shop.each_of([lambda it=it: quick.build_object(shop, it, label, rank) for it in quick.LIBRARIES])
    return join(shop, objects, label)


def compiler():
    """The C compiler's command, which may have options behind it, as in "gcc -m64"."""
    return os.environ.get("CC", "").split() or ["cc"]


def join(shop, objects, label):
    """Makes one archive of the objects of both libraries, of the functions by which they take memory, and of a text that says how it
    was built."""
    text = f'const char rheap_built[] = "rheap {quick.version()}: {label}";\n'
    (shop.folder / "rheap_built.c").write_text(text)
    for folder, name in ((TOP / "include", "rheap_memory"), (shop.folder, "rheap_built")):
        words = [*compiler(), "-std=c99", "-O2", "-fPIC", "-c", f"{name}.c", "-o", shop.folder / f"{name}.o"]
        shop.must("the library", words, cwd=folder)
        objects = [*objects, shop.folder / f"{name}.o"]
    archive = shop.folder / "librheap.a"
    shop.must("the library", ["ar", "rcsD", archive, *objects])
    need_each_once(archive)
    return archive


def exports():
    """The calls that the header declares, and the functions by which they take memory."""
    header = (TOP / "include/rheap.h").read_text(encoding="utf-8")
    calls = [line.partition("(")[0].split()[1] for line in header.split("\n") if line.startswith("uint8_t rheap_") and "(" in line]
    return [*calls, "rattle_alloc", "rattle_dealloc", "rattle_realloc"]


def need_each_once(archive):
    """Ends where an archive lacks something that is exported, or defines something twice."""
    ran = subprocess.run(["nm", "-g", "--defined-only", archive], capture_output=True, text=True, check=False)
    defined = [line.split()[2] for line in ran.stdout.split("\n") if len(line.split()) == 3]
    twice = sorted(it for it in set(defined) if defined.count(it) > 1)
    lacking = [it for it in exports() if it not in defined]
    if twice:
        raise Trouble(f"{twice[0]} is defined twice in {archive.name}")
    if lacking:
        raise Trouble(f"{lacking[0]} isn't defined in {archive.name}")


def build_slowly(shop):
    """Builds the program with the toolchain's own `rt try`, where its parts aren't known here, and returns the file. That makes it in a
    folder of its own, runs it, and removes it: so it is linked to another name while it runs a long trace."""
    say("this toolchain's parts aren't known here: the program is built by its `rt try`")
    room = shop.folder / "try"
    room.mkdir()
    copy_of_crates(shop.folder / "copy", ["rheap"], quick.CHECKED)
    (room / "trace").write_text("heap 8 8 4 1 1\n" + "0 drop 0.0\n" * 40_000)
    words = ["sh", "-c", 'exec rt try --steps 1000 -- run - <"$1"', "sh", room / "trace"]
    made = room / "kept"
    done = []

    def find():
        while not done and not made.exists():
            # `rt try` makes and removes folders there meanwhile.
            with contextlib.suppress(OSError):
                for it in room.rglob("program"):
                    if it.is_file() and os.access(it, os.X_OK):
                        os.link(it, made)
                        return
            time.sleep(0.1)

    def work():
        try:
            shop.run(words, cwd=shop.folder / "copy/crates/rheap", env={**os.environ, "TMPDIR": str(room)})
        finally:
            done.append(True)

    shop.each_of([work, find])
    if not made.exists():
        raise shop.failed("the program")
    return made


def copy_of_crates(place, crates, label=None):
    """Copies these crates and those below them, with the lines that crates.txt has of them; the version with a label, if one is named."""
    names = with_those_below(*crates)
    for name in names:
        shutil.copytree(folder_of(name), place / "crates" / name, ignore=shutil.ignore_patterns("out", "must-fail"))
    (place / "crates.txt").write_text("".join(f"{CRATES[name].text}\n" for name in names))
    shutil.copy(TOP / "HANDLES", place)
    if label:
        file = place / quick.VERSION_FILE
        file.write_text(quick.with_label(file.read_text(encoding="utf-8"), label), encoding="utf-8")
