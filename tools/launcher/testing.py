"""The tests: those of the crates without proof and with all checks, the examples, the programs in C and plain Rust, the pages."""
import os
import re
import shutil
import threading

import building
import quick
from progress import minutes, pace_of_machine
from toolchain import Kit, UnknownToolchain
from tree import CRATES, TOP, count_of_tests, folder_of, has_tests
from workshop import Trouble, print_out, processors, say

# All tests are built as one crate of this name, so that what they use is built once.
TOGETHER = "every_test"
# The tests that take longest, longest first, begin before the others.
LONGEST = ("long_tests::sessions::", "long_tests::")
SECONDS = 4 * 3600
# The processor seconds that all of it takes on the measured machine while that is slow, and how many processors it keeps busy.
SECONDS_OF_PROCESSORS = 1350
MOST_BUSY = 4
# The checks of pages and scripts, each a command with what it takes.
PAGES = [
    ("docs/make_headline", "--check"), ("docs/make_crates", "--check"), ("bench/plots", "--check"), ("docs/check_pages",), ("examples/c/header",),
]


class Tally:
    """What has passed and failed, told as it comes."""

    def __init__(self):
        self.passed = self.failed = 0
        self.guard = threading.Lock()

    def add(self, name, passed, failed, said=""):
        """Counts what a part came to, and tells it: of what failed all that was said."""
        with self.guard:
            self.passed += passed
            self.failed += failed
            if failed:
                print_out(said.rstrip())
            print_out(f"{name}: {passed} passed" + (f", {failed} FAILED" if failed else ""))


def moved(text, crate):
    """The text of a file of the crate, as that of a module of the crate that has them all."""
    return re.sub(r"\bcrate::", f"crate::{crate}::", text.replace(f"Rattle.{crate}.", f"Rattle.{TOGETHER}."))


def put_together(crates, place):
    """Makes a crate that has these as its modules, with the definitions that they name."""
    for folder in ("src", "specs", "proofs"):
        (place / folder).mkdir(parents=True)
    (place / "proofs/Lib.antt").touch()
    specs = {}
    for crate in crates:
        source = folder_of(crate) / "src"
        for file in source.rglob("*.rt"):
            text, to = moved(file.read_text(encoding="utf-8"), crate), place / "src" / crate / file.relative_to(source)
            if file == source / "lib.rt":
                text = text.replace("#![tactic(auto)]\n", "").replace("#[cfg(test)]\n", "")
                to = place / "src" / f"{crate}.rt"
            to.parent.mkdir(parents=True, exist_ok=True)
            to.write_text(text, encoding="utf-8")
        for file in (folder_of(crate) / "specs").glob("*.antt"):
            specs[file.name] = specs.get(file.name, "") + moved(file.read_text(encoding="utf-8"), crate)
    for name, text in {"Lib.antt": "", **specs}.items():
        (place / "specs" / name).write_text(text, encoding="utf-8")
    modules = "".join(f"#[cfg(test)]\nmod {crate};\n" for crate in crates)
    (place / "src/lib.rt").write_text(f"//! The tests of several crates.\n#![tactic(auto)]\n\n{modules}", encoding="utf-8")


def run_crates(shop, tally, crates, rank):
    """Builds the tests of these crates as one program, and runs each in a process of its own."""
    try:
        kit = Kit()
    except UnknownToolchain:
        run_slowly(shop, tally, crates, rank)
        return
    room = shop.folder / f"tests.{crates[0]}"
    room.mkdir()
    crate, folder = crates[0], folder_of(crates[0])
    if len(crates) > 1:
        crate, folder = TOGETHER, room / "crate"
        put_together(crates, folder)
    words, _ = kit.libraries(crates, quick.labelled(room, quick.CHECKED))
    program = quick.build_with_checks(shop, kit, room, crate, folder, words, rank, tests=True)
    said = run_each(shop, kit, room, program, rank)
    for it in crates:
        of_it = [name for name in said if len(crates) == 1 or name.split("::")[0] == it]
        if len(of_it) != count_of_tests(it):
            raise Trouble(f"the program has {len(of_it)} tests of {it}, whose sources have {count_of_tests(it)}")
        failed = [name for name in of_it if not re.search(rf"^test {re.escape(name)} \.\.\. ok$", said[name], re.M)]
        tally.add(it, len(of_it) - len(failed), len(failed), "\n".join(said[name] for name in failed))


def run_each(shop, kit, room, program, rank):
    """Runs each test of a program, and returns what was said of it by its name."""
    listed = room / "listed"
    shop.run([program, "--list"], rank, output=listed)
    names = re.findall(r"^(\S+): test$", listed.read_text(errors="replace"), re.M)
    names.sort(key=lambda name: [not name.startswith(it) for it in LONGEST])

    def run(name):
        # A name may begin another one, whose test is run then too: so each has a folder of its own.
        own = room / f"run.{name.replace('::', '.')}"
        own.mkdir()
        shop.run([kit.runner, "--seconds", SECONDS, "--filter", name, program], rank, output=own / "said", cwd=own)
        return (own / "said").read_text(errors="replace")

    return dict(zip(names, shop.each_of([lambda it=it: run(it) for it in names])))


def run_slowly(shop, tally, crates, rank):
    """Runs the tests of each crate by the toolchain's own `rt try`, where its parts aren't known here."""

    def run(crate):
        to = shop.folder / f"{crate}.out"
        status = shop.run(["rt", "try", "--test", "--seconds", SECONDS], rank, output=to, cwd=folder_of(crate))
        said = to.read_text(errors="replace")
        passed = len(set(re.findall(r"^test (\S+) \.\.\. ok$", said, re.M)))
        tally.add(crate, passed, abs(count_of_tests(crate) - passed) or int(status != 0), said)

    shop.each_of([lambda it=it: run(it) for it in crates])


def run_script(shop, tally, rank, words, **variables):
    """Runs a script of the repository, and counts what it says that it ran: one, if it says nothing of that."""
    to = shop.folder / f"{words[0].replace('/', '.')}.out"
    # What it makes aside is gone with the workshop, also where it is ended by a signal.
    aside = to.with_suffix(".aside")
    aside.mkdir()
    env = {**os.environ, "TMPDIR": str(aside), **variables}
    status = shop.run([TOP / words[0], *words[1:]], rank, output=to, cwd=TOP, env=env)
    said = to.read_text(errors="replace")
    counts = re.findall(r"\b(\d+) passed, (\d+) failed\b", said)
    passed, failed = map(int, counts[-1]) if counts else (0, 0)
    runs = re.search(r"all as written, in (\d+) runs", said)
    passed = int(runs[1]) if runs else passed
    for line in re.findall(r"^.*\b(?:left out|is built)\b.*$", said, re.M):
        print_out(line)
    # A script that says that it ran nothing hasn't passed.
    if status or failed or counts and not passed:
        tally.add(words[0], passed, max(failed, 1), said)
    else:
        is_none = re.search(r"left out: no cargo|no program in C is built", said)
        tally.add(words[0], 0 if is_none else max(passed, 1), 0)


class Program:
    """The program that the examples run, which is built once for all that need it."""

    def __init__(self, shop, rank):
        self.shop, self.rank = shop, rank
        self.guard, self.built, self.trouble = threading.Lock(), None, None

    def words(self):
        """The program's path, or nothing where the toolchain's parts aren't known here: that program is too slow for the examples. Where
        it can't be built, that is told to each that needs it, and isn't tried again."""
        with self.guard:
            if not self.built and not self.trouble:
                try:
                    self.built = building.program_in(self.shop, self.rank)
                except Trouble as trouble:
                    self.trouble = trouble
        if self.trouble:
            raise self.trouble
        return () if self.built is building.TRIED else (self.built.file,)


def run_examples(shop, tally, program, rank):
    """Runs the examples, and compares the man page and the pictures with what the program says."""
    file = program.words()
    if not file:
        print_out("left out, since this toolchain's parts aren't known here: the examples")
        return
    for words in (("examples/check", *file), ("share/make", "--check", *file), ("docs/pictures/make", "--check", *file)):
        run_script(shop, tally, rank, words)


def run_borders(shop, tally, program, rank):
    """Builds the library, and runs the programs in C and plain Rust over it."""
    lacking = [it for it in ("cc", "ar", "nm") if not shutil.which(it)]
    if lacking:
        print_out(f"left out, since {lacking[0]} isn't on the PATH: the programs in C and plain Rust")
        return
    try:
        place = building.library_in(shop, rank)
    except UnknownToolchain:
        print_out("left out, since this toolchain's parts aren't known here: the programs in C and plain Rust")
        return
    shop.each_of([
        lambda: run_script(shop, tally, rank, ("examples/c/check", *program.words()), RHEAP_LIB_DIR=str(place)),
        lambda: run_script(shop, tally, rank, ("bindings/rust/check",), RHEAP_LIB_DIR=str(place)),
    ])


def test_all(shop):
    """All tests, examples and programs, as many at once as there are processors."""
    tally = Tally()
    seconds = SECONDS_OF_PROCESSORS * pace_of_machine() / min(processors(), MOST_BUSY)
    say(f"testing without proofs, in about {minutes(seconds)} where nothing else runs; log: {shop.log}")
    crates = [it for it in CRATES if has_tests(it)]
    program = Program(shop, 1)
    works = [
        ("tests", lambda: run_crates(shop, tally, crates, 0)),
        ("examples", lambda: run_examples(shop, tally, program, 1)),
        ("programs in C and plain Rust", lambda: run_borders(shop, tally, program, 1)),
        *((it[0], lambda it=it: run_script(shop, tally, 2, it)) for it in PAGES),
    ]
    do_works(shop, tally, works)
    return tally


def do_works(shop, tally, works):
    """Does these works side by side. One that can't be done counts as failed, and the others go on."""

    def do(name, work):
        try:
            work()
        except Trouble as trouble:
            tally.add(name, 0, 1, str(trouble))

    shop.all_of(lambda: None, *(lambda it=it: do(*it) for it in works))


def need_tests(crates):
    """Ends where one of these crates has no tests."""
    for it in crates:
        if not has_tests(it):
            users = [name for name in CRATES if has_tests(name) and it in CRATES[name].names]
            raise Trouble(f"{it} has no tests of its own" + (f"; those of {', '.join(users)} use it" if users else ""), 2)


def test_crates(shop, crates):
    """The tests of these crates alone, each a program of its own."""
    tally = Tally()
    do_works(shop, tally, [(it, lambda it=it: run_crates(shop, tally, [it], 0)) for it in crates])
    return tally
