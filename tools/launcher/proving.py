"""Proving here: `rt ci` over a copy that has what is named and what that stands on alone, side by side, the longest chain of crates
first."""
import re
import shutil

import building
import toolchain
from progress import minutes, pace_of_machine
from tree import CRATES, PROVED, Sums, files_of, has_tests, own_libraries, proved_by_turns, read_proofs, with_those_below, write_proofs
from workshop import OUT, Trouble, Workshop, end_by_signals, processors, say

# What was proved here, in the form of PROVED.
HERE = OUT / "proved"
LOG = OUT / "proving.log"
# Processor seconds that a crate and each line of its code take to prove on the measured machine, and megabytes of disk that a line
# takes meanwhile. The longest chain of crates keeps little more than two processors busy.
SECONDS_A_CRATE = 35
SECONDS_A_LINE = 0.11
MEGABYTES_A_LINE = 0.07
MOST_BUSY = 2.2


def lines_of(crates):
    """How many lines of code these crates have."""
    return sum(open(file, "rb").read().count(b"\n") for it in crates for file in files_of(it) if file.endswith(".rt"))


def due(crates, sums, logic):
    """The crates of these and those below them that weren't proved here as they are now, by this logic."""
    proofs = read_proofs(HERE)
    return [it for it in with_those_below(*crates) if proofs.get(it) != (sums.of(it), logic)]


def is_done(crates, sums, logic):
    """Whether all of it was proved here, as it is now, and a proved program is there if it is one of them."""
    return not due(crates, sums, logic) and ("rheap" not in crates or building.PROVED.is_of(building.Sources().state))


def prove(crates):
    """Proves these crates and those below them, if one of them wasn't proved here as it is now, writes PROVED, and returns what is told
    of it."""
    sums, logic, names = Sums(), toolchain.logic(), with_those_below(*crates)
    done = "nothing is due: all of it was proved here, as it is now"
    if is_done(crates, sums, logic):
        note(names, sums, logic)
        return done
    end_by_signals()
    lines = lines_of(names)
    with Workshop(LOG, int(lines * MEGABYTES_A_LINE) + 100) as shop:
        # Another launcher may have proved it meanwhile, and the sources may be others.
        sums, sources = Sums(), building.Sources()
        if is_done(crates, sums, logic):
            return done
        copy = shop.folder / "copy"
        building.copy_of_crates(copy, crates)
        # rt ci wants the top of a repository.
        (copy / ".git").mkdir()
        seconds = (len(names) * SECONDS_A_CRATE + lines * SECONDS_A_LINE) * pace_of_machine()
        about = minutes(seconds / min(processors(), MOST_BUSY, len(names)))
        say(f"proving {crates_in(names)}, in about {about} where nothing else runs; log: {shop.log}")
        progress = Told(len(names))
        status = shop.all_of(progress.tick, lambda: shop.run(["rt", "ci"], cwd=copy))[0]
        said = LOG.read_text(encoding="utf-8", errors="replace")
        passed = passed_of(names, said)
        after = Sums()
        if any(after.of(it) != sums.of(it) for it in names):
            raise Trouble("a source changed while this was proved; run it again")
        note(passed, sums, logic)
        if status or len(passed) < len(names):
            raise shop.failed(f"{len(names) - len(passed)} of {crates_in(names)}", "proved")
        if "rheap" in crates:
            building.keep(shop, building.PROVED, copy / "crates/rheap/out/rheap", sources)
    return f"proved {crates_in(names)}"


# What `rt ci` says of a crate that is proved: now, or by an earlier run of it over the same files.
PASSED = r"^rt: {} (?:proved$|is kept: )"


def passed_of(names, said):
    """Which of these crates passed in all, by what `rt ci` said. What it names as failed at its end didn't, in its proof, its tests or its
    run. Where it was ended before that, a crate that has tests didn't either, unless these are said to be proved."""
    failed = {word for line in re.findall(r"^rt: FAILED: (.*)$", said, re.M) for word in line.split()}
    is_whole = re.fullmatch(r"\d+ passed, \d+ failed", said.rstrip().rpartition("\n")[2])
    tested = {it for it in names if is_whole or not has_tests(it) or re.search(rf"^rt: {it}: its tests are proved$", said, re.M)}
    return [it for it in names if re.search(PASSED.format(it), said, re.M) and it in tested - failed]


def crates_in(names):
    """How many crates these are, as it is said."""
    return f"{len(names)} crate{'s' if len(names) > 1 else ''}"


class Told:
    """Tells how many crates are proved, as that changes."""

    def __init__(self, count):
        self.count, self.told = count, 0

    def tick(self):
        done = len(re.findall(PASSED.format(r"\w+"), LOG.read_text(encoding="utf-8", errors="replace"), re.M))
        if done != self.told:
            self.told = done
            say(f"{done} of {self.count} proved")


def note(crates, sums, logic):
    """Notes that these crates were proved here, and in PROVED those that the gate proves each time."""
    for file, leaves_out in ((HERE, set()), (PROVED, proved_by_turns())):
        proofs = {name: it for name, it in read_proofs(file).items() if name in CRATES and name not in leaves_out}
        proofs.update({it: (sums.of(it), logic) for it in crates if it not in leaves_out})
        write_proofs(file, proofs)


def differences():
    """Where PROVED isn't as the sources are: a line for each crate that was changed itself, of those that the gate proves each time, and
    how many stand on these."""
    sums, proofs = Sums(), read_proofs(PROVED)
    names = [it for it in CRATES if it not in proved_by_turns()]
    differ = [it for it in names if proofs.get(it, ("", ""))[0] != sums.of(it)]
    own = [it for it in differ if not set(own_libraries(it)) & set(differ)]
    lines = [f"{it} is not as PROVED has it" if it in proofs else f"PROVED has no {it}" for it in own]
    if len(differ) > len(own):
        lines.append(f"so {crates_in(differ[len(own):])} above {'it' if len(own) == 1 else 'them'} must be proved anew too")
    return lines + [f"PROVED has {it}, which the gate doesn't prove each time" for it in proofs if it not in names]
