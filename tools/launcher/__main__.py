"""The launcher: builds what isn't built, and runs the program."""
import os
import signal
import sys

if sys.version_info < (3, 8):
    sys.exit("rheap: python3 is older than 3.8, and ./rheap needs that")

import tree
import words
from workshop import OUT, Stopped, Trouble, Workshop, end_by_signals, print_out, say, tell


def run_program(given):
    """Runs one of the program's commands. It doesn't return where the program is one that checks nothing."""
    import building

    asks_help = any(it in ("-h", "--help") for it in given[1:given.index("--") if "--" in given else None])
    if not asks_help:
        words.need_program_words(given)
    elif not building.current(building.Sources()):
        return print_out(words.command_help(given[0]))
    if given[0] == "completions" and not asks_help and not building.current(building.Sources()):
        file = tree.TOP / "share/completions" / words.SHELLS[given[1]]
        return print_out(file.read_text(encoding="utf-8").rstrip("\n"))
    found = building.program()
    file = found.file
    if found in (building.CHECKED, building.TRIED):
        import watching

        return watching.run(file, given)
    # Python ignores these, and the program would inherit that.
    for it in (signal.SIGPIPE, signal.SIGXFSZ):
        signal.signal(it, signal.SIG_DFL)
    try:
        os.execv(file, [str(file), *given])
    except OSError as error:
        raise Trouble(f"{file} can't be run: {error.strerror}") from None


def build(given):
    import building

    options, _ = words.own_words("build", given, ["--checked"], 0)
    print_out(building.checked_program().file if options else building.program().file)


def test(given):
    import building
    import testing
    import toolchain

    _, crates = words.own_words("test", given, [], len(given))
    crates = list(dict.fromkeys(crates))
    words.need_crates("test", crates)
    testing.need_tests(crates)
    toolchain.rt()
    end_by_signals()
    with Workshop(OUT / "test.log", 4 * building.MEGABYTES) as shop:
        tally = testing.test_crates(shop, crates) if crates else testing.test_all(shop)
    print_out(f"{tally.passed} passed, {tally.failed} failed")
    return 1 if tally.failed else 0


def prove(given):
    import proving

    options, crates = words.own_words("prove", given, ["--all"], len(tree.CRATES))
    words.need_crates("prove", crates)
    if options and crates:
        words.refuse("prove takes either --all or names of crates", "./rheap prove --help")
    every = [it for it in tree.CRATES if it not in tree.proved_by_turns()]
    say(proving.prove(every if options else crates or ["rheap"]))


def install(given):
    import installing

    options, rest = words.own_words("install", given, ["--proved", "--library"], 1, "PREFIX")
    for it in installing.install(rest[0], "--library" not in options, "--proved" in options):
        print_out(it)


def package(given):
    import installing

    options, rest = words.own_words("package", given, ["--proved"], 1)
    print_out(installing.package(*(rest or ["."]), is_proved="--proved" in options))


def doc(given):
    import documenting

    options, rest = words.own_words("doc", given, ["--check"], 1)
    told, ended = documenting.make(rest[0] if rest else None, bool(options))
    print_out(told)
    return ended


def status(given):
    import building
    import proving

    words.own_words("status", given, [], 0)
    found = building.current(building.Sources())
    print_out(f"program: {found.file if found else 'not built yet'}")
    differences = proving.differences()
    print_out("\n".join(differences) or "all that the gate proves each time is as PROVED says")
    return 1 if differences else 0


def version():
    """The version, and how the program was built, where one is there."""
    import building
    import quick
    import subprocess

    found = building.current(building.Sources())
    if not found:
        return print_out(f"rheap {quick.version()}\nnot built yet")
    said = subprocess.run([found.file, "--version"], capture_output=True, text=True, check=False).stdout
    print_out(f"{said}toolchain: {found.toolchain()}")


OWN = {"build": build, "test": test, "prove": prove, "install": install, "package": package, "doc": doc, "status": status}


def main(given):
    if not given:
        tell(words.usage())
        return 2
    command, rest = given[0], given[1:]
    if command in ("-h", "--help") or command == "help" and (not rest or rest[0] in ("-h", "--help", "help")):
        return print_out(words.usage())
    if command in ("-V", "--version"):
        return version()
    if command == "help":
        command, rest = rest[0], ["--help"]
    if command in OWN:
        return print_out(words.command_help(command)) if {"-h", "--help"} & set(rest) else OWN[command](rest)
    if command in words.PROGRAM:
        return run_program([command, *rest])
    words.refuse_command(command)


def open_streams():
    """Opens what is closed of the three standard streams, so that no other file takes its number. What is written to standard output
    is refused then, as if it were closed."""
    for number, name in enumerate(("stdin", "stdout", "stderr")):
        if getattr(sys, name) is None:
            opened = os.open(os.devnull, os.O_WRONLY if number == 2 else os.O_RDONLY)
            os.set_inheritable(opened, True)
            setattr(sys, name, open(opened, "w" if number else "r", encoding="utf-8"))


def run(given):
    open_streams()
    try:
        return main(given) or 0
    except Trouble as trouble:
        tell(f"rheap: {trouble}")
        return trouble.status
    except (Stopped, KeyboardInterrupt):
        tell("rheap: stopped; nothing is left half made, and the same command begins again")
        return 130
    except OSError as error:
        tell(f"rheap: {error.filename or 'the system'}: {error.strerror}")
        return 1


sys.exit(run(sys.argv[1:]))
