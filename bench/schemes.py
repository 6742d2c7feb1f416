"""What bench/lisp and bench/lisp_random share: the two Schemes of this repository, found or built."""
import os, pathlib, shutil, signal, subprocess, sys

# A pipe whose reader has ended ends this too, without a word, and so does an interrupt.
signal.signal(signal.SIGPIPE, signal.SIG_DFL)
signal.signal(signal.SIGINT, lambda *_: sys.exit(130))
signal.signal(signal.SIGTERM, lambda *_: sys.exit(143))

NAME = pathlib.Path(sys.argv[0]).name
ROOT = pathlib.Path(__file__).resolve().parent.parent
PROGRAMS = ROOT / "examples/lisp"
# The words of the largest heap.
LARGEST = 16_777_216


def tell(why):
    print(f"bench/{NAME}: {why}", file=sys.stderr)


def fail(why, status=1):
    tell(why)
    sys.exit(status)


def wrong(why):
    """Ends with a line that says what is wrong with the arguments."""
    fail(f"{why} (see bench/{NAME} --help)", 2)


def arguments(page, switches, values):
    """What the arguments are: a dict of the options, and the words that are none.
    A switch stands alone, and a word follows each of the other options. For help the page is printed."""
    options, words, parts = {}, [], iter(sys.argv[1:])
    for part in parts:
        if part in ("--help", "-h"):
            print(page)
            sys.exit()
        elif part in values:
            options[part] = next(parts, None) or wrong(f"{part} needs {values[part]}")
        elif part in switches:
            options[part] = True
        elif part.startswith("-"):
            wrong(f"no such option: {part}")
        else:
            words.append(part)
    return options, words


def whole(word, least, most, what):
    """The whole number that a word is."""
    if not word.isascii() or not word.isdigit() or not least <= int(word) <= most:
        wrong(f"{what} is a number from {least} to {most}, and not {word}")
    return int(word)


def program_of(given):
    """The program `rheap`: the one that is given, or else the one that the launcher builds."""
    if given is None:
        ran = subprocess.run([ROOT / "rheap", "build"], stdout=subprocess.PIPE, text=True)
        given = ran.stdout.strip() if ran.returncode == 0 else fail("./rheap build failed")
    program = pathlib.Path(given).resolve()
    if not os.access(program, os.X_OK):
        fail(f"no program {program}", 2)
    return program


def c_parts():
    """What examples/lisp.c is linked with, or None, with a word about it, where that isn't there."""
    folder = pathlib.Path(os.environ.get("RHEAP_LIB_DIR") or ROOT / "out/quick").resolve()
    if not shutil.which("gcc"):
        tell("gcc isn't there, and lisp.c is left out")
    elif (folder / "librheap.a").exists():
        return [folder / "librheap.a"]
    elif (folder / "librheap_c.a").exists():
        return [ROOT / "include/rheap_memory.c", folder / "librheap_c.a"]
    else:
        tell(f"there is no library in {folder}, and lisp.c is left out: ./rheap install --library PREFIX makes it, in PREFIX/lib")
    return None


def built(parts, to, *others):
    """Builds examples/lisp.c with the parts and others, and returns the program."""
    flags = ["-std=c99", "-O2", "-I", ROOT / "include"]
    if subprocess.run(["gcc", *flags, ROOT / "examples/lisp.c", *others, *parts, "-o", to]).returncode:
        fail("examples/lisp.c isn't built")
    return to
