"""Installing the program and the library for C below a folder, and packing what is installed into one file."""
import contextlib
import os
import pathlib
import re
import shutil
import subprocess
import tempfile

import building
import quick
import toolchain
from progress import Progress, minutes
from tree import TOP, folder_of
from workshop import OUT, Trouble, Workshop, end_by_signals, ignore_signals, processors, say

# Where the files of an installation come from: `include/rheap.h` of the prefix is that of the repository, and so on.
FILES = {
    "include/rheap.h": "include/rheap.h",
    "include/rheap.hpp": "include/rheap.hpp",
    "include/rheap_array.h": "include/rheap_array.h",
    "include/rheap_on_refusal.h": "include/rheap_on_refusal.h",
    "share/doc/rheap/rheap_memory.c": "include/rheap_memory.c",
    "share/licenses/rheap/LICENSE-MIT": "LICENSE-MIT",
    "share/licenses/rheap/LICENSE-APACHE": "LICENSE-APACHE",
}
# Those that go with the program.
OF_PROGRAM = {
    "share/man/man1/rheap.1": "share/man/rheap.1",
    "share/bash-completion/completions/rheap": "share/completions/rheap.bash",
    "share/zsh/site-functions/_rheap": "share/completions/_rheap",
    "share/fish/vendor_completions.d/rheap.fish": "share/completions/rheap.fish",
}
# Folders of an installation, each with the folder of the repository that its files are from, and which of them.
DOC, CRATE = "share/doc/rheap", "share/rheap/rust"
FOLDERS = (
    (f"{DOC}/examples", "examples", ("lisp.c", "whole_cycle.trace", "whole_cycle.answers", "paced.trace", "paced.options", "paced.answers")),
    (f"{DOC}/examples/lisp", "examples/lisp", ("queens.*",)),
    (f"{DOC}/examples/c", "examples/c", ("*.c", "*.cpp", "*.out", "CMakeLists.txt", "try")),
    (CRATE, "bindings/rust/rheap", ("Cargo.toml", "README.md", "LICENSE-*", "build.rs", "src/*.rs", "tests/*.rs", "examples/*.rs")),
)
# Pages, whose links lead to files of the installation.
PAGES = {f"{DOC}/c.md": "docs/c.md", f"{DOC}/porting.md": "docs/porting.md"}
LINK = re.compile(r"\[([^\]]*)\]\(([^)#\s]+)(#[^)\s]*)?\)")
PKG_CONFIG = """# The library needs these of the C library, which a compiler links by itself: malloc, realloc,
# posix_memalign, free, madvise, memcpy, memmove and memset. It starts no thread, and needs no other library.
prefix=${{pcfiledir}}/../..
includedir=${{prefix}}/include
libdir=${{prefix}}/lib
# How the library was built: `pkg-config --variable=built rheap` prints it.
built={label}

Name: rheap
Description: A heap that collects its garbage by itself, for programs in C ({label})
Version: {version}
Cflags: -I${{includedir}}
Libs: -L${{libdir}} -lrheap
"""
# For `find_package(rheap)`: the target rheap::rheap, wherever the folder is moved to.
CMAKE = """# rheap::rheap is the library with its headers. It needs the C library alone.
get_filename_component(rheap_PREFIX "${{CMAKE_CURRENT_LIST_DIR}}/../../.." ABSOLUTE)
# How the library was built.
set(rheap_BUILT "{label}")
if(NOT TARGET rheap::rheap)
  add_library(rheap::rheap STATIC IMPORTED)
  set_target_properties(rheap::rheap PROPERTIES
    IMPORTED_LOCATION "${{rheap_PREFIX}}/lib/librheap.a"
    IMPORTED_LINK_INTERFACE_LANGUAGES C
    INTERFACE_INCLUDE_DIRECTORIES "${{rheap_PREFIX}}/include")
endif()
"""
# Before version 1 a version is taken for another of the same first two numbers, if it isn't older.
CMAKE_VERSION = """set(PACKAGE_VERSION "{version}")
set(PACKAGE_VERSION_COMPATIBLE FALSE)
set(PACKAGE_VERSION_EXACT FALSE)
if(CMAKE_SIZEOF_VOID_P AND NOT CMAKE_SIZEOF_VOID_P EQUAL 8)
  set(PACKAGE_VERSION_UNSUITABLE TRUE)
endif()
if(PACKAGE_FIND_VERSION VERSION_EQUAL PACKAGE_VERSION)
  set(PACKAGE_VERSION_EXACT TRUE)
endif()
if(NOT PACKAGE_FIND_VERSION VERSION_GREATER PACKAGE_VERSION
    AND "${{PACKAGE_FIND_VERSION_MAJOR}}.${{PACKAGE_FIND_VERSION_MINOR}}" VERSION_EQUAL "{series}")
  set(PACKAGE_VERSION_COMPATIBLE TRUE)
endif()
"""
# What is made for an installation, beside the archive and the program.
MADE = {
    "lib/pkgconfig/rheap.pc": PKG_CONFIG,
    "lib/cmake/rheap/rheapConfig.cmake": CMAKE,
    "lib/cmake/rheap/rheapConfigVersion.cmake": CMAKE_VERSION,
}
STEPS = [("reading the sources", 65), ("making parts", 10), ("compiling", 45 if processors() > 3 else 90)]


def need_tools():
    """Ends where a tool is missing, before anything is built."""
    for tool in (building.compiler()[0], "ar", "nm"):
        if not shutil.which(tool):
            raise Trouble(f"{tool} isn't on the PATH, and install needs it")


def library_files():
    """Where the files come from that go with the library: the headers, the licences, the examples and the crate for plain Rust."""
    found = dict(FILES)
    for to, of, patterns in FOLDERS:
        for pattern in patterns:
            found.update({f"{to}/{it.relative_to(TOP / of)}": str(it.relative_to(TOP)) for it in sorted((TOP / of).glob(pattern))})
    return found


def installed_page(name, files):
    """The text of a page for an installation: a link to what is installed leads there, and of any other the words are left."""
    places = {of: to for to, of in {**files, **PAGES}.items()}
    folder = os.path.dirname(PAGES[name])

    def link(found):
        words, target, anchor = found[1], found[2], found[3] or ""
        to = places.get(os.path.normpath(os.path.join(folder, target)))
        return f"[{words}]({os.path.relpath(to, os.path.dirname(name))}{anchor})" if to else words

    return LINK.sub(link, (TOP / PAGES[name]).read_text(encoding="utf-8"))


def put_parts(stage, label, program, archive):
    """Fills a folder with all that is installed."""
    files = library_files()
    for to, of in {**files, **(OF_PROGRAM if program else {})}.items():
        put(TOP / of, stage / to)
    if program:
        put(program, stage / "bin/rheap")
        (stage / "bin/rheap").chmod(0o755)
    put(archive, stage / "lib/librheap.a")
    number = quick.version()
    made = {to: text.format(label=label, version=number, series=number.rpartition(".")[0]) for to, text in MADE.items()}
    for to, text in {**made, **{it: installed_page(it, files) for it in PAGES}}.items():
        (stage / to).parent.mkdir(parents=True, exist_ok=True)
        (stage / to).write_text(text, encoding="utf-8")


def put(of, to):
    """Copies a file, for all to read, and to run if it is a script."""
    to.parent.mkdir(parents=True, exist_ok=True)
    shutil.copyfile(of, to)
    to.chmod(0o755 if os.access(of, os.X_OK) else 0o644)


def try_parts(stage, room, program):
    """Ends where programs that are linked with what would be installed don't print what is due, or the program doesn't run."""
    for name, given, due in (("list", os.devnull, "examples/c/list.out"), ("run", "examples/whole_cycle.trace", "examples/whole_cycle.answers")):
        made = room / name
        words = [*building.compiler(), "-std=c99", "-I", stage / "include", TOP / f"examples/c/{name}.c", "-L", stage / "lib", "-lrheap", "-o", made]
        said = subprocess.run(words, capture_output=True, text=True, check=False)
        if said.returncode:
            raise Trouble(f"{said.stderr.strip()}\nrheap: what would be installed isn't whole")
        with open(TOP / given, "rb") as read:
            printed = subprocess.run([made], stdin=read, capture_output=True, check=False)
        if printed.returncode or printed.stdout != (TOP / due).read_bytes():
            raise Trouble("what would be installed isn't whole: a program that is linked with it prints something else than is due")
    if program:
        ran = subprocess.run([stage / "bin/rheap", "--version"], capture_output=True, text=True, check=False)
        if ran.returncode:
            raise Trouble(f"{(ran.stderr or ran.stdout).strip()}\nrheap: what would be installed isn't whole: its program doesn't run")


def build_parts(with_program, is_proved):
    """Builds what isn't there of the program and the archive, and returns both with how they were built."""
    if is_proved:
        return build_proved(with_program)
    sources = building.Sources(*(["rheap"] if with_program else []), *quick.LIBRARIES)
    if sources.changed:
        raise Trouble(f"{sources.why()}: `./rheap install --proved PREFIX` proves what is due first")
    program, library = building.Sources(), building.Sources(*quick.LIBRARIES)
    lacks_program = lambda: with_program and not building.QUICK.is_of(program.state)
    lacks_library = lambda: not building.LIBRARY.is_of(library.state)
    if lacks_program() or lacks_library():
        toolchain.rt()
        with Workshop(OUT / "quick/install.log", 2 * building.MEGABYTES) as shop:
            # Another launcher may have built them meanwhile.
            if lacks_program() or lacks_library():
                build_quickly(shop, program if lacks_program() else None, library if lacks_library() else None)
    return building.QUICK.file if with_program else None, building.LIBRARY.file, quick.OF_PROVED


def build_quickly(shop, program, library):
    """Builds the program, the library or both, side by side."""
    what = " and ".join([*(["the program"] if program else []), *(["the library"] if library else [])])
    steps = STEPS if program else [("building the library", 75)]
    progress = Progress(f"building {what}", steps)
    say(f"building {what}, without proof, once, in about {minutes(progress.whole())}; log: {shop.log}")
    works, is_done = [], False
    if program:
        works.append(lambda: quick.build_program(shop, progress.begin, quick.OF_PROVED))
    if library:
        works.append(lambda: building.build_library(shop, quick.OF_PROVED, 1))
    try:
        made = shop.all_of(progress.tick, *works)
        is_done = True
    except toolchain.UnknownToolchain:
        raise Trouble("this toolchain's parts aren't known here, so nothing is built without proof: take `./rheap install --proved PREFIX`") from None
    finally:
        progress.end(is_done)
    if program:
        building.keep(shop, building.QUICK, made[0], program)
    if library:
        building.keep(shop, building.LIBRARY, made[-1], library)


def build_proved(with_program):
    """Proves what is due of the program and of both parts of the library, and returns them."""
    import proving

    if with_program and not building.PROVED.is_of(building.Sources().state):
        proving.prove(["rheap"])
    end_by_signals()
    with Workshop(OUT / "proving.log", 3500) as shop:
        objects = []
        for crate in quick.LIBRARIES:
            say(f"proving {crate} and what it stands on; log: {shop.log}")
            # What rt keeps of each crate in its folder, it finds again.
            shop.must(crate, ["rt", "lib"], cwd=folder_of(crate))
            objects.append(shop.folder / f"{crate}.o")
            with open(objects[-1], "wb") as made:
                archive = folder_of(crate) / f"out/lib{crate}.a"
                if len(subprocess.run(["ar", "t", archive], capture_output=True, check=True).stdout.split()) != 1:
                    raise Trouble(f"{archive} isn't an archive of one object")
                subprocess.run(["ar", "p", archive], stdout=made, check=True)
        kept = OUT / "proved_library/librheap.a"
        quick.put(building.join(shop, objects, quick.PROVED_HERE), kept)
    return building.PROVED.file if with_program else None, kept, quick.PROVED_HERE


def made_folder(name):
    """The folder of that name, and the highest folder that had to be made for it, if one had."""
    prefix = pathlib.Path(name).absolute()
    highest = None
    for it in (prefix, *prefix.parents):
        if it.exists():
            break
        highest = it
    mask = os.umask(0o022)
    try:
        prefix.mkdir(parents=True, exist_ok=True)
    except OSError:
        raise Trouble(f"the folder {name} can't be made") from None
    finally:
        os.umask(mask)
    return prefix, highest


def need_room(prefix, names):
    """Ends where these files can't be put below the prefix."""
    for name in names:
        folders = [prefix, *(prefix / it for it in pathlib.PurePath(name).parents)]
        for folder in folders:
            if folder.exists() and not (folder.is_dir() and os.access(folder, os.W_OK | os.X_OK)):
                raise Trouble(f"{folder} is no folder that can be written to")
        if (prefix / name).is_dir():
            raise Trouble(f"{prefix / name} is a folder")


def install(name, with_program=True, is_proved=False):
    """Installs below a folder, which is made. All is made and tried in a folder of its own there, and moved then."""
    end_by_signals()
    with contextlib.ExitStack() as left:
        try:
            need_tools()
            prefix, highest = made_folder(name)
            left.callback(remove_empty, highest)
            stage = staged(left, prefix, with_program, is_proved)
        except Trouble as trouble:
            raise Trouble(f"{trouble}; nothing was installed", trouble.status) from None
        ignore_signals()
        return put_into(stage, prefix)


def staged(left, prefix, with_program, is_proved):
    """Makes all that is to be installed in a folder below the prefix, and returns that. It is removed when `left` is closed."""
    names = [*library_files(), *OF_PROGRAM, *PAGES, *MADE, "bin/rheap", "lib/librheap.a"]
    need_room(prefix, names)
    program, archive, label = build_parts(with_program, is_proved)
    os.umask(0o022)
    room = pathlib.Path(left.enter_context(tempfile.TemporaryDirectory(prefix=".rheap.", dir=prefix)))
    put_parts(room / "stage", label, program, archive)
    try_parts(room / "stage", room, program)
    need_room(prefix, names)
    return room / "stage"


def remove_empty(highest):
    """Of the folders that were made from this one down, if one is named, removes those that have nothing in them."""
    if highest:
        for at, _, _ in os.walk(highest, topdown=False):
            with contextlib.suppress(OSError):
                os.rmdir(at)


def put_into(stage, prefix):
    """Moves all files of the stage to their places, and returns these."""
    put_there = []
    for file in sorted(it for it in stage.rglob("*") if it.is_file()):
        to = prefix / file.relative_to(stage)
        try:
            to.parent.mkdir(parents=True, exist_ok=True)
            os.replace(file, to)
        except OSError:
            done = "".join(f"{it}\n" for it in put_there)
            raise Trouble(f"{done}rheap: {to} could not be put there; those named above were; run it again") from None
        put_there.append(to)
    return put_there


def package(folder, is_proved=False):
    """Packs an installation into one file, which has the version in its name and in that of its folder. Two of the same program and
    library are equal, byte for byte."""
    folder = pathlib.Path(folder)
    for tool in ("tar", "gzip"):
        if not shutil.which(tool):
            raise Trouble(f"{tool} isn't on the PATH, and package needs it; nothing was packed")
    if not (folder.is_dir() and os.access(folder, os.W_OK | os.X_OK)):
        raise Trouble(f"{folder} is no folder that can be written to; nothing was packed")
    name = f"rheap-{quick.version()}-linux-x86_64"
    to = folder / f"{name}.tar.gz"
    if to.is_dir():
        raise Trouble(f"{to} is a folder; nothing was packed")
    with tempfile.TemporaryDirectory(prefix=".rheap.", dir=folder) as aside:
        install(f"{aside}/{name}", is_proved=is_proved)
        pack(aside, name, to)
    return to


def pack(aside, name, to):
    """Packs the folder of that name, which is aside, into one file. Two of the same files are equal, byte for byte."""
    words = ["tar", "-C", aside, "--sort=name", "--owner=0", "--group=0", "--numeric-owner", "--mtime=@0", "-cf", f"{aside}/packed.tar", name]
    for it in (words, ["gzip", "-9n", f"{aside}/packed.tar"]):
        if subprocess.run(it, check=False).returncode:
            raise Trouble("the file could not be made; nothing was packed")
    os.chmod(f"{aside}/packed.tar.gz", 0o644)
    os.replace(f"{aside}/packed.tar.gz", to)
