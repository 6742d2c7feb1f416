"""Programs and the library built without proof: at full speed of sources that were proved, else with a check at each step."""
import os
import pathlib
import re
import shlex
import shutil
import sys

import module
from toolchain import TARGET, Kit
from tree import TOP, folder_of
from workshop import OUT, Trouble

# What a program or a library says of how it was built. The first is what the sources say, which rt builds only once they are proved.
PROVED_HERE = "proved here"
OF_PROVED = "of proved sources, built without proof"
CHECKED = "not proved: each step is checked"
# What is said of a library for tests, of sources that aren't those that were proved. Nothing is installed of it.
NOT_PROVED = "not proved"
VERSION_CRATE = "rh_command_line"
VERSION_FILE = f"crates/{VERSION_CRATE}/src/version.rt"
LIBRARIES = ("rheap_c", "rheap_c_traces")

EXPORT = re.compile(r'#\[unsafe\(no_mangle\)\]\s*pub extern "C" fn (\w+)\(([^)]*)\)\s*->\s*(\w+)')
TYPES = {"u8": ["i8"], "u32": ["i32"], "i64": ["i64"], "u64": ["i64"], "usize": ["i64"], "Global": []}

PARTS_SCRIPT = pathlib.Path(__file__).resolve().with_name("parts.py")

# The scripts that stand for clang and the linker: the module is kept and nothing compiled; or it is compiled in parts, and
# the program kept and not run.
KEEP_MODULE = 'case "$*" in *-fsanitize=address*) mv module.bc {room}/module.bc; exit 1 ;; esac\nexec {clang} "$@"'
COMPILE_WELL = 'case "$*" in *-fsanitize=address*) exec {python} -B {script} {parts} {clang} "$@" ;; esac\nexec {clang} "$@"'
KEEP_PROGRAM = 'for word in "$@"; do [ "$before" != -o ] || made=$word; before=$word; done\n(exec -a ld.lld {clang} "$@") && cp "$made" {room}/program\nexit 1'


def version():
    """The version of the program, of its sources."""
    text = (TOP / VERSION_FILE).read_text(encoding="utf-8")
    return re.search(r'^pub const VERSION: &str = "([^"\\]*)', text, re.M)[1]


def with_label(text, label):
    """The text of the file with the version, which says how the program was built."""
    if text.count(f'{PROVED_HERE}";') != 1:
        raise Trouble(f"{VERSION_FILE} doesn't say once that the program is {PROVED_HERE}")
    return text.replace(f'{PROVED_HERE}";', f'{label}";')


def labelled(room, label):
    """Says where the sources of a crate are read: those with the version from a copy in this folder, which has the label."""
    place = room / "labelled"
    shutil.copytree(folder_of(VERSION_CRATE) / "src", place / "src")
    file = place / "src/version.rt"
    file.write_text(with_label(file.read_text(encoding="utf-8"), label), encoding="utf-8")
    return lambda crate: place if crate == VERSION_CRATE else folder_of(crate)


def script(text, **named):
    """The text of a script with these paths, as a shell reads them."""
    return text.format(**{name: shlex.quote(str(it)) for name, it in named.items()})


def lower(shop, kit, room, crate, label, rank, folder=None):
    """Writes the text of a crate's module, with the checks of `rt try`, and returns the folders of all sources."""
    words, folders = kit.libraries([crate], labelled(room, label))
    folder = folder or folder_of(crate)
    clang = script(KEEP_MODULE, room=room, clang=kit.clang)
    tools = kit.tools(room, clang, script(KEEP_PROGRAM, room=room, clang=kit.clang))
    root = "src/main.rt" if (folder / "src/main.rt").exists() else "src/lib.rt"
    # The status says nothing: clang is made to fail, once the module is kept.
    shop.run(kit.try_words(tools, crate, root, words), rank, cwd=folder, env={**os.environ, "TMPDIR": str(room)})
    if not (room / "module.bc").exists():
        raise shop.failed(crate)
    shop.must(crate, module.disassemble_words(kit, room / "module.bc", room / "module.ll"), rank)
    return {**folders, crate: folder / "src"}


def compile_parts(shop, kit, room, texts, flags, rank):
    """Compiles the parts of a module side by side, and returns their object files."""
    made = []
    for at, text in enumerate(texts):
        made.append(room / f"part{at}.o")
        made[-1].with_suffix(".ll").write_text(text, encoding="utf-8")
    words = [module.compile_words(kit, it.with_suffix(".ll"), it, flags) for it in made]
    shop.each_of([lambda it=it: shop.must("the program", it, rank) for it in words])
    return made


def put(file, to):
    """Puts a file that was made into its place, at once."""
    to.parent.mkdir(parents=True, exist_ok=True)
    shutil.copy(file, f"{to}.new")
    os.replace(f"{to}.new", to)


def build_program(shop, begin, label, rank=0):
    """Builds the program at full speed, with no check, and returns the file."""
    kit, room = Kit(), shop.folder / "program"
    room.mkdir()
    begin("reading the sources")
    folders = lower(shop, kit, room, "rheap", label, rank)
    begin("making parts")
    texts = module.Unchecked(room / "module.ll", module.inlining(folders)).parts(module.PARTS)
    begin("compiling")
    made = compile_parts(shop, kit, room, texts, module.FOR_PROGRAM, rank)
    words = [kit.top / "bin/rattle-link", "--target", TARGET, "--toolchain", kit.top / "toolchain", "-o", room / "rheap"]
    shop.must("the program", [*words, *made, *kit.system], rank)
    return room / "rheap"


def build_checked(shop, begin, label, rank=0):
    """Builds the program with all checks of `rt try`, compiled so that it is many times as fast as there."""
    kit, room = Kit(), shop.folder / "checked"
    room.mkdir()
    begin("building with checks")
    words, _ = kit.libraries(["rheap"], labelled(room, label))
    return build_with_checks(shop, kit, room, "rheap", folder_of("rheap"), words, rank)


def build_with_checks(shop, kit, room, crate, folder, libraries, rank, tests=False):
    """Builds a program, or the tests of a crate, with all checks of `rt try`, and returns the file. It isn't run."""
    clang = script(COMPILE_WELL, clang=kit.clang, python=sys.executable, script=PARTS_SCRIPT, parts=module.PARTS)
    tools = kit.tools(room, clang, script(KEEP_PROGRAM, room=room, clang=kit.clang))
    root = "src/main.rt" if (folder / "src/main.rt").exists() else "src/lib.rt"
    words = kit.try_words(tools, crate, root, libraries, tests)
    # The status says nothing: the linker is made to fail, once the program is kept.
    shop.run(words, rank, cwd=folder, env={**os.environ, "TMPDIR": str(room)})
    if not (room / "program").exists():
        raise shop.failed(crate)
    return room / "program"


def exports_of(folder, crate):
    """Calls of all that a static library exports, and the definitions of the exports."""
    calls, made = "", {}
    for file in sorted((folder / "src").rglob("*.rt")):
        place = "::".join(file.relative_to(folder / "src").with_suffix("").parts)
        for call, params, result in EXPORT.findall(file.read_text(encoding="utf-8")):
            kinds = [it.split(":")[1].strip() for it in params.split(",") if it.strip()]
            if result != "u8":
                raise Trouble(f"{call} of {crate} returns {result}, and only u8 is known here")
            calls += f"    crate::{place}::{call}({', '.join(['any()'] * len(kinds))});\n"
            made[f"@{call}"] = exported(call, f"{crate}::{place}::{call}", kinds)
    return calls, made


def exported(name, path, params):
    """The export of a function, by the C calling convention: a struct of two u32 is one register there."""
    outer, inner, code = [], [], ""
    for at, kind in enumerate(params):
        if kind.startswith(("&[", "&mut [")):
            # An empty slice may come as a null pointer, which the code doesn't know.
            outer += [f"ptr %p{at}", f"i64 %n{at}"]
            code += f"  %c{at} = icmp eq ptr %p{at}, null\n  %z{at} = zext i1 %c{at} to i64\n"
            code += f"  %m{at} = mul i64 %z{at}, 4096\n  %q{at} = getelementptr i8, ptr %p{at}, i64 %m{at}\n"
            inner += [f"ptr %q{at}", f"i64 %n{at}"]
        elif kind.startswith("&"):
            outer.append(f"ptr %p{at}")
            inner.append(outer[-1])
        elif kind == "RheapRoot":
            outer.append(f"i64 %p{at}")
            code += f"  %lo{at} = trunc i64 %p{at} to i32\n  %s{at} = lshr i64 %p{at}, 32\n  %hi{at} = trunc i64 %s{at} to i32\n"
            inner += [f"i32 %lo{at}", f"i32 %hi{at}"]
        elif kind not in TYPES:
            raise Trouble(f"{name} takes {kind}, which isn't known here")
        else:
            outer += [f"{it} %p{at}" for it in TYPES[kind]]
            inner += [f"{it} %p{at}" for it in TYPES[kind]]
    # With the attributes of its function, so that one function is made of both: code for other processor features is never inlined.
    head = f"define noundef zeroext i8 @{name}({', '.join(outer)}) {module.PLAIN} {{\n"
    return [head, *code.splitlines(True), f'  %r = call i8 @"{path}"({", ".join(inner)})\n', "  ret i8 %r\n", "}\n"]


def build_object(shop, crate, label, rank):
    """Builds the object of a static library: a throwaway program calls each of its exports, and is dropped."""
    kit, room = Kit(), shop.folder / crate
    shutil.copytree(folder_of(crate) / "src", room / "crate/src")
    calls, exports = exports_of(room / "crate", crate)
    root = room / "crate/src/lib.rt"
    text = root.read_text(encoding="utf-8")
    root.unlink()
    text += f"\nfn any<T>() -> T {{\n    unreachable!()\n}}\n\nfn main(rt: HostRuntime) {{\n{calls}}}\n"
    root.with_name("main.rt").write_text(text, encoding="utf-8")
    folders = lower(shop, kit, room, crate, label, rank, room / "crate")
    texts = module.Unchecked(room / "module.ll", module.inlining(folders), exports).parts(1)
    return compile_parts(shop, kit, room, texts, module.FOR_LIBRARY, rank)[0].rename(shop.folder / f"{crate}.o")
