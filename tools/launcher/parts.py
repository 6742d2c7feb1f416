"""Stands for clang where `rt try` compiles a module with its checks: cuts the module into parts, and compiles these side by side
at -O1, where `rt try` asks for -O0. Its arguments are how many parts, clang's path, and clang's arguments, which name module.bc and
module.o."""
import re
import subprocess
import sys

import module
from toolchain import UnknownToolchain

# What is called for each read that is interrupted, of which one test makes 500 million. It is compiled into its callers, in each part:
# what it returns is large, and AddressSanitizer takes its time to look at that.
IS_HOT = re.compile(r'define internal [^@]*@"(std_io::io::(error|kind)::|rh_text::io_log::|samples::devices::InterruptedReader).* #0 {$')
GROUP = 904


class Checked(module.Module):
    """A module with its checks. That a new local is filled needs no check of the address, which would take most of the time."""

    def __init__(self, file):
        super().__init__(file)
        self.tail += [it.replace("#0 = {", f"#{GROUP} = {{ alwaysinline", 1) for it in self.tail if it.startswith("attributes #0 = { ")]

    def function(self, first, lines):
        made = super().function(first, lines)
        if IS_HOT.match(first):
            made[0] = first.replace(" #0 {", f" #{GROUP} {{")
        for at, line in enumerate(made):
            if module.is_fill(line, made[at - 1]):
                made[at] = line[:-1] + ", !nosanitize !{}\n"
        return made

    def is_copied(self, name):
        return super().is_copied(name) or self.functions.get(name, ("",))[0].endswith(f" #{GROUP} {{\n")


def main(count, clang, words):
    source, made = words[words.index("ir") + 1], words[words.index("-o") + 1]
    disassembled = [clang, "-S", "-emit-llvm", "-Xclang", "-disable-llvm-passes", "-x", "ir", source, "-o", "module.ll"]
    if subprocess.run(disassembled, check=False).returncode:
        return 1
    try:
        texts = Checked("module.ll").parts(count)
    except UnknownToolchain:
        # Another toolchain's module is compiled as `rt try` asks for it.
        return subprocess.run([clang, *words], check=False).returncode
    running = []
    for at, text in enumerate(texts):
        with open(f"part{at}.ll", "w", encoding="utf-8") as part:
            part.write(text)
        changed = {source: f"part{at}.ll", made: f"part{at}.o", "-O0": "-O1"}
        running.append(subprocess.Popen([clang, *(changed.get(it, it) for it in words)]))
    if any([it.wait() for it in running]):
        return 1
    parts = [f"part{at}.o" for at in range(count)]
    return subprocess.run(["ld.lld", "-r", "-o", made, *parts], executable=clang, check=False).returncode


if __name__ == "__main__":
    sys.exit(main(int(sys.argv[1]), sys.argv[2], sys.argv[3:]))
