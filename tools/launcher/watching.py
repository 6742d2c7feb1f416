"""Runs a program that checks each step, and says in which function a check has stopped it."""
import contextlib
import os
import pathlib
import re
import shutil
import signal
import struct
import subprocess
import tempfile

from workshop import SIGNALS, say


def functions(file):
    """Where each function of a program begins and ends, with its name, of its table of symbols."""
    data = pathlib.Path(file).read_bytes()
    if not data.startswith(b"\x7fELF"):
        return
    begin, = struct.unpack_from("<Q", data, 40)
    size, count = struct.unpack_from("<HH", data, 58)
    sections = [struct.unpack_from("<IIQQQQIIQQ", data, begin + at * size) for at in range(count)]
    for _, kind, _, _, offset, length, link, *_ in sections:
        if kind == 2:
            names = sections[link][4]
            for name, info, _, _, at, long in struct.iter_unpack("<IBBHQQ", data[offset:offset + length]):
                if info & 15 == 2:
                    yield at, at + long, data[names + name:data.index(b"\0", names + name)].decode(errors="replace")


def place_of(report, file):
    """The functions of the program that ran when it was stopped, the innermost first. Of a type's parameters nothing is said."""
    known, found = list(functions(file)), []
    for at, frame in enumerate(re.findall(r"^\s*frame (0x[0-9a-f]+)", report, re.M)):
        # But for the first, an address is that behind a call.
        address = int(frame, 16) - (at > 0)
        found += [re.sub(r"::<#.*", "", name) for begin, end, name in known if begin <= address < end and "::" in name]
    return [it for it in found if not it.startswith(("rattle-", "__"))]


def tell_place(report, file):
    """Says where the program was stopped, and keeps what AddressSanitizer says beside the program, where that can be written."""
    kept, more = file.with_name("stopped.log"), ""
    with contextlib.suppress(OSError):
        shutil.copyfile(report, kept)
        more = f"; {kept} has more"
    place = place_of(report.read_text(errors="replace"), file)
    where = f" in {place[0]}, or in what is compiled into it" if place else ""
    callers = f", called by {', '.join(place[1:4])}" if place[1:] else ""
    say(f"a check stopped the program{where}{callers}{more}")


def run(file, given):
    """Runs the program with these words, and returns its status: as a shell does, where a signal ended it."""
    with tempfile.TemporaryDirectory() as aside:
        options = [it for it in [os.environ.get("ASAN_OPTIONS")] if it]
        env = {**os.environ, "ASAN_OPTIONS": ":".join([*options, f"log_path='{aside}/report'"])}
        running = subprocess.Popen([str(file), *given], env=env)
        for it in SIGNALS:
            if signal.getsignal(it) is not signal.SIG_IGN:
                signal.signal(it, lambda number, _: running.send_signal(number))
        status = running.wait()
        for report in pathlib.Path(aside).glob("report.*"):
            tell_place(report, file)
    return status if status >= 0 else 128 - status
