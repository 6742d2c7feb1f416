"""Making the site of the sources and the pages, which tools/doc does by a Python that has what it needs."""
import os
import pathlib
import subprocess
import sys

from tree import TOP
from workshop import OUT, Trouble

# What tools/doc ends with where its Python lacks a module. The Python of Debian has the modules of Debian's packages, and may be another
# than the one on the PATH.
LACKS_A_MODULE = 3
PYTHONS = (sys.executable, "/usr/bin/python3")


def make(folder, checks):
    """Makes the site in a folder, and returns its first page and the status: 1 if something is wrong that `checks` asks for."""
    folder = pathlib.Path(folder) if folder else OUT / "doc"
    words = ["-B", str(TOP / "tools/doc"), *(["--check"] if checks else []), str(folder)]
    for python in dict.fromkeys(it for it in PYTHONS if os.access(it, os.X_OK)):
        ran = subprocess.run([python, *words], stdin=subprocess.DEVNULL, capture_output=True, text=True, check=False)
        if ran.returncode != LACKS_A_MODULE:
            return said(ran, folder)
    raise Trouble(
        f"doc needs two packages of Python, and here is {ran.stderr.strip()}\n"
        "`apt-get install python3-markdown-it python3-pygments` installs them on Debian, `pip install markdown-it-py pygments` elsewhere",
        LACKS_A_MODULE)


def said(ran, folder):
    """What tools/doc said, and its status."""
    if ran.returncode not in (0, 1):
        raise Trouble(ran.stderr.strip().split("\n")[-1], ran.returncode if ran.returncode == 2 else 1)
    return ran.stderr + ran.stdout + str(folder / "index.html"), ran.returncode
