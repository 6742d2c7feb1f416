"""Makes the site of the sources and the pages: `python3 tools/doc [--check] FOLDER`, which `./rheap doc` calls.

With --check it prints how much the site has, and a line for each thing that is wrong. It makes the site all the same.
Status: 0, 1 if something is wrong, 2 for other words or another folder, 3 if a module of Python is missing, 4 if a file can't be written."""
import importlib.util
import pathlib
import sys

NEEDED = {"markdown_it": "python3-markdown-it", "pygments": "python3-pygments"}
MARK = "search-index.js"


def missing():
    """The packages of Debian whose modules this Python hasn't."""
    return [package for module, package in NEEDED.items() if not importlib.util.find_spec(module)]


def main(words):
    checks, folders = "--check" in words, [it for it in words if it != "--check"]
    if len(folders) != 1:
        print(__doc__, file=sys.stderr)
        return 2
    if missing():
        print(f"missing: {' '.join(missing())}", file=sys.stderr)
        return 3
    folder = pathlib.Path(folders[0])
    try:
        return make(folder, checks)
    except OSError as error:
        print(f"{error.filename}: {error.strerror}", file=sys.stderr)
        return 4


def make(folder, checks):
    """Makes the site in a folder that is empty, or has a site that was made before, and looks for what is wrong if it is asked to."""
    if folder.exists() and any(folder.iterdir()) and not (folder / MARK).exists():
        print(f"{folder} isn't empty, and isn't a site that this has made", file=sys.stderr)
        return 2
    import check
    import count
    import making
    import self_check

    site = making.Site()
    site.write(folder)
    faults = [*self_check.faults(), *check.faults_of(site)] if checks else []
    for it in faults:
        print(it, file=sys.stderr)
    if checks:
        print(", ".join(f"{number} {what}" for what, number in count.of_site(site).items()))
    return 1 if faults else 0


if __name__ == "__main__":
    sys.exit(main(sys.argv[1:]))
