"""Programs of tools/ that each stand in one text file, placed in a copy of the repository.

The file has parts, each behind a line '== PLACE': the program's line of crates.txt, and the files of its crate."""

import contextlib
import os
import shutil
import tempfile

TOP = os.path.dirname(os.path.dirname(os.path.abspath(__file__)))


def parts_of(text):
    """The parts of a file, by their places."""
    parts, place = {}, None
    for line in text.splitlines(keepends=True):
        if line.startswith("== "):
            place = line[3:].strip()
            parts[place] = ""
        elif place:
            parts[place] += line
    return parts


@contextlib.contextmanager
def placed(kind, name):
    """The folder of the program's crate in a copy of the repository, which goes at the end."""
    with open(os.path.join(TOP, "tools", kind, name + ".txt"), encoding="utf-8") as file:
        parts = parts_of(file.read())
    line = parts.pop("crates.txt")
    program = line.split(":")[0].strip()
    with tempfile.TemporaryDirectory() as copy:
        shutil.copytree(os.path.join(TOP, "crates"), os.path.join(copy, "crates"), ignore=shutil.ignore_patterns("out"))
        for file in ("crates.txt", "HANDLES"):
            shutil.copy(os.path.join(TOP, file), copy)
        with open(os.path.join(copy, "crates.txt"), "a", encoding="utf-8") as crates:
            crates.write(line)
        for place, text in parts.items():
            path = os.path.join(copy, "crates", program, place)
            os.makedirs(os.path.dirname(path), exist_ok=True)
            with open(path, "w", encoding="utf-8") as file:
                file.write(text)
        yield os.path.join(copy, "crates", program)
