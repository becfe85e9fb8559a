"""Programs that are in no crate of the repository: how one is placed beside the crates of a copy of the tree."""
import re
import shutil
from pathlib import Path

ENDING = ".rt.txt"
# A line of a program that names a module which it shares with other programs.
MODULE = re.compile(r"^mod (\w+);$", re.M)


def module(source, name):
    """The file of a module of a program: it is beside the program, or in this folder."""
    beside = source.with_name(f"{name}{ENDING}")
    return beside if beside.is_file() else Path(__file__).with_name(f"{name}{ENDING}")


def place(copy, source, below):
    """Places the program of a file NAME.rt.txt as the crate NAME into a copy of the tree that has the crates below it, with the modules that it names."""
    # The gate refuses a file of Rattle's outside a crate, so the file has another name than a source.
    name = source.name.removesuffix(ENDING)
    to = copy / "crates" / name / "src"
    to.mkdir(parents=True)
    shutil.copy(source, to / "main.rt")
    for it in MODULE.findall(source.read_text(encoding="utf-8")):
        shutil.copy(module(source, it), to / f"{it}.rt")
    with open(copy / "crates.txt", "a", encoding="utf-8") as lines:
        lines.write(f"{name}: {' '.join(below)}\n")
