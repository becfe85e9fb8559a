"""The crates under the headings of crates.txt: what each is for, what it depends on, and the tables of pages that say so."""
import functools
import re
from collections import defaultdict
from typing import NamedTuple

import tree

HEADING = re.compile(r"# ([A-Z][\w ]*): (.+)")
# The heading of the crates that hold only tests. The rows of the crates that they test name them.
TESTS = "Tests"
# What every crate depends on, and what nearly every crate takes for its enum of faults. The tables leave both out.
EVERYWHERE = ("std", "thiserror")


class Layer(NamedTuple):
    """A heading of crates.txt, what it says of its crates, and their names."""

    name: str
    said: str
    crates: list


def layers():
    """The headings of crates.txt, from the lowest layer up. Crates before the first heading have a layer without a name."""
    found = [Layer("", "", [])]
    for line in (tree.ROOT / "crates.txt").read_text(encoding="utf-8").splitlines():
        heading, code = HEADING.fullmatch(line), line.partition("#")[0].strip()
        if heading:
            found.append(Layer(heading[1], heading[2], []))
        elif code:
            found[-1].crates.append(code.partition(":")[0].split()[0])
    return found if found[0].crates else found[1:]


def first_paragraph(file):
    """What a source file says of itself, on one line."""
    said = []
    for line in file.read_text(encoding="utf-8").splitlines():
        if not line.startswith("//! "):
            break
        said.append(line.removeprefix("//! "))
    return " ".join(said)


def first_sentence(file):
    """The first sentence of what a source file says of itself, without its full stop."""
    return re.split(r"(?<=[.]) (?=[A-Z`])", first_paragraph(file))[0].removesuffix(".")


def said_of(crate):
    """What a crate says of itself in its root file."""
    roots = (tree.ROOT / "crates" / crate / "src" / name for name in ("lib.rt", "main.rt"))
    return next((first_paragraph(it) for it in roots if it.is_file()), "")


def nearest(crate):
    """The crates that a crate depends on, but for those that it reaches through another one of them; and the libraries that its line names."""
    lines = tree.lines_of_crates()
    named = tree.named_by(lines[crate])
    crates = [it for it in lines if it in named]
    reached = {below for it in crates for below in tree.with_crates_below([it]) if below != it}
    return [it for it in crates if it not in reached], [it for it in named if it not in lines and it not in EVERYWHERE]


def linked(crate, folder):
    """The name of a crate, as a link to its README if it has one."""
    has_page = (tree.ROOT / "crates" / crate / "README.md").is_file()
    return f"[{crate}]({folder}{crate}/README.md)" if has_page else crate


@functools.cache
def tests_of():
    """For each crate the crates of tests whose READMEs name it in their first paragraph."""
    found = defaultdict(list)
    for tests in tree.crates_of_tests():
        page = tree.ROOT / "crates" / tests / "README.md"
        said = page.read_text(encoding="utf-8").split("\n\n")[1:2] if page.is_file() else []
        for crate in dict.fromkeys(re.findall(r"`(\w+)`", "".join(said))):
            if crate in tree.lines_of_crates():
                found[crate].append(tests)
    return found


def row(crate):
    """What a crate has, what it depends on, and which crates have its tests."""
    crates, libraries = nearest(crate)
    below = ", ".join([*(f"`{it}`" for it in crates), *(f"*{it}*" for it in libraries)])
    return f"| {linked(crate, '')} | {said_of(crate)} | {below} | {', '.join(f'`{it}`' for it in tests_of()[crate])} |\n".replace("|  |", "| |")


def crates_by_layers():
    """For each heading of crates.txt a table of its crates."""
    for layer in layers():
        yield f"\n## {layer.name}\n\n{layer.said}\n\n"
        if layer.name == TESTS:
            yield "| Crate | What it has |\n|---|---|\n"
            yield from (f"| {linked(crate, '')} | {said_of(crate)} |\n" for crate in layer.crates)
        else:
            yield "| Crate | What it has | Depends on | Tests |\n|---|---|---|---|\n"
            yield from map(row, layer.crates)
    yield "\n"


def misplaced():
    """Crates of crates.txt that come before a crate that they depend on, or are not under their heading."""
    found, lines, tests = layers(), tree.lines_of_crates(), tree.crates_of_tests()
    order = [*lines]
    for layer in found:
        for crate in layer.crates:
            late = [it for it in tree.named_by(lines[crate]) if it in order[order.index(crate) :]]
            if late:
                yield f"crates.txt: {crate} comes before {', '.join(late)}"
            if not layer.name:
                yield f"crates.txt: {crate} is under no heading"
            if (layer.name == TESTS) != (crate in tests):
                yield f"crates.txt: {crate} {'holds only tests, and is not' if crate in tests else 'is'} under the heading {TESTS}"


def unlisted():
    """Folders of crates that crates.txt does not list, and lines that have no folder."""
    lines = {*tree.lines_of_crates()}
    folders = {it.parent.parent.name for it in (tree.ROOT / "crates").glob("*/src/*.rt")}
    yield from (f"crates.txt does not list {it}" for it in sorted(folders - lines))
    yield from (f"crates.txt lists {it}, which has no source file" for it in sorted(lines - folders))


def untold_tests():
    """Crates of tests whose READMEs name no crate that they test."""
    told = {it for tests in tests_of().values() for it in tests}
    yield from (f"crates/{it}/README.md names no crate that it tests in its first paragraph" for it in tree.crates_of_tests() if it not in told)


def faults():
    yield from (*misplaced(), *unlisted(), *untold_tests())
