"""The definitions that a statement rests on, found by their names: those that it names, those that these name, and so on."""
import re
from collections import defaultdict
from typing import NamedTuple

import definitions
import layers
import tree

# The statement: what a replay writes, and how it ends.
STATEMENT = definitions.Word("stamp_main", "Replays", "ReplaysReceived")
DEFINED = re.compile(r" *(?:pub (?:record|data)|(?:abbrev |unfoldable )?(?:pub )?(?=\S+ : )) *(\S+)")
NAME = re.compile(r"[^\s(){}\[\],;]+")


class File(NamedTuple):
    """A file of definitions: for each word the names in its text and how many lines it has, and the words that the file takes from others."""

    names: dict
    lines: dict
    taken: dict
    passed: list


def read(file):
    text = file.read_text(encoding="utf-8")
    names, lines, word = defaultdict(set), defaultdict(int), None
    for line in text.splitlines():
        defined = DEFINED.match(line)
        if definitions.USE.match(line):
            continue
        if defined and not line.startswith("  pub "):
            word = defined[1]
        if word and line.strip() and not line.lstrip().startswith("--"):
            lines[word] += 1
            names[word] |= {part for name in NAME.findall(line) for part in (name, name.split(".")[0])}
    uses = definitions.uses_of(text)
    taken = {name: word for use in uses for name, word in use.words().items()}
    return File(names, lines, taken, [(use.crate, use.module) for use in uses if use.how == "pub "])


def files():
    return {
        (crate, file.stem): read(file)
        for crate in tree.lines_of_crates()
        for file in sorted((tree.ROOT / "crates" / crate / "specs").glob("*.antt"))
    }


def home(found, crate, module, name):
    """Where a name of a file is defined: in the file, or where the file takes it from."""
    seen = set()
    while (crate, module) in found and (crate, module) not in seen:
        seen.add((crate, module))
        file = found[crate, module]
        if name in file.lines:
            return definitions.Word(crate, module, name)
        if name not in file.taken:
            for target in file.passed:
                at = home(found, *target, name)
                if at:
                    return at
            return None
        crate, module, name = file.taken[name]
    return None


def rests_on():
    """The definitions that the statement rests on, and how many lines each has."""
    found = files()
    todo, reached = [STATEMENT], {}
    while todo:
        word = todo.pop()
        if word in reached:
            continue
        file = found[word.crate, word.module]
        reached[word] = file.lines[word.name]
        todo += [at for name in file.names[word.name] if (at := home(found, word.crate, word.module, name))]
    return reached


def modules():
    """For each layer that the statement reaches, the highest first, its files of definitions, each with the number of its definitions and of their
    lines."""
    count, lines, parts = defaultdict(int), defaultdict(int), {}
    for word, length in rests_on().items():
        count[word.crate, word.module] += 1
        lines[word.crate, word.module] += length
    for layer in reversed(layers.layers()):
        files = [at for crate in reversed(layer.crates) for at in sorted(count) if at[0] == crate]
        parts |= {layer.name: [(at, count[at], lines[at]) for at in files]} if files else {}
    return parts
