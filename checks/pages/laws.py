"""The laws of the crates: public functions without an argument and with an empty body, so that each of them is its contract and its comment."""
import re
from typing import NamedTuple

import layers
import tree

LAW = re.compile(r"((?:^///[^\n]*\n)+)(?:^#\[[^\n]*\n)*^pub fn (\w+)(?:<[^>\n]*>)?\(\)\n(.*?)^\{\}$", re.M | re.S)
CLAUSE = re.compile(r"^ +ensures (\w+) \{", re.M)


class Law(NamedTuple):
    """A law: its name, what the comment above it says, and the names of its clauses."""

    name: str
    said: str
    clauses: list


def laws_of(file):
    """The laws of a source file, in their order."""
    for comment, name, contract in LAW.findall(file.read_text(encoding="utf-8")):
        said = " ".join(line.removeprefix("///").strip() for line in comment.splitlines())
        yield Law(name, " ".join(said.split()), CLAUSE.findall(contract))


def cell(text):
    return text.replace("|", "\\|")


def rows(laws):
    for law in laws:
        yield f"| `{law.name}` | {cell(law.said)} | {', '.join(f'`{it}`' for it in law.clauses)} |\n".replace("|  |", "| |")


def laws_by_crates():
    """For each crate that has laws a heading, and for each file a table of its laws."""
    for crate in tree.lines_of_crates():
        files = sorted((tree.ROOT / "crates" / crate / "src").rglob("*.rt"))
        found = {file: laws for file in files if (laws := [*laws_of(file)])}
        if found:
            yield f"\n## {crate}\n"
        for file, laws in found.items():
            yield f"\n[{file.name}](../{file.relative_to(tree.ROOT)}): {layers.first_sentence(file)}.\n\n| Law | What it says | Clauses |\n|---|---|---|\n"
            yield from rows(laws)
    yield "\n"
