"""The must-fail edits of the crates: what each of them turns, and the files on which each of them was tried last."""
import hashlib
import os
import re
from collections import Counter
from dataclasses import dataclass
from datetime import date
from pathlib import Path

import tree

RECORD = tree.ROOT / "checks" / "gate.d" / "edits-tried.txt"
HEADING = """# Written by ./prove. A line for each must-fail edit that was tried last: the edit, the digest of the edit and of the files that it turns,
# the digest of what else decides about it, the day, whether it was tried alone, together with others or both ways, or gave no answer in time, the
# toolchain. docs/gate.md says what is in the digests.
"""
# How the record says that a check of an edit was ended before it answered.
UNANSWERED = "unanswered"
LINE = re.compile(r"(?P<edit>\w+/[\w.-]+) (?P<turned>[0-9a-f]{16}) (?P<around>[0-9a-f]{16}) (?P<day>\d{4}-\d\d-\d\d) (?:(?P<way>alone|together|both|unanswered) )?(?P<toolchain>\S.*)")
FUNCTION = re.compile(r"( *)(?:pub(?:\([\w ]+\))? )?(?:const )?(?:unsafe )?fn (\w+)")
TYPE = re.compile(r"^(?:pub(?:\([\w ]+\))? )?(?:struct|enum) (\w+)", re.M)
IMPLS = re.compile(r"impl(?:<.*?>)? (?:(?:\w+::)*(\w+)(?:<.*>)? for )?(?:\w+::)*(\w+)")


@dataclass(frozen=True)
class Function:
    """A function of a source file: its path below the crate, the first line, the lines of its body, and whether it has a clause of its own."""

    path: str
    first: int
    body: range
    has_clause: bool


def functions(text, module, homes):
    """The functions of a source file in the layout of `rt fmt`: a body begins with `{` at the end of the header or on a line of its own.

    The prover names a method by the module of its type, wherever the `impl` is: `homes` has the modules of the types."""
    lines, found, owner = text.split("\n"), [], ()
    for first, line in enumerate(lines):
        impl, head = IMPLS.match(line), FUNCTION.match(line)
        owner = (*homes.get(impl[2], module), f"{impl[2]}{impl[1] or ''}") if impl else () if line == "}" else owner
        if not head:
            continue
        indent, start = head[1], first
        while start < len(lines):
            is_header = start == first or lines[start].startswith((f"{indent})", f"{indent}>("))
            if lines[start] in (f"{indent}{{", f"{indent}{{}}") or is_header and lines[start].endswith((" {", "{}")):
                break
            # A method of a trait has no body.
            if lines[start].endswith(";"):
                start = len(lines)
            start += 1
        if start >= len(lines):
            continue
        is_empty = lines[start].endswith("{}")
        end = start if is_empty else next((at for at in range(start, len(lines)) if lines[at] == f"{indent}}}"), len(lines))
        has_clause = any(it.lstrip().startswith("ensures") for it in lines[first:start])
        path = "::".join([*(owner if owner and indent else module), head[2]])
        found.append(Function(path, first, range(start + 1, end), has_clause))
    return found


def module_of(path):
    """The module of a source file as a path of names: empty for the root."""
    names = Path(path).with_suffix("").parts[1:]
    return () if names in (("lib",), ("main",)) else names


def homes_of(texts):
    """The modules of the types that a crate's sources declare, by their names."""
    return {name: module_of(path) for path, text in texts.items() if path.startswith("src/") for name in TYPE.findall(text)}


def statements(text, path):
    """What a source file says outside of the bodies of its functions."""
    lines = text.split("\n")
    inside = {at for it in functions(text, (), {}) for at in it.body}
    return tree.stripped("\n".join(line for at, line in enumerate(lines) if at not in inside), path)


@dataclass(frozen=True)
class Edit:
    """A must-fail edit: its crate, its name, and the texts that it turns, in order: the file, the old text and the new text of each."""

    crate: str
    name: str
    turns: tuple

    def __str__(self):
        return f"{self.crate}/{self.name}"

    def text(self):
        """The edit as a file of must-fail/ has it."""
        return "".join(f"file: {path}\nold: {old}\nnew: {new}\n" for path, old, new in self.turns)

    def paths(self):
        return sorted({path for path, _, _ in self.turns})

    def applied(self, texts):
        """These texts, by their paths, with the edit made; None if an old text is not in its file exactly once."""
        new = dict(texts)
        for path, old, text in self.turns:
            if new.get(path, "").count(old) != 1:
                return None
            new[path] = new[path].replace(old, text)
        return new

    def functions(self, texts):
        """The functions with clauses whose bodies the edit turns, by their paths; None if it turns something else too."""
        found = set()
        for path, old, _ in self.turns:
            if not path.startswith("src/") or texts.get(path, "").count(old) != 1:
                return None
            line = texts[path][: texts[path].index(old)].count("\n")
            around = [it for it in functions(texts[path], module_of(path), homes_of(texts)) if line in it.body and it.has_clause]
            if not around:
                return None
            found.add(around[-1].path)
        return found


def read_edit(crate, file):
    """The edit of a file of must-fail/. Lines before the first `file:` say what goes wrong with it."""
    turns, path, old = [], "", ""
    for line in file.read_text(encoding="utf-8", errors="replace").split("\n"):
        word, _, text = line.partition(":")
        if word == "file":
            path = text.strip()
        elif word == "old":
            old = text.removeprefix(" ")
        elif word == "new":
            turns.append((path, old, text.removeprefix(" ")))
    return Edit(crate, file.stem, tuple(turns))


def edits_of(crate, root=tree.ROOT):
    """The must-fail edits of a crate of a tree."""
    return [read_edit(crate, it) for it in tree.edit_files(crate, root)]


def texts_of(crate, root=tree.ROOT):
    """The texts of a crate's sources and definitions, by their paths in the crate."""
    folder = root / "crates" / crate
    files = sorted(it for part in ("src", "specs") for it in (folder / part).rglob("*") if it.is_file())
    return {str(it.relative_to(folder)): it.read_text(encoding="utf-8") for it in files}


def names(text, path):
    """Whether a text names the file of this path: the module of a source file, or a file of definitions."""
    stem = Path(path).stem
    return bool(re.search(rf"\bmod {stem};|\b{stem}::" if path.startswith("src/") else rf"\bspecs\.{stem}\b", text))


def short_digest(parts):
    return hashlib.sha256("\0".join(parts).encode()).hexdigest()[:16]


class Digests:
    """The two digests of each edit of a crate: of the edit and the files that it turns, and of what else decides about it.

    The second one has the definitions of the crate, its line of crates.txt, and what the source files that name a turned file, or
    that it names, say outside of bodies. For an edit of code that is not in a function with a clause it has all of the sources."""

    def __init__(self, crate, root=tree.ROOT):
        self.texts = texts_of(crate, root)
        self.line = tree.lines_of_crates(root)[crate]
        self.whole = {path: tree.stripped(text, path) for path, text in self.texts.items()}
        self.said = {path: statements(text, path) for path, text in self.texts.items() if path.startswith("src/")}

    def of(self, edit):
        turned = edit.paths()
        around = {path: text for path, text in self.whole.items() if path.startswith("specs/")}
        if edit.functions(self.texts) is None and any(path.startswith("src/") for path in turned):
            around.update(self.whole)
        for path, said in self.said.items():
            if any(names(self.whole[path], it) or names(self.whole.get(it, ""), path) for it in turned):
                around.setdefault(path, said)
        of_edit = [part for turn in edit.turns for part in turn]
        of_files = [self.whole.get(path, "") for path in turned]
        of_around = [part for path in sorted({*around} - {*turned}) for part in (path, around[path])]
        return short_digest([*of_edit, *of_files]), short_digest([self.line, *of_around])


def read_record(file=RECORD):
    """The lines of the record by their edits. If a line cannot be read, that is said, and there are no lines."""
    try:
        lines = [it for it in file.read_text(encoding="utf-8").splitlines() if not it.startswith("#")]
    except FileNotFoundError:
        return {}
    except (OSError, UnicodeDecodeError):
        lines = [""]
    found = [LINE.fullmatch(it) for it in lines]
    if not all(found):
        print("prove: checks/gate.d/edits-tried.txt is damaged, so every must-fail edit counts as owed", flush=True)
        return {}
    return {it["edit"]: it for it in found}


def write_record(record, tried, toolchain, file=RECORD, root=tree.ROOT):
    """Writes the record anew, whole or not at all, with a line for each of these edits, by its digests and how it was tried.

    Lines of edits that are gone go."""
    here = {str(it) for crate in tree.lines_of_crates(root) for it in edits_of(crate, root)}
    lines = {edit: line[0] for edit, line in record.items() if edit in here}
    lines.update({str(edit): f"{edit} {turned} {around} {date.today()} {way} {toolchain}" for edit, (turned, around, way) in tried.items()})
    new = file.with_suffix(".new")
    new.write_text(HEADING + "".join(f"{lines[edit]}\n" for edit in sorted(lines)), encoding="utf-8")
    os.replace(new, file)


def told(left, record):
    """What to tell of the edits that are still owed, and of those that were tried both ways."""
    both = sum(it["way"] == "both" for it in record.values())
    return f"{told_of_owed(left, record)}; {both} of {len(record)} were tried alone and together"


def told_of_owed(left, record):
    if not left:
        return "no must-fail edit is owed"
    days = [record[str(it)]["day"] for it in left if str(it) in record]
    crates = Counter(it.crate for it in left)
    said = f"{len(left)} must-fail edits are still owed ({', '.join(f'{name} {count}' for name, count in crates.items())})"
    return f"{said}, {len(left) - len(days)} of them never tried{f', the others since {min(days)}' if days else ''}"


def known(record, found, root=tree.ROOT):
    """For those of these edits of which the record says how they were refused, by any toolchain and as their texts are now: how."""
    new = {edit for crate in {it.crate for it in found} for _, _, edit in unknown(record, crate, root)}
    return {it: record[str(it)]["way"] for it in found if it not in new}


def unknown(record, crate, root=tree.ROOT):
    """The edits of a crate of which the record does not say how they were refused as their texts are now. Each comes after its place in the order of
    trials (0: it or its files are new, 1: what else decides about it changed, 3: it gave no answer in time) and the day of its last trial."""
    digests = Digests(crate, root)
    for edit in edits_of(crate, root):
        line, (turned, around) = record.get(str(edit)), digests.of(edit)
        if not line or line["turned"] != turned:
            yield 0, "", edit
        elif line["around"] != around:
            yield 1, line["day"], edit
        elif line["way"] == UNANSWERED:
            yield 3, line["day"], edit


def owed(record, toolchain, crates, root=tree.ROOT):
    """The edits of these crates that are owed, those first that are new or whose files changed, then those that were tried longest ago, and last
    those that gave no answer in time.

    If a crate owes none, and none of its edits was tried with this toolchain, it owes the one that was tried longest ago."""
    found = []
    for crate in crates:
        of_crate = [*unknown(record, crate, root)]
        new = {edit for _, _, edit in of_crate}
        lines = {it: record[str(it)] for it in edits_of(crate, root) if it not in new}
        if not of_crate and lines and all(it["toolchain"] != toolchain for it in lines.values()):
            edit = min(lines, key=lambda it: (lines[it]["day"], str(it)))
            of_crate = [(2, lines[edit]["day"], edit)]
        found += of_crate
    return [edit for _, _, edit in sorted(found, key=lambda it: it[:2])]
