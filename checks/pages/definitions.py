"""The definitions of the crates: for each word the line above it, the head of its file, and the contracts that cite it."""
import functools
import re
from collections import defaultdict
from typing import NamedTuple

import tree

DEFINED = re.compile(r" *(?:pub (?:record|data)|(?:abbrev|unfoldable) pub) (\S+)")
FUNCTION = re.compile(r"( *)(pub |pub\(crate\) )?(?:const )?fn (\w+)")
IMPLEMENTED = re.compile(r"impl(?:<[^{]*?>)? (?:.* for )?(\w+)")
USE = re.compile(r"^\s*(pub |ghost |)use Rattle\.(\w+)\.specs\.(\w+)(?:\.\w+)*(?:\.\{([^}]*)\}| as (\w+))?;?$", re.M)
DECLARED = re.compile(r" *pub (?:struct|enum|trait|type|const|(?:const )?fn) (\w+)")
# The table of terms: its header, and the last two cells of a row.
TERMS = re.compile(r"^\| Term \|.*\| Word \| Module \|\n\|[-|]+\|\n((?:\|.*\|\n)*)", re.M)
TERM = re.compile(r"^\| (.*?) \|(.*)\| ([^|]*) \| ([^|]*) \|$", re.M)
PLANNED = "planned"
CITED = re.compile(r"[^\W\d][\w']*(?:\.[^\W\d][\w']*)?")


class Word(NamedTuple):
    crate: str
    module: str
    name: str


class Use(NamedTuple):
    """What a file takes from a file of definitions: how (`pub `, `ghost ` or nothing), from where, the words, and the short name of the file."""

    how: str
    crate: str
    module: str
    names: list
    short: str

    def words(self):
        """For each word that is taken by its name, what it is."""
        return {name: Word(self.crate, self.module, name) for name in self.names}


class Module(NamedTuple):
    """A file of definitions: what its head says, and what is said above each of its words (nothing, if nothing is)."""

    file: object
    head: str
    words: dict


def uses_of(text):
    """What a text takes from files of definitions."""
    return [Use(how, crate, module, [it.strip() for it in names.split(",") if it.strip()], short) for how, crate, module, names, short in USE.findall(text)]


def comment_lines(lines, end):
    """The lines of the comment that ends before a line, on one line."""
    start = end
    while start and lines[start - 1].lstrip().startswith("-- ") and "-- ----" not in lines[start - 1]:
        start -= 1
    return " ".join(line.strip().removeprefix("-- ") for line in lines[start:end])


def head_of(lines):
    length = next((i for i, line in enumerate(lines) if not line.startswith("-- ")), len(lines))
    return comment_lines(lines, length)


def module_of(file):
    lines, words = file.read_text(encoding="utf-8").splitlines(), {}
    for i, line in enumerate(lines):
        found = DEFINED.match(line)
        if found:
            words[found[1]] = comment_lines(lines, i)
    return Module(file, head_of(lines), words)


@functools.cache
def modules():
    """For each crate, from the lowest layer up, its files of definitions by their names."""
    found = {}
    for crate in tree.lines_of_crates():
        files = sorted((tree.ROOT / "crates" / crate / "specs").glob("*.antt"))
        found[crate] = {file.stem: module for file in files if (module := module_of(file)).words}
    return found


def passed_on():
    """Which words, or which whole files, a file of definitions passes on from another file."""
    for crate in tree.lines_of_crates():
        for file in (tree.ROOT / "crates" / crate / "specs").glob("*.antt"):
            for use in uses_of(file.read_text(encoding="utf-8")):
                if use.how == "pub " and use.names:
                    yield from ((Word(crate, file.stem, name), word) for name, word in use.words().items())
                elif use.how == "pub ":
                    yield (crate, file.stem), (use.crate, use.module)


def origin(word, given):
    """Where a word is defined, if it comes from a file that passes it on."""
    if word in given:
        return origin(given[word], given)
    if word[:2] in given:
        return origin(Word(*given[word[:2]], word.name), given)
    return word


def imports_of(text):
    """The words that a source file imports, and its short names of files of definitions."""
    words, files = {}, {}
    for use in uses_of(text):
        if use.how == "ghost ":
            words.update(use.words())
            files.update({use.short: (use.crate, use.module)} if use.short else {})
    return words, files


def contracts_of(text):
    """Each function of a source file: whether other crates see it, its name, and the text up to its body."""
    lines, owner = text.splitlines(), ""
    for i, line in enumerate(lines):
        if line and not line.startswith(" "):
            implemented = IMPLEMENTED.match(line)
            owner = f"{implemented[1]}::" if implemented else ""
        found = FUNCTION.match(line)
        if found:
            end = next((j for j in range(i, len(lines)) if lines[j].startswith(f"{found[1]}{{") or lines[j].endswith((";", "{}"))), i)
            yield found[2] == "pub ", (owner if found[1] else "") + found[3], "\n".join(lines[i + 1 : end])


def cited_in(contract, words, files):
    for found in CITED.findall(contract):
        first, _, second = found.partition(".")
        if first in files and second:
            yield Word(*files[first], second)
        elif first in words:
            yield words[first]


@functools.cache
def citations():
    """For each word the functions whose contracts cite it, those that other crates see first."""
    given, found = dict(passed_on()), defaultdict(list)
    for crate in tree.lines_of_crates():
        for file in sorted((tree.ROOT / "crates" / crate / "src").rglob("*.rt")):
            text = file.read_text(encoding="utf-8")
            words, files = imports_of(text)
            for is_public, name, contract in contracts_of(text):
                for word in {origin(word, given) for word in cited_in(contract, words, files)}:
                    found[word].append((not is_public, crate != word.crate, name))
    return {word: list(dict.fromkeys(name for *_, name in sorted(of_word, key=lambda it: it[:2]))) for word, of_word in found.items()}


def declared():
    """For each word the files that make it public: by crate, the source file, or the file of definitions if no source file does."""
    found = defaultdict(dict)
    for crate, of_crate in modules().items():
        for module in of_crate.values():
            for word in module.words:
                found[word][crate] = module.file
        for file in sorted((tree.ROOT / "crates" / crate / "src").rglob("*.rt")):
            for line in file.read_text(encoding="utf-8").splitlines():
                if name := DECLARED.match(line):
                    found[name[1]][crate] = file
        found[crate][crate] = tree.ROOT / "crates" / crate / "README.md"
    return found


def places_of(word, found):
    """The crates and files that have a word of a term. The word may have its crate before it."""
    crate, _, name = word.rpartition("::")
    return {of: file for of, file in found.get(name, {}).items() if crate in ("", of)}


def module_cell(words, found):
    """The modules that have the words of a term, each as a link, or that the term is planned."""
    if words == PLANNED:
        return f"*{PLANNED}*"
    at = dict.fromkeys((crate, file) for word in re.findall(r"`(.*?)`", words) for crate, file in places_of(word, found).items())
    cell = lambda crate, file: crate if file.name == "README.md" else f"{crate}/{file.stem}"
    return ", ".join(f"[{cell(crate, file)}](../{file.relative_to(tree.ROOT)})" for crate, file in at)


def with_modules_of_terms(page):
    """A page whose table of terms has in its last column the modules of the words in the column before it."""
    found = declared()
    row = lambda it: f"| {it[1]} |{it[2]}| {it[3]} | {module_cell(it[3], found)} |"
    return TERMS.sub(lambda table: table[0].replace(table[1], TERM.sub(row, table[1])), page)


def unplaced_terms(page):
    """Terms whose words no crate makes public, or more than one crate does."""
    found = declared()
    for table in TERMS.finditer(page):
        for term, _, words, _ in TERM.findall(table[1]):
            for word in re.findall(r"`(.*?)`", words) if words != PLANNED else ():
                if len(places_of(word, found)) != 1:
                    yield f"docs/definitions.md: {term}: {word} is in {', '.join(places_of(word, found)) or 'no crate'}"
            if words != PLANNED and "`" not in words:
                yield f"docs/definitions.md: {term} has no word in code, and is not {PLANNED}"
