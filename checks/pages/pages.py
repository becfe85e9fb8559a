"""The pages of this repository: their links, their words, their sentences, and the lists in them that are generated."""
import itertools
import re
import textwrap
from collections import Counter

import tree

BEGIN, END = "<!-- checks/lists writes what follows -->\n", "<!-- checks/lists wrote what comes before -->\n"
# The page of a crate's definitions, in the crate's folder. All of it is generated.
DEFINITIONS = "DEFINITIONS.md"
LINK = re.compile(r"\]\((?!https?:)([^)#\s]*)(#[^)\s]*)?\)")
# A block of code that a page takes from functions: the line before it links them.
CALL = re.compile(r"^From the ([^\n]*):\n\n```rust\n(.*?)^```", re.S | re.M)
FUNCTION = re.compile(r"\[`(\w+)`\]\(([^)]+)\)")
# How the line before a block begins if the block is the whole body of one function.
EXAMPLE = "example "
FENCED = re.compile(r"^```.*?^```", re.S | re.M)

# The pages that people read first, which have no sentence of more words than SENTENCE.
SHORT_SENTENCES = ("README.md", "docs/using.md", "docs/theorem.md", "docs/architecture.md", "docs/gate.md")
SENTENCE = 40
# The most words of a page, beside the lists that are generated. The pages together have no limit: a page may say more to be understood.
LIMITS = {"README.md": 1250, "docs/architecture.md": 2200, "docs/using.md": 4900}
# A sentence or an item that begins so has a clause as its subject, and not a person or a thing (docs/STYLE.md, "Plain English"). A question may.
HEADLESS = re.compile(r"(?:That|What|Whoever|Which)\b")
# Marks before the first word of a sentence: of an item, of a link, of emphasis. A message of a tool is quoted as it is.
MARKS = re.compile(r"^(?:[-*>\s(\[]|\d+\. )+")
# A row that names the columns of a table.
COLUMNS = re.compile(r"^\|.*\n(?=\|[-| :]+\|$)", re.M)


def definitions_of(crate):
    return tree.ROOT / "crates" / crate / DEFINITIONS


def all_pages():
    of_crates = (tree.ROOT.glob(f"crates/*/{name}") for name in ("README.md", DEFINITIONS))
    return sorted([tree.ROOT / "README.md", *tree.ROOT.glob("docs/**/*.md"), tree.ROOT / "crates" / "README.md", *itertools.chain(*of_crates)])


def text_of(file):
    return file.read_text(encoding="utf-8")


def name_of(file):
    return str(file.relative_to(tree.ROOT))


def with_list(page, lines):
    """A page with the list that lies between its two marks written anew."""
    before, _, rest = page.partition(BEGIN)
    return before + BEGIN + "".join(lines) + END + rest.partition(END)[2]


def by_hand(page):
    """A page without the list between its marks."""
    before, _, rest = page.partition(BEGIN)
    return before + rest.partition(END)[2]


def headings(file):
    return re.findall(r"^#+ (.*)$", FENCED.sub("", text_of(file)), re.M)


def anchor(heading):
    """The name by which a link leads to a heading."""
    return re.sub(r"[^\w\- ]", "", heading.lower()).replace(" ", "-")


def broken_links():
    anchors = {file: {anchor(heading) for heading in headings(file)} for file in all_pages()}
    for file in anchors:
        for path, place in LINK.findall(FENCED.sub("", text_of(file))):
            target = (file.parent / path).resolve() if path else file
            if not target.exists():
                yield f"{name_of(file)}: no such file: {path}"
            elif place and place[1:] not in anchors.get(target, ()):
                yield f"{name_of(file)}: no such heading: {path}{place}"


def lines_of(code):
    """The lines of code, without their indents and without a comment at their end."""
    return [bare for line in code.splitlines() if (bare := line.split(" // ")[0].strip()) and not bare.startswith("//")]


def changed_calls():
    """Lines of code that a page takes from functions, and that the files of these functions do not have."""
    for file in all_pages():
        for source, code in CALL.findall(text_of(file)):
            texts = {path: text_of(file.parent / path) for _, path in FUNCTION.findall(source) if (file.parent / path).is_file()}
            found = {line for text in texts.values() for line in lines_of(text)}
            yield from (f"{name_of(file)}: no such function: {name}" for name, path in FUNCTION.findall(source) if f"fn {name}" not in texts.get(path, ""))
            yield from (f"{name_of(file)}: no such line in {' and '.join(texts)}: {line}" for line in lines_of(code) if line not in found)


def body_of(name, text):
    """The body of a function of a file, without its indent. `None` if the file does not have one function of this name."""
    lines = text.splitlines()
    starts = [at for at, line in enumerate(lines) if re.match(rf"(?:pub(?:\(crate\))? )?fn {name}\b", line)]
    if len(starts) != 1:
        return None
    start = starts[0]
    # A body begins after a line that ends the parameters, or after a line of its own if contracts come before.
    opened = next(at for at in range(start, len(lines)) if lines[at] == "{" or (lines[at].endswith(" {") and (at == start or lines[at].startswith(")"))))
    return textwrap.dedent("".join(f"{line}\n" for line in lines[opened + 1 : lines.index("}", opened)]))


def changed_examples():
    """Blocks of code that a page calls an example, and that are not the whole body of the one function that the line before them links."""
    for file in all_pages():
        for source, code in CALL.findall(text_of(file)):
            if not source.startswith(EXAMPLE):
                continue
            linked = [(name, file.parent / path) for name, path in FUNCTION.findall(source)]
            if len(linked) != 1 or not linked[0][1].is_file():
                yield f"{name_of(file)}: an example is one function, which the line before it links: {source[:90]}"
                continue
            name, path = linked[0]
            body = body_of(name, text_of(path))
            if body is None:
                yield f"{name_of(file)}: not one function of {name_of(path.resolve())}: {name}"
            elif body != code:
                pairs = itertools.zip_longest(code.splitlines(), body.splitlines(), fillvalue="(the end)")
                shown, wanted = next(pair for pair in pairs if pair[0] != pair[1])
                yield f"{name_of(file)}: the example is not the body of {name}: {shown.strip()} for {wanted.strip()}"


def halves_of_calls():
    """Blocks of code that a page takes from functions, and that close what they did not open, or do not close what they open."""
    for file in all_pages():
        for _, code in CALL.findall(text_of(file)):
            opened = 0
            for line in lines_of(code):
                bare = re.sub(r'"(?:[^"\\]|\\.)*"', "", line)
                depths = list(itertools.accumulate(bare, lambda depth, it: depth + (it in "([{") - (it in ")]}"), initial=opened))
                opened = depths[-1]
                if min(depths) < 0:
                    break
            if opened:
                yield f"{name_of(file)}: its code has a half of a call, at: {line}"


def words_in(text):
    """How many words a text has: a word has a letter, so the numbers of a table are none."""
    return sum(bool(re.search(r"[^\W\d_]", word)) for word in text.split())


def sentences(page):
    """The sentences of a page: what is in a block of code is none, and a cell, an item of a list and a heading end one."""
    for paragraph in re.split(r"\n\s*\n|\n(?=[-#|]|\d+\. )|(?<!\\)\|", FENCED.sub("", page)):
        yield from re.split(r"(?<=[.?!])[)*]*\s+(?=[^a-z])", paragraph)


def headless_sentences():
    """Sentences and items of pages that people write whose subject is a clause."""
    for file in all_pages():
        page = COLUMNS.sub("", by_hand(text_of(file)))
        for sentence in sentences(re.sub(r"^#.*$", "", page, flags=re.M)):
            sentence = " ".join(sentence.split())
            if HEADLESS.match(MARKS.sub("", sentence)) and not sentence.rstrip("*_ ").endswith("?"):
                yield f"{name_of(file)}: a clause is the subject: {sentence[:90]}"


def long_sentences():
    for name in SHORT_SENTENCES:
        for sentence in sentences(text_of(tree.ROOT / name)):
            if words_in(sentence) > SENTENCE:
                yield f"{name}: a sentence of {words_in(sentence)} words: {' '.join(sentence.split())[:70]}.."


def long_pages():
    """Pages that have too many words. The lists that are generated do not count."""
    lengths = {name_of(file): words_in(by_hand(text_of(file))) for file in all_pages()}
    for name, limit in LIMITS.items():
        if lengths[name] > limit:
            yield f"{name}: {lengths[name]} words, and at most {limit} are allowed"


def doubled_terms():
    """Terms that have more than one row in the part of docs/definitions.md that is written by hand."""
    rows = Counter(re.findall(r"^\| ([^|`]+) \|", by_hand(text_of(tree.ROOT / "docs" / "definitions.md")), re.M))
    yield from (f"docs/definitions.md: {rows[term]} rows for {term}" for term in rows if rows[term] > 1 and term not in ("Term", "---"))


def faults():
    for found in (broken_links, changed_calls, changed_examples, halves_of_calls, doubled_terms, headless_sentences, long_sentences, long_pages):
        yield from found()
