"""The refusals of public calls: for each call that may refuse, the clause of its contract that gives the cause of each refusal, and the other clauses
that speak of refusals."""
import functools
import re
from pathlib import Path
from typing import NamedTuple

import definitions
import tree

ANSWER = re.compile(r"^[^\n]*\) -> (.*?);?(?: \{[^}]*)?$", re.M)
RESULT = re.compile(r"(io::)?Result<(.*)>")
ENUM = re.compile(r"^pub enum (\w+)\b[^{;]*\{\n(.*?)^\}", re.M | re.S)
UNIT = re.compile(r"^pub struct (\w+);", re.M)
STRUCT = re.compile(r"^pub struct (\w+)\b[^{;(]*\{\n(.*?)^\}", re.M | re.S)
VARIANT = re.compile(r"^    (\w+)\b(?:\((\w+)\))?", re.M)
FIELD = re.compile(r"^    pub \w+: (.*),$", re.M)
# What a source file takes from a crate.
TAKEN = re.compile(r"^(?:pub )?use (\w+)(?:::\w+)*::(?:\{([^}]*)\}|(\w+));", re.M)
COMMENT = re.compile(r"^ *//.*\n", re.M)
CLAUSE = re.compile(r"^ *ensures (?:(\w+) )?\{(.*?)\}(?=\n *(?:ensures|requires)\b|\s*\Z)", re.M | re.S)
TRAIT = re.compile(r"^pub trait (\w+)")
OF_TRAIT = re.compile(r"^impl(?:<.*?>)? (\w+)\S* for \w+")
# A clause that speaks of every fault of a result.
EACH_FAULT = re.compile(r"\b(?:OnErr|IfErr|IsErr|Err|MatchBool)\b")
# A definition that says what holds of every fault.
EACH_FAULT_OF = re.compile(r"^[^-].*\(Err [a-z]\)[^=]* = (?!⊥$)", re.M)
# How far a word of a clause is followed through the definitions that it cites.
DEPTH = 4
ONLY = "the only one"
# The clauses that give the cause of a refusal: by its type and its case, or by its type. The first one that a contract has is the one.
CAUSES = {
    "AfterFault": ("fault", "back"), "AllocError": ("memory",), "AppendFault.TooLarge": ("large",), "AppendFault": ("counted",),
    "BlockFault": ("fault",), "BodyFault": ("refused",), "CompactionFault": ("counted",), "FieldFault": (ONLY,),
    "FrontFault": ("left", "failed", ONLY), "HeadFault.Denied": ("denied",), "HeaderFault.Form": ("form",), "HeaderFault.Scheme": ("scheme",),
    "HeaderFault.Twice": ("twice",), "KeysFault.Last": ("last",), "Link": ("between",), "MapFault": ("refused",),
    "MeetFault": ("fault",), "Missed": ("told",), "MoveFault": ("none",), "NameFault": (ONLY,), "NoReplica": ("unanswered", "same"),
    "None": ("valid", "complete"), "Over": ("ended",), "PairsFault.NotFirst": ("not_first", "refused"), "PairsFault.Twice": ("twice", "refused"),
    "ReadFault": ("unreachable",), "RecordFault": ("exact",), "RepairFault.NoSuchExtent": ("refused",),
    "RepairFault": ("faulty", "counted"), "RotateFault": ("refused",), "SecretFault": ("refused",),
    "SplitError": ("fault",), "SplitFault": ("fault",), "StepFault.NoSuchExtent": (), "StepFault": ("taken", "ran"), "StoredFault": ("counted",), "TakeFault": ("counted",),
    "TendFault.Repair(NoSuchExtent)": (), "TendFault": (ONLY,), "Untended.Repair(NoSuchExtent)": (), "Untended": ("taken",), "TimeFault.Form": ("form",), "TimeFault.Range": ("range",),
    "TokenFault": ("refused",), "Unreachable": ("unreachable",), "Unrepaired.NoSuchExtent": ("refused",), "Unrepaired": ("counted",),
}
# The clauses that say that a refusal never comes, in the same way.
NEVER = {
    "BodyFault.Letters": ("others",), "BodyFault.Time": ("others",), "BodyFault.TooMany": ("others",), "FrontFault.NoMemory": ("fault",),
    "FrontFault.Read": ("fault",), "FrontFault.Turns": ("fault",), "HeaderFault.NoMemory": ("memory",), "TimeFault.NoMemory": ("no_memory", "no_other"),
    "TimeFault.Range": ("no_other",), "TokenFault.NoMemory": ("no_memory",),
}
# Lack of memory, of which no clause can give the cause.
NO_MEMORY = "NoMemory"
MEMORY = ("AllocError", "AllocFailed", NO_MEMORY)
# Which faults a step of a core may answer beside a lack of memory, by the machine (docs/theorem.md): the clause that says so says that no other fault
# comes.
STEPS = {
    "Core::serve": (), "Core::fetch": ("NoSuchTicket", "Unreachable"), "Core::split": ("Map", "Busy"),
    "Core::rotate": ("NoAccount", "Last"),
}
# The calls whose answer does not show by its type that it may be a refusal: what they answer then.
OTHERWISE = {"Core::sweep_wasteful": "None", "SlotHistory::enter": "false", "SlotHistory::split": "None"}


class Kind(NamedTuple):
    """A public type: its source file, its cases, each with the type of what it has, and the types of its public fields."""

    file: Path
    cases: dict
    fields: list


class Fault(NamedTuple):
    """What a call may answer in place of what it is asked for: a type, and its cases."""

    type: str
    cases: list


class Call(NamedTuple):
    """A public call: its name, what comes before its contract, its contract, the file whose words the contract has, and the type that has the call."""

    name: str
    signature: str
    contract: str
    words: Path
    owner: str


def top_level_comma(text):
    """Where the comma is that parts the two types of a result."""
    depth = 0
    for i, it in enumerate(text):
        depth += {"<": 1, "(": 1, "[": 1, ">": -1, ")": -1, "]": -1}.get(it, 0)
        if it == "," and not depth:
            return i
    return None


def crate_of(file):
    return file.relative_to(tree.ROOT / "crates").parts[0]


@functools.cache
def text_of(file):
    return file.read_text(encoding="utf-8")


@functools.cache
def kinds():
    """The public types of each crate. A type with one value has one case, which has the name of the type."""
    found = {}
    for file in sorted((tree.ROOT / "crates").glob("*/src/**/*.rt")):
        text, crate = text_of(file), crate_of(file)
        for name, body in ENUM.findall(text):
            found[crate, name] = Kind(file, dict(VARIANT.findall(re.sub(r"\{[^{}]*\}", "", body))), [])
        found.update({(crate, name): Kind(file, {name: ""}, []) for name in UNIT.findall(text)})
        found.update({(crate, name): Kind(file, {}, FIELD.findall(body)) for name, body in STRUCT.findall(text)})
    return found


@functools.cache
def taken_by(file):
    """For each name that a source file takes from a crate, the crate."""
    found = {}
    for crate, several, one in TAKEN.findall(text_of(file)):
        found.update({it.strip(): crate for it in (several or one).split(",")})
    return found


def kind_of(name, file):
    """The type that a source file calls so, if it is a public type of the repository. The same name may be another type in another crate."""
    *path, name = name.split("::")
    crate = path[0] if path else taken_by(file).get(name, "crate")
    # A type may be taken from a crate that passes it on: those of stamp_values from stamp_types, and faults of streams from stored_rows.
    passed_on = {"stamp_types": ["stamp_values"], "stored_rows": ["stream_manager", "partition_stream"]}
    homes = [crate_of(file)] if crate == "crate" else [crate, *passed_on.get(crate, [])]
    return next((kinds()[it, name] for it in homes if (it, name) in kinds()), None)


@functools.cache
def texts_of_words():
    """For each word of a file of definitions its text and what that file takes from others."""
    found = {}
    for crate in tree.lines_of_crates():
        for file in (tree.ROOT / "crates" / crate / "specs").glob("*.antt"):
            text = file.read_text(encoding="utf-8")
            uses = definitions.uses_of(text)
            words = {name: word for use in uses if use.how != "ghost " for name, word in use.words().items()}
            files = {use.short: (use.crate, use.module) for use in uses if use.short}
            for part in re.split(r"\n\n+", text):
                named = [it for line in part.splitlines() if (it := definitions.DEFINED.match(line))]
                for it in named:
                    found[definitions.Word(crate, file.stem, it[1])] = (part, words, files)
    local = {}
    for word in found:
        local.setdefault(word[:2], {})[word.name] = word
    return {word: (part, {**local[word[:2]], **words}, files) for word, (part, words, files) in found.items()}


@functools.cache
def given():
    return dict(definitions.passed_on())


@functools.cache
def speaks_of(word, case, depth=DEPTH):
    """Whether the definition of a word names a case of a fault, itself or by the words that it cites."""
    word = definitions.origin(word, given())
    if word not in texts_of_words() or not depth:
        return False
    text, words, files = texts_of_words()[word]
    body = "\n".join(line for line in text.splitlines() if not line.startswith("--"))
    if re.search(rf"(?<![\w'])(?:\w+\.)?{case}(?![\w'])", body):
        return True
    return any(speaks_of(it, case, depth - 1) for it in set(definitions.cited_in(body, words, files)) if it != word)


def labels_of(contract):
    return [label or ONLY for label, _ in CLAUSE.findall(contract)]


def clauses_for(contract, case, words, files):
    """The labels of the clauses that name a case, themselves or by a definition."""
    for label, text in CLAUSE.findall(contract):
        is_named = re.search(rf"(?<![\w'])(?:\w+\.)?{case}(?![\w'])", text)
        if is_named or any(speaks_of(it, case) for it in set(definitions.cited_in(text, words, files))):
            yield label or ONLY


def clauses_for_each(contract, words, files):
    """The labels of the clauses that speak of every fault of the result, themselves or by a definition."""
    for label, text in CLAUSE.findall(contract):
        cited = (texts_of_words().get(definitions.origin(it, given())) for it in {*definitions.cited_in(text, words, files)})
        if EACH_FAULT.search(text) or any(EACH_FAULT_OF.search(it[0]) for it in cited if it):
            yield label or ONLY


def has_no_memory(kind):
    return bool(kind) and NO_MEMORY in kind.cases


def cases_of(kind):
    """The cases of a type. If a case has a fault that may be a lack of memory, each case of that fault counts by itself."""
    for case, of in kind.cases.items():
        inner = kind_of(of, kind.file) if of else None
        yield from ((f"{case}({it})" for it in inner.cases) if has_no_memory(inner) else (case,))


def fault_named(names, file):
    """The fault among the types that a result names in the second place. Without a fault, what the call took is given back."""
    if "AllocFailed" in names or "AllocError" in names:
        name = "AllocFailed" if "AllocFailed" in names else "AllocError"
        return Fault(name, [name])
    known = [(it, kind) for it in names if (kind := kind_of(it, file)) and kind.cases]
    if known:
        return Fault(known[-1][0], [*cases_of(known[-1][1])])
    return Fault(names[0], [names[0]])


def faults_in(answer, owner, file):
    """What an answer may have in place of what is asked for. A struct may have it in a public field, and a result in the first place too."""
    found = RESULT.search(answer)
    if found:
        at = top_level_comma(found[2])
        if at is None:
            yield from ([Fault("io::Error", ["io::Error"])] if found[1] else [])
            return
        names = [owner if it == "Self" else it for it in re.findall(r"[\w:]+", found[2][at + 1 :])]
        yield fault_named(names, file)
        yield from faults_in(found[2][:at], owner, file)
        return
    for name in re.findall(r"[\w:]+", answer):
        kind = kind_of(name, file)
        # An answer that is not a fault and has a case for lack of memory.
        if has_no_memory(kind) and not name.endswith("Fault"):
            yield Fault(name, [NO_MEMORY])
    whole = kind_of(answer, file)
    for field in whole.fields if whole else ():
        yield from faults_in(field, owner, whole.file)


def faults_of(call, file):
    """What a call may answer in place of what it is asked for; nothing if it always answers that."""
    answer = ANSWER.search(call.signature)
    answer = answer[1] if answer else ""
    if call.name in OTHERWISE:
        return [Fault(OTHERWISE[call.name], [OTHERWISE[call.name]])]
    if answer == "Option<Self>" or (answer.startswith("Option<") and re.search(r"\bfn read_", call.signature)):
        return [Fault("None", ["None"])]
    # What may be there, and a fault itself, is not a refusal.
    return [*faults_in(answer, call.owner, file)] if not answer.startswith("Option<") else []


@functools.cache
def calls_of_traits():
    """The calls of the public traits of the repository, by the names of trait and call."""
    files = sorted((tree.ROOT / "crates").glob("*/src/**/*.rt"))
    return {it.name: it for file in files if re.search("^pub trait ", text_of(file), re.M) for it in calls_of(file, {})}


def calls_of(file, of_traits=None):
    """The public calls of a source file, and those by which a type has a trait: those that say more than the trait, and those of a public type that say
    what a trait of the repository says, by the calls of these traits."""
    lines, owner, trait, of_trait = text_of(file).splitlines(), "", None, None
    of_traits = calls_of_traits() if of_traits is None else of_traits
    for i, line in enumerate(lines):
        if line and not line.startswith(" "):
            implemented, trait, of_trait = definitions.IMPLEMENTED.match(line), TRAIT.match(line), OF_TRAIT.match(line)
            owner = (trait or implemented)[1] if trait or implemented else ""
        found = definitions.FUNCTION.match(line)
        if found and (found[2] == "pub " or ((trait or of_trait) and found[1])):
            ends = (f"{found[1]}{{", f"{found[1]}}}")
            end = next((j for j in range(i, len(lines)) if lines[j].startswith(ends) or lines[j].endswith("{}") or (trait and lines[j].endswith(";"))), i)
            text = "\n".join(lines[i : end + (lines[end].endswith(";"))])
            signature = re.split(r"^ *(?:ensures|requires)\b", text, flags=re.M)[0]
            contract = COMMENT.sub("", text[len(signature) :]).rstrip(";{ \n")
            name = (f"{owner}::" if owner and found[1] else "") + found[3]
            if found[2] == "pub " or trait or "ensures" in contract:
                yield Call(name, signature, contract, file, owner)
            elif (crate_of(file), owner) in kinds() and (said := of_traits.get(f"{of_trait[1]}::{found[3]}")):
                yield Call(name, signature, said.contract, said.words, owner)


class Refusal(NamedTuple):
    """A refusal of a call: its type, its case, the clause that gives its cause or says that it never comes, and the other clauses that speak of it."""

    type: str
    case: str
    cause: str
    is_never: bool
    others: list


def first_of(table, fault, case, labels):
    """The first clause that a table has for a case of a fault and that a contract has too."""
    return next((it for it in table.get(f"{fault}.{case}", table.get(fault, ())) if it in labels), None)


def is_memory(case):
    return case in MEMORY or case.endswith(f"({NO_MEMORY})")


def has_no_cause(case):
    """Whether no clause can give the cause: of an AllocError a clause may say when memory is needed."""
    return is_memory(case) and case != "AllocError"


def never_of(call, fault, case, labels):
    """The clause that says that a case of a fault never comes, if one says so."""
    is_of_step = case.partition("(")[0] in (*STEPS.get(call.name, ()), NO_MEMORY)
    if is_of_step or call.name not in STEPS:
        return first_of(NEVER, fault, case, labels)
    return next((it for it in CAUSES[fault] if it in labels), None)


def refusals_of(call, file):
    """The refusals of a call."""
    words, files = definitions.imports_of(text_of(call.words))
    labels = labels_of(call.contract)
    for fault, case in ((it.type, case) for it in faults_of(call, file) for case in it.cases):
        never = never_of(call, fault, case, labels)
        cause = never or (None if has_no_cause(case) else first_of(CAUSES, fault, case, labels))
        named = clauses_for(call.contract, case.partition("(")[0], words, files)
        speak = [*dict.fromkeys([*named, *clauses_for_each(call.contract, words, files)])]
        yield Refusal(fault, case, cause, bool(never), [it for it in speak if it != cause])


def rows_of(crate):
    """Each public call of a crate that may refuse, with its refusals."""
    for file in sorted((tree.ROOT / "crates" / crate / "src").rglob("*.rt")):
        for call in calls_of(file):
            refusals = [*refusals_of(call, file)]
            if refusals:
                yield call.name, refusals


def calls():
    """For each crate that is not of tests its public calls that may refuse, each with its refusals. Calls of one name and with the same types count
    as one."""
    tests = {*tree.crates_of_tests()}
    for crate in (it for it in tree.lines_of_crates() if it not in tests):
        found = {}
        for name, refusals in rows_of(crate):
            found.setdefault((name, *dict.fromkeys(it.type for it in refusals)), []).extend(refusals)
        yield crate, found


def unexplained(page):
    """Refusals for lack of something else than memory whose cause no clause gives, of calls that the page does not name either; and calls that it names
    though clauses give all their causes."""
    told = re.search(r"^\*\*No clause gives these causes.*$", page, re.M)
    told = set(re.findall(r"`([^`]+)`", told[0])) if told else set()
    bare = {name for _, found in calls() for (name, *_), refusals in found.items() for it in refusals if not it.cause and not is_memory(it.case)}
    yield from (f"docs/refusals.md: no clause gives a cause of {name}, and the page does not name it" for name in sorted(bare - told))
    yield from (f"docs/refusals.md: clauses give the causes of {name}" for name in sorted(told - bare))


def label_text(label):
    return "its only clause" if label == ONLY else f"`{label}`"


def case_text(cases):
    """Cases in their order, once each. Those of one inner fault are named together."""
    inner = {}
    for it in cases:
        outer, _, of = it.partition("(")
        inner.setdefault(outer, {}).setdefault(of.removesuffix(")"))
    return ", ".join(f"{outer}({', '.join(of)})" if any(of) else outer for outer, of in inner.items())


def by_clause(refusals):
    """Refusals by the clause that gives their cause."""
    found = {}
    for it in refusals:
        found.setdefault(it.cause, []).append(it.case)
    return "; ".join(f"{case_text(cases)}: {label_text(label)}" for label, cases in found.items())


def cells(refusals):
    """The cells of a call: each refusal with the clause of its cause, those that never come, those without such a clause, and the other clauses."""
    caused = [it for it in refusals if it.cause and not it.is_never]
    causes = {it.cause for it in refusals}
    others = dict.fromkeys(label for it in refusals for label in it.others if label not in causes)
    return (
        by_clause(caused), by_clause([it for it in refusals if it.is_never]), case_text(it.case for it in refusals if not it.cause),
        ", ".join(label_text(it) for it in others),
    )


def table():
    """For each crate a heading and a table of its calls."""
    for crate, found in calls():
        if found:
            yield f"\n## {crate}\n\n| Call | Refusals by the clause of their cause | Never | No clause | Other clauses |\n|---|---|---|---|---|\n"
        for (name, *_), refusals in found.items():
            yield f"| `{name}` | {' | '.join(cells(refusals))} |\n"
    yield "\n"
