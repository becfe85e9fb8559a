"""Tries must-fail edits on a copy of the tree whose crates were proved: edits of code together in one check, all others alone.

The prover judges each function by itself, and the proof of a caller rests on the clauses of what it calls. So edits of different functions
can be made at once: each has to be refused at a goal or at an answer of a function that it edits itself.
"""
import importlib.machinery
import importlib.util
import os
import re
import resource
import signal
import subprocess
import tempfile
import threading
from concurrent.futures import ThreadPoolExecutor
from pathlib import Path

import edits
import tree

FLAGS = ["--jobs", "1"]
# What an edit is likely to take of the proof of its crate, if another edit of the crate was tried before it.
LATER = 0.3
# The most seconds of processor time that the check of one edit may take. After that nothing is known of the edit.
LONGEST = 6 * 60
OUT_OF_TIME = f"ended with status -{signal.SIGXCPU}"
# Whether the checks of this thread are ended after so much time.
CHECKS = threading.local()
JUDGED = re.compile(r"(fn|impl|struct|enum|trait) \S+: ")
REFUSED = re.compile(r"fn (\S+): (?:not proved(?!;)|no proof: expected answers in )")
GOAL = re.compile(r"note: src/\S+?:\d+:\d+: ")
ANSWER = re.compile(r"(?:\./)?proofs/(\S+)/(?:Answers|Invariants|Proof)\.antt:\d+:\d+: error")
# What the prover says of a proof file that names what an edit took away, which says nothing of the contract.
GONE = re.compile(r"has no field|is not in scope|has no `|was not admitted")


def toolchain():
    """The module of the toolchain's command `rt`, whose calls make and check an edited copy of a crate."""
    guide = subprocess.run(["rt", "doc"], stdout=subprocess.PIPE, text=True, check=True).stdout.strip()
    file = Path(guide).parent / "bin" / "rt"
    loader = importlib.machinery.SourceFileLoader("rt", str(file))
    rt = importlib.util.module_from_spec(importlib.util.spec_from_loader("rt", loader))
    loader.exec_module(rt)
    rt.rtlib.Crate = rt.Crate
    # Its first call sets the handler of a signal, which only the main thread may do.
    words = rt.rtlib.guarded()
    # The second limit kills, which `rt` takes for a lack of memory; the first one ends a check before that.
    rt.rtlib.guarded = lambda: [*(["prlimit", f"--cpu={LONGEST}:{2 * LONGEST}"] if getattr(CHECKS, "are_limited", False) else []), *words]
    return rt


def at_once(found, texts):
    """The edits of code of a crate in lists that are tried in one check each, with the functions of each edit; and the edits that are tried alone.

    No two edits of a list turn one function, and no edit of a list takes away the text that another one turns."""
    lists, alone = [], []
    for edit in found:
        functions = edit.functions(texts)
        if functions is None or edit.applied(texts) is None:
            alone.append(edit)
            continue
        for at, (made, taken) in enumerate(lists):
            new = edit.applied(made)
            if new is not None and not functions & {it for other in taken.values() for it in other}:
                lists[at] = new, {**taken, edit: functions}
                break
        else:
            lists.append((edit.applied(texts), {edit: functions}))
    return lists, alone


def refused_in(said, crate):
    """The functions of a crate, by their paths, that a check refused at a goal or at an answer of their own; None if it cannot be read."""
    lines = said.rstrip("\n").split("\n")
    if not lines[-1].startswith("only="):
        return None
    found, has_goal, answered = set(), False, set()
    for line in lines:
        answer = ANSWER.match(line)
        if answer and not GONE.search(line):
            answered.add(answer[1].replace("/", "::"))
        has_goal = has_goal or bool(GOAL.match(line))
        if JUDGED.match(line):
            function = REFUSED.match(line)
            path = function[1].removeprefix(f"{crate}::") if function else ""
            if function and (has_goal or path in answered):
                found.add(path)
            # The goals of an item come before its own line.
            has_goal = False
    return found


class Budget:
    """The processor time that checks of edits may take together, in seconds, or None for as much as they need.

    A check begins only if what the checks before it took, and what those that run and this one are likely to take, fits."""

    def __init__(self, seconds, likely):
        self.seconds, self.likely = seconds, likely
        self.lock, self.running, self.started = threading.Lock(), [], self.of_children()

    @staticmethod
    def of_children():
        used = resource.getrusage(resource.RUSAGE_CHILDREN)
        return used.ru_utime + used.ru_stime

    def used(self):
        return self.of_children() - self.started

    def begin(self, crate, share=1):
        """Whether a check that takes this share of the proof of a crate may begin; `end` has to follow."""
        cost = share * self.likely[crate]
        with self.lock:
            used = self.used() + sum(self.running)
            if self.seconds is not None and used and used + cost > self.seconds:
                return False
            self.running.append(cost)
            return True

    def end(self, crate, share=1):
        with self.lock:
            self.running.remove(share * self.likely[crate])


def lines_of(ways, copy):
    """What the record says of edits, by how each of them was tried: their digests, of the files of a copy of the tree, and how."""
    of_crates = {crate: edits.Digests(crate, copy) for crate in {it.crate for it in ways}}
    return {edit: (*of_crates[edit.crate].of(edit), way) for edit, way in ways.items()}


class Trials:
    """Trials of edits on a copy of the tree: which edits were tried, whether each of them was refused, and whether it was tried alone or together."""

    def __init__(self, copy, budget):
        self.rt, self.copy, self.budget = toolchain(), copy, budget
        self.crates = {it.name: it for it in self.rt.rtlib.crates_below(str(copy))}
        self.refused, self.ways, self.unread, self.telling = {}, {}, [], threading.Lock()

    def prove_tests(self, name, processes):
        """Proves a crate of tests with its tests, some functions at a time, since the cost of one check grows faster than its functions. Returns
        whether all is proved, and what was said."""
        ran = self.rt.checked(self.crates[name], {}, ["--jobs", str(processes), "--test", "--batches"], None)
        verdict = ran.stdout.rstrip("\n").split("\n")[-1].split()
        return not ran.returncode and {"logic=proved", f"tests={tree.tests_in(name)}"} <= {*verdict}, ran.stdout

    def is_refused(self, answer):
        """Whether an answer of `rt` to an edit says that the prover refused it, also if only by a limit of its own. A toolchain answers either with
        a word of its own or with yes or no."""
        return answer is True or answer in [getattr(self.rt, it) for it in ("REFUSED", "AT_LIMIT") if hasattr(self.rt, it)]

    def tell_unanswered(self, edit):
        with self.telling:
            self.ways[edit] = edits.UNANSWERED
            print(f"prove: must-fail {edit}: no answer after {LONGEST // 60} minutes of processor time, so it stays owed", flush=True)

    def tell(self, edit, is_refused, way, where):
        with self.telling:
            self.refused[edit], self.ways[edit] = is_refused, way
            print(f"prove: must-fail {edit}: {'refused' if is_refused else 'NOT REFUSED'}, {way}: {where}", flush=True)

    def try_together(self, crate, texts, functions):
        """Tries the edits of a list in one check, and returns those that it does not show to be refused.

        The check is of the functions that they turn, and of what these call: the crate itself was proved whole."""
        if not self.budget.begin(crate):
            return []
        try:
            changed = {path: text for path, text in texts.items() if path.startswith("src/")}
            paths = sorted({path for of_edit in functions.values() for path in of_edit})
            ran = self.rt.checked(self.crates[crate], changed, [*FLAGS, *(word for path in paths for word in ("--only", path))], None)
        finally:
            self.budget.end(crate)
        found = refused_in(ran.stdout, crate) if ran.returncode in (0, 1) else None
        if found is None:
            self.unread += functions
            last = ran.stdout.rstrip("\n").split("\n")[-1]
            why = f"it ended with status {ran.returncode} after the line {last!r}"
            print(f"prove: {crate}: {len(functions)} edits were made at once, and the check cannot be read: {why}. They are tried alone", flush=True)
            return [*functions]
        for edit, of_edit in functions.items():
            if of_edit & found:
                self.tell(edit, True, "together", f"at a goal of {min(of_edit & found)}")
        return [edit for edit, of_edit in functions.items() if not of_edit & found]

    def try_alone(self, crate, found):
        """Tries edits of a crate one after the other, each over what the checks before it proved.

        If the crate itself is not proved over that, or if an edit was not refused, the edit is tried again from nothing, as `rt must-fail` does."""
        tried = {}
        with tempfile.TemporaryDirectory(prefix="stamp-edits-") as room:
            kept = f"{room}/kept"
            os.mkdir(kept)

            def try_one(edit, kept=None):
                file = Path(room) / f"{edit.name}.edit"
                file.write_text(edit.text(), encoding="utf-8")
                CHECKS.are_limited = True
                try:
                    return self.rt.must_fail(self.crates[crate], str(file), FLAGS, kept)
                finally:
                    CHECKS.are_limited = False

            for edit in found:
                share = LATER if tried else 1
                if not self.budget.begin(crate, share):
                    break
                try:
                    tried[edit] = try_one(edit, kept)
                finally:
                    self.budget.end(crate, share)
            is_sound = len(tried) < 2 or not self.rt.checked(self.crates[crate], {}, FLAGS, kept).returncode
            for edit, (answer, said) in tried.items():
                if not (is_sound and self.is_refused(answer)) and OUT_OF_TIME not in said and len(tried) > 1:
                    answer, said = try_one(edit)
                if OUT_OF_TIME in said:
                    self.tell_unanswered(edit)
                else:
                    self.tell(edit, self.is_refused(answer), "alone", said.partition(": ")[2])

    def try_all(self, found, are_some_alone=True, tests=()):
        """Tries edits, those of a crate that comes first in the list before those of others, as many at a time as there is room for. Proves these
        crates of tests beside that, and returns for each of them what `prove_tests` does.

        If no edit is to be tried alone, only what is shown together is."""
        by_crate = {}
        for edit in found:
            by_crate.setdefault(edit.crate, []).append(edit)
        with ThreadPoolExecutor(tree.proofs_at_once()) as pool:
            # The largest crate decides when the last proof ends: it comes first, and gets two processes.
            largest = sorted(tests, key=lambda it: -self.crates[it].count(rb"\n"))
            proofs = {it: pool.submit(self.prove_tests, it, 2 if it == largest[0] else 1) for it in largest}
            together, alone = [], []

            def try_rest(crate, rest):
                if rest and are_some_alone:
                    alone.append(pool.submit(self.try_alone, crate, rest))

            for crate, of_crate in by_crate.items():
                lists, rest = at_once(of_crate, edits.texts_of(crate, self.copy))
                together += [(crate, pool.submit(self.try_together, crate, *it)) for it in lists]
                try_rest(crate, rest)
            for crate, trial in together:
                try_rest(crate, trial.result())
            for trial in alone:
                trial.result()
            return {it: proof.result() for it, proof in proofs.items()}
