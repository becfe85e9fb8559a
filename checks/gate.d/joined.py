"""Runs the tests of crates, with checks at run time and without a proof. Crates that hold only tests are joined to one, which is compiled once."""
import re
import subprocess

import tree

JOINED = "joined_tests"
# How long one test may take, in seconds: five times what the toolchain gives it, since proofs run beside the tests.
LONGEST = 300
# What an attribute says to the prover, by paths of the crate that it is in.
TACTIC = re.compile(r"^ *#\[tactic\(.*\)\]\n", re.M)
PASSED = re.compile(r"^test result: ok\. (\d+) passed; 0 failed", re.M)


def write_joined(copy, names):
    """Writes the joined crate into a copy of the tree, in place of these crates: each of them is a module of it."""
    lines, folder = tree.lines_of_crates(copy), copy / "crates" / JOINED / "src"
    for name in names:
        source = copy / "crates" / name / "src"
        for file in source.rglob("*.rt"):
            text = TACTIC.sub("", file.read_text(encoding="utf-8")).replace("crate::", f"crate::{name}::")
            is_root = file == source / "lib.rt"
            to = folder / f"{name}.rt" if is_root else folder / name / file.relative_to(source)
            to.parent.mkdir(parents=True, exist_ok=True)
            to.write_text(re.sub(r"^#!\[.*\]\n", "", text, flags=re.M) if is_root else text, encoding="utf-8")
    modules = "".join(f"#[cfg(test)]\nmod {name};\n" for name in sorted(names))
    (folder / "lib.rt").write_text(f"//! The tests of all crates of tests.\n#![tactic(auto)]\n\n{modules}", encoding="utf-8")
    below = dict.fromkeys(it for name in names for it in lines[name].partition(":")[2].split())
    kept = [line for name, line in lines.items() if name not in names]
    (copy / "crates.txt").write_text("\n".join([*kept, f"{JOINED}: {' '.join(below)}", ""]), encoding="utf-8")
    return copy / "crates" / JOINED


def have_all_passed(said, wanted):
    """Whether a run of tests says that so many of them passed, and that none failed."""
    passed = PASSED.search(said)
    return bool(passed) and int(passed[1]) == wanted


def run_tests(names):
    """Runs the tests of these crates of tests, or of one other crate, on a copy of the tree. Returns whether as many passed as there are, and what
    the run said."""
    wanted, are_alone = sum(map(tree.tests_in, names)), {*names} <= {*tree.crates_of_tests()}
    with tree.copy_of_tree(tree.with_crates_below(names), ()) as copy:
        folder = write_joined(copy, names) if are_alone else copy / "crates" / names[0]
        how = {"stdin": subprocess.DEVNULL, "stdout": subprocess.PIPE, "stderr": subprocess.STDOUT, "text": True, "errors": "replace"}
        ran = subprocess.run(["rt", "try", "--test", "--seconds", str(LONGEST)], cwd=folder, **how)
    return not ran.returncode and have_all_passed(ran.stdout, wanted), f"{ran.stdout}prove: there are {wanted} tests\n"
