"""The crates of this repository: what they depend on, digests of their files, and copies of the tree that `rt ci` proves."""
import hashlib
import os
import re
import shutil
import signal
import subprocess
import tempfile
import threading
from contextlib import contextmanager
from pathlib import Path

ROOT = Path(__file__).resolve().parents[2]
PROGRAM = "stamp_main"
# The program has fewer bytes.
ROOM = 1 << 20
# What a proof reads of a crate.
SOURCES = ("src", "specs", "proofs")
# A part of a source file that may look like a comment or be one: a raw text, a text, a character, a comment. A quote after a letter belongs to a
# name of a definition (the b of a byte apart), and a quote that no second one follows is of a lifetime. Each part begins with its mark, which is
# found fast.
PART = re.compile(
    r"""'(?:(?<![\w']')|(?<=\bb'))(?:\\[^\n]?[^'\n]*|[^'\\\n])'|"(?<=\br")[^"]*"|"(?<=\br#").*?"#|"(?<=\bbr")[^"]*"|"(?<=\bbr#").*?"#"""
    r"""|"(?:\\.|[^"\\])*"|/\*.*?\*/|//[^\n]*""",
    re.S,
)
# What only tests have: a module in a file of its own or where it is named, or an impl.
OF_TESTS = re.compile(r"^#\[cfg\(test\)\]\nmod (\w+);\n|^\n#\[cfg\(test\)\]\n(?:mod (\w+)|impl[^\n]*) \{\n.*?^\}\n", re.M | re.S)
# What replaces the end of a line inside of a text, so that no line of the text is taken for a blank one.
LINE_OF_TEXT = "\0"


def lines_of_crates(root=ROOT):
    """For each crate of a tree its line of crates.txt, in the order of that file."""
    text = (root / "crates.txt").read_text(encoding="utf-8")
    lines = [line.partition("#")[0].strip() for line in text.splitlines()]
    return {line.partition(":")[0].split()[0]: line for line in lines if line}


def named_by(line):
    """The crates and the libraries that a line of crates.txt names after the crate itself."""
    return line.partition(":")[2].split()


def with_crates_below(names, root=ROOT):
    """These crates and all crates of a tree that they depend on, in the order of crates.txt."""
    lines, wanted, left = lines_of_crates(root), set(), [*names]
    while left:
        name = left.pop()
        if name in lines and name not in wanted:
            wanted.add(name)
            left += named_by(lines[name])
    return [name for name in lines if name in wanted]


def stripped(text, path):
    """A text of a crate without comments and blank lines. What looks like a comment inside of a text of the program stays."""
    if path.endswith(".rt"):
        text = PART.sub(lambda it: "" if it[0].startswith("//") else it[0].replace("\n", LINE_OF_TEXT), text)
        return "\n".join(line.rstrip() for line in text.split("\n") if line.strip())
    return "\n".join(line for line in text.split("\n") if line.strip() and not line.lstrip().startswith("--"))


def what_decides(file):
    """What a file of a crate says to the prover and to the compiler."""
    if file.suffix not in (".rt", ".antt"):
        return file.read_bytes()
    return stripped(file.read_text(encoding="utf-8", errors="surrogateescape"), file.name).encode(errors="surrogateescape")


def digest_of_program(root=ROOT):
    """The digest of all that the program is built from in a tree, the toolchain apart: the handles, and of each crate its line of crates.txt and
    the names of its files with what each says. Comments, blank lines and the order of crates.txt do not count."""
    whole, lines = hashlib.sha256((root / "HANDLES").read_bytes()), lines_of_crates(root)
    for name in sorted(with_crates_below([PROGRAM], root)):
        whole.update(f"{lines[name]}\n".encode())
        for file in sorted(it for part in SOURCES for it in (root / "crates" / name / part).rglob("*") if it.is_file()):
            whole.update(f"{file.relative_to(root)}\n{hashlib.sha256(what_decides(file)).hexdigest()}\n".encode())
    return whole.hexdigest()


def state_of_sources(root=ROOT):
    """A digest of the lengths and the times of change of the files that the digest of the program of a tree depends on, and of their names. It is made
    without reading these files."""
    whole, files = hashlib.sha256(), [str(root / "HANDLES"), str(root / "crates.txt"), __file__]
    for name in with_crates_below([PROGRAM], root):
        files += [os.path.join(at, it) for part in SOURCES for at, _, names in os.walk(root / "crates" / name / part) for it in names]
    for file in sorted(files):
        found = os.stat(file)
        whole.update(f"{file} {found.st_size} {found.st_mtime_ns}\n".encode(errors="surrogateescape"))
    return whole.hexdigest()


def edit_files(name, root=ROOT):
    """The files of the must-fail edits of a crate of a tree."""
    return sorted((root / "crates" / name / "must-fail").glob("*.edit"))


def tests_in(name, root=ROOT):
    """How many test functions a crate of a tree has."""
    files = (root / "crates" / name / "src").rglob("*.rt")
    return sum(len(re.findall(r"^\s*#\[test\]", it.read_text(encoding="utf-8"), re.M)) for it in files)


def crates_of_tests(root=ROOT):
    """The crates that hold only tests: libraries with tests whose names say so, and on which no crate depends, in the order of crates.txt."""
    lines = lines_of_crates(root)
    below = {it for line in lines.values() for it in named_by(line)}
    is_library = lambda name: (root / "crates" / name / "src" / "lib.rt").is_file()
    return [name for name in lines if name.endswith("_tests") and name not in below and is_library(name) and tests_in(name, root)]


def crates_with_tests(root=ROOT):
    """The crates of a tree that hold more than tests, and tests of their own, in the order of crates.txt."""
    alone = crates_of_tests(root)
    return [name for name in lines_of_crates(root) if name not in alone and tests_in(name, root)]


def leave_tests_out(copy):
    """Takes the modules of tests with their proofs, and what only they use, out of the crates of a copy of the tree that hold more than tests."""
    for name in crates_with_tests(copy):
        crate = copy / "crates" / name
        for file in sorted((crate / "src").rglob("*.rt")):
            text = file.read_text(encoding="utf-8") if file.exists() else ""
            for apart, inside in OF_TESTS.findall(text):
                if apart or inside:
                    shutil.rmtree(crate / "proofs" / (apart or inside), ignore_errors=True)
                if apart:
                    (file.parent / f"{apart}.rt").unlink()
            left = OF_TESTS.sub("", text)
            if left != text:
                file.write_text(left, encoding="utf-8")


def end_on_signal(number, _frame):
    raise SystemExit(128 + number)


@contextmanager
def copy_of_tree(crates, with_edits):
    """A copy of the tree, outside of it, that has these crates alone, and the must-fail edits of some of them alone.

    It is removed at the end, whatever ends this run, so that the tree stays as it is."""
    if threading.current_thread() is threading.main_thread():
        for number in (signal.SIGTERM, signal.SIGHUP):
            signal.signal(number, end_on_signal)

    def left_out(folder, names):
        at = Path(folder)
        if at == ROOT:
            return {".git"} & {*names}
        if at == ROOT / "crates":
            return {*names} - {*crates}
        is_tried = at.name in with_edits
        return ({"out"} if is_tried else {"out", "must-fail"}) & {*names} if at.parent == ROOT / "crates" else set()

    with tempfile.TemporaryDirectory(prefix="stamp-prove-", ignore_cleanup_errors=True) as room:
        copy = Path(room) / "stamp"
        shutil.copytree(ROOT, copy, ignore=left_out, symlinks=True)
        lines = lines_of_crates()
        (copy / "crates.txt").write_text("".join(f"{lines[name]}\n" for name in crates), encoding="utf-8")
        yield copy


def add_crates(copy, crates):
    """Adds these crates to a copy of the tree that has what they depend on, without their must-fail edits."""
    for name in crates:
        shutil.copytree(ROOT / "crates" / name, copy / "crates" / name, ignore=shutil.ignore_patterns("out", "must-fail"), symlinks=True)
    has = {*lines_of_crates(copy), *crates}
    (copy / "crates.txt").write_text("".join(f"{line}\n" for name, line in lines_of_crates().items() if name in has), encoding="utf-8")


def proofs_at_once():
    """How many proofs may run at a time: as many as RT_JOBS says, or one for each processor and each 4 GB of memory that is free."""
    free = int(re.search(r"MemAvailable:\s+(\d+) kB", Path("/proc/meminfo").read_text()).group(1)) * 1024
    limit = Path("/sys/fs/cgroup/memory.max")
    if limit.is_file() and limit.read_text().strip().isdigit():
        free = min(free, int(limit.read_text()))
    wanted = os.environ.get("RT_JOBS", "")
    return int(wanted) if wanted.isdigit() and int(wanted) else max(1, min(len(os.sched_getaffinity(0)), free // 4_000_000_000))


def prove(copy, hear):
    """Proves, tests and runs what a copy of the tree has, by `rt ci`, and hands on each line that it prints but the last one.

    Each proof gets one process, since several for one proof cost more processor time together (docs/gate.md).

    Returns the numbers of the last line, passed and failed; at least one failed if the exit status is not 0."""
    environment = {"RT_JOBS": str(proofs_at_once()), **os.environ}
    how = {"env": environment, "stdin": subprocess.DEVNULL, "stdout": subprocess.PIPE, "stderr": subprocess.STDOUT, "text": True, "errors": "replace"}
    process, counts = subprocess.Popen(["rt", "ci"], cwd=copy, **how), None
    try:
        for line in process.stdout:
            counts = re.fullmatch(r"(\d+) passed, (\d+) failed\n", line)
            if not counts:
                hear(line)
        status = process.wait()
    finally:
        if process.poll() is None:
            process.terminate()
            process.wait()
    passed, failed = map(int, counts.groups()) if counts else (0, 1)
    return passed, max(failed, int(status != 0))


def program_of(copy, crate=PROGRAM):
    """The program of a crate as a copy of the tree has it after a proof."""
    return copy / "crates" / crate / "out" / crate


def version_of_toolchain():
    return subprocess.run(["rt", "version"], stdout=subprocess.PIPE, text=True, check=True).stdout.strip()


def kept_program(digest):
    """Where a program that was built here from the sources of this digest is kept."""
    return ROOT / "crates" / PROGRAM / "out" / "by_sources" / digest / PROGRAM


def reason_of(error):
    """What an error says, on one line, with the file that it is about."""
    if isinstance(error, shutil.Error):
        # The first of the files that could not be copied, with where it should go, and why not.
        return error.args[0][0][2]
    return f"{error.filename}: {error.strerror}" if getattr(error, "filename", None) else str(error)


def why_not_kept(digest):
    """Why a program of this digest could not be kept, or None if it could: a file of more bytes is made in the folder of such programs, and dropped."""
    place = kept_program(digest).parent.parent
    try:
        place.mkdir(parents=True, exist_ok=True)
        # (a full disk still takes an empty file)
        with tempfile.TemporaryFile(dir=place) as file:
            file.write(bytes(ROOM))
            file.flush()
            return None
    except OSError as error:
        return f"{place}: {error.strerror}"


def keep_program(copy, digest):
    """Keeps the program that was built in a copy of the tree under the digest of its sources, and drops older ones. Returns where it is."""
    kept = kept_program(digest)
    shutil.rmtree(kept.parent.parent, ignore_errors=True)
    new = kept.parent.with_suffix(".new")
    new.mkdir(parents=True)
    shutil.copy(program_of(copy), new / PROGRAM)
    # Moved into its place whole, so that no other call finds a part of it.
    os.rename(new, kept.parent)
    return kept
