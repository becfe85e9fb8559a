"""What `./stamp` does if the program is not built yet, and what it says of bad words of `serve`. It runs in a small tree that is made for it,
with a stub in the place of the toolchain, so nothing is built.

Each function gives what was tried, what came of it, and what was wanted: the status, standard output and standard error.
"""
import os
import resource
import shutil
import signal
import socket
import subprocess
import sys
import tempfile
import time
from pathlib import Path

ROOT = Path(__file__).resolve().parents[2]
FILES = ("stamp", "HANDLES", "release/start", "release/release.py", "release/watched.py", "release/words.py", "checks/gate.d/tree.py")
NEEDED = ("python3", "readlink", "dirname")
SIGN = ["sign", "SmVmZQ=="]
# Words of `serve` that are good, for an address of the documentation's network, at which no machine listens (RFC 5737).
SERVED = ("192.0.2.1:10000", "64", "devstoreaccount1", "a2V5MQ==", "a2V5Mg==")
USAGE = "usage: stamp sign KEY | stamp replay MOMENT ACCOUNT KEY1 KEY2 | stamp serve ADDRESS WORKERS ACCOUNT KEY1 KEY2\n"
# For a place among these words, a bad word and what is said of it.
BAD_WORDS = (
    (1, "65", "WORKERS is a number from 1 to 64, in decimal digits without a zero before them, and not '65'"),
    (2, "Account", "ACCOUNT is a name of 3 to 24 lower-case letters and digits, and not 'Account'"),
    (3, "a2V5MQ", "KEY1 is not padded Base64: its length is a multiple of 4, with = at the end if need be"),
    (4, "a2V5Mh==", "KEY2 is not padded Base64: its length is a multiple of 4, with = at the end if need be"),
)
IS_EMPTY = "is empty, and whoever guesses that can sign for the account. To have one key only, give it twice"
OUT = "crates/stamp_main/out"
NOT_BUILT = "stamp: the program was not built: "
# Scripts that run in the place of the toolchain: it is asked to prove and to build, in a copy of the tree.
NEVER_CALLED = "echo the toolchain was called"
FAILS = "echo 'crate: no proof'; echo '0 passed, 1 failed'; exit 1"
BUILDS = f'mkdir -p {OUT}; cp "$PROGRAM" {OUT}/stamp_main; echo "1 passed, 0 failed"'
WAITS = 'touch "$TMPDIR/called"; exec sleep 60'


def make_tree(root):
    """A tree with one crate."""
    for name in FILES:
        (root / name).parent.mkdir(parents=True, exist_ok=True)
        shutil.copy(ROOT / name, root / name)
    (root / "crates" / "stamp_main" / "src").mkdir(parents=True)
    (root / "crates.txt").write_text("stamp_main: std\n", encoding="utf-8")


def make_path(folder):
    """A folder that has the commands which ./stamp needs, and no other command."""
    folder.mkdir()
    for name in NEEDED:
        (folder / name).symlink_to(sys.executable if name == "python3" else shutil.which(name))


def start(root, stub, program, words=SIGN, **how):
    """Starts `./stamp` of a tree, with a stub in the place of the toolchain, or without a toolchain if there is no stub."""
    path = str(root.parent / "path")
    if stub:
        toolchain = root.parent / "bin" / "rt"
        toolchain.write_text(f"#!/bin/sh\n{stub}\n", encoding="utf-8")
        toolchain.chmod(0o755)
        path = f"{toolchain.parent}:{os.environ['PATH']}"
    how = {"stdin": subprocess.DEVNULL, "stdout": subprocess.PIPE, "stderr": subprocess.PIPE, "path": path, **how}
    environment = {"PATH": how.pop("path"), "PROGRAM": program, "TMPDIR": str(root.parent / "room"), **how.pop("also", {})}
    return subprocess.Popen([root / "stamp", *words], env=environment, **how)


def ended(process):
    """The status of a run, its standard output, and its standard error as a text."""
    try:
        wrote, said = process.communicate(timeout=60)
    except subprocess.TimeoutExpired:
        process.kill()
        wrote, said = process.communicate()
    return process.returncode, wrote, said.decode()


def what_is_missing(root, program):
    yield "./stamp without python3", ended(start(root, None, program, path="")), (70, b"", "stamp: python3 is not on the path\n")
    wanted = f"{NOT_BUILT}the toolchain is missing: rt is not on the path\n"
    yield "./stamp without a toolchain", ended(start(root, None, program)), (70, b"", wanted)
    (root / "HANDLES").rename(root / "handles")
    wanted = f"{NOT_BUILT}{root / 'HANDLES'}: No such file or directory\n"
    yield "./stamp without a file of the sources", ended(start(root, NEVER_CALLED, program)), (70, b"", wanted)
    (root / "handles").rename(root / "HANDLES")


def what_cannot_be_kept(root, program):
    """A build that would be lost is not begun. Root may write everywhere, but cannot make a folder in a file either."""
    (root / OUT).touch()
    wanted = f"{NOT_BUILT}it could not be kept: {root / OUT}/by_sources: Not a directory\n"
    yield "./stamp if nothing can be kept", ended(start(root, NEVER_CALLED, program)), (70, b"", wanted)
    (root / OUT).unlink()
    # A file without room for the program: a disk that is full takes an empty file, too.
    takes_nothing = lambda: resource.setrlimit(resource.RLIMIT_FSIZE, (0, 0))
    wanted = f"{NOT_BUILT}it could not be kept: {root / OUT}/by_sources: File too large\n"
    yield "./stamp if nothing can be written", ended(start(root, NEVER_CALLED, program, preexec_fn=takes_nothing)), (70, b"", wanted)
    shutil.rmtree(root / OUT)
    if os.geteuid():
        (root / OUT).parent.chmod(0o555)
        wanted = f"{NOT_BUILT}it could not be kept: {root / OUT}/by_sources: Permission denied\n"
        yield "./stamp in a tree that is read-only", ended(start(root, NEVER_CALLED, program)), (70, b"", wanted)
        (root / OUT).parent.chmod(0o755)


def builds_that_fail(root, program):
    status, wrote, said = ended(start(root, FAILS, program))
    wanted = ["crate: no proof", f"{NOT_BUILT}the lines above say why"]
    yield "./stamp if the build fails", (status, wrote, said.splitlines()[1:]), (70, b"", wanted)
    # Ctrl-C signals a group of processes. The group heeds it, also if this run does not.
    heeds = lambda: signal.signal(signal.SIGINT, signal.SIG_DFL)
    process = start(root, WAITS, program, start_new_session=True, preexec_fn=heeds)
    room, limit = root.parent / "room", time.monotonic() + 30
    while not (room / "called").exists() and time.monotonic() < limit:
        time.sleep(0.01)
    os.killpg(process.pid, signal.SIGINT)
    status, wrote, said = ended(process)
    yield "./stamp if the build is interrupted", (status, wrote, said.splitlines()[1:]), (70, b"", [f"{NOT_BUILT}it was interrupted"])
    yield "what an interrupted build leaves", [it.name for it in room.iterdir()], ["called"]


def good_builds(root, program):
    """The program is built once, and gets the streams of each call. Python alone would not start with a folder as its input."""
    usual = ended(subprocess.Popen([program, *SIGN], stdin=subprocess.DEVNULL, stdout=subprocess.PIPE, stderr=subprocess.PIPE))
    yield "./stamp that builds", ended(start(root, BUILDS, program))[:2], usual[:2]
    yield "./stamp after that", ended(start(root, NEVER_CALLED, program)), usual
    source = root / "crates" / "stamp_main" / "src" / "main.rt"
    source.write_text("fn main() {}\n", encoding="utf-8")
    status, wrote, said = ended(start(root, NEVER_CALLED, program))
    wanted = ["the toolchain was called", f"{NOT_BUILT}the lines above say why"]
    yield "./stamp after a change of a source", (status, wrote, said.splitlines()[1:]), (70, b"", wanted)
    source.unlink()
    yield "./stamp after the source is as it was", ended(start(root, NEVER_CALLED, program)), usual
    folder = os.open(root, os.O_RDONLY)
    yield "./stamp with a folder as its input", ended(start(root, None, program, stdin=folder)), (3, b"", "")
    os.close(folder)


def bad_words(root, program):
    """Each bad word of `serve` is told in one line, after the usage if the program would print it."""
    def served(words):
        return ended(start(root, NEVER_CALLED, program, ["serve", *words]))

    for place, word, reason in BAD_WORDS:
        words = [*SERVED[:place], word, *SERVED[place + 1 :]]
        yield f"./stamp serve with {word} as its word {place + 1}", served(words), (2, b"", f"{USAGE}stamp: {reason}\n")
    reason = "serve takes five words, ADDRESS WORKERS ACCOUNT KEY1 KEY2; 4 were given"
    yield "./stamp serve with four words", served(SERVED[:4]), (2, b"", f"{USAGE}stamp: {reason}\n")
    for place in (3, 4):
        words = [*SERVED[:place], "", *SERVED[place + 1 :]]
        yield f"./stamp serve with an empty word {place + 1}", served(words), (2, b"", f"stamp: KEY{place - 2} {IS_EMPTY}\n")


def addresses_that_cannot_be_taken(root, program):
    with socket.socket() as taken:
        taken.bind(("127.0.0.1", 0))
        taken.listen()
        for address, why in (
            (f"127.0.0.1:{taken.getsockname()[1]}", "Address already in use"),
            (SERVED[0], "Cannot assign requested address"),
            ("127.0.0.1", "an address is a host and a port, as in 127.0.0.1:10800"),
        ):
            wanted = f"stamp: the address {address} cannot be taken: {why}\n"
            yield f"./stamp serve {address}", ended(start(root, NEVER_CALLED, program, ["serve", address, *SERVED[1:]])), (3, b"", wanted)


def audit_files_that_cannot_be_opened(root, program):
    file = str(root.parent / "none" / "audit.txt")
    wanted = f"stamp: the file {file} of STAMP_AUDIT cannot be opened: No such file or directory\n"
    tried = start(root, NEVER_CALLED, program, ["serve", *SERVED], also={"STAMP_AUDIT": file})
    yield "./stamp serve with an audit file that cannot be opened", ended(tried), (3, b"", wanted)


def sizes_of_memory(root, program):
    """A size that is no size, or that is too small, is told. A server that may take little answers, and takes no more."""
    for size in ("64m", "63M", "0", "1.5G"):
        tried = start(root, NEVER_CALLED, program, ["serve", *SERVED], also={"STAMP_MEMORY": size})
        reason = f"STAMP_MEMORY is a size of at least 64M, as 900M or 4G, and not {size!r}"
        yield f"./stamp serve with STAMP_MEMORY={size}", ended(tried), (2, b"", f"stamp: {reason}\n")
    with socket.socket() as free:
        free.bind(("127.0.0.1", 0))
        address = free.getsockname()
    server = start(root, BUILDS, program, ["serve", f"127.0.0.1:{address[1]}", *SERVED[1:]], also={"STAMP_MEMORY": "256M"})
    server.stdout.readline()
    limits = Path(f"/proc/{server.pid}/limits").read_text(encoding="utf-8")
    with socket.create_connection(address) as client:
        client.settimeout(30)
        client.sendall(b"GET /devstoreaccount1/pics/a.txt HTTP/1.1\r\nHost: stamp\r\n\r\n")
        answer = client.recv(12)
    server.kill()
    server.communicate()
    yield "./stamp serve with STAMP_MEMORY=256M", (answer, "268435456" in limits), (b"HTTP/1.1 404", True)


def all_starts(program):
    with tempfile.TemporaryDirectory(prefix="stamp-start-") as folder:
        root = Path(folder).resolve() / "clone"
        make_tree(root)
        make_path(root.parent / "path")
        for name in ("bin", "room"):
            (root.parent / name).mkdir()
        for tried in (what_is_missing, what_cannot_be_kept, builds_that_fail, good_builds, bad_words, addresses_that_cannot_be_taken, audit_files_that_cannot_be_opened, sizes_of_memory):
            yield from tried(root, program)
