"""The additions of `./stamp` to the program: `--help` and `--version`, a free port for the port 0, and keys that are in files. It runs in a small tree that is
made for it, as in starting.py.

Each function gives what was tried, what came of it, and what was wanted.
"""
import re
import signal
import socket
import subprocess
import tempfile
import time
from pathlib import Path

import audited
import starting

KEYS = ("dGhlIGZpcnN0IGtleSBvZiBhIGZpbGU=", "dGhlIHNlY29uZCBrZXkgb2YgYSBmaWxl")
NEW = "YSB0aGlyZCBrZXk="
# In the place of the program: at its first start it ends as if somebody else had taken the port meanwhile.
ONCE_TAKEN = '#!/bin/sh\nif mkdir "$TMPDIR/taken" 2> /dev/null; then exit 3; fi\nexec {} "$@"\n'


def answered(root, program):
    """Help and version come on standard output, also if there is no program yet."""
    for words in (["--help"], ["-h"], ["serve", "--help"]):
        status, wrote, said = starting.ended(starting.start(root, starting.NEVER_CALLED, program, words))
        yield f"./stamp {' '.join(words)}", (status, wrote.startswith(b"usage: stamp serve "), b"@FILE" in wrote, said), (0, True, True, "")
    status, wrote, said = starting.ended(starting.start(root, starting.NEVER_CALLED, program, ["--version"]))
    wanted = rb"stamp of the sources [0-9a-f]{12}, for version 2012-02-12 of the Blob service\n"
    yield "./stamp --version", (status, bool(re.fullmatch(wanted, wrote)), said), (0, True, "")
    with open("/dev/full", "wb") as full:
        yield "./stamp --help on a full device", starting.ended(starting.start(root, starting.NEVER_CALLED, program, ["--help"], stdout=full)), (3, None, "")


def served(root, program, address, keys, **how):
    """A server, and the address that its line names."""
    words = ["serve", address, "4", audited.ACCOUNT, *keys]
    server = starting.start(root, starting.BUILDS, program, words, **how)
    return server, server.stdout.readline().decode().removeprefix("listening ").strip()


def end(server):
    server.terminate()
    return starting.ended(server)


def free_ports(root, program):
    """The line of the server names the port that was chosen."""
    starting.ended(starting.start(root, starting.BUILDS, program))
    for host in ("127.0.0.1", "localhost", "0.0.0.0"):
        server, address = served(root, program, f"{host}:0", audited.shown.REPLAY[3:])
        status = audited.status_of(address, audited.GET, None)
        name, _, port = address.rpartition(":")
        yield f"./stamp serve {host}:0", (name, port != "0", status, end(server)), (host, True, 404, (-signal.SIGTERM, b"", ""))


def ports_that_are_taken(root, program):
    """If somebody takes the port before the program, another one is tried."""
    taken = root.parent / "taken.sh"
    taken.write_text(ONCE_TAKEN.format(program), encoding="utf-8")
    taken.chmod(0o755)
    source = root / "crates" / "stamp_main" / "src" / "once.rt"
    source.write_text("// A program that is tried twice.\nfn once() {}\n", encoding="utf-8")
    server, address = served(root, str(taken), "127.0.0.1:0", audited.shown.REPLAY[3:])
    yield "./stamp serve if its port is taken meanwhile", (address[:10], audited.status_of(address, audited.GET, None)), ("127.0.0.1:", 404)
    end(server)


def words_of_processes():
    """The words of all processes, as `ps` shows them."""
    for file in Path("/proc").glob("[0-9]*/cmdline"):
        try:
            yield from file.read_bytes().decode(errors="replace").split("\0")
        except OSError:
            # It has ended.
            continue


def key_file(root, text, mode=0o600):
    file = root.parent / "key"
    file.unlink(missing_ok=True)
    file.write_text(text, encoding="utf-8")
    file.chmod(mode)
    return file


def keys_of_files(root, program):
    """No process has a true key among its words. The keys of the files sign, those that are among the words do not, and lines of the operator go on."""
    files = [root.parent / "first", root.parent / "second"]
    for file, key in zip(files, KEYS):
        file.write_text(f"{key}\n", encoding="utf-8")
        file.chmod(0o600)
    server, address = served(root, program, "127.0.0.1:0", [f"@{file}" for file in files], stdin=subprocess.PIPE)
    words = [*words_of_processes()]
    at = words.index(address)
    statuses = [audited.status_of(address, audited.GET, key) for key in (*KEYS, *words[at + 3 : at + 5])]
    yield "./stamp serve with keys in files", ([key in words for key in KEYS], statuses), ([False, False], [404, 404, 403, 403])
    server.stdin.write(f"rotate first {NEW}\n".encode())
    server.stdin.flush()
    answer = server.stdout.readline()
    yield "a rotation after that", (answer, [audited.status_of(address, audited.GET, key) for key in (KEYS[0], NEW)]), (b"epoch 3\n", [403, 404])
    yield "the end of that server", (*end(server)[::2], is_free(address)), (-signal.SIGTERM, "", True)
    server, address = served(root, program, "127.0.0.1:0", [KEYS[0], f"@{files[1]}"])
    yield "./stamp serve with one key in a file", [audited.status_of(address, audited.GET, key) for key in KEYS], [404, 404]
    server.kill()
    server.communicate()
    yield "the end of a server whose ./stamp is killed", is_free(address), True


def is_free(address):
    """Whether nobody listens at an address, once its server has had some time to end."""
    limit = time.monotonic() + audited.LIMIT
    host, port = address.split(":")
    while time.monotonic() < limit:
        with socket.socket() as it:
            if it.connect_ex((host, int(port))):
                return True
        time.sleep(0.01)
    return False


def bad_key_files(root, program):
    """A key file that others may read, that cannot be read or that has no key is refused, and nothing starts."""
    def tried(word):
        return starting.ended(starting.start(root, starting.NEVER_CALLED, program, ["serve", "127.0.0.1:0", "4", audited.ACCOUNT, word, "a2V5Mg=="]))

    for mode in (0o644, 0o640, 0o602):
        file = key_file(root, KEYS[0], mode)
        wanted = f"stamp: the file {file} of KEY1 may be read or written by others: chmod 600 {file}\n"
        yield f"a key file with the mode {mode:o}", tried(f"@{file}"), (3, b"", wanted)
    none = root.parent / "none"
    yield "a key file that does not exist", tried(f"@{none}"), (3, b"", f"stamp: the file {none} of KEY1 cannot be read: No such file or directory\n")
    file = key_file(root, "A" * 4001)
    yield "a key file that is too long", tried(f"@{file}"), (2, b"", f"stamp: the file {file} of KEY1 has more than 4,000 bytes\n")
    why = "KEY1 is not padded Base64: its length is a multiple of 4, with = at the end if need be"
    yield "a key file without Base64", tried(f"@{key_file(root, 'a2V5MQ')}"), (2, b"", f"{starting.USAGE}stamp: {why}\n")
    yield "a key file that is empty", tried(f"@{key_file(root, '')}"), (2, b"", f"stamp: KEY1 {starting.IS_EMPTY}\n")


def all_added(program):
    with tempfile.TemporaryDirectory(prefix="stamp-added-") as folder:
        root = Path(folder).resolve() / "clone"
        starting.make_tree(root)
        starting.make_path(root.parent / "path")
        for name in ("bin", "room"):
            (root.parent / name).mkdir()
        for tried in (answered, free_ports, keys_of_files, bad_key_files, ports_that_are_taken):
            yield from tried(root, program)
