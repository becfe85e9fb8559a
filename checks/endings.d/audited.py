"""What a server writes to the file that STAMP_AUDIT names, and what it does if that file fails.

Each function gives what was tried, what came of it, and what docs/using.md and docs/formats/audit.md say.
"""
import os
import re
import resource
import signal
import socket
import subprocess
import tempfile
import time
from email.utils import formatdate
from pathlib import Path

import shown

SIGNATURE = shown.ROOT / "examples" / "signature"
ACCOUNT, FIRST, SECOND = shown.REPLAY[2:]
PICS = f"/{ACCOUNT}/pics"
CREATE = f"PUT {PICS}?restype=container HTTP/1.1\nContent-Length: 0\n"
PUT = f"PUT {PICS}/a%20b.txt HTTP/1.1\nContent-Length: 0\nx-ms-blob-type: BlockBlob\n"
GET = f"GET {PICS}/a%20b.txt HTTP/1.1\n"
# Requests, the key of each (none sends no credential), the status, and the line without its moment, if there is one.
REQUESTS = (
    (CREATE, FIRST, 201, f"shared key1 CreateContainer {PICS} 0"),
    (PUT, SECOND, 201, f"shared key2 PutBlob {PICS}/a%20b.txt 1"),
    (GET, None, 404, None),
    (GET, "a2V5Mw==", 403, None),
    (GET.replace("a%20b", "c"), FIRST, 404, None),
    (f"GET /{ACCOUNT}?comp=list HTTP/1.1\n", FIRST, 200, None),
    (GET, FIRST, 200, f"shared key1 GetBlob {PICS}/a%20b.txt 2"),
)
MOMENT = re.compile(r"\d{4}-\d\d-\d\dT\d\d:\d\d:\d\d\.\d{7}Z ")
# How long lines may take, in seconds, and how long it is waited for a line that should not come.
LIMIT, PAUSE = 10, 0.3
# How many bytes a file without room takes: the first line and some of the second one.
ROOM = 120


def head_by(head, key):
    """The head at this moment, signed by the key, with its empty line."""
    head = (head + f"x-ms-date: {formatdate(usegmt=True)}\n").encode()
    line = subprocess.run([SIGNATURE, key], input=head, stdout=subprocess.PIPE, check=True).stdout if key else b""
    return (head + line + b"Connection: close\n\n").replace(b"\n", b"\r\n")


def status_of(address, head, key):
    host, port = address.split(":")
    with socket.create_connection((host, int(port)), timeout=LIMIT) as it:
        it.sendall(head_by(head, key))
        reply = b"".join(iter(lambda: it.recv(1 << 16), b""))
    return int(reply.split()[1])


def start(program, file, **how):
    """A server that keeps the file, and its address."""
    address = shown.free_address()
    words = [program, "serve", address, "4", *shown.REPLAY[2:]]
    how = {"stdin": subprocess.DEVNULL, "stdout": subprocess.PIPE, "stderr": subprocess.PIPE, **how}
    server = subprocess.Popen(words, env={**os.environ, "STAMP_AUDIT": str(file)}, **how)
    server.stdout.readline()
    return server, address


def wait_until(test):
    limit = time.monotonic() + LIMIT
    while not test() and time.monotonic() < limit:
        time.sleep(0.01)


def session(program, file, requests, lines):
    """The statuses of the requests, and the lines of the file once it has so many."""
    server, address = start(program, file)
    try:
        statuses = [status_of(address, head, key) for head, key, _, _ in requests]
        wait_until(lambda: not file.is_file() or file.read_text().count("\n") >= lines)
        time.sleep(PAUSE)
        return statuses, server.poll(), file.read_text().splitlines() if file.is_file() else None
    finally:
        server.kill()
        server.communicate()


def lines_of_requests(program, folder):
    """Each request that was let in and names a container has its line, and a later server adds its lines at the end."""
    file, wanted = folder / "audit.txt", [line for *_, line in REQUESTS if line]
    for time_of_it in ("first", "second"):
        statuses, ended, lines = session(program, file, REQUESTS, len(wanted) * (1 if time_of_it == "first" else 2))
        yield f"the statuses beside the {time_of_it} audit file", (statuses, ended), ([status for _, _, status, _ in REQUESTS], None)
        yield f"moments of the {time_of_it} audit file", [line for line in lines if not MOMENT.match(line)], []
        yield f"lines of the {time_of_it} audit file", [MOMENT.sub("", line) for line in lines], wanted if time_of_it == "first" else 2 * wanted


def without_a_file(program, folder):
    """With an empty name no file is kept."""
    server, address = start(program, "")
    try:
        yield "a server without an audit file", status_of(address, CREATE, FIRST), 201
    finally:
        server.kill()
        server.communicate()


def files_that_fail(program, folder):
    """A file that cannot be opened ends `serve`, and nothing is written. A file that takes no bytes ends nothing."""
    file = folder / "none" / "audit.txt"
    words = [program, "serve", shown.free_address(), "4", *shown.REPLAY[2:]]
    ran = subprocess.run(words, env={**os.environ, "STAMP_AUDIT": str(file)}, stdin=subprocess.DEVNULL, capture_output=True, timeout=60)
    yield "an audit file that cannot be opened", (ran.returncode, ran.stdout, ran.stderr), (3, b"", b"")
    statuses, ended, lines = session(program, Path("/dev/full"), REQUESTS, 0)
    yield "an audit file on a full device", (statuses, ended, lines), ([status for _, _, status, _ in REQUESTS], None, None)


def a_file_without_room(program, folder):
    """While a file takes no more bytes, requests are served. Once it takes bytes again, each line comes whole, once and in its order."""
    file, wanted = folder / "small.txt", [line for *_, line in REQUESTS if line]

    def limit_file():
        # Without this, the system ends a process whose file would grow beyond its limit.
        signal.signal(signal.SIGXFSZ, signal.SIG_IGN)
        resource.setrlimit(resource.RLIMIT_FSIZE, (ROOM, resource.RLIM_INFINITY))

    server, address = start(program, file, preexec_fn=limit_file)
    try:
        statuses = [status_of(address, head, key) for head, key, _, _ in REQUESTS]
        wait_until(lambda: file.stat().st_size >= ROOM)
        time.sleep(PAUSE)
        got = (statuses, server.poll(), file.stat().st_size)
        yield "an audit file without room", got, ([status for _, _, status, _ in REQUESTS], None, ROOM)
        resource.prlimit(server.pid, resource.RLIMIT_FSIZE, (resource.RLIM_INFINITY, resource.RLIM_INFINITY))
        wait_until(lambda: file.read_text().count("\n") >= len(wanted))
        time.sleep(PAUSE)
        yield "its lines once it has room", [MOMENT.sub("", line) for line in file.read_text().splitlines()], wanted
    finally:
        server.kill()
        server.communicate()


def other_commands(program, folder):
    """Only `serve` reads the variable."""
    environment = {**os.environ, "STAMP_AUDIT": str(folder / "none" / "audit.txt")}
    ran = subprocess.run([program, *shown.REPLAY], env=environment, stdin=subprocess.DEVNULL, capture_output=True, timeout=60)
    yield "a replay beside an audit file that cannot be opened", (ran.returncode, ran.stdout, ran.stderr), (0, b"", b"")


def all_audited(program):
    with tempfile.TemporaryDirectory(prefix="stamp-audit-") as folder:
        for tried in (lines_of_requests, without_a_file, files_that_fail, a_file_without_room, other_commands):
            yield from tried(program, Path(folder))
