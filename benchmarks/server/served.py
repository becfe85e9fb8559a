"""A server that a script of the benchmarks starts, and signed requests to it."""
import contextlib
import email.utils
import http.client
import os
import select
import socket
import subprocess
import sys
import time
from pathlib import Path

import shown

ROOT = Path(__file__).resolve().parents[2]
ACCOUNT = "devstoreaccount1"
KEYS = ("a2V5MQ==", "a2V5Mg==")
CONTAINER = f"/{ACCOUNT}/pics"
# How many seconds a client waits for the server, which is longer than the server waits for a client.
PATIENCE = 150
# A client that sends the first half of a request, says so, and stops. If it goes on, it sends the second half and prints how many bytes of a
# reply came.
HALVES = """
import os, signal, socket, sys
request = sys.stdin.buffer.read()
connection = socket.create_connection(("127.0.0.1", int(sys.argv[1])), timeout=10)
connection.sendall(request[: len(request) // 2])
print("sent", flush=True)
os.kill(os.getpid(), signal.SIGSTOP)
try:
    connection.sendall(request[len(request) // 2 :])
    print(len(connection.recv(1000)), flush=True)
except OSError:
    print(0, flush=True)
"""


def first_line(stream):
    """The line that a server prints, or what has come of it if the server takes too long or ends."""
    line, limit = b"", time.monotonic() + PATIENCE
    while not line.endswith(b"\n") and select.select([stream], [], [], max(0, limit - time.monotonic()))[0]:
        more = os.read(stream.fileno(), 1000)
        if not more:
            break
        line += more
    return line


class Server:
    """A server at a free address of this machine. It is ended at the end of the block."""

    def __init__(self, program, workers, before="true", tool=(), lines=subprocess.DEVNULL):
        """`before` is a command of the shell that comes first, for example a limit. `tool` is a command that runs the server. `lines` is where the
        lines of its operator come from: a pipe for `obey`."""
        self.host, port = shown.free_address().split(":")
        self.port = int(port)
        words = [*tool, program, "serve", f"{self.host}:{port}", str(workers), ACCOUNT, *KEYS]
        self.process = subprocess.Popen(["sh", "-c", f'{before} && exec "$@"', "sh", *words], stdin=lines, stdout=subprocess.PIPE)
        self.pid = self.process.pid

    def __enter__(self):
        line = first_line(self.process.stdout)
        if line != f"listening {self.host}:{self.port}\n".encode():
            self.__exit__()
            raise ConnectionError(f"the server printed {line!r}")
        return self

    def __exit__(self, *_):
        self.process.kill()
        self.process.wait()
        self.process.stdout.close()
        if self.process.stdin:
            self.process.stdin.close()

    def obey(self, line):
        """What the server answers to a line of its operator."""
        self.process.stdin.write(f"{line}\n".encode())
        self.process.stdin.flush()
        return first_line(self.process.stdout).decode().rstrip("\n")

    def connect(self):
        return socket.create_connection((self.host, self.port), timeout=PATIENCE)

    def descriptors(self):
        return len([*Path(f"/proc/{self.pid}/fd").iterdir()])

    def size(self, name):
        """A size in KiB that the system tells of the process."""
        status = Path(f"/proc/{self.pid}/status").read_text()
        return int(status.partition(f"{name}:")[2].split()[0])

    def memory(self):
        """The resident size in KiB."""
        return self.size("VmRSS")

    def address_space(self):
        """How many bytes of addresses the process has, which is what `ulimit -v` limits."""
        return self.size("VmSize") << 10


@contextlib.contextmanager
def half_sender(server, request):
    """A client that has sent the first half of a request, and is stopped. It is ended at the end of the block."""
    client = subprocess.Popen([sys.executable, "-c", HALVES, str(server.port)], stdin=subprocess.PIPE, stdout=subprocess.PIPE)
    try:
        with client.stdin:
            client.stdin.write(request)
        client.stdout.readline()
        yield client
    finally:
        client.kill()
        client.wait()
        client.stdout.close()


def build():
    """Lets ./stamp build the program, if that is needed. If it cannot, it says why, and this run ends."""
    ran = subprocess.run([ROOT / "stamp", "sign", KEYS[0]], stdin=subprocess.DEVNULL, stdout=subprocess.DEVNULL)
    if ran.returncode:
        sys.exit(ran.returncode)


def head(method, target, *headers):
    """The head of a request, which is signed now and is good for 15 minutes."""
    date = email.utils.formatdate(usegmt=True)
    lines = [f"{method} {target} HTTP/1.1", "Host: localhost", *headers, f"x-ms-date: {date}", "x-ms-version: 2012-02-12"]
    text = "".join(f"{line}\n" for line in lines).encode()
    signature = subprocess.run([ROOT / "examples" / "signature", KEYS[0]], input=text, stdout=subprocess.PIPE, check=True).stdout
    return (text + signature + b"\n").replace(b"\n", b"\r\n")


def create(*headers, container=CONTAINER):
    """A Create Container."""
    return head("PUT", f"{container}?restype=container", "Content-Length: 0", *headers)


def put_head(name, size, container=CONTAINER):
    """The head of a Put Blob of so many bytes."""
    return head("PUT", f"{container}/{name}", f"Content-Length: {size}", "x-ms-blob-type: BlockBlob")


def get(name, container=CONTAINER):
    """A Get Blob."""
    return head("GET", f"{container}/{name}")


def reply(connection):
    """The reply that comes next: its status, the rule that it names or None, and its body."""
    response = http.client.HTTPResponse(connection)
    response.begin()
    return response.status, response.getheader("x-stamp-rule"), response.read()


def ask(server, *requests):
    """The replies to some requests, which are sent one after the other on one connection."""
    with server.connect() as connection:
        replies = []
        for request in requests:
            connection.sendall(request)
            replies.append(reply(connection))
        return replies


def wait_until(test, seconds):
    """Waits until a test holds, for at most so many seconds, and returns whether it holds."""
    limit = time.monotonic() + seconds
    while not test() and time.monotonic() < limit:
        time.sleep(0.01)
    return test()
