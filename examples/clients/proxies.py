#!/usr/bin/env python3
"""Uses a server by two proxies for clients that speak a newer version: as-2012, and nginx with the file nginx.conf beside this one.

usage: examples/with-stamp examples/clients/proxies.py [FILES]

STAMP_URL, STAMP_ACCOUNT and STAMP_KEY name the server; examples/with-stamp sets them. The client brings a token. At the end it puts FILES small files
by each proxy in turn, 400 if no number is given, and prints how long that took. If this machine has no nginx, a line says so.

Each check prints a line, and the last line has two counts. The status is 1 if a check failed.
"""
import contextlib
import datetime
import http.client
import os
import shutil
import socket
import subprocess
import sys
import tempfile
import time
from concurrent.futures import ProcessPoolExecutor
from pathlib import Path

if "STAMP_URL" not in os.environ:
    sys.exit(__doc__)
sys.dont_write_bytecode = True
from session import ACCOUNT, LIMIT, URL, ask, digest, run  # noqa: E402

CLIENTS = Path(__file__).resolve().parent
CONTAINER = f"{URL.path}/proxies-{os.getpid()}"
NEWER = {"x-ms-version": "2019-12-12", "x-ms-blob-type": "BlockBlob"}
FILES, AT_ONCE, ONE_AFTER_ANOTHER = 400, 4, 300
LARGE = 64 * 1024 * 1024
# What nginx needs beside the file that is tried. It keeps its files in a folder of this session.
NGINX = """daemon off;
{user}
worker_processes auto;
pid {room}/nginx.pid;
events {{ worker_connections 1024; }}
http {{
    access_log off;
    client_body_temp_path {room}/bodies;
    proxy_temp_path {room}/proxy;
    fastcgi_temp_path {room}/fastcgi;
    uwsgi_temp_path {room}/uwsgi;
    scgi_temp_path {room}/scgi;
    {file}
}}
"""


def token(letters):
    end = (datetime.datetime.now(datetime.timezone.utc) + datetime.timedelta(hours=1)).strftime("%Y-%m-%dT%H:%M:%SZ")
    words = [CLIENTS.parent / "token", os.environ["STAMP_KEY"], f"/{ACCOUNT}/{CONTAINER.rpartition('/')[2]}", letters, "-", end, "-"]
    return subprocess.run(words, stdout=subprocess.PIPE, text=True, check=True).stdout.strip()


def is_listening(port):
    with contextlib.suppress(OSError), socket.create_connection(("127.0.0.1", port), timeout=1):
        return True
    return False


def free_port():
    with socket.socket() as it:
        it.bind(("127.0.0.1", 0))
        return it.getsockname()[1]


@contextlib.contextmanager
def as_2012():
    """Runs as-2012, and gives its port."""
    with subprocess.Popen([sys.executable, CLIENTS / "as-2012", "0"], stdout=subprocess.PIPE, text=True) as it:
        try:
            yield int(it.stdout.readline().rpartition(":")[2])
        finally:
            it.terminate()


@contextlib.contextmanager
def nginx():
    """Runs nginx with the file beside this one, in which the ports are others, and gives its port."""
    port, user = free_port(), "user root;" if os.geteuid() == 0 else ""
    file = (CLIENTS / "nginx.conf").read_text(encoding="utf-8").replace("127.0.0.1:10800", URL.netloc).replace("127.0.0.1:10801", f"127.0.0.1:{port}")
    with tempfile.TemporaryDirectory() as room:
        Path(room, "nginx.conf").write_text(NGINX.format(room=room, user=user, file=file), encoding="utf-8")
        with subprocess.Popen(["nginx", "-p", room, "-e", f"{room}/error.log", "-c", f"{room}/nginx.conf"]) as it:
            try:
                limit = time.monotonic() + LIMIT
                while not is_listening(port) and time.monotonic() < limit:
                    time.sleep(0.02)
                yield port
            finally:
                it.terminate()


class Guest:
    """A client with a token, and one connection to a proxy, which ends with the `with` that made it."""

    def __init__(self, port, letters="rwdl"):
        self.connection, self.token = http.client.HTTPConnection("127.0.0.1", port, timeout=LIMIT), token(letters)

    def __enter__(self):
        return self

    def __exit__(self, *_):
        self.connection.close()

    def ask(self, method, name, body=None, headers=None, query=""):
        """Returns the status of the reply, its headers and its body."""
        self.connection.request(method, f"{CONTAINER}{name}?{query}{self.token}", body, {**NEWER, **(headers or {})})
        reply = self.connection.getresponse()
        return reply.status, reply.headers, reply.read()


def connections_to_the_server():
    """How many connections to the server this machine has or had just before, or None if the system does not say."""
    with contextlib.suppress(OSError):
        return sum(line.split()[2].endswith(f":{URL.port:04X}") for line in Path("/proc/net/tcp").read_text().splitlines()[1:])
    return None


def head_of(method, name, *lines):
    query = f"{name}?{token('rw')}"
    return "\r\n".join([f"{method} {CONTAINER}{query} HTTP/1.1", "Host: proxy", *(f"{it}: {value}" for it, value in NEWER.items()), *lines, "", ""]).encode()


def first_line(stream):
    """The first line of the next head of a connection."""
    line = stream.readline()
    while stream.readline().strip():
        pass
    return line.decode().strip()


def waits_before_its_body(port):
    """What a client gets that sends no body before the interim reply, and after that sends it."""
    with socket.create_connection(("127.0.0.1", port), timeout=LIMIT) as it, it.makefile("rb") as stream:
        it.sendall(head_of("PUT", "/patient", "Content-Length: 5", "Expect: 100-continue"))
        interim = first_line(stream)
        it.sendall(b"hello")
        return interim, first_line(stream)


def is_refused_before_its_body(port):
    with socket.create_connection(("127.0.0.1", port), timeout=LIMIT) as it, it.makefile("rb") as stream:
        it.sendall(head_of("PUT", "/huge", f"Content-Length: {LARGE + 1}", "Expect: 100-continue"))
        return first_line(stream)


def checks_of(name, port, changes_more):
    """What a client with a token gets by a proxy. `changes_more`: it writes spaces as the server reads them, and tells the code of an error."""
    with Guest(port) as guest:
        yield f"{name}: put a blob", guest.ask("PUT", "/two%20words/a.txt", b"hello", {"Content-Type": "text/html"})[0], 201
        status, headers, body = guest.ask("GET", "/two%20words/a.txt", headers={"Accept-Encoding": "gzip"})
        yield f"{name}: get it, and nothing is compressed", (status, body, headers["Content-Encoding"], headers["ETag"][:2]), (200, b"hello", None, '"0')
        yield f"{name}: its ETag is a condition", guest.ask("GET", "/two%20words/a.txt", headers={"If-None-Match": headers["ETag"]})[0], 304
        yield f"{name}: get a part", guest.ask("GET", "/two%20words/a.txt", headers={"Range": "bytes=1-3"})[::2], (206, b"ell")
        yield f"{name}: ask for its properties", guest.ask("HEAD", "/two%20words/a.txt")[0], 200
        content = os.urandom(LARGE)
        yield f"{name}: put a large blob", guest.ask("PUT", "/large", content)[0], 201
        yield f"{name}: get it", digest(guest.ask("GET", "/large")[2]), digest(content)
        listed = guest.ask("GET", "", query="restype=container&comp=list&prefix=two+w&")[2].count(b"<Blob>")
        yield f"{name}: list by a prefix in which a space is written as a plus sign", listed, int(changes_more)
        status, headers, _ = guest.ask("GET", "/none")
        yield f"{name}: get what is not there", (status, headers["x-ms-error-code"]), (404, "BlobNotFound" if changes_more else None)
        before = connections_to_the_server()
        came = {guest.ask("PUT", "/again", b"%d" % it)[0] for it in range(ONE_AFTER_ANOTHER)}
        yield f"{name}: put a blob {ONE_AFTER_ANOTHER} times", came, {201}
        if before is not None:
            # (nginx has up to as many processes as the machine has processors)
            yield f"{name}: that took few connections", connections_to_the_server() - before < 20 + (os.cpu_count() or 1), True
    with Guest(port, "rl") as guest:
        status, headers, _ = guest.ask("PUT", "/two%20words/a.txt", b"other")
        yield f"{name}: a token without the letter w", (status, headers["x-stamp-rule"]), (403, "S11")
    yield f"{name}: a body waits for the interim reply", waits_before_its_body(port), ("HTTP/1.1 100 Continue", "HTTP/1.1 201 Created")


def put_part(port, part):
    with Guest(port) as guest:
        return {guest.ask("PUT", f"/{it:05}.txt", b"%d" % it)[0] for it in part}


def seconds_for(port, files):
    """Puts small files by several processes at once. Returns the seconds, and the statuses that came."""
    parts = [range(it, files, AT_ONCE) for it in range(AT_ONCE)]
    began = time.monotonic()
    with ProcessPoolExecutor(AT_ONCE) as clients:
        came = set().union(*clients.map(put_part, [port] * AT_ONCE, parts))
    return time.monotonic() - began, came


def session(files):
    def without():
        yield "create a container", ask("PUT", f"{CONTAINER}?restype=container")[0], 201
        with Guest(URL.port) as guest:
            status, headers, _ = guest.ask("PUT", "/a.txt", b"hello")
        yield "without a proxy a newer version is refused", (status, headers["x-stamp-rule"]), (400, "F6")

    def by_as_2012():
        with as_2012() as port:
            yield from checks_of("as-2012", port, True)
            yield "as-2012: a body that is too large is refused before it comes", is_refused_before_its_body(port), "HTTP/1.1 413 Payload Too Large"

    def by_nginx():
        with nginx() as port:
            yield from checks_of("nginx", port, False)
            with Guest(port) as guest:
                yield "nginx: a body in chunks", guest.ask("PUT", "/chunks", iter([b"hel", b"lo"]))[0], 201

    def small_files():
        with as_2012() as slow, nginx() as fast:
            took = []
            for port in (fast, slow):
                seconds, came = seconds_for(port, files)
                took.append(seconds)
                yield f"put {files:,} small files", came, {201}
        print(f"{files:,} small files took {took[0]:.2f} seconds by nginx and {took[1]:.2f} by as-2012, ratio {took[1] / took[0]:.2f}", flush=True)

    def at_the_end():
        yield "delete the container", ask("DELETE", f"{CONTAINER}?restype=container")[0], 202

    if shutil.which("nginx"):
        return without, by_as_2012, by_nginx, small_files, at_the_end
    print("not run: this machine has no nginx")
    return without, by_as_2012, at_the_end


def main(words):
    if len(words) > 1 or not all(it.isdecimal() and int(it) for it in words):
        print(__doc__, file=sys.stderr, end="")
        return 2
    return run(session(int(words[0]) if words else FILES))


if __name__ == "__main__":
    sys.exit(main(sys.argv[1:]))
