#!/usr/bin/env python3
"""Sends a server what several clients send at once, and checks what only several connections can show.

usage: examples/with-stamp examples/clients/many.py

STAMP_URL, STAMP_ACCOUNT and STAMP_KEY name the server; examples/with-stamp sets them. One worker is enough. The session
creates two containers and deletes them at its end. Each check prints a line, and the last line has two counts. The status is 1 if a check failed. If
a request gets no reply within 20 seconds, the session ends.
"""
import base64
import os
import random
import socket
import subprocess
import sys
import threading
import time
from collections import Counter, namedtuple
from concurrent.futures import FIRST_COMPLETED, ThreadPoolExecutor, wait
from contextlib import ExitStack, contextmanager
from functools import partial
from itertools import cycle
from pathlib import Path
from urllib.parse import quote
from xml.etree import ElementTree

if "STAMP_URL" not in os.environ:
    sys.exit(__doc__)
sys.dont_write_bytecode = True
from session import BLOCK_BLOB, LIMIT, URL, Client, ask, digest, run, signed  # noqa: E402

CONTAINER = f"{URL.path}/many-{os.getpid()}-{time.time_ns()}"
KEPT = f"{CONTAINER}/kept"
NAMED = f"{CONTAINER}-names"
CALLERS, TRIES, COMMITS, CONNECTIONS = 8, 100, 100, 100
LARGEST = 67_108_864
# How many guests read by one policy, how often the policy is taken back, and how many reads come between two changes of it.
GUESTS, TURNS, READS = 3, 15, 25
TOKEN = Path(__file__).resolve().parent.parent / "token"
POLICY = (
    b"<SignedIdentifiers><SignedIdentifier><Id>guests</Id><AccessPolicy><Expiry>2099-12-31T00:00:00Z</Expiry><Permission>r</Permission>"
    b"</AccessPolicy></SignedIdentifier></SignedIdentifiers>"
)
# Forty names with what is escaped in a path, in a query or in XML. `%20` is three characters of a name, and not a space.
MARKS = (" ", "+", "&", "<", "%", "é", "~", "%20")
NAMES = sorted((name for it in MARKS for name in (it, it + it, f"{it}a", f"a{it}", f"a{it}b")), key=str.encode)
# Forty other names that come and go, in an order of chance, and how many of them do that between two pages, at least.
PASSING = random.Random(2012).sample([f"{name}-" for name in NAMES], len(NAMES))
MOVES = 5


def raise_number(target):
    """Tries again and again to raise the number in a blob by one. Returns the status and the ETag of each Put."""
    puts = []
    for _ in range(TRIES):
        with Client() as client:
            _, etag, number = client.ask("GET", target)
            status, new, _ = client.ask("PUT", target, b"%d" % (int(number) + 1), {**BLOCK_BLOB, "If-Match": etag})
            puts.append((status, new))
    return puts


def a_number():
    """Callers raise one number at once. A Put is refused if somebody else has raised the number since its Get."""
    target = f"{CONTAINER}/number"
    _, first, _ = ask("PUT", target, b"0", BLOCK_BLOB)
    with ThreadPoolExecutor(CALLERS) as pool:
        puts = [it for of_caller in pool.map(raise_number, [target] * CALLERS) for it in of_caller]
    etags = [first, *(etag for status, etag in puts if status == 201)]
    yield "each Put is accepted, or refused by its condition", {status for status, _ in puts} - {201, 412}, set()
    yield "the number at the end is the number of accepted Puts", int(ask("GET", target)[2]), len(etags) - 1
    yield "no ETag comes twice", len(set(etags)), len(etags)


def commit(target, block_list):
    """Commits a block list again and again. Returns the status and the ETag of each commit."""
    with Client() as client:
        return [client.ask("PUT", f"{target}?comp=blocklist", block_list)[:2] for _ in range(COMMITS)]


def read_until(done, target):
    """Reads a blob at least once, and until an event is set. Returns the ETag and the digest of each content."""
    reads = []
    with Client() as client:
        while not (reads and done.is_set()):
            _, etag, content = client.ask("GET", target)
            reads.append((etag, digest(content)))
    return reads


def commit_and_read(target, lists):
    """Two callers commit a list each, while two others read the blob. Returns the commits of each list, and all reads."""
    done = threading.Event()
    with ThreadPoolExecutor(4) as pool:
        readers = [pool.submit(read_until, done, target) for _ in range(2)]
        try:
            commits = list(pool.map(commit, [target] * 2, lists))
        finally:
            done.set()
    return commits, [it for reader in readers for it in reader.result()]


def block_list(ids):
    latest = "".join(f"<Latest>{it}</Latest>" for it in ids)
    return f"<BlockList>{latest}</BlockList>".encode()


def block_lists():
    """Two lists of the same blocks, each in its own order, are committed while others read. A reader sees one of them whole."""
    target = f"{CONTAINER}/blocks"
    blocks = {base64.b64encode(b"block%d" % it).decode(): bytes([it]) * 65_536 for it in range(8)}
    statuses = [ask("PUT", f"{target}?comp=block&blockid={it}", content)[0] for it, content in blocks.items()]
    yield "put the blocks", statuses, [201] * len(blocks)
    orders = [list(blocks), list(blocks)[::-1]]
    wholes = [digest(b"".join(blocks[it] for it in order)) for order in orders]
    lists = [block_list(order) for order in orders]
    status, first, _ = ask("PUT", f"{target}?comp=blocklist", lists[0])
    yield "commit a list of them", status, 201
    commits, reads = commit_and_read(target, lists)
    yield "commit both lists again and again", {status for of_list in commits for status, _ in of_list}, {201}
    named = {first: wholes[0]} | {etag: whole for whole, of_list in zip(wholes, commits) for _, etag in of_list}
    yield "each commit has an ETag of its own", len(named), 1 + 2 * COMMITS
    wrong = [etag for etag, read in reads if named.get(etag) != read]
    yield "each read is the whole of the list that its ETag names", wrong[:1], []


def a_deletion():
    """A blob is deleted after a Get has begun and before it ends."""
    target, content = f"{CONTAINER}/large", os.urandom(LARGEST)
    yield "put the largest blob that one Put may have", ask("PUT", target, content, BLOCK_BLOB)[0], 201
    with Client() as reader:
        reply = reader.send("GET", target)
        first = reply.read(1)
        yield "delete it during a Get", ask("DELETE", target)[0], 202
        yield "get it after that", ask("GET", target)[0], 404
        yield "the Get that had begun is whole", digest(first + reply.read()), digest(content)


@contextmanager
def others(calls):
    """Other callers, who act during a `with`, each in a thread. A call gets an event that is set at the end, and returns soon after that."""
    done = threading.Event()
    with ThreadPoolExecutor(len(calls)) as pool:
        running = [pool.submit(call, done) for call in calls]
        try:
            yield running
        finally:
            done.set()
    for it in running:
        it.result()


def wait_for_more(acts, count, running):
    """Waits until others have done so much more, or one of them has ended, which had no reply."""
    wanted = len(acts) + count
    while len(acts) < wanted and not wait(running, 0.001, FIRST_COMPLETED).done:
        pass


Act = namedtuple("Act", "began ended answer")


def timed(call, *given):
    """Calls a request. Returns when it began, when its reply had come, and its answer."""
    began = time.monotonic()
    answer = call(*given)
    return Act(began, time.monotonic(), answer)


def read_as_guest(target, reads, done):
    """Reads a blob by a token until an event is set, and notes each read."""
    with Client() as client:
        while not done.is_set():
            reads.append(timed(client.get_as_guest, target))


def change_the_policy(reads, guests):
    """Stores the policy and takes it back, again and again. After each change guests read some times. Returns the changes."""
    changes = []
    with Client() as owner:
        for body in [POLICY, b""] * TURNS:
            changes.append(timed(owner.ask, "PUT", f"{CONTAINER}?restype=container&comp=acl", body))
            wait_for_more(reads, READS, guests)
    return changes


def answers_after(changes, reads):
    """For each change the answers to reads that began after its reply and ended before the next change was sent."""
    ends = [it.began for it in changes[1:]] + [float("inf")]
    return [{read.answer for read in reads if it.ended < read.began and read.ended < end} for it, end in zip(changes, ends)]


def a_policy():
    """Guests read by the token of a stored policy, while its owner takes the policy back and stores it again."""
    target, reads = f"{CONTAINER}/shared", []
    yield "put a blob that is shared", ask("PUT", target, b"shared", BLOCK_BLOB)[0], 201
    words = [TOKEN, os.environ["STAMP_KEY"], CONTAINER, "-", "-", "-", "guests"]
    token = subprocess.run(words, stdout=subprocess.PIPE, check=True, text=True).stdout.strip()
    with others([partial(read_as_guest, f"{target}?{token}", reads)] * GUESTS) as guests:
        changes = change_the_policy(reads, guests)
    yield "change a policy again and again", {it.answer[0] for it in changes}, {200}
    after = answers_after(changes, reads)
    yield "requests after the policy was stored are allowed", [it for it in after[::2] if it != {(200, None)}], []
    yield "requests after the policy was taken back are refused", [it for it in after[1::2] if it != {(403, "S5")}], []


def path_of(name):
    return f"{NAMED}/{quote(name, safe='')}"


def put_names(names):
    """Puts an empty blob of each name. Returns the statuses."""
    with Client() as client:
        return {client.ask("PUT", path_of(name), b"", BLOCK_BLOB)[0] for name in names}


def come_and_go(names, moves, done):
    """Deletes blobs and puts them again, until an event is set. Half of them are gone at a time. Notes the status of each request."""
    half = len(names) // 2
    with Client() as client:
        for gone, new in cycle(zip(names, names[half:] + names[:half])):
            if done.is_set():
                break
            moves.append(client.ask("DELETE", path_of(gone))[0])
            moves.append(client.ask("PUT", path_of(new), b"", BLOCK_BLOB)[0])


def page_of(client, size, marker):
    """Asks for a page. Returns its names, and the marker of the next page."""
    target = f"{NAMED}?restype=container&comp=list&maxresults={size}&marker={quote(marker, safe='')}"
    page = ElementTree.fromstring(client.ask("GET", target)[2])
    return [it.text for it in page.iter("Name")], page.findtext("NextMarker")


def pages_of(size, moves, running):
    """All pages of a list, while others put and delete blobs between them. There are not more pages than names."""
    pages, marker = [], ""
    with Client() as client:
        for _ in NAMES + PASSING:
            names, marker = page_of(client, size, marker)
            pages.append(names)
            if not marker:
                break
            wait_for_more(moves, MOVES, running)
    return pages


def lists():
    """Names are listed page by page, while other names come and go between the pages."""
    yield "put eighty blobs", put_names(NAMES + PASSING), {201}
    moves = []
    with others([partial(come_and_go, PASSING[:20], moves), partial(come_and_go, PASSING[20:], moves)]) as running:
        for size in (1, 3, 7):
            pages = pages_of(size, moves, running)
            met = [name for page in pages for name in page]
            yield f"pages of {size}: names that stay, and are not met exactly once", [it for it in NAMES if met.count(it) != 1], []
            yield f"pages of {size}: names are in order, and none comes twice", met, sorted(set(met), key=str.encode)
            yield f"pages of {size}: names that come and go are met too", bool(set(met) & set(PASSING)), True
            yield f"pages of {size}: only the last may have fewer names", {len(page) for page in pages[:-1]}, {size}
    yield "names come and go", set(moves), {201, 202}


def part_of_a_put(end):
    """Opens a connection, and sends a Put Blob of `late` up to the place `end`, as in `put[:end]`."""
    headers = signed("PUT", KEPT, BLOCK_BLOB, len(b"late"))
    head = f"PUT {KEPT} HTTP/1.1\r\n" + "".join(f"{name}: {value}\r\n" for name, value in headers.items())
    connection = socket.create_connection((URL.hostname, URL.port), LIMIT)
    connection.sendall((head.encode() + b"\r\nlate")[:end])
    return connection


def without_a_head(sent):
    """Sends bytes that are not a head. Returns the status line of the reply, after the server has ended the connection."""
    with socket.create_connection((URL.hostname, URL.port), LIMIT) as connection, connection.makefile("rb") as reply:
        connection.sendall(sent)
        return reply.read().split(b"\r\n")[0]


def bad_clients():
    """Three clients wait inside a head. During that others leave inside a body or a head, or send what is not a head."""
    _, etag, _ = ask("PUT", KEPT, b"kept", BLOCK_BLOB)
    with ExitStack() as waiting:
        first, *_ = [waiting.enter_context(part_of_a_put(-len(b"\r\nlate"))) for _ in range(3)]
        for _ in range(20):
            part_of_a_put(-2).close()
            part_of_a_put(20).close()
        yield "bytes that are not a head", {without_a_head(b"hello\r\n\r\n") for _ in range(20)}, {b"HTTP/1.1 400 Bad Request"}
        yield "the first bytes of TLS", {without_a_head(b"\x16\x03\x01\x00\xff\r\n\r\n") for _ in range(20)}, {b""}
        yield "the blob is as it was", ask("GET", KEPT), (200, etag, b"kept")
        first.sendall(b"\r\nlate")
        yield "the rest of a head that waited", first.recv(20, socket.MSG_WAITALL), b"HTTP/1.1 201 Created"
    yield "the blob after that", ask("GET", KEPT)[2], b"late"


def connections():
    """More connections than any server has workers, one after the other: each worker has to be free again after its connection."""
    statuses = Counter(ask("GET", KEPT)[0] for _ in range(CONNECTIONS))
    yield "a hundred connections, one after the other", statuses, Counter({200: CONNECTIONS})


def containers():
    for it in (CONTAINER, NAMED):
        yield "create a container", ask("PUT", f"{it}?restype=container")[0], 201


def no_containers():
    for it in (CONTAINER, NAMED):
        yield "delete a container", ask("DELETE", f"{it}?restype=container")[0], 202


CHECKS = (containers, a_number, block_lists, a_deletion, a_policy, lists, bad_clients, connections, no_containers)


if __name__ == "__main__":
    sys.exit(run(CHECKS))
