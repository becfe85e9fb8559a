#!/usr/bin/env python3
"""Uses a server as a compiler uses its cache, by four clients at once, and prints the memory that the server takes for it.

usage: examples/with-stamp examples/clients/cache.py [OBJECTS [SEED]]

OBJECTS is 20,000 if it is not given; with 200 the session takes about a second. SEED is a text: the objects and the order of the requests are made
from it. An object has 1 KiB to 1 MiB. Its length is the lesser of two that are spread evenly by logarithm. So half of the objects have less than
8 KiB, and 20,000 objects have some 850 MB together. The name of an object is the SHA-256 of its bytes.

STAMP_URL, STAMP_ACCOUNT and STAMP_KEY name the server; examples/with-stamp sets them. One worker is enough. These are the steps:

1. Each client visits each object once. Three clients get the object, and put it if the answer is 404. One client puts it and does not get it before.
   A put has `If-None-Match: *`. If the server has the object already, the answer is 409, which is a hit as good as a get. Two clients visit the
   objects in one order, and the other two in another order. So it is common that two clients want one object at the same time.
2. The clients delete half of the objects.
3. One client lists the other half, by pages of 5,000. The list has to have exactly their names and their lengths.
4. The clients get the other half, and compare every byte.
5. One client deletes the container.

Each check prints a line, and the last line has two counts. Other lines have the requests in a second, and the server's memory beside the bytes that
it keeps. The memory is that of the process that has the words `serve` and the address of STAMP_URL, if this machine has such a process. The status is
1 if a check failed. If a connection breaks, or if a request gets no reply within 20 seconds, the session ends.
"""
import contextlib
import hashlib
import os
import random
import sys
import time
from collections import Counter, namedtuple
from concurrent.futures import ThreadPoolExecutor
from itertools import zip_longest
from pathlib import Path
from xml.etree import ElementTree

if "STAMP_URL" not in os.environ:
    sys.exit(__doc__)
sys.dont_write_bytecode = True
from session import BLOCK_BLOB, URL, Client, ask, digest, run  # noqa: E402

CONTAINER = f"{URL.path}/cache-{os.getpid()}-{time.time_ns()}"
OBJECTS, SEED = 20_000, "2012"
CLIENTS = 4
SMALLEST, LARGEST = 1024, 1024 * 1024
PAGE = 5_000
ONLY_NEW = {**BLOCK_BLOB, "If-None-Match": "*"}
# An object can be made again from its seed.
Object = namedtuple("Object", "seed name length")


def content_of(seed):
    chance = random.Random(seed)
    length = round(SMALLEST * (LARGEST / SMALLEST) ** min(chance.random(), chance.random()))
    return hashlib.shake_128(seed.encode()).digest(length)


def object_of(seed):
    content = content_of(seed)
    return Object(seed, digest(content), len(content))


def get(client, it):
    """Gets an object. Returns the status of the reply, or `other bytes` if a reply of 200 has bytes with another name."""
    status, _, content = client.ask("GET", f"{CONTAINER}/{it.name}")
    return "other bytes" if status == 200 and digest(content) != it.name else status


def put(client, it):
    return client.ask("PUT", f"{CONTAINER}/{it.name}", content_of(it.seed), ONLY_NEW)[0]


def use(visits):
    """One client visits objects. Each of them comes with a flag: whether the client gets it before it puts it. Returns how often each answer came."""
    came = Counter()
    with Client() as client:
        for it, gets in visits:
            got = get(client, it) if gets else 404
            came["GET", got] += gets
            if got == 404:
                came["PUT", put(client, it)] += 1
    return came


def delete(objects):
    with Client() as client:
        return Counter(("DELETE", client.ask("DELETE", f"{CONTAINER}/{it.name}")[0]) for it in objects)


def compare(objects):
    """Gets objects and compares every byte. Returns how often each answer came."""
    came = Counter()
    with Client() as client:
        for it in objects:
            status, _, content = client.ask("GET", f"{CONTAINER}/{it.name}")
            came["GET", status if content == content_of(it.seed) else f"{status} with other bytes"] += 1
    return came


def page_of(client, marker):
    """Asks for a page. Returns the names and lengths of its blobs, and the marker of the next page."""
    reply = client.ask("GET", f"{CONTAINER}?restype=container&comp=list&maxresults={PAGE}&marker={marker}")[2]
    page = ElementTree.fromstring(reply)
    return [(it.findtext("Name"), int(it.findtext("Properties/Content-Length"))) for it in page.iter("Blob")], page.findtext("NextMarker")


def pages_of_list(most):
    """The pages of the list, each with the names and lengths of its blobs: all of them, or the first so many."""
    pages, marker = [], ""
    with Client() as client:
        while (marker or not pages) and len(pages) < most:
            page, marker = page_of(client, marker)
            pages.append(page)
    return pages


def shares(objects):
    """The objects as parts for the clients."""
    return [objects[it::CLIENTS] for it in range(CLIENTS)]


def server():
    """The folder in /proc of the process that has the server's command line, or None if there is no such process."""
    words = f"\0serve\0{URL.netloc}\0".encode()
    for it in Path("/proc").glob("[0-9]*"):
        with contextlib.suppress(OSError):
            if words in (it / "cmdline").read_bytes():
                return it
    return None


def memory():
    """The resident size of the server and the largest that it had, in KiB, or None if the server is not known."""
    folder = server()
    if not folder:
        return None
    lines = dict(line.split(":", 1) for line in (folder / "status").read_text().splitlines())
    return [int(lines[it].split()[0]) for it in ("VmRSS", "VmHWM")]


def print_memory(when, objects):
    """Prints the server's memory, if it is known, beside the bytes of the objects that it keeps."""
    kept, found = sum(it.length for it in objects) / 1024, memory()
    if found:
        beside = f"; {len(objects):,} objects have {kept:,.0f} KiB, ratio {found[0] / kept:.2f}" if kept else ""
        print(f"memory {when}: {found[0]:,} KiB, at most {found[1]:,} KiB so far{beside}", flush=True)


class Cache:
    """The objects of the cache, and the clients that use it."""

    def __init__(self, clients, objects, seed):
        self.clients, self.chance = clients, random.Random(seed)
        self.objects = list(clients.map(object_of, [f"{seed} {it}" for it in range(objects)]))
        self.kept = self.objects

    def all_at_once(self, what, call, parts):
        """Each client takes a part, all at once. Prints how many requests a second that made, and returns how often each answer came."""
        began = time.monotonic()
        came = sum(self.clients.map(call, parts), Counter())
        seconds, requests = time.monotonic() - began, sum(came.values())
        print(f"{what}: {requests:,} requests in {seconds:.1f} seconds, {requests / seconds:,.0f} a second", flush=True)
        return came

    def visits(self):
        """The visits of each client. Two clients have one order, and two have another."""
        orders = [self.chance.sample(range(len(self.objects)), len(self.objects)) for _ in range(CLIENTS // 2)]
        return [[(self.objects[it], it % CLIENTS != client) for it in orders[client // 2]] for client in range(CLIENTS)]

    def puts_and_gets(self):
        print_memory("at the start", [])
        yield "create a container", ask("PUT", f"{CONTAINER}?restype=container")[0], 201
        came = self.all_at_once("gets and puts", use, self.visits())
        hits = f"{came['GET', 200]:,} by a get and {came['PUT', 409]:,} by a put"
        print(f"{len(self.objects):,} objects; hits: {hits}; gets answered by 404: {came['GET', 404]:,}", flush=True)
        print_memory("after the puts", self.kept)
        yield "gets and puts have one of their answers", set(came) - {("GET", 200), ("GET", 404), ("PUT", 201), ("PUT", 409)}, set()
        yield "each object is put exactly once", came["PUT", 201], len(self.objects)
        with Client() as client:
            yield "put an object that the cache has", put(client, self.objects[0]), 409

    def deletions(self):
        gone = set(self.chance.sample(self.objects, len(self.objects) // 2))
        self.kept = [it for it in self.objects if it not in gone]
        came = self.all_at_once("deletions", delete, shares(sorted(gone)))
        print_memory("after the deletions", self.kept)
        yield "delete half of the objects", came, Counter({("DELETE", 202): len(gone)})

    def a_list(self):
        # There are not more pages than names.
        pages = pages_of_list(len(self.kept))
        listed, wanted = [it for page in pages for it in page], sorted((it.name, it.length) for it in self.kept)
        yield "the list has the names and the lengths of the other half", [it for it in zip_longest(listed, wanted) if it[0] != it[1]], []
        yield "only the last page may have fewer names", {len(page) for page in pages[:-1]} - {PAGE}, set()

    def every_byte(self):
        came = self.all_at_once("gets of what is left", compare, shares(self.kept))
        print_memory("at the end", self.kept)
        yield "every byte is as it was put", came, Counter({("GET", 200): len(self.kept)})

    def no_container(self):
        yield "delete the container", ask("DELETE", f"{CONTAINER}?restype=container")[0], 202
        print_memory("without the container", [])


def main(words):
    if len(words) > 2 or not all(it.isdecimal() and int(it) for it in words[:1]):
        print(__doc__, file=sys.stderr, end="")
        return 2
    objects, seed = int(words[0]) if words else OBJECTS, words[1] if len(words) > 1 else SEED
    with ThreadPoolExecutor(CLIENTS) as clients:
        it = Cache(clients, objects, seed)
        return run((it.puts_and_gets, it.deletions, it.a_list, it.every_byte, it.no_container))


if __name__ == "__main__":
    sys.exit(main(sys.argv[1:]))
