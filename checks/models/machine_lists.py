"""Lists of steps of slots over streams: random ones, and one that is made again with a fault at each call of the wire.

A step is written as a line with the wire's answers, and machine_model.py says what it is answered.
"""
import random
import re
from base64 import b64encode
from functools import cache
from pathlib import Path

from body_model import STEPS as SECOND, http_date
from head_model import head_end, read_head
from replay_model import etag_text, hmac_of, string_to_sign
from machine_model import ACCOUNT, KEYS, Machine
from stream_model import Fixed, Lines, Random, Streams, Wire

STEPS, SHORT = 40, 10
# 2012-10-01T12:00:00Z.
NOON = 13_490_928_000_000_000
CONTAINERS = ["aaa", "bbb", "ccc", "mmm", "pics", "video", "zzz"]
BLOBS = ["a", "b"]
IDS = ["AAAA", "BBBB", "CCCC"]
CUTS = ["aab", "bbb", "ccd", "m00", "mmm", "q00", "video", "zz0"]
PARTS = ("log", "blobs", "rows")
NEW_KEYS = ("key1", "new1", "new2")
LIMITS = (1, 200, 500, 2_000, 1_000_000)
BUSY_LINE, UNKNOWN_LINE = b"\r\nx-stamp-rule: N1\r\n", b"\r\nx-stamp-rule: N2\r\n"
POLICY = "<SignedIdentifier><Id>p</Id><AccessPolicy><Permission>r</Permission></AccessPolicy></SignedIdentifier>"
DELIVERIES = Path(__file__).with_name("deliveries.txt")
# How often a random request is of each kind.
KINDS = {
    "create": 10, "describe": 2, "allow": 2, "delete": 3, "put": 14, "block": 8, "commit": 6, "label": 2, "remove": 3, "get": 18, "blocks": 2,
    "properties": 2, "acl": 1, "blobs": 2, "list": 5, "forged": 1,
}


def request(verb, path, moment, headers=(), body=b"", key=KEYS[0]):
    """A request as bytes, signed by a key, or without a signature if no key is given."""
    fields = [("x-ms-date", http_date(moment)), ("x-ms-version", "2012-02-12"), *headers]
    fields += [("Content-Length", len(body))] if verb == "PUT" else []
    head = f"{verb} /{ACCOUNT}{path} HTTP/1.1\r\n" + "".join(f"{name}: {value}\r\n" for name, value in fields)
    if key:
        signature = hmac_of(key, string_to_sign(read_head(head.encode() + b"\r\n"))).decode()
        head += f"Authorization: SharedKey {ACCOUNT}:{signature}\r\n"
    return head.encode() + b"\r\n" + body


def signed_anew(asked, keys):
    """A request with a signature by one of these keys in place of the one by the first pair's key of the same number, if it has that."""
    text = string_to_sign(read_head(asked[: head_end(asked, 0)]))
    for old, new in zip(KEYS, keys):
        if old != new and (signature := hmac_of(old, text)) in asked:
            return asked.replace(signature, hmac_of(new, text))
    return asked


def create(name, moment, *headers):
    return request("PUT", f"/{name}?restype=container", moment, headers)


def delete(name, moment):
    return request("DELETE", f"/{name}?restype=container", moment)


def put(name, blob, body, moment, *headers):
    return request("PUT", f"/{name}/{blob}", moment, [("x-ms-blob-type", "BlockBlob"), *headers], body)


def block(name, blob, it, body, moment):
    return request("PUT", f"/{name}/{blob}?comp=block&blockid={it}", moment, (), body)


def commit(name, blob, entries, moment):
    body = "".join(f"<{kind}>{it}</{kind}>" for kind, it in entries)
    return request("PUT", f"/{name}/{blob}?comp=blocklist", moment, (), f"<BlockList>{body}</BlockList>".encode())


def shown(verb, path, key=KEYS[0]):
    """Makes a request that reads, of the moment that it gets."""
    return lambda moment: request(verb, path, moment, key=key)


def all_reads(stamp):
    """Requests that show all containers and all that is in them."""
    yield from (shown("GET", f"?comp=list&include=metadata{it}") for it in ("", *(f"&marker={cut}" for cut in CUTS)))
    for name in stamp.containers:
        yield shown("GET", f"/{name}?restype=container&comp=list&include=metadata")
        yield shown("GET", f"/{name}?restype=container&comp=acl")
        for blob in stamp.containers[name].blobs:
            yield shown("GET", f"/{name}/{blob.decode()}")
            yield shown("GET", f"/{name}/{blob.decode()}?comp=blocklist&blocklisttype=all")


class Requests:
    """Random requests. Most of them are for objects that exist."""

    def __init__(self, dice, stamp):
        self.dice, self.stamp = dice, stamp

    def one(self, moment):
        kind = self.dice.choices([*KINDS], [*KINDS.values()])[0]
        there = [*self.stamp.containers]
        self.name = self.dice.choice(there if there and kind != "create" and self.dice.random() < 0.85 else CONTAINERS)
        blobs = [it.decode() for it in self.stamp.containers[self.name].blobs] if self.name in there else []
        self.blob = self.dice.choice(blobs if blobs and self.dice.random() < 0.7 else BLOBS)
        return getattr(self, kind)(moment)

    def body(self):
        return self.dice.randbytes(self.dice.choice((0, 1, 5, 80, 300)))

    def conditions(self):
        part = self.stamp.containers[self.name].blobs[self.blob.encode()].part if self.is_there() else None
        value = self.dice.choice(["*", etag_text(part.etag if part else 1).decode()])
        return [(self.dice.choice(["If-Match", "If-None-Match"]), value)] if self.dice.random() < 0.1 else []

    def is_there(self):
        return self.name in self.stamp.containers and self.blob.encode() in self.stamp.containers[self.name].blobs

    def labels(self):
        return [(f"x-ms-meta-{it}", self.dice.choice(["red", ""])) for it in self.dice.sample(["a", "b", "c"], self.dice.choice((0, 0, 1, 3)))]

    def level(self):
        level = self.dice.choice([None, None, "blob", "container"])
        return [("x-ms-blob-public-access", level)] if level else []

    def create(self, moment):
        return create(self.name, moment, *self.labels(), *self.level())

    def describe(self, moment):
        return request("PUT", f"/{self.name}?restype=container&comp=metadata", moment, self.labels())

    def allow(self, moment):
        body = f"<SignedIdentifiers>{POLICY * self.dice.randrange(2)}</SignedIdentifiers>".encode()
        return request("PUT", f"/{self.name}?restype=container&comp=acl", moment, self.level(), body)

    def delete(self, moment):
        return delete(self.name, moment)

    def put(self, moment):
        return put(self.name, self.blob, self.body(), moment, *self.labels(), *self.conditions())

    def block(self, moment):
        return block(self.name, self.blob, self.dice.choice(IDS), self.body(), moment)

    def commit(self, moment):
        kinds = ["Latest", "Latest", "Uncommitted", "Committed"]
        blob = self.stamp.containers[self.name].blobs[self.blob.encode()] if self.is_there() else None
        known = [b64encode(it).decode() for it in blob.blocks] if blob else []
        ids = known if known and self.dice.random() < 0.8 else IDS
        entries = [(self.dice.choice(kinds), it) for it in self.dice.choices(ids, k=self.dice.randrange(4))]
        return commit(self.name, self.blob, entries, moment)

    def label(self, moment):
        return request("PUT", f"/{self.name}/{self.blob}?comp=metadata", moment, self.labels())

    def remove(self, moment):
        return request("DELETE", f"/{self.name}/{self.blob}", moment, self.conditions())

    def get(self, moment):
        first = self.dice.randrange(12)
        ranges = [f"bytes={first}-", f"bytes={first}-{first + self.dice.randrange(300)}"]
        headers = [("x-ms-range", self.dice.choice(ranges))] if self.dice.random() < 0.4 else []
        key = self.dice.choice([*KEYS, None])
        return request("GET", f"/{self.name}/{self.blob}", moment, [*headers, *self.conditions()], key=key)

    def blocks(self, moment):
        kind = self.dice.choice(["all", "committed", "uncommitted"])
        return request("GET", f"/{self.name}/{self.blob}?comp=blocklist&blocklisttype={kind}", moment)

    def properties(self, moment):
        return request("HEAD", f"/{self.name}/{self.blob}", moment)

    def acl(self, moment):
        return request("GET", f"/{self.name}?restype=container&comp=acl", moment)

    def blobs(self, moment):
        return request("GET", f"/{self.name}?restype=container&comp=list", moment)

    def list(self, moment):
        parameters = (f"&marker={self.dice.choice(CUTS)}", f"&maxresults={self.dice.randint(1, 3)}", "&prefix=m")
        query = "".join(self.dice.choice(["", it]) for it in parameters)
        return request("GET", f"?comp=list{query}", moment)

    def forged(self, moment):
        return request("DELETE", f"/{self.name}?restype=container", moment, key=b"key3")


class Run:
    """A list of steps. A second passes with each request."""

    def __init__(self, lines, wire, limit):
        self.lines, self.wire, self.machine, self.moment = lines, wire, Machine(limit), NOON
        # The requests that were answered as made, and those of which the answer does not say it.
        self.known, self.unknown = [], []
        lines.ask("slots", limit)

    def step(self, name, *words):
        """Makes a step that has no request."""
        self.wire.begin()
        return self.made(name, words, getattr(self.machine, name)(*words, self.wire))

    def serve(self, make, is_stale=False):
        """Serves the request that is made of the next moment. It is signed by the pair in force, or by the first pair."""
        self.moment += SECOND
        self.wire.begin()
        asked = make(self.moment)
        asked = asked if is_stale else signed_anew(asked, self.machine.stamp.keys)
        answer = self.made("serve", [self.moment, asked.hex()], self.machine.serve(asked, self.moment, self.wire))
        if asked[:3] in (b"PUT", b"DEL"):
            self.known += [self.moment] * answer.startswith(b"HTTP/1.1 20")
            self.unknown += [self.moment] * (UNKNOWN_LINE in answer)
        return answer

    def fetch(self, number):
        return self.step("fetch", self.moment, number)

    def made(self, name, words, answer):
        """A step was answered so. It fails only if a call of the wire failed."""
        is_reply = isinstance(answer, bytes)
        is_failed = answer in ("busy", "unreachable") or is_reply and name == "serve" and (BUSY_LINE in answer or UNKNOWN_LINE in answer)
        assert not is_failed or self.wire.answers.strip(Wire.WELL)
        self.machine.check()
        self.lines.call(self.wire, name, words, answer.hex() if is_reply else answer)
        return answer

    def show(self, loads=True):
        """Over a wire that is well, each slot is settled, each ticket is fetched, and everything is read. The slots are loaded for it, if that is wanted."""
        self.wire = Fixed()
        for number in range(len(self.machine.slots)):
            self.step("settle", number)
            if loads:
                self.step("unload", number)
        for make in [*all_reads(self.machine.stamp)]:
            self.serve(make)
        for number in range(len(self.machine.tickets)):
            self.fetch(number)
        assert self.known == [it.moment for it in self.machine.history if it.moment not in self.unknown]


def random_slot(run, dice):
    """The number of a slot, or of none."""
    return dice.randrange(len(run.machine.slots) + (dice.random() < 0.05))


def repair(run, dice):
    """A repair of an extent that a node lacks, if there is one, or of any extent, or of the one after them."""
    at, part, node = random_slot(run, dice), dice.choice(PARTS), dice.randrange(3)
    streams = run.machine.slots[at].streams if at < len(run.machine.slots) else Streams(1)
    lacking = [(it, n, lost) for it in PARTS for n, extent in enumerate(getattr(streams, it).sealed) for lost in range(3) if lost not in extent]
    if lacking and dice.random() < 0.7:
        return run.step("repair", at, *dice.choice(lacking))
    return run.step("repair", at, part, dice.randrange(len(getattr(streams, part).sealed) + 1), node)


def sweep(run, dice):
    """A step of a sweep, mostly of one that is under way, if there is one."""
    sweeping = [number for number, it in enumerate(run.machine.slots) if it.sweep]
    at = dice.choice(sweeping) if sweeping and dice.random() < 0.8 else random_slot(run, dice)
    return run.step("sweep", at, dice.choice((1, 1, 2, 3)))


def random_step(run, dice, sweeps, often=1):
    """One random step of a list. A checkpoint or a whole sweep comes so many times as often. A core has no step of a part of a sweep."""
    slots = run.machine.slots
    in_doubt, unloaded = any(it.doubt for it in slots), not all(it.is_loaded for it in slots)
    ways = {"serve": 28, "settle": 1 + 3 * in_doubt, "seal": 2, "load": 0.5 + unloaded, "unload": 1.5, "move": 0.7, "repair": 2.5, "split": 1.5}
    ways |= {"checkpoint": often, "compact": 1.5 * often, "fetch": 0.2 + 3 * any(run.machine.tickets), "rotate": 2}
    ways["sweep"] = sweeps * (2 * often + 5 * any(it.sweep for it in slots))
    way = dice.choices([*ways], [*ways.values()])[0]
    if way == "serve":
        run.serve(Requests(dice, run.machine.stamp).one, dice.random() < 0.1)
    elif way == "fetch":
        held = [number for number, it in enumerate(run.machine.tickets) if it]
        run.fetch(dice.choice(held) if held and dice.random() < 0.9 else dice.randrange(len(run.machine.tickets) + 1))
    elif way == "split":
        run.step("split", random_slot(run, dice), dice.choice(CUTS))
    elif way == "rotate":
        run.step("rotate", "other" if dice.random() < 0.1 else ACCOUNT, dice.choice(("first", "second")), dice.choice(NEW_KEYS))
    elif way == "move":
        run.step("move", random_slot(run, dice), dice.randrange(3))
    elif way == "repair":
        repair(run, dice)
    elif way == "sweep":
        sweep(run, dice)
    else:
        run.step(way, random_slot(run, dice))


def fill(run, dice):
    """Makes some containers with blobs and blocks, over a wire that is well."""
    wire, run.wire = run.wire, Fixed()
    for name in dice.sample(CONTAINERS, 3):
        run.serve(lambda moment: create(name, moment))
        for it in BLOBS:
            run.serve(lambda moment: put(name, it, dice.randbytes(dice.choice((1, 80))), moment))
            for label in dice.sample(IDS, dice.randrange(3)):
                run.serve(lambda moment: block(name, it, label, dice.randbytes(5), moment))
    run.wire = wire


def random_run(seed, limits=LIMITS, sweeps=True):
    """The lines of a random list of forty steps, and of what it left. An extent has at most so many bytes as one of the limits says. Half of the lists
    begin with some containers and blobs."""
    dice, lines = random.Random(f"steps {seed}"), Lines()
    run = Run(lines, Random(dice), dice.choice(limits))
    if dice.random() < 0.5:
        fill(run, dice)
    begun = lines.calls
    while lines.calls < begun + STEPS:
        random_step(run, dice, sweeps)
    run.show(dice.random() < 0.5)
    return lines


def turned_run(seed, wire, limits, sweeps):
    """The lines of a short random list that often writes the rows again, and the letters of the calls of the wire in the list."""
    dice, lines = random.Random(f"turned {seed}"), Lines()
    run = Run(lines, wire, dice.choice(limits))
    run.serve(lambda moment: create("pics", moment))
    run.serve(lambda moment: put("pics", "a", b"hello", moment))
    while lines.calls < SHORT:
        random_step(run, dice, sweeps, 5)
    calls = "".join(it.rpartition("| ")[2] for it in lines.said.splitlines())
    run.show()
    return lines, calls


def turned_runs(seed, limits=LIMITS, sweeps=True):
    """A short random list over a wire that is well, and then with a fault at each of its calls in turn. After the fault the list may go on in
    another way, since what exists may be other things."""
    clean, calls = turned_run(seed, Fixed(), limits, sweeps)
    yield clean
    for at, letter in enumerate(calls):
        for fault in (Wire.REFUSED, Wire.LOST) if letter.islower() else (Wire.REFUSED,):
            yield turned_run(seed, Fixed(at=at, fault=fault), limits, sweeps)[0]


def script(run, sweeps):
    """The steps of one list, and what each was answered: a reply that a ticket holds is fetched at once. If sweeps are wanted, there are steps of
    sweeps too, with changes between them."""

    def serve(make, *words):
        answer = run.serve(lambda moment: make(*words, moment))
        return run.fetch(int(answer.split()[1])) if answer[:6] == "later " else answer

    def read(name):
        return serve(lambda moment: request("GET", f"/{name}/a", moment))

    yield serve(create, "pics")
    yield serve(put, "pics", "a", b"hello")
    yield serve(create, "aaa")
    yield serve(block, "pics", "a", "AAAA", b"one")
    yield serve(commit, "pics", "a", [("Latest", "AAAA"), ("Latest", "AAAA")])
    yield read("pics")
    yield run.step("seal", 0)
    yield run.step("repair", 0, "log", 0, 1)
    yield run.step("checkpoint", 0)
    yield run.step("unload", 0)
    yield read("pics")
    yield run.step("split", 0, "mmm")
    yield run.step("rotate", ACCOUNT, "first", "new1")
    yield serve(put, "aaa", "a", b"world")
    yield run.step("move", 1, 1)
    yield run.step("load", 1)
    yield run.step("compact", 1)
    yield read("pics")
    yield serve(put, "pics", "a", b"again")
    yield run.step("compact", 0)
    yield serve(delete, "aaa")
    yield read("pics")
    if not sweeps:
        return
    yield serve(create, "zzz")
    yield serve(block, "zzz", "a", "AAAA", b"one")
    # The own row of the first container is written. Then a change reads two rows that are not written yet.
    yield run.step("sweep", 1, 1)
    yield serve(commit, "zzz", "a", [("Latest", "AAAA")])
    yield run.step("sweep", 1, 3)
    yield serve(delete, "pics")
    yield run.step("sweep", 1, 3)
    yield read("zzz")
    # A sweep that goes on in both halves of a slot.
    yield run.step("sweep", 1, 3)
    yield run.step("split", 1, "zzz")
    yield run.step("sweep", 2, 9)
    yield read("zzz")
    yield run.step("sweep", 1, 9)
    # A sweep that a checkpoint ends.
    yield run.step("sweep", 2, 2)
    yield run.step("checkpoint", 2)
    yield run.step("unload", 2)
    yield read("zzz")


@cache
def clean_answers(limit, sweeps):
    return [*script(Run(Lines(), Fixed(), limit), sweeps)]


def fixed_run(wire, limit, sweeps):
    """The lines of one list and of what it left, and the letters of the calls of the wire in the list.

    If only one call fails, each answer is as if none failed."""
    lines = Lines()
    run = Run(lines, wire, limit)
    answers = [*script(run, sweeps)]
    calls = "".join(it.rpartition("| ")[2] for it in lines.said.splitlines())
    if wire.seed is None and wire.down is None and wire.at is not None:
        assert answers == clean_answers(limit, sweeps)
    run.show()
    return lines, calls


def rule_of(reply):
    """The status of a reply, and the rule that it names, if it names one."""
    named = re.search(rb"\r\nx-stamp-rule: (\w+)\r\n", reply)
    return (reply[9:12] + (b" " + named[1] if named else b"")).decode()


# The requests of worked lists.
ASKED = {"create": create, "delete": delete, "properties": lambda name, moment: request("GET", f"/{name}?restype=container", moment)}


def worked_run(text, limit):
    """The lines of a worked list, each step of which is answered as the list says."""
    lines = Lines()
    run = Run(lines, Fixed(), limit)
    for line in text.splitlines():
        step, answers, wanted = (it.strip() for it in line.split("|"))
        name, *words = step.split()
        run.wire = Fixed()
        run.wire.list = answers.replace(" ", "")
        if name in ASKED:
            assert rule_of(run.serve(lambda moment: ASKED[name](*words, moment))) == wanted, line
        else:
            assert run.step(name, *(int(it) if it.isdecimal() else it for it in words)) == wanted, line
    run.show()
    return lines


def worked_runs(limit, sweeps):
    text = "\n".join(it for it in DELIVERIES.read_text(encoding="utf-8").splitlines() if not it.startswith("#"))
    return [worked_run(it, limit) for it in re.split(r"\n\n+", text.strip()) if sweeps or "sweep" not in it]


def fault_runs(is_all, limit=170, sweeps=True):
    """The lines of one list, with each fault at each call of the wire, and with each call failing from there on. If all lists are wanted, also over
    a wire that is not well, with one fault less, and with each node down. Before them come the worked lists."""
    yield from worked_runs(limit, sweeps)
    for base in (Fixed(), Fixed(seed="not well"))[: 1 + is_all]:
        clean, calls = fixed_run(base.again(), limit, sweeps)
        yield clean
        for at, letter in enumerate(calls):
            faults = (Wire.REFUSED, Wire.LOST) if letter.islower() else (Wire.REFUSED,)
            for fault in (*faults, *(Wire.WELL for _ in range(base.seed is not None))):
                yield fixed_run(base.again(at, fault), limit, sweeps)[0]
            for fault in (Wire.REFUSED, Wire.LOST):
                yield fixed_run(base.again(at, fault, Fixed.ALL), limit, sweeps)[0]
            for node in range(3 * is_all):
                yield fixed_run(base.again(at, down=node), limit, sweeps)[0]
