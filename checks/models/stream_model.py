"""A plain model of the three streams of a partition: lists of blocks on three nodes, and runs of calls over it.

It says what each call answers and which nodes are called. It was written from docs/streams.md and docs/formats/records.md, and never
calls the product.
"""
import random

ACCOUNT, BLOB, TYPE = "devstoreaccount1", "a.txt", "application/octet-stream"
NODES = range(3)
STEPS = 40


class Wire:
    """A wire whose answers are made up as it is called. It keeps them for the line of the call, and counts the calls of the run."""

    WELL, REFUSED, LOST = "012"

    def __init__(self):
        self.answers, self.calls, self.count = "", "", 0

    def begin(self):
        """A call of the streams begins."""
        self.answers, self.calls = "", ""

    def answer_to(self, node, is_put):
        raise NotImplementedError

    def called(self, node, is_put):
        answer = self.answer_to(node, is_put)
        self.count += 1
        self.answers += answer
        self.calls += ("abc" if is_put else "ABC")[node]
        return answer

    def put(self, node, replica, block):
        """Puts a block to a node. Says whether it was done."""
        answer = self.called(node, True)
        if answer != self.REFUSED:
            replica.append(block)
        return answer == self.WELL

    def ask(self, node):
        return self.called(node, False) == self.WELL


class Random(Wire):
    """Random answers. A node may be down for some time."""

    def __init__(self, dice):
        super().__init__()
        self.dice = dice
        self.rate = dice.choice((0, 0.02, 0.1, 0.3, 0.6))
        self.lost = dice.choice((0, 0.3, 0.7))
        self.falls = dice.choice((0, 0, 0.02, 0.1))
        self.down = [0, 0, 0]

    def answer_to(self, node, is_put):
        # A reader may try for long. At last each node answers.
        if len(self.answers) > 200:
            return self.WELL
        if self.dice.random() < self.falls:
            self.down[self.dice.randrange(3)] = self.dice.choice((2, 5, 20))
        if self.down[node]:
            self.down[node] -= 1
        elif self.dice.random() >= self.rate:
            return self.WELL
        return self.LOST if self.dice.random() < self.lost else self.REFUSED


class Fixed(Wire):
    """The answers of a list, or good ones, but for one more fault: at one call, or at one node, or at all nodes, from one call on."""

    ALL = "all"

    def __init__(self, seed=None, at=None, fault=None, down=None):
        super().__init__()
        self.seed, self.at, self.fault, self.down = seed, at, fault, down
        self.list = random.Random(seed).choices("012", (6, 3, 1), k=400) if seed else []

    def again(self, at=None, fault=None, down=None):
        return Fixed(self.seed, at, fault, down)

    def answer_to(self, node, is_put):
        if len(self.answers) > 200:
            return self.WELL
        if self.at is not None and self.down is None and self.count == self.at:
            return self.fault
        if self.down in (node, self.ALL) and self.count >= self.at:
            return self.fault or self.REFUSED
        return self.list[self.count] if self.count < len(self.list) else self.WELL


class Stream:
    """Extents, each of them a list of blocks on each node that has a copy of it."""

    def __init__(self, limit, sealed=()):
        self.limit, self.sealed = limit, [*sealed]
        self.begin_extent()

    def begin_extent(self):
        # What each node has, how many blocks are acknowledged, and the block that was not delivered to all nodes.
        self.last, self.done, self.doubt = [[], [], []], 0, None

    def is_sealed(self):
        return not self.done and self.doubt is None

    def close(self, wire):
        """Seals the last extent. None if no node answers, else whether the block that was tried is in it."""
        answered = [it for it in NODES if wire.ask(it)]
        if not answered:
            return None
        length = min(len(self.last[it]) for it in answered)
        kept = length > self.done
        self.sealed.append({it: self.last[it][:length] for it in answered})
        self.begin_extent()
        return kept

    def append(self, block, wire):
        """The place of the block, or how the append failed."""
        full = self.done and sum(map(len, self.last[0][: self.done])) + len(block) > self.limit
        if (self.doubt is not None or full) and self.close(wire) is None:
            return "busy"
        for _try in range(2):
            place = len(self.sealed), self.done
            if all([wire.put(it, self.last[it], block) for it in NODES]):
                self.done += 1
                return place
            self.doubt = block
            kept = self.close(wire)
            if kept is None:
                return "doubt"
            if kept:
                return place
        return "busy"

    def settle(self, wire):
        if self.doubt is None:
            return "clean"
        place = len(self.sealed), self.done
        kept = self.close(wire)
        return "busy" if kept is None else place if kept else "dropped"

    def seal(self, wire):
        """Whether the stream is sealed."""
        return self.is_sealed() or self.close(wire) is not None

    def give_up_front(self, count):
        """So many extents have no block any more, and each node has a copy of them. They keep their numbers."""
        for number in range(count):
            self.sealed[number] = {it: [] for it in NODES}

    def repair(self, number, node, wire):
        """Gives a node a copy of a sealed extent, and says how that ended. Other streams that share the extent keep it as it was."""
        if number >= len(self.sealed):
            return "missing"
        extent = self.sealed[number]
        if node in extent:
            return "done"
        blocks, copy = next(iter(extent.values())), []
        # The first node that answers ends the asks, and the first put that is not done ends the puts.
        if not any(wire.ask(it) for it in sorted(extent)) or not all(wire.put(node, copy, it) for it in blocks):
            return "unreachable"
        self.sealed[number] = {**extent, node: copy}
        return "done"

    def places(self):
        """All places with their blocks, in their order."""
        for number, extent in enumerate(self.sealed):
            for index, block in enumerate(next(iter(extent.values()))):
                yield (number, index), block
        for index, block in enumerate(self.last[0][: self.done]):
            yield (len(self.sealed), index), block

    def read(self, place, wire):
        """The block at a place, or None if no node with a copy answers."""
        number, index = place
        extent = self.sealed[number] if number < len(self.sealed) else dict(enumerate(self.last))
        for node in sorted(extent):
            if wire.ask(node):
                return extent[node][index]
        return None


class Change:
    """A change: the container's name, and the content of a blob that is put, if it is such a change, as places with lengths; and its epoch."""

    def __init__(self, name, pieces=None, epoch=0):
        self.name, self.pieces, self.epoch = name, pieces, epoch
        length = 2 + 8 + 4 + len(ACCOUNT) + 4 + len(name)
        if pieces is not None:
            length += 4 + len(BLOB) + 8 + 4 + len(TYPE) + 4 * 4 + 4 + 4 + 21 * len(pieces)
        # The model keeps a record as the change itself, with the length that its bytes have.
        self.length = length

    def __len__(self):
        return self.length

    def __str__(self):
        named = f"{self.name}@{self.epoch}"
        return named if self.pieces is None else f"{named} ={said_pieces(self.pieces)}"


def said_pieces(pieces):
    return "".join(f" {extent}.{index}:{length}" for (extent, index), length in pieces)


def said(answer):
    return answer if isinstance(answer, str) else f"kept {answer[0]}.{answer[1]}"


class Streams:
    """The three streams of a partition. Beside the nodes it keeps what a user may rely on: the changes, and the data by place."""

    def __init__(self, limit, log=(), blobs=(), rows=(), changes=(), data=()):
        self.limit = limit
        self.log, self.blobs, self.rows = Stream(limit, log), Stream(limit, blobs), Stream(limit, rows)
        self.changes, self.data, self.doubt = [*changes], dict(data), None

    def check(self):
        """What the nodes have is what a user may rely on."""
        assert [change for _, change in self.log.places()] == self.changes
        assert self.log.doubt is self.doubt
        blocks = dict(self.blobs.places())
        assert all(blocks[place] == block for place, block in self.data.items())

    def put(self, pieces, wire):
        """The pieces with their places, or None."""
        placed = []
        for piece in pieces:
            place = self.blobs.append(piece, wire)
            if isinstance(place, str):
                return None
            self.data[place] = piece
            placed.append((place, len(piece)))
        return placed

    def settled(self, doubt):
        """The older doubt has ended: its change is the next one of the log, or it is nowhere."""
        if doubt is not None and doubt in [change for _, change in self.log.places()]:
            self.changes.append(doubt)

    def log_change(self, change, wire):
        doubt, answer = self.doubt, self.log.append(change, wire)
        if self.log.doubt is not doubt or doubt is None:
            self.settled(doubt)
        self.doubt = change if answer == "doubt" else self.log.doubt
        if not isinstance(answer, str):
            self.changes.append(change)
            return "done"
        return answer

    def settle(self, wire):
        answer = self.log.settle(wire)
        if answer != "busy":
            self.settled(self.doubt)
            self.doubt = None
        return said(answer)

    def seal(self, wire):
        for stream in (self.log, self.blobs, self.rows):
            if not stream.seal(wire):
                return "busy"
            if stream is self.log:
                self.settled(self.doubt)
                self.doubt = None
        return "done"

    def repair(self, part, number, node, wire):
        return getattr(self, part).repair(number, node, wire)

    def checkpoint(self, rows, wire):
        """Rows take the place of the log and of the older rows, if each of them is written."""
        made = Stream(self.limit)
        if any(isinstance(made.append(row, wire), str) for row in rows):
            return "busy"
        self.log, self.rows, self.changes = Stream(self.limit), made, []
        return "done"

    def again(self, pieces, wire):
        """The pieces with their places at the end of the data, or None. All are read before one is put."""
        blocks = []
        for place, _ in pieces:
            blocks.append(self.blobs.read(place, wire))
            if blocks[-1] is None:
                return None
        return self.put(blocks, wire)

    def mark(self):
        """How many extents of the log and of the data are sealed."""
        return len(self.log.sealed), len(self.blobs.sealed)

    def give_up_before(self, mark):
        """The extents of the log and of the data before a mark have no block any more, and the rows neither. Gives the changes that were there."""
        log, blobs = mark
        given = sum(number < log for (number, _), _ in self.log.places())
        self.log.give_up_front(log)
        self.blobs.give_up_front(blobs)
        before, self.changes = self.changes[:given], self.changes[given:]
        self.rows, self.data = Stream(self.limit), {place: block for place, block in self.data.items() if place[0] >= blobs}
        return before

    def is_sealed(self):
        return all(it.is_sealed() for it in (self.log, self.blobs, self.rows))

    def share(self):
        return Streams(self.limit, self.log.sealed, self.blobs.sealed, self.rows.sealed, self.changes, self.data)

    def read(self, place, start, end, wire):
        block = self.blobs.read(place, wire)
        return "unreachable" if block is None else " ".join(map(str, block[start:end]))

    def walk(self, wire):
        for place, _ in self.log.places():
            while (change := self.log.read(place, wire)) is None:
                yield "!"
            yield str(change)


class Sweep:
    """A sweep that is under way: its mark, how far it has come, and the rows that were written before it came to them.

    A row is known by the container's name, and by 0 or by 1 and the blob's name: so the rows come in their order. A name and 2 come after all rows of
    a container."""

    START, END = ("",), (chr(0x10FFFF),)

    def __init__(self, mark):
        self.mark, self.cursor, self.touched = mark, self.START, set()

    def of_half(self):
        """The sweep of the upper half of a cut: it does not know the rows that were written before it came to them."""
        half = Sweep(self.mark)
        half.cursor = self.cursor
        return half

    def knows(self, row):
        """Whether the row was written since the mark. A container is known if one of its blobs was written before the cursor came to it."""
        is_touched = row in self.touched or row[1] == 0 and any(it[0] == row[0] for it in self.touched)
        return row <= self.cursor or is_touched


class Lines:
    """The lines of a run: what is asked of the program, and what it should say."""

    def __init__(self):
        self.asked, self.said, self.calls = "", "", 0

    def ask(self, *words):
        self.asked += " ".join(map(str, words)) + "\n"

    def call(self, wire, name, words, answer):
        self.ask(name, wire.answers or "-", *words)
        self.said += " ".join((name, *filter(None, [answer]))) + f" | {wire.calls}\n"
        self.calls += 1


class Run:
    """A run of calls. The names of its changes are counted, and it knows which puts are of the streams that it is on."""

    def __init__(self, lines, wire, limit):
        self.lines, self.wire = lines, wire
        self.all, self.known, self.at = [Streams(limit)], [set()], 0
        # Of each put the pieces with their places, or None.
        self.puts, self.names = [], 0
        lines.ask("streams", limit)

    def on(self, number):
        self.at = number
        self.lines.ask("on", number)

    def made(self, name, words, answer):
        self.all[self.at].check()
        self.lines.call(self.wire, name, words, answer)

    def change(self, pieces=None):
        """A change of the next name. The epoch rises with every fourth name."""
        self.names += 1
        return Change(f"name-{self.names}", pieces, self.names // 4)

    def put(self, *lengths):
        number = len(self.puts)
        pieces = [bytes((number * 37 + piece * 11 + at) % 251 for at in range(it)) for piece, it in enumerate(lengths)]
        self.wire.begin()
        placed = self.all[self.at].put(pieces, self.wire)
        self.puts.append(placed)
        if placed is not None:
            self.known[self.at].add(number)
        self.made("put", lengths, "busy" if placed is None else said_pieces(placed).strip())

    def log(self):
        change = self.change()
        self.wire.begin()
        self.made("log", [change.name, change.epoch], self.all[self.at].log_change(change, self.wire))

    def blob(self, number):
        change = self.change(self.puts[number])
        self.wire.begin()
        self.made("blob", [change.name, number, change.epoch], self.all[self.at].log_change(change, self.wire))

    def settle(self):
        self.wire.begin()
        self.made("settle", [], self.all[self.at].settle(self.wire))

    def seal(self):
        self.wire.begin()
        self.made("seal", [], self.all[self.at].seal(self.wire))

    def repair(self, part, number, node):
        self.wire.begin()
        self.made("repair", [part, number, node], self.all[self.at].repair(part, number, node, self.wire))

    def share(self):
        self.wire.begin()
        self.all.append(self.all[self.at].share())
        self.known.append({*self.known[self.at]})
        self.made("share", [], str(len(self.all) - 1))

    def read(self, number, piece, start, end):
        place, _ = self.puts[number][piece]
        self.wire.begin()
        self.made("read", [number, piece, start, end], self.all[self.at].read(place, start, end, self.wire))

    def walk(self):
        self.wire.begin()
        self.made("walk", [], " ".join(self.all[self.at].walk(self.wire)))


def random_step(run, dice):
    """One random call of a run."""
    streams, known = run.all[run.at], sorted(run.known[run.at])
    ways = {"put": 8, "log": 8, "settle": 2, "seal": 2, "walk": 2, "blob": 8 * bool(known), "read": 5 * any(map(run.puts.__getitem__, known))}
    ways["share"] = 20 * (streams.is_sealed() and len(run.all) < 4)
    ways["on"] = 2 * (len(run.all) > 1)
    sealed = [it for it in ("log", "blobs", "rows") if getattr(streams, it).sealed]
    ways["repair"] = 6 * bool(sealed)
    way = dice.choices([*ways], [*ways.values()])[0]
    if way == "on":
        run.on(dice.randrange(len(run.all)))
    elif way == "put":
        run.put(*(dice.randint(1, 30) for _ in range(dice.randint(0, 4))))
    elif way == "repair":
        part = dice.choice(sealed)
        run.repair(part, dice.randint(0, len(getattr(streams, part).sealed)), dice.randrange(3))
    elif way == "blob":
        run.blob(dice.choice(known))
    elif way == "read":
        number = dice.choice([it for it in known if run.puts[it]])
        piece = dice.randrange(len(run.puts[number]))
        start, end = sorted(dice.choices(range(run.puts[number][piece][1] + 1), k=2))
        run.read(number, piece, start, end)
    else:
        getattr(run, way)()


def random_run(seed):
    """The lines of a random run of forty calls."""
    dice, lines = random.Random(seed), Lines()
    run = Run(lines, Random(dice), dice.choice((1, 40, 150, 400, 1_000_000)))
    while lines.calls < STEPS:
        random_step(run, dice)
    for number in range(len(run.all)):
        run.on(number)
        run.walk()
    return lines


def fixed_run(lines, wire):
    """The lines of one run of forty calls. Returns how often the wire was called.

    Each put is of one piece, since one that runs out of memory at its second piece leaves its first piece in the data."""
    run = Run(lines, wire, 170)
    for round in range(4):
        run.put(round + 3)
        run.log()
        if run.puts[round] is None:
            run.log()
        else:
            run.blob(round)
            run.read(round, 0, 1, round + 2)
        run.put(20)
        run.log()
        if round == 2:
            run.seal()
            if run.all[run.at].is_sealed():
                run.share()
                run.on(1)
        run.settle()
        run.log()
        if round >= 2:
            run.repair("log", 0, round - 2)
        run.walk()
    while lines.calls < STEPS:
        run.log()
    return wire.count
