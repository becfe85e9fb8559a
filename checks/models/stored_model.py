"""A plain model of stored rows: the containers are what the accepted changes make of them, whatever is loaded. A row that a sweep has written says
what the changes before it made of its container or of its blob.

It uses the model of the streams in stream_model.py. It was written from docs/streams.md and docs/formats/records.md, and never
calls the product.
"""
import random

from stream_model import BLOB, TYPE, Change, Fixed, Lines, Random, Streams, Sweep

STEPS = 40
NAMES = [f"name-{number}" for number in range(8)]
# The moment, the level and the number of pairs of metadata of a container that is created.
CREATED = 8 + 1 + 4
# The count, and whether the container exists; and its ETag, moment, level, metadata and policies.
COUNTED, STANDING = 8 + 1, 8 + 8 + 1 + 4 + 4
# The name, and whether there is a committed part; its ETag, moment, properties, metadata, and one block without an id; and no uncommitted block.
COMMITTED = 4 + len(BLOB) + 1 + 8 + 8 + 4 + len(TYPE) + 4 * 4 + 4 + 4 + 4 + 4 + 4
PIECE = 21


class Created(Change):
    """The change that creates a container."""

    def __init__(self, name, epoch):
        super().__init__(name, None, epoch)
        self.length += CREATED


class ContainerRow(Change):
    """The own row of a container."""

    def __init__(self, name, count, exists):
        super().__init__(name)
        self.count, self.exists = count, exists
        self.length += COUNTED + STANDING * exists


class BlobRow(Change):
    """The row of a blob."""

    def __init__(self, name, pieces):
        super().__init__(name)
        self.pieces = pieces
        self.length += COMMITTED + PIECE * len(pieces)


ROWS = (ContainerRow, BlobRow)


def containers(changes):
    """What the changes make: of each name its count, whether it exists, and the places of its blob, if there is a blob."""
    made = {}
    for change in changes:
        count, exists, blob = made.get(change.name, (0, False, None))
        if isinstance(change, ROWS):
            own = isinstance(change, ContainerRow)
            made[change.name] = (change.count, change.exists, blob) if own else (count, exists, change.pieces)
            continue
        if isinstance(change, Created):
            # A container that exists is created only by a request that is refused, so no change does it.
            exists, blob = True, None
        elif change.pieces is None:
            exists, blob = False, None
        else:
            blob = change.pieces
        made[change.name] = count + 1, exists, blob
    return made


class Stored:
    """Rows of a range of names. A name comes before another one as their bytes do."""

    def __init__(self, streams, low="", high=None):
        self.streams, self.low, self.high, self.is_loaded, self.sweep = streams, low, high, True, None

    def covers(self, name):
        return self.low <= name and (self.high is None or name < self.high)

    def found(self, name):
        return containers(self.streams.changes).get(name, (0, False, None))

    def has_row_doubt(self):
        return isinstance(self.streams.doubt, ROWS)

    def has_doubt(self):
        return self.streams.doubt is not None and not self.has_row_doubt()

    def is_sure(self):
        return self.streams.doubt is None

    def settle(self, wire):
        """A row in doubt is left."""
        return "clean" if self.has_row_doubt() else self.streams.settle(wire).split()[0]

    def end_row(self, wire):
        if not self.has_row_doubt():
            return "clean"
        return "busy" if self.streams.settle(wire) == "busy" else "ended"

    def needs_row(self, name):
        """Whether the sweep does not know that the own row of a container was written. A container that has seen no change has no row."""
        return self.found(name)[0] > 0 and not self.sweep.knows((name, 0))

    def begin(self, wire):
        if self.sweep is None:
            if self.streams.seal(wire) != "done":
                return "busy"
            self.sweep = Sweep(self.streams.mark())
        return "done"

    def next_row(self):
        """The cursor after the row that comes next, and the row, if a row comes."""
        name, *rest = self.sweep.cursor
        # After a cut the cursor may be in a container of the other half.
        if rest and rest[0] == 0 and self.covers(name) and self.found(name)[2] is not None:
            return (name, 1, BLOB), BlobRow(name, self.found(name)[2])
        if rest and rest[0] < 2:
            return (name, 2), None
        left = sorted(it for it in containers(self.streams.changes) if self.covers(it) and it > name)
        return ((left[0], 0), ContainerRow(left[0], *self.found(left[0])[:2])) if left else (Sweep.END, None)

    def write(self, row, wire):
        """Puts the content of a row again, and logs the row."""
        if isinstance(row, BlobRow):
            row.pieces = self.streams.again(row.pieces, wire)
            if row.pieces is None:
                return "busy"
        return self.streams.log_change(row, wire)

    def step(self, rows, wire):
        """Writes so many rows. The end of a container counts as one."""
        for _ in range(rows):
            if not self.is_loaded or self.sweep is None:
                return "none"
            cursor, row = self.next_row()
            answer = self.write(row, wire) if row else "done"
            if answer != "done":
                return answer
            self.sweep.cursor = cursor
            if cursor == Sweep.END:
                return "over"
        return "left"

    def touch(self, name, wire):
        """Writes the own row of a container, unless the sweep knows it."""
        if not self.is_loaded or self.sweep is None or not self.needs_row(name):
            return "done"
        answer = self.write(ContainerRow(name, *self.found(name)[:2]), wire)
        if answer == "done":
            self.sweep.touched.add((name, 0))
        return answer

    def end(self):
        if self.sweep is None or self.sweep.cursor != Sweep.END:
            return "none"
        kept = {name: self.found(name) for name in NAMES if self.covers(name)}
        self.streams.give_up_before(self.sweep.mark)
        self.sweep = None
        assert kept == {name: self.found(name) for name in kept}
        return "over"

    def take(self, kind, name, epoch, pieces, wire):
        # A sweep that does not know the row which the change reads ends.
        if self.sweep and (not self.is_loaded or self.needs_row(name)):
            self.sweep = None
        change = Change(name, None, epoch)
        if kind == "create":
            change = Created(name, epoch)
        elif kind == "put":
            placed = self.streams.put(pieces, wire)
            if placed is None:
                return "busy"
            change = Change(name, placed, epoch)
        return self.streams.log_change(change, wire)

    def load(self, wire):
        """All changes are read in their order, of all names. The first one that no node gives ends the load."""
        if self.is_loaded:
            return "done"
        for place, _ in self.streams.log.places():
            if self.streams.log.read(place, wire) is None:
                return "busy"
        self.is_loaded = True
        return "done"

    def cut(self, middle, wire):
        """The upper half, or None if no node answers."""
        if self.streams.seal(wire) != "done":
            return None
        half = Stored(self.streams.share(), middle, self.high)
        half.is_loaded, half.sweep, self.high = self.is_loaded, self.sweep and self.sweep.of_half(), middle
        return half

    def keep(self, place, start, end, wire):
        """What a part of a block reads when it is fetched: its bytes, or the nodes and their copies of a sealed extent. None if no node answers."""
        blobs, (number, index) = self.streams.blobs, place
        if number < len(blobs.sealed):
            return blobs.sealed[number], index, start, end
        block = blobs.read(place, wire)
        return None if block is None else block[start:end]


def fetched(part, wire):
    if isinstance(part, bytes):
        return " ".join(map(str, part))
    extent, index, start, end = part
    for node in sorted(extent):
        if wire.ask(node):
            return " ".join(map(str, extent[node][index][start:end]))
    return "unreachable"


def shown(stored, name):
    if not stored.is_loaded:
        return "unloaded"
    if not stored.covers(name):
        return "out"
    count, exists, blob = stored.found(name)
    if not exists:
        return f"{count}:none"
    return f"{count}:empty" if blob is None else str(count) + "".join(f":at{length}" for _, length in blob)


class Run:
    """A run of calls. Only calls are made whose conditions hold: of names of the range, that fit, and without a doubt."""

    def __init__(self, lines, wire, limit):
        self.lines, self.wire = lines, wire
        self.all, self.at, self.parts, self.puts = [Stored(Streams(limit))], 0, [], 0
        lines.ask("stored", limit)

    @property
    def stored(self):
        return self.all[self.at]

    def on(self, number):
        self.at = number
        self.lines.ask("on", number)

    def made(self, name, words, answer):
        stored = self.stored
        stored.streams.check()
        marks = {"?": stored.has_doubt(), "~": stored.has_row_doubt(), "S": stored.sweep is not None}
        state = ("L" if stored.is_loaded else "U") + "".join(it for it in marks if marks[it])
        self.lines.call(self.wire, name, words, f"{answer} {state}".strip())

    def take(self, kind, name, *lengths):
        number, epoch = self.puts, len(self.stored.streams.changes) // 3
        self.puts += kind == "put"
        pieces = [bytes((number * 37 + piece * 11 + at) % 251 for at in range(it)) for piece, it in enumerate(lengths)]
        self.wire.begin()
        answer = self.stored.take(kind, name, epoch, pieces, self.wire)
        self.made(kind, [name, epoch, *([number, *lengths] if kind == "put" else [])], answer)

    def load(self):
        self.wire.begin()
        self.made("load", [], self.stored.load(self.wire))

    def unload(self):
        self.wire.begin()
        self.stored.is_loaded = False
        self.made("unload", [], "")

    def settle(self):
        self.wire.begin()
        self.made("settle", [], self.stored.settle(self.wire))

    def row(self):
        self.wire.begin()
        self.made("row", [], self.stored.end_row(self.wire))

    def begin(self):
        self.wire.begin()
        self.made("begin", [], self.stored.begin(self.wire))

    def step(self, rows):
        self.wire.begin()
        self.made("step", [rows], self.stored.step(rows, self.wire))

    def touch(self, name):
        self.wire.begin()
        self.made("touch", [name], self.stored.touch(name, self.wire))

    def end(self):
        self.wire.begin()
        self.made("end", [], self.stored.end())

    def seal(self):
        self.wire.begin()
        self.made("seal", [], self.stored.streams.seal(self.wire))

    def cut(self, middle):
        self.wire.begin()
        half = self.stored.cut(middle, self.wire)
        if half:
            self.all.append(half)
        self.made("cut", [middle], str(len(self.all) - 1) if half else "busy")

    def keep(self, name, piece, start, end):
        _, _, blob = self.stored.found(name)
        self.wire.begin()
        part = self.stored.keep(blob[piece][0], start, end, self.wire)
        self.parts.append(part)
        self.made("keep", [name, piece, start, end], "unreachable" if part is None else "done")

    def fetch(self, number):
        self.wire.begin()
        self.made("fetch", [number], fetched(self.parts[number], self.wire))

    def show(self):
        self.wire.begin()
        self.made("show", NAMES, " ".join(shown(self.stored, name) for name in NAMES))

    def blobs(self):
        """The names of the range whose blob has a piece."""
        return [name for name in NAMES if self.stored.covers(name) and self.stored.found(name)[2]]

    def kept(self):
        return [number for number, part in enumerate(self.parts) if part is not None]


def take_one(run, dice):
    """A change of a random name of the range that fits its container. If a sweep is under way, it is mostly touched before."""
    names = [name for name in NAMES if run.stored.covers(name)]
    name = dice.choice(names)
    if run.stored.sweep and dice.random() < 0.8:
        run.touch(name)
        if not run.stored.is_sure():
            return
    if not run.stored.found(name)[1]:
        run.take("create", name)
    elif dice.random() < 0.2:
        run.take("delete", name)
    else:
        run.take("put", name, *(dice.randint(1, 30) for _ in range(dice.randint(0, 3))))


def random_step(run, dice):
    """One random call of a run."""
    stored = run.stored
    if not stored.is_sure() and dice.random() < 0.6:
        return run.settle() if stored.has_doubt() else run.row()
    sure, names = stored.is_sure(), [name for name in NAMES if stored.covers(name)]
    ways = {"load": 5 * (not stored.is_loaded), "unload": 1.5, "settle": 0.5, "show": 4}
    ways |= {"take": 16 * (sure and bool(names)), "seal": sure, "cut": sure and len(run.all) < 4 and bool(names), "fetch": 3 * bool(run.kept())}
    ways |= {"row": 0.5 * (not stored.has_doubt()), "begin": sure * (4 - 3.5 * bool(stored.sweep)), "step": sure * (0.3 + 8 * bool(stored.sweep))}
    ways |= {"end": sure * (0.2 + 3 * bool(stored.sweep and stored.sweep.cursor == Sweep.END))}
    ways |= {"keep": 4 * (stored.is_loaded and bool(run.blobs())), "on": 3 * (len(run.all) > 1)}
    way = dice.choices([*ways], [*ways.values()])[0]
    if way == "on":
        run.on(dice.randrange(len(run.all)))
    elif way == "take":
        take_one(run, dice)
    elif way == "cut":
        run.cut(dice.choice(names))
    elif way == "step":
        run.step(dice.randint(1, 6))
    elif way == "keep":
        name = dice.choice(run.blobs())
        blob = stored.found(name)[2]
        piece = dice.randrange(len(blob))
        run.keep(name, piece, *sorted(dice.choices(range(blob[piece][1] + 1), k=2)))
    elif way == "fetch":
        run.fetch(dice.choice(run.kept()))
    else:
        getattr(run, way)()
    return None


def show_all(run):
    """All rows are loaded and shown, over a wire that is well."""
    run.wire = Fixed()
    for number in range(len(run.all)):
        run.on(number)
        run.show()
        run.load()
        run.show()


def random_run(seed):
    """The lines of a random run of forty calls."""
    dice, lines = random.Random(f"stored {seed}"), Lines()
    run = Run(lines, Random(dice), dice.choice((1, 60, 200, 500, 1_000_000)))
    while lines.calls < STEPS:
        random_step(run, dice)
    show_all(run)
    return lines


def fixed_run(lines, wire):
    """The lines of one run. Returns how often the wire was called.

    An extent takes all blocks, since a change that runs out of memory may leave its content in the data, which fills an extent."""
    run = Run(lines, wire, 1_000_000)

    def take(*words):
        if run.stored.has_doubt():
            run.settle()
        if run.stored.has_row_doubt():
            run.row()
        if run.stored.is_sure() and run.stored.covers(words[1]) and (words[0] == "create") != run.stored.found(words[1])[1]:
            run.take(*words)

    for round, name in enumerate(NAMES[:4]):
        take("create", name)
        take("put", name, round + 3)
        take("put", NAMES[0], 9)
        if run.blobs() and run.stored.is_loaded:
            run.keep(run.blobs()[0], 0, 1, 3)
        if round == 1:
            run.unload()
            run.load()
        if round == 2 and run.stored.is_sure():
            run.begin()
            run.step(1)
            if run.stored.is_sure():
                run.cut(NAMES[1])
        take("delete", name)
        run.settle()
        for number in run.kept()[-1:]:
            run.fetch(number)
        run.show()
    show_all(run)
    return wire.count
