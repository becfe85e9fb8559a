"""A plain model of slots over streams: what each step answers, which nodes it calls, and what it leaves.

The containers are what the accepted requests make in their order. A slot has three streams, from stream_model.py, and at most one request
whose change is in doubt, or one row that a sweep has written and that is in doubt. Replies are made by replay_model.py, and the lengths of records by
record_model.py. It was written from docs/streams.md and docs/theorem.md, and never calls the product.
"""
from head_model import head_end, read_head
from record_model import blob_row_length, container_row_length, record_length
from replay_model import Asked, Denial, Stamp, denied_bytes, range_of, reply_bytes, route
from stream_model import Streams, Sweep

ACCOUNT, KEYS = "devstoreaccount1", [b"key1", b"key2"]
SPANS = 256
BUSY, UNKNOWN = Denial("N1", 503, "ServerBusy"), Denial("N2", 500, "OperationTimedOut")


class Placed(bytes):
    """The content of a request, with its pieces: of each its place and its length."""

    pieces = ()


def placed(content, pieces):
    """The content with these pieces."""
    it = Placed(content)
    it.pieces = pieces
    return it


class Entry:
    """A request at its moment, and what its body says."""

    def __init__(self, asked, moment, said):
        self.asked, self.moment, self.said = asked, moment, said

    def place(self, pieces):
        self.asked.body = placed(self.asked.body, pieces)


class Logged:
    """The change of an entry, as a block of the log."""

    def __init__(self, entry, pieces):
        self.entry, self.length = entry, record_length(entry.asked, entry.said, pieces)

    def __len__(self):
        return self.length


class Row:
    """A row of a checkpoint or of a sweep, as a block: that of a blob, or of a container, which has no content. If it is in doubt, it has the pieces
    that each of its contents has if it is kept."""

    def __init__(self, length, blob=None):
        self.length, self.blob, self.spare = length, blob, []

    def __len__(self):
        return self.length

    def blocks(self):
        """The committed blocks in their order, and the uncommitted ones in the order of their ids."""
        if not self.blob:
            return [], []
        return self.blob.part.blocks if self.blob.part else [], sorted(self.blob.blocks.items())

    def whole(self):
        """The bytes of each content."""
        return [content for blocks in self.blocks() for _, content in blocks]

    def contents(self):
        """The pieces of each content."""
        return [content.pieces for content in self.whole()]

    def place(self, contents):
        """The contents are at new places."""
        new = iter(contents)
        committed, uncommitted = ([(it, placed(content, next(new))) for it, content in blocks] for blocks in self.blocks())
        if committed:
            self.blob.part.blocks = committed
        if uncommitted:
            self.blob.blocks.update(uncommitted)


class Containers(Stamp):
    """The containers of all slots. A page of containers ends at a bound."""

    bound = None

    def ListContainers(self, asked, moment, *rest):
        every, bound = self.containers, self.bound
        self.containers = {name: it for name, it in every.items() if bound is None or name < bound}
        status, headers, body = super().ListContainers(asked, moment, *rest)
        self.containers = every
        return status, headers, body.replace(b"<NextMarker></NextMarker>", b"<NextMarker>%s</NextMarker>" % (bound or "").encode())


class Slot:
    """The containers from the first key up to the bound, in streams. The rows of the last checkpoint, or those that the last sweep wrote, are what
    the entries before it made."""

    def __init__(self, streams, first="", bound=None, is_loaded=True, written=()):
        self.streams, self.first, self.bound, self.is_loaded, self.written = streams, first, bound, is_loaded, [*written]
        self.doubt, self.sweep = None, None

    def covers(self, name):
        return self.first <= name and (self.bound is None or name < self.bound)

    def entries(self):
        """All entries of its containers."""
        return [it for it in (*self.written, *logged(self.streams.changes)) if self.covers(it.asked.container)]

    def row_in_doubt(self):
        return self.streams.doubt if isinstance(self.streams.doubt, Row) else None

    def end_row_doubt(self, wire):
        """Ends the doubt of a row. Says whether the slot has none any more."""
        row = self.row_in_doubt()
        if row is None:
            return True
        ended = self.streams.settle(wire)
        if ended not in ("busy", "dropped"):
            row.place(row.spare)
        return ended != "busy"

    def load(self, wire):
        """All rows and then all changes are read in their order, of all names. The first one that no node gives ends the load."""
        if not self.is_loaded:
            self.is_loaded = all(it.read(place, wire) is not None for it in (self.streams.rows, self.streams.log) for place, _ in it.places())
        return self.is_loaded

    def checkpoint(self, rows, wire):
        """A sweep does not go on over a new log."""
        entries, self.sweep = self.entries(), None
        if self.streams.checkpoint(rows, wire) == "busy":
            return False
        self.written = entries
        return True

    def begin_sweep(self, wire):
        """Begins a sweep, if none is under way. Says whether one is under way."""
        if self.sweep is None and self.streams.seal(wire) == "done":
            self.sweep = Sweep(self.streams.mark())
        return self.sweep is not None

    def write(self, row, wire):
        """Puts the content of a row again, and logs the row. Says whether that was done."""
        contents = []
        for pieces in row.contents():
            contents.append(self.streams.again(pieces, wire))
            if contents[-1] is None:
                return False
        answer = self.streams.log_change(row, wire)
        if answer == "done":
            row.place(contents)
        elif answer == "doubt":
            row.spare = contents
        return answer == "done"

    def end_sweep(self):
        """Each row was written: what came before is given up."""
        self.written += logged(self.streams.give_up_before(self.sweep.mark))
        self.sweep = None

    def keep(self, place, wire):
        """What a piece is read by when its ticket is fetched: the nodes and their copies of a sealed extent. It is empty if the piece is read now,
        and None if no node answers."""
        sealed, (number, _) = self.streams.blobs.sealed, place
        if number < len(sealed):
            return sealed[number]
        return {} if self.streams.blobs.read(place, wire) is not None else None


def logged(changes):
    """The entries of these changes. A row has none."""
    return [it.entry for it in changes if isinstance(it, Logged)]


def spans(asked, part):
    """The places of the pieces that go out."""
    pieces = [it for _, content in part.blocks for it in content.pieces]
    wanted = range_of(asked.head)
    start, last = wanted or (0, None)
    at = 0
    for place, length in pieces:
        if not wanted or start < at + length and (last is None or at <= last):
            yield place
        at += length


class Machine:
    """Slots, split points and tickets. Each step answers one word, or a reply."""

    def __init__(self, limit):
        self.stamp, self.history, self.epoch = Containers(ACCOUNT, [*KEYS]), [], 0
        self.slots, self.tickets = [Slot(Streams(limit))], []

    def check(self):
        """What the streams of a slot keep is its part of the history, its doubt is the one of its log, and each content is at its places."""
        for slot in self.slots:
            slot.streams.check()
            assert slot.entries() == [it for it in self.history if slot.covers(it.asked.container)]
            assert slot.row_in_doubt() or slot.doubt is (slot.streams.doubt and slot.streams.doubt.entry)
            assert slot.doubt is None or not slot.row_in_doubt()
            data = dict(slot.streams.blobs.places())
            for row in self.rows(slot):
                assert row.whole() == [b"".join(data[place] for place, _ in pieces) for pieces in row.contents()]

    # ---- requests

    def accept(self, entry):
        """The request is the next one of the history. Gives the parts of its reply."""
        self.history.append(entry)
        return self.stamp.answer(entry.asked, entry.moment, entry.said)

    def is_settled(self, slot, wire):
        """Ends the doubt of a slot. Says whether the slot has no doubt any more."""
        if slot.doubt is None:
            return True
        ended = slot.streams.settle(wire)
        if ended == "busy":
            return False
        if ended != "dropped":
            self.accept(slot.doubt)
        slot.doubt = None
        return True

    def is_cleared(self, slot, wire):
        """Ends the doubt of a slot, or of a row. Says whether the slot has none any more."""
        return self.is_settled(slot, wire) and slot.end_row_doubt(wire)

    def change(self, slot, entry, wire):
        asked, body = entry.asked, entry.asked.body
        if not (slot.end_row_doubt(wire) and self.is_touched(slot, asked, wire)):
            return denied(asked, entry.moment, BUSY)
        # The blocks that a list takes may be at new places.
        _, entry.said = self.stamp.denial(asked)
        pieces = slot.streams.put([body] if body and asked.name in ("PutBlob", "PutBlock") else [], wire)
        if pieces is None:
            return denied(asked, entry.moment, BUSY)
        entry.place(pieces)
        answer = slot.streams.log_change(Logged(entry, pieces), wire)
        if answer == "busy":
            return denied(asked, entry.moment, BUSY)
        if answer == "doubt":
            slot.doubt = entry
            return denied(asked, entry.moment, UNKNOWN)
        return told(asked, entry.moment, self.accept(entry))

    def read(self, slot, entry, wire):
        """The content is read now if all of it is in the last extent. Else a ticket keeps what is in sealed extents."""
        asked, parts = entry.asked, []
        if asked.name == "GetBlob":
            for place in spans(asked, self.stamp.found(asked).blobs[asked.blob].part):
                parts.append((slot.keep(place, wire), place))
                if parts[-1][0] is None:
                    return denied(asked, entry.moment, BUSY)
        self.stamp.bound = slot.bound
        reply = self.stamp.answer(asked, entry.moment, entry.said)
        if not any(extent for extent, _ in parts):
            return told(asked, entry.moment, reply)
        self.tickets.append((asked, reply, parts))
        return f"later {len(self.tickets) - 1}"

    def slot_for(self, asked):
        name = (asked.head.parameter(b"marker") or b"").decode() if asked.container is None else asked.container
        return next(it for it in self.slots if it.covers(name))

    def serve(self, request, moment, wire):
        end = head_end(request, 0)
        asked = Asked(read_head(request[:end]), request[end:])
        slot = self.slot_for(asked)
        if not (self.is_settled(slot, wire) and slot.load(wire)):
            return denied(asked, moment, BUSY)
        denial, said = route(asked.head)(asked, self.stamp, moment), None
        if not denial:
            denial, said = self.stamp.denial(asked)
        if denial:
            return denied(asked, moment, denial)
        changes = asked.head.verb in ("PUT", "DELETE")
        return (self.change if changes else self.read)(slot, Entry(asked, moment, said), wire)

    def fetch(self, moment, number, wire):
        """The reply of a ticket, with the moment of the fetch as its date."""
        if number >= len(self.tickets) or self.tickets[number] is None:
            return "no such ticket"
        asked, reply, parts = self.tickets[number]
        for extent, _ in parts:
            if extent and not any(wire.ask(node) for node in sorted(extent)):
                return "unreachable"
        self.tickets[number] = None
        return told(asked, moment, reply)

    def rotate(self, account, which, key, _wire):
        """Replaces a key, for all slots at once. What was accepted before stays, and so does a doubt, since no request is judged twice."""
        if account != ACCOUNT:
            return "no account"
        self.stamp.keys[("first", "second").index(which)] = key.encode()
        self.epoch += 1
        return f"epoch {self.epoch}"

    # ---- slots

    def split(self, at, middle, wire):
        if at >= len(self.slots):
            return "no such slot"
        slot = self.slots[at]
        if not (slot.first < middle and slot.covers(middle)):
            return "not inside"
        if len(self.slots) >= SPANS:
            return "full"
        if not self.is_cleared(slot, wire) or slot.streams.seal(wire) != "done":
            return "busy"
        upper = Slot(slot.streams.share(), middle, slot.bound, slot.is_loaded, slot.written)
        upper.sweep, slot.bound = slot.sweep and slot.sweep.of_half(), middle
        self.slots.insert(at + 1, upper)
        return "made"

    def on_slot(self, at, step):
        if at >= len(self.slots):
            return "no such slot"
        return step(self.slots[at])

    def settle(self, at, wire):
        return self.on_slot(at, lambda slot: "made" if self.is_settled(slot, wire) else "busy")

    def seal(self, at, wire):
        return self.on_slot(at, lambda slot: "made" if self.is_cleared(slot, wire) and slot.streams.seal(wire) == "done" else "busy")

    def load(self, at, wire):
        return self.on_slot(at, lambda slot: "made" if self.is_settled(slot, wire) and slot.load(wire) else "busy")

    def container_row(self, name):
        return Row(container_row_length(self.stamp.account, name, self.stamp.containers.get(name)))

    def blobs(self, name):
        """The blobs of a container in the order of their names."""
        container = self.stamp.containers.get(name)
        return sorted(container.blobs.items() if container else ())

    def blob_row(self, name, blob):
        it = self.stamp.containers[name].blobs[blob]
        return Row(blob_row_length(self.stamp.account, name, blob, it), it)

    def rows(self, slot):
        """The rows of the containers that a slot has, each before those of its blobs."""
        for name in filter(slot.covers, sorted(self.stamp.counts)):
            yield self.container_row(name)
            for blob, _ in self.blobs(name):
                yield self.blob_row(name, blob)

    def is_ready(self, slot, wire):
        """Whether a slot is settled and loaded, and has no row in doubt."""
        return self.is_settled(slot, wire) and slot.load(wire) and slot.end_row_doubt(wire)

    def checkpoint(self, at, wire):
        return self.on_slot(at, lambda slot: "made" if self.is_ready(slot, wire) and slot.checkpoint(self.rows(slot), wire) else "busy")

    # ---- sweeps

    def is_touched(self, slot, asked, wire):
        """Before a change the rows are written again that it reads, unless the sweep of the slot knows them. Says whether all of them are written."""
        name, blob, sweep = asked.container, asked.blob, slot.sweep
        if sweep is None:
            return True
        if name in self.stamp.counts and not sweep.knows((name, 0)):
            if not slot.write(self.container_row(name), wire):
                return False
            sweep.touched.add((name, 0))
        is_read = asked.name in ("SetMetadata", "PutBlock", "PutBlockList") and blob in dict(self.blobs(name))
        if is_read and not sweep.knows((name, 1, blob)):
            if not slot.write(self.blob_row(name, blob), wire):
                return False
            sweep.touched.add((name, 1, blob))
        return True

    def next_row(self, slot):
        """The next act of the sweep of a slot: the cursor after it, and the row, if a row is written; and none if no container is left."""
        cursor = slot.sweep.cursor
        name, *rest = cursor
        if rest and rest[0] < 2:
            # After a split the cursor may be in a container of the other half.
            left = [it for it, _ in self.blobs(name) if slot.covers(name) and (name, 1, it) > cursor]
            return ((name, 1, left[0]), self.blob_row(name, left[0])) if left else ((name, 2), None)
        left = [it for it in filter(slot.covers, sorted(self.stamp.counts)) if it > name or not rest]
        return ((left[0], 0), self.container_row(left[0])) if left else None

    def swept(self, slot, rows, wire):
        """Makes a step of so many rows, or of all rows. The end of a container counts as one."""
        if not (self.is_ready(slot, wire) and slot.begin_sweep(wire)):
            return "busy"
        while rows is None or rows:
            went = self.next_row(slot)
            if went is None:
                slot.end_sweep()
                return "over"
            cursor, row = went
            if row and not slot.write(row, wire):
                return "busy"
            slot.sweep.cursor = cursor
            rows = rows and rows - 1
        return "rows left"

    def sweep(self, at, rows, wire):
        return self.on_slot(at, lambda slot: self.swept(slot, rows, wire))

    def compact(self, at, wire):
        """A step of a sweep that writes all rows that are left."""
        ended = self.on_slot(at, lambda slot: self.swept(slot, None, wire))
        return "made" if ended == "over" else ended

    def unload(self, at, _wire):
        def drop(slot):
            slot.is_loaded = False
            return "made"

        return self.on_slot(at, drop)

    def move(self, at, _server, wire):
        return self.unload(at, wire)

    def repair(self, at, part, extent, node, wire):
        def copy(slot):
            if not self.is_settled(slot, wire):
                return "unreachable"
            ended = slot.streams.repair(part, extent, node, wire)
            return {"done": "made", "missing": "no such extent"}.get(ended, ended)

        return self.on_slot(at, copy)


def denied(asked, moment, denial):
    return denied_bytes(moment, asked.head.verb, asked.head.closes(), denial)


def told(asked, moment, parts):
    return reply_bytes(moment, asked.head.verb, asked.head.closes(), *parts)
