"""The frames of a segment, by docs/formats/journal.md: how they are written, and how a plain reader reads them."""

WORD, HEAD, LEAST_ENTRY = 8, 16, 16
FACTOR, TURN, ONES = 0x2545F4914F6CDD1D, 23, 2**64 - 1


def mixed(total, word):
    product = (total ^ word) * FACTOR & ONES
    return (product << TURN | product >> 64 - TURN) & ONES


def digest(key, segment, index, entry):
    padded = entry + bytes(-len(entry) % WORD)
    words = [int.from_bytes(padded[at : at + WORD], "big") for at in range(0, len(padded), WORD)]
    total = key ^ segment
    for word in [index, *words, len(entry)]:
        total = mixed(total, word)
    return total


def frame(key, segment, index, entry):
    return len(entry).to_bytes(WORD, "big") + digest(key, segment, index, entry).to_bytes(WORD, "big") + entry


def frames(key, segment, entries):
    return b"".join(frame(key, segment, index, entry) for index, entry in enumerate(entries))


def read(key, segment, file):
    """The entries of the file, up to the first place where no whole frame with the right digest begins."""
    entries, at = [], 0
    while len(file) - at >= HEAD + LEAST_ENTRY:
        length = int.from_bytes(file[at : at + WORD], "big")
        entry = file[at + HEAD : at + HEAD + length]
        if length < LEAST_ENTRY or len(entry) < length or file[at : at + HEAD + length] != frame(key, segment, len(entries), entry):
            break
        entries.append(entry)
        at += HEAD + length
    return entries


# The frames that the page shows: the key of a folder, the number of a segment, and entries. An entry begins with the numbers of a stream and of
# an extent.
KEY, SEGMENT = 0x0123456789ABCDEF, 3
ENTRIES = (
    ("stream 7, extent 2, an empty block", bytes.fromhex("0000000000000007 0000000000000002")),
    ("stream 7, extent 2, the block `hello`", bytes.fromhex("0000000000000007 0000000000000002") + b"hello"),
    ("stream 8, extent 0, eight bytes 255", bytes.fromhex("0000000000000008 0000000000000000") + b"\xff" * 8),
)


def table():
    """The table of the page: each frame as hex, cut into its length, its digest and its entry."""
    yield "\n| Index | Entry | Length | Digest | Bytes of the entry |\n|---|---|---|---|---|\n"
    for index, (name, entry) in enumerate(ENTRIES):
        bare = frame(KEY, SEGMENT, index, entry)
        yield f"| {index} | {name} | `{bare[:8].hex()}` | `{bare[8:16].hex()}` | `{bare[16:].hex()}` |\n"
    yield "\n"
