"""How long the record of a change is in the log, and that of a row in a checkpoint, by docs/formats/records.md. A change is that of a request at
its moment, and a row is one of replay_model.py's containers or blobs."""
from replay_model import block_id, kept_by, md5_of, metadata_of

# How many bytes a kind, a level or an option has; a length or a count; and a number or a moment.
BYTE, SHORT, LONG = 1, 4, 8
PIECE = BYTE + LONG + LONG + SHORT
HEADERS = (b"content-type", b"content-encoding", b"content-language", b"cache-control")


def string(value):
    return SHORT + len(value)


def items(lengths):
    return SHORT + sum(lengths)


def option(value, length):
    return BYTE + (0 if value is None else length)


def metadata(asked):
    return items(string(name) + string(value) for name, value in metadata_of(asked.head))


def props(asked, md5):
    kept = kept_by(asked)
    return sum(string(kept[it]) for it in HEADERS) + string(md5)


def policy(name, fields):
    start, expiry, letters = fields
    return string(name.encode()) + option(start, LONG) + option(expiry, LONG) + option(letters, string(letters or ""))


def fields(asked, said, pieces):
    """How long the fields of the change are, with what the body says and with the pieces of the content."""
    blob, content = string(asked.blob or b""), SHORT + PIECE * len(pieces)
    own = asked.head.first(b"x-ms-blob-content-md5")
    lengths = {
        "CreateContainer": lambda: LONG + BYTE + metadata(asked),
        "SetContainerMetadata": lambda: LONG + metadata(asked),
        "SetAcl": lambda: LONG + BYTE + items(policy(*it) for it in said),
        "DeleteContainer": lambda: 0,
        "PutBlob": lambda: blob + LONG + props(asked, own or md5_of(asked.body)) + metadata(asked) + content,
        "SetMetadata": lambda: blob + LONG + metadata(asked),
        "DeleteBlob": lambda: blob,
        "PutBlock": lambda: blob + string(block_id(asked)) + content,
        "PutBlockList": lambda: blob + LONG + props(asked, own or b"") + metadata(asked) + items(string(name) + BYTE for name, _ in said),
    }
    return lengths[asked.name]()


def of_container(account, name, fields):
    """A version, a kind, an epoch, an account, a container, and the fields."""
    return BYTE + BYTE + LONG + string(account) + string(name.encode()) + fields


def record_length(asked, said, pieces):
    return of_container(asked.head.parts[0], asked.container, fields(asked, said, pieces))


def described(metadata):
    return items(string(name) + string(value) for name, value in metadata)


def blocks(pairs):
    """Blocks, each with its id, which may be none, and its content."""
    return items(string(it or b"") + SHORT + PIECE * len(content.pieces) for it, content in pairs)


def container_row_length(account, name, container):
    """The row of a container, which may be none: it was deleted."""
    more = container and LONG + LONG + BYTE + described(container.metadata) + items(policy(*it) for it in container.policies)
    return of_container(account, name, LONG + option(container, more))


def blob_row_length(account, name, blob, it):
    part = it.part
    headers = part and sum(string(part.kept[it]) for it in HEADERS) + string(part.md5)
    committed = part and LONG + LONG + headers + described(part.metadata) + blocks(part.blocks)
    return of_container(account, name, string(blob) + option(part, committed) + blocks(it.blocks.items()))
