"""What is wrong with the words of `serve`, before the program is started.

The program answers bad words with its line of usage alone, and an address or an audit file that cannot be taken with a status alone. `./stamp` adds the reason.

Two things are words of `./stamp` and not of the program: a key `@FILE`, which is read from that file, and a port 0, for which a free port is chosen.
"""
import base64
import binascii
import os
import re
import socket
import stat

# The statuses of the program for bad words, and for an address or an audit file that cannot be taken.
USAGE, NOT_TAKEN = 2, 3
NAMES = ("ADDRESS", "WORKERS", "ACCOUNT", "KEY1", "KEY2")
WORKERS, ACCOUNT = re.compile(r"[1-9]|[1-5][0-9]|6[0-4]"), re.compile(r"[a-z0-9]{3,24}")
ADDRESS = re.compile(r"(.+):(\d+)")
EMPTY = "is empty, and whoever guesses that can sign for the account. To have one key only, give it twice"
# How much address space a server may take: STAMP_MEMORY is a number of bytes, or of units of 1,024, 1,048,576 or 1,073,741,824 bytes.
SIZE, UNITS = re.compile(r"([1-9][0-9]{0,15})([KMG]?)"), {"": 1, "K": 1 << 10, "M": 1 << 20, "G": 1 << 30}
# A server of one worker starts with less, but then has no room for a request.
LEAST_MEMORY = 64 << 20
# The file of a key has fewer bytes: a line of the program's operator has at most 4,096.
KEY_ROOM = 4000


class Fault(Exception):
    """A fault of the words of `serve`: the status and the reason."""

    def __init__(self, status, reason):
        super().__init__(reason)
        self.status, self.reason = status, reason


def is_file(key):
    """Whether the word of a key names a file."""
    return key.startswith("@")


def text_of_key(name, file):
    """The key that a file has. A file that other users may read is refused, since a key that they know is no secret."""
    try:
        with open(file, "rb") as opened:
            if stat.S_IMODE(os.fstat(opened.fileno()).st_mode) & 0o077:
                raise Fault(NOT_TAKEN, f"the file {file} of {name} may be read or written by others: chmod 600 {file}")
            text = opened.read(KEY_ROOM + 1)
    except OSError as error:
        raise Fault(NOT_TAKEN, f"the file {file} of {name} cannot be read: {error.strerror}") from None
    if len(text) > KEY_ROOM:
        raise Fault(USAGE, f"the file {file} of {name} has more than {KEY_ROOM:,} bytes")
    # (bytes that are no text are no Base64 either, which is said later)
    return text.decode(errors="replace").strip()


def keys_of_files(words):
    """For each key among the words the key that its file has, or None if the word is the key itself."""
    named = zip(NAMES[3:], words[3:]) if len(words) == len(NAMES) else ()
    return [text_of_key(name, word[1:]) if is_file(word) else None for name, word in named]


def is_padded_base64(word):
    try:
        return base64.b64encode(base64.b64decode(word.encode(), validate=True)).decode() == word
    except (binascii.Error, ValueError):
        return False


def fault_of_word(name, word):
    """What is wrong with one word of `serve`, or None. The address is tried by itself."""
    if name == "WORKERS" and not WORKERS.fullmatch(word):
        return f"WORKERS is a number from 1 to 64, in decimal digits without a zero before them, and not {word!r}"
    if name == "ACCOUNT" and not ACCOUNT.fullmatch(word):
        return f"ACCOUNT is a name of 3 to 24 lower-case letters and digits, and not {word!r}"
    if name.startswith("KEY") and not is_padded_base64(word):
        # (a key is a secret, so it is not shown)
        return f"{name} is not padded Base64: its length is a multiple of 4, with = at the end if need be"
    return None


def fault_of_words(words):
    """What is wrong with the words after `serve` by which the program ends with its usage, or None."""
    if len(words) != len(NAMES):
        return f"serve takes five words, {' '.join(NAMES)}; {len(words)} {'was' if len(words) == 1 else 'were'} given"
    return next(filter(None, map(fault_of_word, NAMES, words)), None)


def empty_key(words):
    """What is wrong with a key that the program takes, or None: an empty key is padded Base64."""
    return next((f"{name} {EMPTY}" for name, word in zip(NAMES, words) if name.startswith("KEY") and not word), None)


def has_no_port(address):
    """Whether an address leaves its port to `./stamp`."""
    parts = ADDRESS.fullmatch(address)
    return bool(parts) and int(parts[2]) == 0


def places_of(host, port):
    """Where a host and a port may be bound, in the order in which the program tries them."""
    return socket.getaddrinfo(host.strip("[]"), port, type=socket.SOCK_STREAM, flags=socket.AI_PASSIVE)


def with_port(address):
    """The address with a port that is free just now, if it has the port 0."""
    if not has_no_port(address):
        return address
    host = ADDRESS.fullmatch(address)[1]
    for family, kind, protocol, _, place in places_of(host, 0):
        with socket.socket(family, kind, protocol) as it:
            try:
                it.bind(place)
            except OSError:
                continue
            return f"{host}:{it.getsockname()[1]}"
    return address


def why_not_taken(address):
    """Why no program can listen at the address, or None if it was free just now."""
    parts = ADDRESS.fullmatch(address)
    if not parts or int(parts[2]) > 65_535:
        return "an address is a host and a port, as in 127.0.0.1:10800"
    try:
        found = places_of(parts[1], int(parts[2]))
    except (OSError, UnicodeError) as error:
        return getattr(error, "strerror", None) or str(error)
    reason = None
    for family, kind, protocol, _, place in found:
        try:
            with socket.socket(family, kind, protocol) as it:
                it.setsockopt(socket.SOL_SOCKET, socket.SO_REUSEADDR, 1)
                it.bind(place)
                # A bound address may still belong to somebody who listens there.
                it.listen(1)
                return None
        except OSError as error:
            reason = error.strerror
    return reason


def why_not_opened(file):
    """Why no line can be added to the audit file, or None. A file that does not exist is made, as the program makes it."""
    try:
        with open(file, "ab"):
            return None
    except OSError as error:
        return error.strerror


def size_of(text):
    """How many bytes a text as `512M` says, or None if it says no size."""
    parts = SIZE.fullmatch(text)
    return int(parts[1]) * UNITS[parts[2]] if parts else None


def fault_of_memory():
    """What is wrong with STAMP_MEMORY, or None."""
    text = os.environ.get("STAMP_MEMORY")
    if not text or (size_of(text) or 0) >= LEAST_MEMORY:
        return None
    return f"STAMP_MEMORY is a size of at least 64M, as 900M or 4G, and not {text!r}"


def fault_of_serve(words):
    """What is wrong with the words after `serve`: the status and the reason, or None if the program can be started."""
    fault = fault_of_words(words) or empty_key(words) or fault_of_memory()
    if fault:
        return USAGE, fault
    file = os.environ.get("STAMP_AUDIT")
    why = why_not_opened(file) if file else None
    if why:
        return NOT_TAKEN, f"the file {file} of STAMP_AUDIT cannot be opened: {why}"
    why = why_not_taken(words[0])
    return (NOT_TAKEN, f"the address {words[0]} cannot be taken: {why}") if why else None
