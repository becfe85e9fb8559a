"""The connections of the cases in crates/replay_cases/data, read as docs/cases.md says, and those of the examples."""
import base64
import re
from collections import namedtuple
from pathlib import Path

from body_model import http_date, read_iso
from head_model import read_head
from replay_model import hmac_of, string_to_sign

ROOT = Path(__file__).resolve().parents[2]
DATA = ROOT / "crates" / "replay_cases" / "data"
ESCAPES = {b"r": b"\r", b"n": b"\n", b"t": b"\t", b"s": b" ", b"\\": b"\\"}
# The word `made` sends a request that makes this container, and its reply is not wanted.
MADE = "PUT /{}/pics?restype=container HTTP/1.1\r\nContent-Length: 0\r\nx-ms-date: {}\r\n"
# Whose connection it is: the account, its keys, and the moment of each item.
Caller = namedtuple("Caller", "account keys moments")
# What is sent after the requests that were made before, what comes back for it, and how the connection ends, each if it is known.
Connection = namedtuple("Connection", "name caller before sent wanted end")
EXAMPLE = Caller("devstoreaccount1", [b"key1", b"key2"], [read_iso("2012-10-01T12:00:00Z")])


def text_of(line):
    return re.sub(rb"\\(?:x([0-9a-f]{2})|(.))", lambda it: ESCAPES[it[2]] if it[2] else bytes.fromhex(it[1].decode()), line)


def making(account, key, moment):
    head = MADE.format(account, http_date(moment)).encode()
    signature = hmac_of(key, string_to_sign(read_head(head + b"\r\n")))
    return head + b"Authorization: SharedKey %s:%s\r\n\r\n" % (account.encode(), signature)


def case_of(name, lines, account, keys, made, texts, most):
    """A case, or nothing if it limits its reads or sends more than so many bytes."""
    said, moments, end = {"send": [], "want": []}, [], None
    for word, rest in lines:
        what, _, how = word.partition("-")
        if what in said:
            count, _, text = rest.partition(b" ") if how == "repeat" else (b"1", b"", rest)
            said[what].append((int(count), texts[text] if how == "text" else text_of(text)))
        elif word == "moment":
            moments.append(read_iso(rest.decode()))
        elif word == "end":
            end = rest.decode()
    if any(word == "reads" for word, _ in lines) or sum(count * len(text) for count, text in said["send"]) > most:
        return None
    sent, wanted = (b"".join(count * text for count, text in said[it]) for it in ("send", "want"))
    before = b""
    if made:
        first = moments[0] if made == b"first" else read_iso(made.decode())
        before, moments = making(account, keys[0], first), [first, *moments]
    return Connection(name, Caller(account, keys, moments), before, sent, wanted, end)


def cases_of(file, most):
    account, keys, made, text, texts, lines, name = "", [], None, None, {}, None, None
    for line in file.read_bytes().split(b"\n"):
        word, _, rest = line.partition(b" ")
        word = word.decode()
        if word == "case":
            name, lines = f"{file.stem}/{rest.decode()}", []
        elif word == "account":
            account = rest.decode()
        elif word == "keys":
            keys = [base64.b64decode(it.replace(b"-", b"")) for it in rest.split(b" ")]
        elif word == "made":
            made = rest
        elif word in ("text", "is"):
            text = rest if word == "text" else text
            texts[text] = texts.get(text, b"") + (text_of(rest) if word == "is" else b"")
        elif line and not line.startswith(b"#"):
            lines.append((word, rest))
            if word == "end" and (case := case_of(name, lines, account, keys, made, texts, most)):
                yield case


def cases(most):
    """Each case that does not limit its reads, and sends at most so many bytes."""
    for file in sorted(DATA.glob("*.cases")):
        yield from cases_of(file, most)


def examples():
    for file in sorted((ROOT / "examples").glob("*.http")):
        yield Connection(file.stem, EXAMPLE, b"", file.read_bytes(), None, None)
