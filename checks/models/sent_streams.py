"""Streams of requests that are sent to a replay and to a server, and what comes back."""
import base64
import contextlib
import os
import re
import socket
import struct
import subprocess
import time
from collections import namedtuple
from urllib.parse import quote_from_bytes

import shown
from body_model import http_date, iso_text
from head_model import head_end, read_head, refusal
from replay_model import Asked, hmac_of, string_of_token, string_to_sign, token_of

SECONDS = 60
# How often an address is looked for.
TRIES = 5
DATE = re.compile(rb"\w{3}, \d\d \w{3} \d{4} \d\d:\d\d:\d\d GMT")
Server = namedtuple("Server", "process host port")


def requests_of(stream):
    """The heads of a stream, each with the bytes after it up to the next one."""
    parts, at = [], 0
    while end := head_end(stream, at):
        head = read_head(stream[at:end])
        following = len(stream) if refusal(head) else end + head.length()
        parts.append([stream[at:end], stream[end:following]])
        at = following
    return parts + ([[b"", stream[at:]]] if stream[at:] else [])


def signed_anew(part, caller):
    """Makes the signature or the token of a request anew, if a head can be read that has one."""
    read = read_head(part[0])
    if refusal(read):
        return
    signature = hmac_of(caller.keys[0], string_to_sign(read))
    part[0] = re.sub(rb"(?im)^(authorization:[ \t]*SharedKey +[^:\n]*:)[^\r\n]*", rb"\g<1>" + signature, part[0])
    asked = Asked(read, part[1])
    token = token_of(read) if asked.container and not read.all(b"authorization") else None
    if token and (token[b"sr"] == b"c" or asked.blob is not None):
        signature = quote_from_bytes(hmac_of(caller.keys[0], string_of_token(token, asked)), safe="").encode()
        part[0] = re.sub(rb"([?&]sig=)[^& ]*", rb"\g<1>" + signature, part[0], count=1)


def redated(one, moment):
    """A connection whose requests have the date of another moment, and are signed for it."""
    caller, parts = one.caller._replace(moments=[moment]), requests_of(one.before + one.sent)
    for part in parts:
        part[0] = part[0].replace(http_date(one.caller.moments[0]).encode(), http_date(moment).encode())
        signed_anew(part, caller)
    return one._replace(caller=caller, before=b"", sent=b"".join(head + body for head, body in parts))


def words_of(caller):
    return ["replay", iso_text(caller.moments[0]), caller.account, *(base64.b64encode(it).decode() for it in caller.keys)]


def run(program, caller, stream, cuts=()):
    """What a replay writes, its status, and what it says on standard error. The input comes in pieces, with a pause after each."""
    process = subprocess.Popen([program, *words_of(caller)], stdin=subprocess.PIPE, stdout=subprocess.PIPE, stderr=subprocess.PIPE)
    try:
        for begin, end in zip([0, *cuts], cuts):
            os.write(process.stdin.fileno(), stream[begin:end])
            time.sleep(0.002)
    except BrokenPipeError:
        # The connection ended before, which the output shows.
        pass
    try:
        wrote, said = process.communicate(stream[cuts[-1] if cuts else 0 :], timeout=SECONDS)
    except subprocess.TimeoutExpired:
        process.kill()
        wrote, said = process.communicate()
    return wrote, process.returncode, said


@contextlib.contextmanager
def server_of(program, caller):
    """A server of its own for a caller, which is ended at the end of the block. An address may be taken by others before the server takes it."""
    for _ in range(TRIES):
        address = shown.free_address()
        server = subprocess.Popen([program, "serve", address, "2", *words_of(caller)[2:]], stdin=subprocess.DEVNULL, stdout=subprocess.PIPE)
        if server.stdout.readline():
            break
        server.wait()
    host, port = address.split(":")
    try:
        yield Server(server, host, int(port))
    finally:
        server.kill()
        server.communicate()


def connection_to(server):
    """A connection that sends each piece at once."""
    client = socket.create_connection((server.host, server.port), timeout=SECONDS)
    client.setsockopt(socket.IPPROTO_TCP, socket.TCP_NODELAY, 1)
    return client


def reset(connection):
    """Closes a connection by a reset."""
    connection.setsockopt(socket.SOL_SOCKET, socket.SO_LINGER, struct.pack("ii", 1, 0))
    connection.close()


def served(server, *pieces):
    """What a server writes to a client that sends these pieces and ends its side."""
    wrote = b""
    try:
        with connection_to(server) as client:
            for piece in pieces:
                client.sendall(piece)
            client.shutdown(socket.SHUT_WR)
            wrote = b"".join(iter(lambda: client.recv(1 << 16), b""))
    except OSError as error:
        wrote = f"{error}".encode()
    return wrote if server.process.poll() is None else wrote + b", and the server ended"


def show(name, got, wanted):
    at = next((i for i, pair in enumerate(zip(got[0], wanted[0])) if pair[0] != pair[1]), min(len(got[0]), len(wanted[0])))
    print(f"{name}: byte {at} of what is written differs, or the status")
    for who, (wrote, status, said) in (("the program", got), ("the model", wanted)):
        print(f"  {who}: status {status}, {said!r:.100}, {wrote[max(0, at - 150) : at + 150]!r}")
