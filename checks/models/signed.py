"""Signed requests to a server, made in this process, and clients that send them."""
import base64
import contextlib
import email.utils
import http.client
import socket
from collections import namedtuple

from sent_streams import signed_anew

ACCOUNT, KEYS = "devstoreaccount1", ("a2V5MQ==", "a2V5Mg==")
Caller = namedtuple("Caller", "account keys")
CALLER = Caller(ACCOUNT, [base64.b64decode(it) for it in KEYS])
PATIENCE = 60


def head_of(method, target, *headers):
    """The head of a request, which is signed now."""
    date = email.utils.formatdate(usegmt=True)
    lines = [f"{method} {target} HTTP/1.1", "Host: localhost", *headers, f"x-ms-date: {date}", "x-ms-version: 2012-02-12"]
    part = ["".join(f"{it}\r\n" for it in [*lines, f"Authorization: SharedKey {ACCOUNT}:none", ""]).encode(), b""]
    signed_anew(part, CALLER)
    return part[0]


class Client:
    """One connection, which is opened anew after it ended."""

    def __init__(self, address):
        self.address, self.connection = address, None

    def ask(self, method, target, body=b"", *headers):
        """The status and the body of the reply; no status if the connection ends without one."""
        head = head_of(method, target, *([f"Content-Length: {len(body)}"] if method == "PUT" else []), *headers)
        try:
            if not self.connection:
                self.connection = socket.create_connection(self.address, timeout=PATIENCE)
            with contextlib.suppress(ConnectionError):
                # A server that refuses a request before its body may reply and read no further.
                self.connection.sendall(head + body)
            response = http.client.HTTPResponse(self.connection, method=method)
            response.begin()
            said = response.read()
            if response.getheader("Connection") == "close":
                self.close()
            return response.status, said
        except (OSError, http.client.HTTPException):
            self.close()
            return None, b""

    def close(self):
        if self.connection:
            self.connection.close()
        self.connection = None
