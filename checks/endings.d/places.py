"""Which connection a server ends if it has no place for a new one: the one that was idle for the longest time, or, if none is idle, the one
that has waited inside a head for the longest time, or, if none is inside a head, the one without a true signature that has waited inside a body
for the longest time (docs/using.md, "Limits of connections").

The server may have so few descriptors that it has eight places. Each newcomer ends one connection.
"""
import resource
import select
import socket
import subprocess
import time

import shown
import signed

# The server keeps 16 descriptors for what is not a connection.
DESCRIPTORS, PLACES = 24, 8
REQUEST = b"GET /devstoreaccount1/pics/a.txt HTTP/1.1\r\n\r\n"
HEAD, BODY = REQUEST[:9], b"PUT /devstoreaccount1/pics/a.txt HTTP/1.1\r\nx-ms-blob-type: BlockBlob\r\nContent-Length: 9\r\n\r\nabc"
# In seconds: until a server has noted what a connection waits for, and until a connection has ended.
NOTED, ENDED = 0.2, 20


def limit_descriptors():
    resource.setrlimit(resource.RLIMIT_NOFILE, (DESCRIPTORS, DESCRIPTORS))


class Client:
    """Connections to one server. A connection is called by the number that it has in the order in which they were opened."""

    def __init__(self, address):
        host, port = address.split(":")
        self.address, self.sockets = (host, int(port)), []

    def open(self):
        self.sockets.append(socket.create_connection(self.address, timeout=ENDED))
        return len(self.sockets) - 1

    def ask(self, number):
        """Has a request answered, so that the connection is idle after all others."""
        self.sockets[number].sendall(REQUEST)
        self.sockets[number].recv(65536)
        time.sleep(NOTED)

    def begin(self, number, beginning=HEAD):
        """Sends the beginning of a request, so that the connection waits for the rest of it."""
        self.sockets[number].sendall(beginning)
        time.sleep(NOTED)

    def leave(self, number):
        self.sockets[number].close()
        self.sockets[number] = None
        time.sleep(NOTED)

    def ended(self):
        """The connections that the server has ended, once one has."""
        left = [it for it in self.sockets if it]
        gone = [it for it in select.select(left, [], [], ENDED)[0] if not it.recv(65536)]
        numbers = [self.sockets.index(it) for it in gone]
        for number in numbers:
            self.leave(number)
        return numbers

    def newcomer(self, beginning=HEAD):
        """Opens a connection, which then waits for the rest of this request, and returns the connections that the server ends for it."""
        number = self.open()
        numbers = self.ended()
        if number not in numbers:
            self.begin(number, beginning)
        return numbers


def ended_in_turn(address):
    """Which connections end, for each of eight newcomers. Those before them began to wait in another order than that in which they were opened."""
    client = Client(address)
    for _ in range(PLACES):
        client.ask(client.open())
    client.ask(3)
    client.ask(1)
    client.begin(2)
    client.leave(4)
    # It takes the place of the one that left.
    client.ask(client.open())
    # Inside a body no connection gives way while another one is idle or inside a head.
    client.begin(6, BODY)
    return [client.newcomer() for _ in range(8)]


def bodies_in_turn(address):
    """Which connections end, for each of eight newcomers, if all are inside a body. The first two have a true signature."""
    client = Client(address)
    head = signed.head_of("PUT", "/devstoreaccount1/pics/a.txt", "x-ms-blob-type: BlockBlob", "Content-Length: 9")
    for beginning in [*[head + b"abc"] * 2, *[BODY] * (PLACES - 2)]:
        client.begin(client.open(), beginning)
    return [client.newcomer(BODY) for _ in range(8)]


def given(program, ended):
    """The connections that end at a server of eight places."""
    address = shown.free_address()
    words = [program, "serve", address, "4", *shown.REPLAY[2:]]
    server = subprocess.Popen(words, stdin=subprocess.DEVNULL, stdout=subprocess.PIPE, preexec_fn=limit_descriptors)
    try:
        server.stdout.readline()
        return ended(address)
    finally:
        server.kill()
        server.communicate()


def which_give_way(program):
    # First those that are idle, then those inside a head: number 2, and the first newcomer.
    yield "connections that give way", given(program, ended_in_turn), [[it] for it in (0, 5, 7, 3, 1, 8, 2, 9)]
    # Those without a signature, and then the first newcomers.
    yield "bodies that give way", given(program, bodies_in_turn), [[it] for it in range(2, 10)]
