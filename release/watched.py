"""A server that `./stamp` watches: one whose port `./stamp` chooses, or one whose keys are in files.

The program takes its address and its keys as words, and `ps` shows words to everybody. So a server whose keys are in files begins with keys that
are made for it and thrown away. Before anybody is told that it listens, they are replaced by the true keys, through its standard input. Only then the
line `listening ADDRESS` goes on. From then on its input and its output are those of this process, and a signal to this process goes to the server.
If this process is killed, the server ends with it.

A port that is free when it is chosen may be taken before the program asks for it. Then the program ends, and another port is tried.
"""
import base64
import contextlib
import ctypes
import os
import secrets
import signal
import subprocess
import threading

import words

# How many ports are tried, one after the other.
TRIES = 20
PASSED_ON = (signal.SIGTERM, signal.SIGINT, signal.SIGHUP, signal.SIGQUIT)
# prctl(2): the signal that a process gets when its parent ends.
PR_SET_PDEATHSIG = 1
ROOM = 1 << 16
ROTATED = (b"rotate first %s\n", b"rotate second %s\n")


def is_wanted(given):
    """Whether a server of these words is to be watched."""
    return any(words.is_file(key) for key in given[3:]) or words.has_no_port(given[0])


def thrown_away():
    """A key that nobody else knows."""
    return base64.b64encode(secrets.token_bytes(48)).decode()


def ends_with_parent(prepare):
    """The steps of the process before it becomes the program: it asks to end when its parent ends, and takes its limits."""
    libc, parent = ctypes.CDLL(None), os.getpid()

    def begin():
        libc.prctl(PR_SET_PDEATHSIG, signal.SIGKILL)
        if os.getppid() != parent:
            os._exit(words.NOT_TAKEN)
        prepare()

    return begin


def start(program, given, prepare):
    """Starts the program with these words. Its input and its output come from here."""
    how = {"stdin": subprocess.PIPE, "stdout": subprocess.PIPE, "bufsize": 0, "restore_signals": False, "preexec_fn": ends_with_parent(prepare)}
    server = subprocess.Popen([program, "serve", *given], **how)
    for number in PASSED_ON:
        # (a shell has a command that runs beside it ignore the keys of the terminal)
        if signal.getsignal(number) != signal.SIG_IGN:
            signal.signal(number, lambda it, _: server.send_signal(it))
    return server


def replace(server, keys):
    """Replaces the keys that are thrown away by the true ones. Returns whether the server has said so of each."""
    for line, key in zip(ROTATED, keys):
        if key:
            with contextlib.suppress(OSError):
                server.stdin.write(line % key.encode())
            if not server.stdout.readline().startswith(b"epoch "):
                return False
    return True


def copy(source, target):
    """Copies what comes until one of both ends."""
    with contextlib.suppress(OSError):
        while came := os.read(source, ROOM):
            while came:
                came = came[os.write(target, came) :]


def pass_input(server):
    """Gives the server what comes here, unless that is a terminal: the program does not read a terminal either."""
    if not os.isatty(0):
        copy(0, server.stdin.fileno())
    server.stdin.close()


def pass_on(server, line):
    """Tells that the server listens, and passes its input and its output on until it has ended."""
    threading.Thread(target=pass_input, args=(server,), daemon=True).start()
    with contextlib.suppress(OSError):
        os.write(1, line)
        copy(server.stdout.fileno(), 1)
    # Answers that nobody takes are not to wait in the pipe: the program reads no further line, as it does if its own output ends.
    server.stdout.close()
    return server.wait()


def end_as(status):
    """Ends as the server has ended, by the same signal if it was one."""
    if status < 0:
        signal.signal(-status, signal.SIG_DFL)
        os.kill(os.getpid(), -status)
    os._exit(status)


def open_streams():
    """Opens those of the three streams that are closed, so that no pipe takes their place."""
    for number in range(3):
        try:
            os.fstat(number)
        except OSError:
            os.open(os.devnull, os.O_RDWR)


def serve(program, given, keys, prepare):
    """Serves with these words, and ends as the server ends. `keys` has the true key, or None, for each of both that are among the words.

    Returns only if the server was ended from here, and why."""
    open_streams()
    shown = [thrown_away() if key else word for key, word in zip(keys, given[3:])]
    for left in reversed(range(TRIES)):
        server = start(program, [words.with_port(given[0]), *given[1:3], *shown], prepare)
        line = server.stdout.readline()
        if line:
            break
        status = server.wait()
        if status != words.NOT_TAKEN or not words.has_no_port(given[0]) or not left:
            end_as(status)
    if replace(server, keys):
        end_as(pass_on(server, line))
    server.kill()
    server.wait()
    return "the keys of the files did not come into force, so the server was ended"
