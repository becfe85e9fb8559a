"""What README.md, docs/using.md, docs/recipes.md and pages of docs/formats show: commands with what they print, tables of requests with their answers, and
the bytes of records.

Each function gives what was tried, what came of it, and what the page says.
"""
import contextlib
import os
import re
import shlex
import signal
import socket
import subprocess
import tempfile
from pathlib import Path

ROOT = Path(__file__).resolve().parents[2]
PAGES = ("docs/using.md", "docs/recipes.md", "docs/formats/tokens.md")
REPLAY = ["replay", "2012-10-01T12:00:00Z", "devstoreaccount1", "a2V5MQ==", "a2V5Mg=="]
# A command, perhaps a line about it, and perhaps what it prints.
SHOWN = re.compile(r"^```sh\n(.*?)^```\n(?:\n[^`\n][^\n]*\n)?\n(?:```text\n(.*?)^```\n)?", re.S | re.M)
# Where the server of the pages listens, and a curl that writes no progress. On a machine without curl, Python gets the body of the reply.
ADDRESS = "127.0.0.1:10800"
CURL = """curl() {
    if type -P curl > /dev/null; then command curl -s "$@"; else python3 -c '
import sys, urllib.error, urllib.request
try:
    reply = urllib.request.urlopen(sys.argv[1])
except urllib.error.HTTPError as error:
    reply = error
sys.stdout.buffer.write(reply.read())' "$1"; fi
}
"""
DATE = re.compile(r"\w{3}, \d\d \w{3} \d{4} \d\d:\d\d:\d\d GMT")
SIGNED = "x-ms-date: Mon, 01 Oct 2012 12:00:00 GMT\n"


def run_shown(script, program):
    """What a script prints on its two streams. A script that names the address of the pages gets a server of its own."""
    run = ["bash", "-euc", CURL + script.replace("./stamp ", f"{shlex.quote(program)} ").replace(f"http://{ADDRESS}/devstoreaccount1", "$STAMP_URL")]
    if ADDRESS in script:
        run = [ROOT / "examples" / "with-stamp", "--program", program, *run]
    ran = subprocess.run(run, cwd=ROOT, stdout=subprocess.PIPE, stderr=subprocess.PIPE, timeout=60)
    return ran.stdout.decode(), ran.stderr


def commands(program):
    """The commands of each page, in one shell, each with what it prints. A line of a reply ends in CR LF, and of a page in LF."""
    for page in PAGES:
        before = ""
        for number, (command, printed) in enumerate(SHOWN.findall((ROOT / page).read_text(encoding="utf-8")), 1):
            wrote, said = run_shown(f"{{ {before}:\n}} >/dev/null\n{command}", program)
            yield f"{page}, command {number}", (wrote.replace("\r\n", "\n").rstrip("\n"), said), (printed.rstrip("\n"), b"")
            # What was put to a server is not put again: each server begins without it.
            before += "" if ADDRESS in command else command


def free_address():
    """An address of this machine at which nobody listens."""
    with socket.socket() as it:
        it.bind(("127.0.0.1", 0))
        return f"127.0.0.1:{it.getsockname()[1]}"


def without_dates(text):
    return DATE.sub("DATE", text)


def served(program):
    """The README's blocks, as one script: a server, a client that waits for it, and a blob that is shared in a replay. Their output is
    compared with the page, dates aside. The server has a free address in the place of the page's, and ends at the end of the script."""
    serve, client, share = SHOWN.findall((ROOT / "README.md").read_text(encoding="utf-8"))
    address = free_address()
    script = "".join(command for command, _ in (serve, client, share)).replace(ADDRESS, address)
    script = CURL + script.replace("./stamp ", f"{shlex.quote(program)} ") + "kill $!\nwait $!\n"
    # (the blob has no line feed at its end, and a page has no CR)
    wanted = f"{serve[1]}{client[1]}".replace(ADDRESS, address).rstrip("\n") + (ROOT / "examples" / "share.replies").read_bytes().decode()
    with tempfile.TemporaryFile() as output:
        running = subprocess.Popen(["bash", "-uc", script], cwd=ROOT, stdin=subprocess.DEVNULL, stdout=output, stderr=subprocess.STDOUT, start_new_session=True)
        try:
            running.wait(60)
        finally:
            # The rest of the script ends with it.
            with contextlib.suppress(ProcessLookupError):
                os.killpg(running.pid, signal.SIGKILL)
            running.wait()
        output.seek(0)
        printed = output.read().decode(errors="replace")
    yield "README.md, its blocks as one script", (running.returncode, without_dates(printed)), (128 + signal.SIGTERM, without_dates(wanted))


def rows(heading):
    """The cells of the table that follows a heading of docs/using.md."""
    text = (ROOT / "docs" / "using.md").read_text(encoding="utf-8").split(f"\n## {heading}\n")[1].split("\n## ")[0]
    lines = [line for line in text.splitlines() if line.startswith("|")]
    return [[cell.strip() for cell in line.strip("|").split("|")] for line in lines[2:]]


def head_of(cell):
    """The head that a cell shows: the request line, and perhaps header lines."""
    request, *headers = re.findall(r"`(.*?)`", cell)
    length = ["Content-Length: 0"] if request.startswith("P") else []
    return "".join(f"{line}\n" for line in (f"{request} HTTP/1.1", *headers, *length))


def signed(head):
    """The head with its date, its signature and its empty line."""
    head += SIGNED
    line = subprocess.run([ROOT / "examples" / "signature", REPLAY[3]], input=head.encode(), stdout=subprocess.PIPE, check=True).stdout
    return head.encode() + line + b"\n"


def answers(program, stream):
    """The exit status of a replay, and the status of each reply with the rule that it names."""
    ran = subprocess.run([program, *REPLAY], input=stream, stdout=subprocess.PIPE, stderr=subprocess.PIPE, timeout=60)
    replies = re.findall(rb"HTTP/1\.1 (\d+) .*?\r\n\r\n", ran.stdout, re.S)
    rules = re.findall(rb"x-stamp-rule: (\w+)\r\n", ran.stdout)
    return ran.returncode, [int(status) for status in replies], [rule.decode() for rule in rules]


def refused(program):
    """Operations that do not exist: each is refused by the rule that its row names, and ends the connection."""
    found = rows("What does not exist here")
    for _, request, answer in found:
        rule, status = re.match(r"(\w+), (\d+)", answer).groups()
        head = head_of(request).encode() + b"\n"
        yield f"using.md: {request}", answers(program, head + head), (0, [int(status)], [rule])
    yield "using.md: rows of what does not exist", len(found) > 10, True


def ignored(program):
    """What is ignored: each request is answered as its row says, and a blob that was deleted is gone."""
    found = rows("What is ignored and may surprise")
    create = signed("PUT /devstoreaccount1/pics?restype=container HTTP/1.1\nContent-Length: 0\n")
    put = signed("PUT /devstoreaccount1/pics/a.txt HTTP/1.1\nContent-Length: 5\nx-ms-blob-type: BlockBlob\n") + b"hello"
    get = signed("GET /devstoreaccount1/pics/a.txt HTTP/1.1\n")
    for request, answer in found:
        last = ([404], ["O3"]) if "deleted" in answer else ([200], [])
        stream = create + put + signed(head_of(request)) + get
        yield f"using.md: {request}", answers(program, stream), (0, [201, 201, int(answer[:3]), *last[0]], last[1])
    yield "using.md: rows of what is ignored", len(found) > 5, True


def signing(_program):
    """What examples/signature says if there is nothing to sign, or no key to sign with."""
    head = b"GET /devstoreaccount1/pics HTTP/1.1\n"
    for word, given, why in (
        ("a2V5MQ==", b"", b"the head is empty"),
        ("a2V5MQ==", b"GET /\n", b"the first line is not METHOD TARGET HTTP/1.1: b'GET /'"),
        ("a2V5MQ==", b"GET / HTTP/1.1\n", b"the target names no account: b'/'"),
        ("a2V5MQ==", head + b"Date\n", b"not a header line: b'Date'"),
        ("a2V5MQ", head, b"the key is not padded Base64: 'a2V5MQ'"),
    ):
        ran = subprocess.run([ROOT / "examples" / "signature", word], input=given, stdout=subprocess.PIPE, stderr=subprocess.PIPE)
        yield f"examples/signature: {why.decode()}", (ran.returncode, ran.stdout, ran.stderr), (1, b"", b"signature: " + why + b"\n")


def records(_program):
    """The bytes of each record on its page, which are those that examples/records makes, in the same order."""
    page = (ROOT / "docs" / "formats" / "records.md").read_text(encoding="utf-8").split("\n## One record of each kind\n")[1].split("\n## ")[0]
    shown = [re.findall(r"^\| `([0-9a-f ]+)` \|", section, re.M) for section in page.split("\n### ")[1:]]
    made = subprocess.run([ROOT / "examples" / "records"], stdout=subprocess.PIPE, check=True).stdout.decode().splitlines()
    yield "the records of records.md", ["".join(rows).replace(" ", "") for rows in shown], [line.split()[1] for line in made]


def all_shown(program):
    for shown in (served, commands, refused, ignored, signing, records):
        yield from shown(program)
