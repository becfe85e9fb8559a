#!/usr/bin/env python3
"""Opens the page examples/site/index.html, which shows what is in a container, in headless Chromium, and uses it by the keyboard.

usage: examples/with-stamp examples/clients/explorer.py [FOLDER]

STAMP_URL, STAMP_ACCOUNT and STAMP_KEY name the server; examples/with-stamp sets them. The page is a blob of an open container, beside a picture, a
film, texts, names that hold markup, and a folder with 10,000 blobs. A second container is closed, and is opened by a token.

Each check prints a line, and the last line has two counts. The status is 1 if a check failed, or if the page does not come as far as it has to within
a minute. The containers are deleted at the end. With FOLDER, four pictures of the page are written there: explorer-390-light.png for a phone, explorer-1280-light.png
for a desk, and both in dark.
"""
import base64
import datetime
import hashlib
import json
import os
import re
import subprocess
import sys
import tempfile
import time
from concurrent.futures import ThreadPoolExecutor
from pathlib import Path
from urllib.parse import quote

if "STAMP_URL" not in os.environ:
    sys.exit(__doc__)
sys.dont_write_bytecode = True
import webm  # noqa: E402
from chromium import Chromium, Failure  # noqa: E402
from session import ACCOUNT, BLOCK_BLOB, URL, Client, ask, digest, run  # noqa: E402

EXAMPLES = Path(__file__).resolve().parent.parent
PAGE, PICTURE = EXAMPLES / "site" / "index.html", EXAMPLES / "site" / "picture.svg"
NAME = f"site-{os.getpid()}"
CLOSED = f"{NAME}-closed"
MANY, CLIENTS, FIRST = 10_000, 4, 1_000
# Names that hold markup, or that an address has to escape. A browser takes `..` out of a path.
MARKUP = ("<b>&\"'", "<img src=x onerror=hurt()>", "</td><script>hurt()</script>", "100%.txt", "a/../b", "two  words+#?;.txt", "é ü", "\\")
HOSTILE = b"<script>hurt()</script> & <b>bold</b>"
SECONDS, RED_UNTIL = 40, 20
# The widths of a phone and of a desk, with their heights, and the schemes of colours.
SIZES, SCHEMES = {390: 844, 1280: 800}, ("light", "dark")


def put(container, name, content, kind="text/plain"):
    return ask("PUT", f"{URL.path}/{container}/{quote(name, safe='')}", content, {**BLOCK_BLOB, "x-ms-blob-content-type": kind})[0]


def get(container, name):
    return ask("GET", f"{URL.path}/{container}/{quote(name, safe='')}")


def put_many(part):
    with Client() as client:
        return {client.ask("PUT", f"{URL.path}/{NAME}/many/{it:05}", b"%d" % it, BLOCK_BLOB)[0] for it in part}


def token(letters, container):
    end = (datetime.datetime.now(datetime.timezone.utc) + datetime.timedelta(hours=1)).strftime("%Y-%m-%dT%H:%M:%SZ")
    words = [EXAMPLES / "token", os.environ["STAMP_KEY"], f"/{ACCOUNT}/{container}", letters, "-", end, "-"]
    return subprocess.run(words, stdout=subprocess.PIPE, text=True, check=True).stdout.strip()


def text(value):
    """A text as an expression of the page."""
    return json.dumps(value)


class Session:
    """The page and who uses it."""

    def __init__(self, browser, folder, pictures):
        self.browser, self.folder, self.pictures = browser, folder, pictures
        self.address = f"{URL.scheme}://{URL.netloc}{URL.path}/{NAME}/index.html"

    # --- What is done at the page ---

    def names(self):
        return self.browser.value("[...document.querySelectorAll('#rows .name')].map((it) => it.textContent)")

    def told(self):
        return self.browser.value("at('told').textContent")

    def until_told(self, part):
        """Waits until the page tells a text that has this part, and returns the text."""
        self.browser.until(f"at('told').textContent.includes({text(part)})")
        return self.told()

    def go(self, prefix, container=NAME, delimiter="/"):
        """Goes to a folder by its address, and waits for its names."""
        place = "&".join(f"{name}={quote(value, safe='')}" for name, value in (("container", container), ("prefix", prefix), ("delimiter", delimiter)))
        self.browser.value("at('told').textContent = ''")
        # A hash that stays tells the page nothing, so the names are asked for anew.
        self.browser.value(f"location.hash === {text('#' + place)} ? visit() : location.hash = {text('#' + place)}")
        self.browser.until(f"place.prefix === {text(prefix)} && /entr|refused/.test(at('told').textContent)")

    def focus(self, name):
        """Gives the focus to a name of the list, as a click would."""
        self.browser.value(f"choose([...document.querySelectorAll('#rows .name')].find((it) => it.textContent === {text(name)}))")

    def open(self, name):
        self.focus(name)
        self.browser.press("Enter")
        self.browser.until(f"!at('shown').hidden && opened.name.endsWith({text(name)})")

    def use_token(self, pasted):
        """Pastes a token and waits for the list."""
        self.browser.value("at('token').value = at('told').textContent = ''; at('token').focus()")
        self.browser.write(pasted)
        self.browser.press("Enter")
        self.browser.until("/entr|refused|token/.test(at('told').textContent)")

    def upload(self, *files):
        """Chooses files, and presses the button by the keyboard."""
        self.browser.choose_files("#files", *files)
        self.browser.value("document.querySelector('#upload button').focus(); at('told').textContent = ''")
        self.browser.press("Enter")

    # --- The checks ---

    def blobs(self):
        page = PAGE.read_text(encoding="utf-8")
        script = page.partition("<script>")[2].partition("</script>")[0].encode()
        named = re.findall(r"'sha256-(\S+)'", page)
        yield "the page names the digest of its script", named, [base64.b64encode(hashlib.sha256(script).digest()).decode()]
        yield "make an open container", ask("PUT", f"{URL.path}/{NAME}?restype=container", b"", {"x-ms-blob-public-access": "container"})[0], 201
        yield "make a closed one", ask("PUT", f"{URL.path}/{CLOSED}?restype=container")[0], 201
        yield "put the page", put(NAME, "index.html", page.encode(), "text/html; charset=utf-8"), 201
        yield "put a picture", {put(it, "picture.svg", PICTURE.read_bytes(), "image/svg+xml") for it in (NAME, CLOSED)}, {201}
        yield "put names that hold markup", {put(NAME, f"markup/{it}", HOSTILE) for it in MARKUP}, {201}
        yield "put a text without a type", put(NAME, "texts/notes.txt", b"one\ntwo\n", "application/octet-stream"), 201
        yield "put a long text", put(NAME, "texts/long.log", b"0123456789" * 150_000), 201
        with ThreadPoolExecutor(CLIENTS) as clients:
            came = set().union(*clients.map(put_many, [range(it, MANY, CLIENTS) for it in range(CLIENTS)]))
        yield f"put {MANY:,} blobs", came, {201}

    def first_sight(self):
        self.browser.visit(self.address)
        self.until_told("entries.")
        yield "the page lists its container by folders", self.names(), ["index.html", "many/", "markup/", "picture.svg", "texts/"]
        length = len(PAGE.read_bytes())
        yield "a size is told as people read it", self.browser.value("at('rows').rows[0].cells[1].textContent"), f"{length / 1000:.1f} kB"
        yield "a size is told to the byte too", self.browser.value("at('rows').rows[0].cells[1].firstChild.title"), f"{length} bytes"
        now = datetime.datetime.now(datetime.timezone.utc)
        dates = {(now - datetime.timedelta(minutes=it)).strftime("%b %-d, %Y, %-I:%M %p") for it in range(6)}
        shown = self.browser.value("at('rows').rows[0].cells[3].textContent").replace("\u202f", " ")
        yield "a date is told as people read it", shown if shown not in dates else "now", "now"

    def by_keyboard(self):
        browser = self.browser
        browser.value("at('told').textContent = ''; document.activeElement.blur()")
        for _ in range(16):
            browser.press("Tab")
            if browser.value("document.activeElement.closest('#rows') !== null"):
                break
        yield "Tab comes to the first name", browser.value("document.activeElement.textContent"), "index.html"
        browser.press("ArrowDown", "ArrowDown", "ArrowDown", "ArrowDown", "ArrowUp")
        yield "arrows choose a name", browser.value("document.activeElement.textContent"), "picture.svg"
        browser.press("Enter")
        browser.until("document.querySelector('#shown img')?.complete")
        yield "Enter shows a picture", browser.value("document.querySelector('#shown img').naturalWidth"), 160
        browser.press("Escape")
        yield "Esc closes it", browser.value("at('shown').hidden"), True
        browser.press("End", "Enter")
        browser.until("place.prefix === 'texts/' && at('rows').rows.length === 2")
        yield "Enter opens a folder, and its first name has the focus", browser.value("document.activeElement.textContent"), "long.log"
        browser.press("Backspace")
        browser.until("place.prefix === '' && at('rows').rows.length === 5")
        yield "Backspace leads to the folder above", browser.value("document.activeElement.textContent"), "index.html"

    def texts(self):
        self.go("texts/")
        self.open("notes.txt")
        self.browser.until("document.querySelector('#shown pre')")
        yield "a text without a type is shown by its name", self.browser.value("document.querySelector('#shown pre').textContent"), "one\ntwo\n"
        self.open("long.log")
        self.browser.until("document.querySelector('#shown pre')")
        shown = self.browser.value("document.querySelector('#shown pre').textContent.length")
        yield "of a long text the beginning is shown", shown, 256 * 1024
        yield "and the page says so", "The first 262 kB of 1.5 MB." in self.browser.value("at('shown').textContent"), True

    def markup(self):
        self.go("markup/")
        yield "names that hold markup are shown as they are", sorted(self.names()), sorted([*MARKUP[:2], "</", *MARKUP[3:4], "a/", *MARKUP[5:]])
        self.go("markup/", delimiter="")
        yield "without folders all names of the prefix are shown", sorted(self.names()), sorted(MARKUP)
        for name in MARKUP:
            self.open(name)
            self.browser.until("document.querySelector('#shown pre, #shown div button')")
            if not self.browser.value("!!document.querySelector('#shown pre')"):
                self.browser.value("document.querySelector('#shown div button').click()")
                self.browser.until("document.querySelector('#shown pre')")
            shown = self.browser.value("[document.querySelector('#shown h2').textContent, document.querySelector('#shown pre').textContent]")
            yield f"the blob {name} is read", shown, [f"markup/{name}", HOSTILE.decode()]
        yield "no name and no text became markup", self.browser.value("document.querySelectorAll('#rows :is(b, img, script), #shown :is(b, script)').length"), 0

    def many(self):
        self.go("many/")
        yield "a page of names comes first", (len(self.names()), self.told()), (FIRST, "1,000 entries so far, and there are more.")
        self.focus(f"{FIRST - 1:05}")
        self.browser.press("ArrowDown", "Enter")
        self.browser.until(f"document.activeElement.textContent === '{FIRST:05}'")
        yield "by the keyboard the next page comes", len(self.names()), 2 * FIRST
        began = time.monotonic()
        self.browser.value("at('all').focus()")
        self.browser.press("Enter")
        self.until_told(f"{MANY:,} entries.")
        print(f"the other {MANY - 2 * FIRST:,} names came in {time.monotonic() - began:.1f} seconds", flush=True)
        yield "all pages have each name once, in order", self.names() == [f"{it:05}" for it in range(MANY)], True
        self.focus(f"{MANY - 2:05}")
        self.browser.press("ArrowDown", "ArrowDown", "Enter")
        self.browser.until("opened")
        yield "the last blob can be opened", self.browser.value("at('shown').querySelector('h2').textContent"), f"many/{MANY - 1:05}"

    def film(self):
        pictures = [self.browser.value(
            "new Promise((done) => { const it = document.createElement('canvas'); it.width = 64; it.height = 48; const on = it.getContext('2d');"
            f" on.fillStyle = '{colour}'; on.fillRect(0, 0, 64, 48); done(it.toDataURL('image/webp', 0.9).split(',')[1]); }})") for colour in ("red", "blue")]
        red, blue = (base64.b64decode(it) for it in pictures)
        content = webm.film(64, 48, [red] * RED_UNTIL + [blue] * (SECONDS - RED_UNTIL), 500_000)
        yield "put a film", put(NAME, "films/film.webm", content, "video/webm"), 201
        self.go("films/")
        self.browser.forget()
        self.open("film.webm")
        self.browser.until("document.querySelector('video')?.readyState >= 2")
        yield "a film tells how long it is", self.browser.value("document.querySelector('video').duration"), SECONDS
        for second, colour in ((SECONDS - 2, "blue"), (3, "red"), (SECONDS - 5, "blue"), (RED_UNTIL - 1, "red")):
            self.browser.value(f"document.querySelector('video').currentTime = {second}.5")
            self.browser.until("!document.querySelector('video').seeking && document.querySelector('video').readyState >= 2")
            seen = self.browser.value(
                "(() => { const it = document.createElement('canvas'); it.width = it.height = 1; const on = it.getContext('2d');"
                " on.drawImage(document.querySelector('video'), 0, 0, 1, 1); const [r, , b] = on.getImageData(0, 0, 1, 1).data; return r > b ? 'red' : 'blue'; })()")
            yield f"the film is sought to second {second}", seen, colour
        parts = [it["response"]["status"] for it in self.browser.told("Network.responseReceived") if it["response"]["url"].endswith("film.webm")]
        # Chromium sends If-Range for some parts. The server ignores that header, and answers 200 with the whole film.
        yield "it came in parts", (parts.count(206) > 1, set(parts) - {200, 206}), (True, set())
        print(f"the film has {len(content):,} bytes; {len(parts)} requests, {parts.count(200)} of them answered by the whole film", flush=True)
        self.browser.press("Escape")

    def answer(self, *keys):
        """Answers the question of the page by keys, when it is asked. The focus is on No, and Tab leads to Yes."""
        self.browser.until("at('question').open")
        self.browser.press(*keys)

    def without_the_letter(self):
        small = self.folder / "small.txt"
        small.write_bytes(b"hello")
        self.go("texts/")
        self.upload(small)
        yield "without a token nothing is uploaded", self.until_told("Paste"), "To upload you need a token that has the letter w, which lets write. Paste it first."
        self.open("notes.txt")
        self.browser.press("Delete")
        yield "without a token nothing is deleted", self.until_told("Paste"), (
            "To delete “texts/notes.txt” you need a token that has the letter d, which lets delete. Paste it first.")
        yield "and no question is asked", self.browser.value("at('question').open"), False
        self.use_token(token("rl", NAME))
        yield "what a token lets is told", self.browser.value("at('allows').textContent").startswith("A token is used; it lets read, list; it ends "), True
        self.upload(small)
        yield "a token without the letter w is refused in plain words", self.until_told("rule"), (
            "The server refused to put “texts/small.txt”: the token does not have the letter w, which lets write (rule S11, AuthenticationFailed).")
        self.open("notes.txt")
        self.browser.press("Delete")
        self.answer("Tab", "Enter")
        yield "a token without the letter d too", self.until_told("rule"), (
            "The server refused to delete “texts/notes.txt”: the token does not have the letter d, which lets delete (rule S11, AuthenticationFailed).")
        yield "the server has not changed", (get(NAME, "texts/small.txt")[0], get(NAME, "texts/notes.txt")[2]), (404, b"one\ntwo\n")
        self.use_token(token("rwdl", NAME).replace("sig=", "sig=A"))
        self.upload(small)
        yield "a token that is not whole is refused in plain words", self.until_told("rule"), (
            "The server refused to put “texts/small.txt”: the token was not made for this container, or not all of it was pasted"
            " (rule S4, AuthenticationFailed).")
        self.use_token("hello")
        yield "a text that is not a token is told", self.told(), "This is not a token: it has no sig."

    def changes(self):
        small, large = self.folder / "small.txt", self.folder / "large & <two>.bin"
        large.write_bytes(os.urandom(9_000_000))
        self.use_token(f"{URL.scheme}://{URL.netloc}{URL.path}/{NAME}?{token('rwdl', NAME)}")
        yield "the field of the token is empty again", self.browser.value("at('token').value"), ""
        self.upload(small, large)
        yield "two files are uploaded", self.until_told("uploaded"), "2 of 2 files are uploaded."
        yield "the list has them", self.names(), ["large & <two>.bin", "long.log", "notes.txt", "small.txt"]
        yield "the small file is on the server", get(NAME, "texts/small.txt")[2], b"hello"
        yield "the large file is on the server", digest(get(NAME, "texts/large & <two>.bin")[2]), digest(large.read_bytes())
        small.write_bytes(b"hello again")
        self.upload(small)
        self.answer("Escape")
        yield "after Esc a blob that exists is not replaced", (self.until_told("uploaded"), get(NAME, "texts/small.txt")[2]), ("0 of 1 file is uploaded.", b"hello")
        self.upload(small)
        self.answer("Enter")
        yield "after Enter it is not replaced either", (self.until_told("uploaded"), get(NAME, "texts/small.txt")[2]), ("0 of 1 file is uploaded.", b"hello")
        self.upload(small)
        self.answer("Tab", "Enter")
        yield "after Yes it is replaced", (self.until_told("1 of 1"), get(NAME, "texts/small.txt")[2]), ("1 of 1 file is uploaded.", b"hello again")
        put(NAME, "texts/small.txt", b"by somebody else")
        self.focus("small.txt")
        self.browser.press("Delete")
        self.answer("Tab", "Enter")
        yield "what somebody else has put is not deleted", self.until_told("rule"), (
            "The server refused to delete “texts/small.txt”: somebody else has put or changed the blob. List the names again (rule O4, ConditionNotMet).")
        self.focus("notes.txt")
        self.browser.press("Delete")
        self.answer("Tab", "Enter")
        yield "a blob is deleted", (self.until_told("deleted"), get(NAME, "texts/notes.txt")[0]), ("“texts/notes.txt” is deleted.", 404)
        yield "the name after it has the focus", self.browser.value("document.activeElement.textContent"), "small.txt"

    def details(self):
        """The address, the MD5 and the metadata come if somebody asks for them."""
        browser, shown = self.browser, "document.querySelector('#shown {}')"
        button = "[...document.querySelectorAll('#shown button')].find((it) => it.textContent === '{}').click()"
        self.go("texts/")
        self.open("small.txt")
        yield "no address is shown at first", browser.value(f"{shown.format('input')} === null"), True
        browser.value(shown.format("summary") + ".click()")
        browser.until(shown.format("input"))
        yield "the address has no token", browser.value(shown.format("input") + ".value"), f"{URL.scheme}://{URL.netloc}{URL.path}/{NAME}/texts/small.txt"
        md5 = base64.b64encode(hashlib.md5(b"by somebody else").digest()).decode()
        yield "the MD5 is shown", f"MD5: {md5}" in browser.value("at('shown').textContent"), True
        browser.value(button.format("Edit metadata"))
        browser.value(shown.format("textarea") + ".value = 'Colour: red\\nsize: 5'")
        browser.value(button.format("Save metadata"))
        yield "metadata are set", self.until_told("are set"), "The metadata of “texts/small.txt” are set."
        reply = Client().send("HEAD", f"{URL.path}/{NAME}/texts/small.txt")
        yield "the server has them", (reply.headers.get("x-ms-meta-colour"), reply.headers.get("x-ms-meta-size")), ("red", "5")

    def closed(self):
        self.go("", CLOSED)
        yield "a token of another container does not open a closed one", "(rule S4, AuthenticationFailed)" in self.told(), True
        self.use_token("")
        yield "without a token it is closed", "(rule P2, ResourceNotFound)" in self.told(), True
        self.use_token(token("rl", CLOSED))
        yield "a token lists it", self.names(), ["picture.svg"]
        self.open("picture.svg")
        self.browser.until("document.querySelector('#shown img')?.complete")
        yield "its picture is shown by the token", self.browser.value("document.querySelector('#shown img').naturalWidth"), 160
        self.browser.save_into(self.folder / "saved")
        self.browser.value("document.querySelector('#shown a').focus()")
        self.browser.press("Enter")
        saved, limit = self.folder / "saved" / "picture.svg", time.monotonic() + 30
        while not saved.exists() and time.monotonic() < limit:
            self.browser.value("1")
            time.sleep(0.05)
        yield "it is saved under its name", saved.exists() and saved.read_bytes() == PICTURE.read_bytes(), True
        self.use_token(token("l", CLOSED))
        self.open("picture.svg")
        yield "a token without the letter r does not show it, and why", self.until_told("rule"), (
            "The server refused to read “picture.svg”: the token does not have the letter r, which lets read (rule S11, status 403).")

    def last(self):
        self.use_token("")
        self.go("")
        self.open("picture.svg")
        self.browser.until("document.querySelector('#shown img')?.complete")
        for width, height in SIZES.items():
            for scheme in SCHEMES:
                self.browser.show_as(width, height, scheme)
                if self.pictures:
                    (Path(self.pictures) / f"explorer-{width}-{scheme}.png").write_bytes(self.browser.picture())
            runs_out = self.browser.value("document.documentElement.scrollWidth > document.documentElement.clientWidth")
            yield f"at {width} pixels nothing runs out of the page", runs_out, False
            room = self.browser.value("at('rows').rows[0].cells[0].getBoundingClientRect().width")
            yield f"at {width} pixels a name has room", room >= 130, True
        yield "no script failed", [it["exceptionDetails"]["text"] for it in self.browser.told("Runtime.exceptionThrown")], []
        hosts = {it["request"]["url"].split("/")[2] for it in self.browser.told("Network.requestWillBeSent") if it["request"]["url"].startswith("http")}
        yield "only this server was asked", hosts, {URL.netloc}
        yield "delete the containers", {ask("DELETE", f"{URL.path}/{it}?restype=container")[0] for it in (NAME, CLOSED)}, {202}

    def checks(self):
        return (self.blobs, self.first_sight, self.by_keyboard, self.texts, self.markup, self.many, self.film, self.without_the_letter, self.changes,
                self.details, self.closed, self.last)


def main(words):
    if len(words) > 1:
        print(__doc__, file=sys.stderr, end="")
        return 2
    with tempfile.TemporaryDirectory() as folder, Chromium(folder) as browser:
        return run(Session(browser, Path(folder), *words, *[None] * (1 - len(words))).checks())


if __name__ == "__main__":
    try:
        sys.exit(main(sys.argv[1:]))
    except Failure as why:
        sys.exit(f"explorer.py: {why}")
