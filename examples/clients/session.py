"""What the sessions in Python share: signed requests to the server that STAMP_URL names, and the lines that a session prints."""
import base64
import email.utils
import hashlib
import hmac
import http.client
import os
from urllib.parse import unquote, urlsplit
from xml.etree import ElementTree

URL = urlsplit(os.environ["STAMP_URL"])
ACCOUNT, KEY = os.environ["STAMP_ACCOUNT"], base64.b64decode(os.environ["STAMP_KEY"])
# The standard headers of docs/formats/strings-to-sign.md.
STANDARD = (
    "Content-Encoding", "Content-Language", "Content-Length", "Content-MD5", "Content-Type", "Date", "If-Modified-Since", "If-Match",
    "If-None-Match", "If-Unmodified-Since", "Range",
)
BLOCK_BLOB = {"x-ms-blob-type": "BlockBlob"}
# How long a reply may take, in seconds. The server waits 60 seconds for an idle client, so a check fails if its request waits for that.
LIMIT = 20


def parameters_of(query):
    """The parameters as the string to sign has them: decoded, and in the order of their names. `+` is a plus sign."""
    pieces = [piece.partition("=") for piece in query.split("&") if piece]
    return [f"{name}:{unquote(value)}" for name, _, value in sorted(pieces)]


def string_to_sign(method, target, headers):
    """By docs/formats/strings-to-sign.md. No session sends a parameter twice, and sessions name parameters in lower case, without escapes."""
    path, _, query = target.partition("?")
    standard = [headers.get(name, "") for name in STANDARD]
    own = [f"{name}:{value}" for name, value in sorted(headers.items()) if name.startswith("x-ms-")]
    return "\n".join([method, *standard, *own, f"/{ACCOUNT}{path}", *parameters_of(query)])


def signed(method, target, headers, length):
    """The headers of a signed request whose body has this length."""
    headers = {**headers, "x-ms-version": "2012-02-12", "x-ms-date": email.utils.formatdate(usegmt=True)}
    if method == "PUT":
        headers["Content-Length"] = str(length)
    signature = hmac.new(KEY, string_to_sign(method, target, headers).encode(), hashlib.sha256).digest()
    return {**headers, "Authorization": f"SharedKey {ACCOUNT}:{base64.b64encode(signature).decode()}"}


class Client:
    """A caller with one connection, which ends with the `with` that made it."""

    def __init__(self):
        self.connection = http.client.HTTPConnection(URL.netloc, timeout=LIMIT)

    def __enter__(self):
        return self

    def __exit__(self, *_):
        self.connection.close()

    def send(self, method, target, body=b"", headers=None):
        """Sends a signed request, and returns its reply before the body of the reply is read."""
        headers = signed(method, target, headers or {}, len(body))
        self.connection.request(method, target, body if method == "PUT" else None, headers)
        return self.connection.getresponse()

    def ask(self, *request):
        """Sends a signed request, and returns the status, the ETag and the body of its reply."""
        reply = self.send(*request)
        return reply.status, reply.headers.get("ETag", ""), reply.read()

    def get_as_guest(self, target):
        """Gets a target without a signature. Returns the status of the reply, and the rule that refused the request."""
        self.connection.request("GET", target)
        reply = self.connection.getresponse()
        reply.read()
        return reply.status, reply.headers.get("x-stamp-rule")


def ask(*request):
    """Sends a signed request on a connection of its own, and returns the same as `Client.ask`."""
    with Client() as client:
        return client.ask(*request)


def digest(content):
    return hashlib.sha256(content).hexdigest()


def answers(checks):
    """What each check tried, what it got and what it wants. If a connection breaks or a reply takes too long, the other checks are left out."""
    for check in checks:
        try:
            yield from check()
        except (OSError, http.client.HTTPException, ValueError, ElementTree.ParseError) as error:
            yield check.__name__, repr(error), "an answer"
            return


def run(checks):
    """Prints a line for each check, and two counts. Returns 1 if a check failed, and otherwise 0."""
    passed = failed = 0
    for what, got, wanted in answers(checks):
        is_well = got == wanted
        passed, failed = passed + is_well, failed + (not is_well)
        print(f"ok {what}" if is_well else f"FAIL {what}: got {got!r:.300} want {wanted!r:.300}", flush=True)
    print(f"{passed} ok, {failed} failed")
    return int(failed > 0)
