"""A plain model of heads: where a head ends, what it says, and the first rule F that refuses it.

It is written from docs/formats (requests.md, operations.md, rules.md, limits.md) and shares no code with the program.
"""
import base64
import binascii
import re
from collections import Counter, namedtuple

HEAD_LIMIT, HEADERS = 16_384, 64
METADATA_LIMIT = 8_192
TOKEN = rb"[!#$%&'*+\-.^_`|~0-9A-Za-z]+"
REQUEST_LINE = re.compile(rb"(" + TOKEN + rb") ([^\x00-\x20\x7f]+) HTTP/1\.([01])\r?\n")
FIELD = re.compile(rb"(" + TOKEN + rb"):[ \t]*((?:[^\x00-\x08\n-\x1f\x7f]*[^\x00-\x20\x7f])?)[ \t]*\r?\n")
ORIGIN = re.compile(rb"(?:(?i:http)://[^/?#]+)?(/[^?#<>`]*)(?:\?([^#<>\"]*))?")
CONTROL = re.compile("[\x00-\x1f\x7f\ufffe\uffff]")
CONDITION = re.compile(rb'\*|"[^"]+"')
PRINTABLE = re.compile(rb"[\x20-\x7e]*")
METADATA_NAME = re.compile(rb"[a-z_][a-z0-9_]*")
METADATA = b"x-ms-meta-"
VERSION = b"2012-02-12"

Operation = namedtuple("Operation", "name verbs parts restype comp letter level")
ACCOUNT, CONTAINER, BLOB = 1, 2, 3
OPERATIONS = (
    Operation("ListContainers", ("GET",), ACCOUNT, None, b"list", None, None),
    Operation("CreateContainer", ("PUT",), CONTAINER, b"container", None, None, None),
    Operation("ContainerProperties", ("GET", "HEAD"), CONTAINER, b"container", None, None, "container"),
    Operation("SetContainerMetadata", ("PUT",), CONTAINER, b"container", b"metadata", None, None),
    Operation("GetAcl", ("GET", "HEAD"), CONTAINER, b"container", b"acl", None, None),
    Operation("SetAcl", ("PUT",), CONTAINER, b"container", b"acl", None, None),
    Operation("DeleteContainer", ("DELETE",), CONTAINER, b"container", None, None, None),
    Operation("ListBlobs", ("GET",), CONTAINER, b"container", b"list", "l", "container"),
    Operation("PutBlob", ("PUT",), BLOB, None, None, "w", None),
    Operation("GetBlob", ("GET",), BLOB, None, None, "r", "blob"),
    Operation("BlobProperties", ("HEAD",), BLOB, None, None, "r", "blob"),
    Operation("GetMetadata", ("GET", "HEAD"), BLOB, None, b"metadata", "r", "blob"),
    Operation("SetMetadata", ("PUT",), BLOB, None, b"metadata", "w", None),
    Operation("DeleteBlob", ("DELETE",), BLOB, None, None, "d", None),
    Operation("PutBlock", ("PUT",), BLOB, None, b"block", "w", None),
    Operation("PutBlockList", ("PUT",), BLOB, None, b"blocklist", "w", None),
    Operation("GetBlockList", ("GET",), BLOB, None, b"blocklist", "r", "blob"),
)
CONDITIONAL = {"PutBlob", "GetBlob", "BlobProperties", "GetMetadata", "SetMetadata", "DeleteBlob", "PutBlockList"}
KEEPS_METADATA = {"PutBlob", "PutBlockList", "CreateContainer", "SetMetadata", "SetContainerMetadata"}
BODY_LIMITS = {"PutBlob": 67_108_864, "PutBlock": 4_194_304, "PutBlockList": 8_388_608, "SetAcl": 65_536}
OTHER_BODY = 1_048_576
# The standard headers that are sent at most once; each x-ms- header is one too.
ONCE = {
    b"content-encoding", b"content-language", b"content-md5", b"content-type", b"date", b"if-modified-since", b"if-match", b"if-none-match",
    b"if-unmodified-since", b"range",
}
KEPT = (b"content-type", b"content-encoding", b"content-language", b"cache-control")

Refusal = namedtuple("Refusal", "rule status code")
F1 = Refusal("F1", 400, "InvalidInput")


def head_end(stream, at):
    """Where the head that begins here ends, or nothing if it does not."""
    is_begun = False
    while end := stream.find(b"\n", at) + 1:
        is_empty = stream[at:end] in (b"\n", b"\r\n")
        if is_empty and is_begun:
            return end
        is_begun, at = is_begun or not is_empty, end
    return None


def decoded(text):
    return re.sub(rb"%([0-9A-Fa-f]{2})", lambda it: bytes.fromhex(it[1].decode()), text)


def base64_of(text):
    """What a text is the strict Base64 of, if it is one."""
    try:
        content = base64.b64decode(text, validate=True)
    except binascii.Error:
        return None
    return content if base64.b64encode(content) == text else None


def utf8_of(content):
    try:
        return content.decode("utf-8")
    except UnicodeDecodeError:
        return None


class Head:
    """What the bytes of a head say. The fields have their names in lower case."""

    def __init__(self, verb, path, query, minor, fields):
        self.verb, self.path, self.fields, self.is_newer = verb.decode(), path, fields, minor == b"1"
        pieces = [it.partition(b"=") for it in query.split(b"&") if it]
        self.query = [(decoded(name).lower(), decoded(value)) for name, _, value in pieces]
        parts = path[1:].split(b"/", 2)
        self.parts = parts[:-1] if parts[-1] == b"" else parts

    def all(self, name):
        return [value for it, value in self.fields if it == name]

    def first(self, name):
        return next(iter(self.all(name)), None)

    def parameter(self, name):
        return next((value for it, value in self.query if it == name), None)

    def operation(self):
        """The operation whose row fits, if one does."""
        restype, comp = self.parameter(b"restype"), self.parameter(b"comp")
        for it in OPERATIONS:
            if self.verb in it.verbs and len(self.parts) == it.parts and (restype, comp) == (it.restype, it.comp):
                return None if it.name == "PutBlock" and self.parameter(b"blockid") is None else it
        return None

    def length(self):
        return int(self.first(b"content-length") or b"0")

    def metadata(self):
        return [(name[len(METADATA) :], value) for name, value in self.fields if name.startswith(METADATA)]

    def kept(self, operation):
        """The value of each header that the operation keeps: the first that was sent of those that may give it."""
        kept = {}
        for name in KEPT:
            names = [b"x-ms-blob-" + name] + ([name] if operation.name == "PutBlob" else [])
            kept[name] = next((it for it in map(self.first, names) if it is not None), b"")
        return kept

    def wants_interim(self):
        return self.is_newer and any(it.lower() == b"100-continue" for it in self.all(b"expect"))

    def closes(self):
        listed = (word.strip(b" \t").lower() for it in self.all(b"connection") for word in it.split(b","))
        return not self.is_newer or b"close" in listed


def read_head(data):
    """The head that these bytes are, or nothing if F1 refuses them."""
    at = re.match(rb"(?:\r?\n)*", data).end()
    line = REQUEST_LINE.match(data, at)
    target = line and utf8_of(line[2]) is not None and ORIGIN.fullmatch(line[2])
    if not target:
        return None
    at, fields = line.end(), []
    while data[at:] not in (b"\n", b"\r\n"):
        field = FIELD.match(data, at)
        if not field:
            return None
        fields.append((field[1].lower(), field[2]))
        at = field.end()
    return Head(line[1], target[1], target[2] or b"", line[3], fields) if len(fields) <= HEADERS else None


def is_bad_parameter(name, value):
    text = utf8_of(value)
    if text is None or CONTROL.search(text):
        return True
    if name == b"include":
        return value not in (b"", b"metadata")
    if name == b"maxresults":
        return not re.fullmatch(rb"[0-9]{1,19}", value) or int(value) == 0
    if name == b"blockid":
        return not 1 <= len(base64_of(value) or b"") <= 64
    return name == b"blocklisttype" and value not in (b"committed", b"uncommitted", b"all")


PARAMETERS = (b"restype", b"comp", b"prefix", b"delimiter", b"marker", b"include", b"maxresults", b"blockid", b"blocklisttype")


def f3(head):
    sent = [it for it in head.query if it[0] in PARAMETERS]
    is_doubled = max(Counter(name for name, _ in sent).values(), default=0) > 1
    return is_doubled or any(is_bad_parameter(*it) for it in sent) or not head.operation()


def f4(head):
    lengths = head.all(b"content-length")
    if head.verb == "PUT" and not lengths or head.all(b"transfer-encoding"):
        return Refusal("F4", 411, "MissingContentLengthHeader")
    is_bad = len(lengths) > 1 or any(not re.fullmatch(rb"[0-9]{1,19}", it) for it in lengths)
    return Refusal("F4", 400, "InvalidHeaderValue") if is_bad else None


def is_bad_blob(name):
    text = utf8_of(decoded(name))
    return not text or len(text) > 1_024 or CONTROL.search(text)


def f5(parts):
    is_good = re.fullmatch(rb"[a-z0-9]{3,24}", parts[0])
    if is_good and len(parts) > 1:
        is_good = re.fullmatch(rb"(?!.*--)[a-z0-9][a-z0-9-]{1,61}[a-z0-9]", parts[1])
    return not is_good or len(parts) > 2 and is_bad_blob(parts[2])


def f6(head, operation):
    return (
        any(it != VERSION for it in head.all(b"x-ms-version"))
        or any(head.all(it) for it in (b"if-unmodified-since", b"x-ms-lease-id", b"x-ms-copy-source"))
        or head.verb in ("PUT", "DELETE") and head.all(b"if-modified-since")
        or operation.name == "PutBlob" and any(it != b"BlockBlob" for it in head.all(b"x-ms-blob-type"))
        or operation.name not in CONDITIONAL and (head.all(b"if-match") or head.all(b"if-none-match"))
    )


def has_bad_value(head, operation):
    """Whether a header that is not metadata is sent twice, or has a bad value."""
    counts = Counter(name for name, _ in head.fields if not name.startswith(METADATA))
    if any(count > 1 and (name in ONCE or name.startswith(b"x-ms-")) for name, count in counts.items()):
        return True
    if any(not CONDITION.fullmatch(it) for name in (b"if-match", b"if-none-match") for it in head.all(name)):
        return True
    if any(len(base64_of(it) or b"") != 16 for name in (b"content-md5", b"x-ms-blob-content-md5") for it in head.all(name)):
        return True
    if operation.name in ("CreateContainer", "SetAcl") and head.first(b"x-ms-blob-public-access") not in (None, b"container", b"blob"):
        return True
    return operation.name in ("PutBlob", "PutBlockList") and not all(PRINTABLE.fullmatch(it) for it in head.kept(operation).values())


def has_bad_metadata(head, operation):
    metadata = head.metadata()
    return (
        len({name for name, _ in metadata}) < len(metadata)
        or not all(METADATA_NAME.fullmatch(name) for name, _ in metadata)
        or operation.name in KEEPS_METADATA and not all(PRINTABLE.fullmatch(value) for _, value in metadata)
        or sum(len(name) + len(value) for name, value in metadata) > METADATA_LIMIT
    )


def f7(head, operation):
    if has_bad_value(head, operation):
        return Refusal("F7", 400, "InvalidHeaderValue")
    if has_bad_metadata(head, operation):
        return Refusal("F7", 400, "InvalidMetadata")
    is_missing = operation.name == "PutBlob" and not head.all(b"x-ms-blob-type")
    return Refusal("F7", 400, "MissingRequiredHeader") if is_missing else None


def refusal(head):
    """The first rule F that refuses a head, if one does; without a head it is F1."""
    if not head:
        return F1
    if head.verb not in ("GET", "HEAD", "PUT", "DELETE"):
        return Refusal("F2", 405, "UnsupportedHttpVerb")
    if f3(head):
        return Refusal("F3", 400, "InvalidQueryParameterValue")
    operation = head.operation()
    if f4(head):
        return f4(head)
    if f5(head.parts):
        return Refusal("F5", 400, "InvalidResourceName")
    if f6(head, operation):
        return Refusal("F6", 400, "UnsupportedHeader")
    if f7(head, operation):
        return f7(head, operation)
    is_long = head.length() > BODY_LIMITS.get(operation.name, OTHER_BODY)
    return Refusal("F8", 413, "RequestBodyTooLarge") if is_long else None
