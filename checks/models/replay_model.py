"""A plain model of `stamp replay`: what one connection is answered, byte for byte, and the exit status.

It is written from docs/formats, with heads in head_model.py and bodies that are read in body_model.py. It shares no code with the program.
Memory, reads and writes do not fail in it, and the count of a container does not reach its last number.
"""
import base64
import hashlib
import hmac
import sys
from collections import namedtuple

from body_model import NoForm, STEPS, block_list, http_date, iso_text, policies, read_http_date, read_iso
from head_model import HEAD_LIMIT, PRINTABLE, VERSION, decoded, head_end, read_head, refusal, utf8_of

# (the numbers of a range may have any number of digits)
sys.set_int_max_str_digits(0)

DONE, CUT = 0, 3
PHRASES = {
    200: "OK", 201: "Created", 202: "Accepted", 206: "Partial Content", 304: "Not Modified", 400: "Bad Request", 403: "Forbidden", 404: "Not Found",
    405: "Method Not Allowed", 409: "Conflict", 411: "Length Required", 412: "Precondition Failed", 413: "Payload Too Large",
    416: "Range Not Satisfiable", 500: "Internal Server Error", 503: "Service Unavailable",
}
INTERIM = b"HTTP/1.1 100 Continue\r\n\r\n"
PROLOG = b'<?xml version="1.0" encoding="utf-8"?>'
XML = ("Content-Type", b"application/xml")
DATE_DISTANCE = 900 * STEPS
# The standard headers that have a line of the string to sign.
SIGNED = (
    b"content-encoding", b"content-language", b"content-length", b"content-md5", b"content-type", b"date", b"if-modified-since", b"if-match",
    b"if-none-match", b"if-unmodified-since", b"range",
)
TOKEN = (b"sv", b"sr", b"sig", b"sp", b"st", b"se", b"si")
OVERRIDES = {
    b"rscc": "Cache-Control", b"rscd": "Content-Disposition", b"rsce": "Content-Encoding", b"rscl": "Content-Language", b"rsct": "Content-Type",
}
NEWER = b"2013-08-15"
LEVELS = {None: 0, "blob": 1, "container": 2}
BLOB_LIMIT, ENTRIES, UNCOMMITTED, PAGE = 268_435_456, 50_000, 50_000, 5_000

Denial = namedtuple("Denial", "rule status code")
Item = namedtuple("Item", "operation rule")


class Container:
    def __init__(self):
        self.etag, self.moment, self.level, self.policies, self.metadata, self.blobs = 0, 0, None, [], [], {}


class Blob:
    """A blob: its committed part, if it has one, and its uncommitted blocks by id."""

    def __init__(self):
        self.part, self.blocks = None, {}


class Part:
    """A committed part. Its blocks are pairs of an id, or nothing for the content of a Put Blob, and bytes."""

    def __init__(self, kept, md5, metadata, blocks):
        self.kept, self.md5, self.metadata, self.blocks, self.etag, self.moment = kept, md5, metadata, blocks, 0, 0

    def content(self):
        return b"".join(content for _, content in self.blocks)


class Asked:
    """A request that no rule F refuses: its head, its operation, its names and its body."""

    def __init__(self, head, body):
        self.head, self.operation, self.body = head, head.operation(), body if head.verb == "PUT" else b""
        self.name = self.operation.name
        self.container = head.parts[1].decode() if len(head.parts) > 1 else None
        self.blob = decoded(head.parts[2]) if len(head.parts) > 2 else None
        self.kinds = head.parameter(b"blocklisttype") or b"committed"
        needs_letter_alone = self.name == "GetBlockList" and self.kinds != b"committed"
        self.level = None if needs_letter_alone else self.operation.level


def md5_of(content):
    return base64.b64encode(hashlib.md5(content).digest())


def hmac_of(key, text):
    return base64.b64encode(hmac.new(key, text, hashlib.sha256).digest())


def string_to_sign(head):
    lines = [head.verb.encode(), *(head.first(it) or b"" for it in SIGNED)]
    if head.all(b"x-ms-date"):
        lines[1 + SIGNED.index(b"date")] = b""
    own = sorted({it for it, _ in head.fields if it.startswith(b"x-ms-")})
    names = sorted({it for it, _ in head.query})
    parameters = [b"\n%s:%s" % (it, b",".join(sorted(value for name, value in head.query if name == it))) for it in names]
    own_lines = b"".join(b"%s:%s\n" % (it, head.first(it)) for it in own)
    return b"\n".join(lines) + b"\n" + own_lines + b"/" + head.parts[0] + head.path + b"".join(parameters)


def claim_of(head):
    """The account and the signature that Authorization has, if it has its form."""
    values = head.all(b"authorization")
    if len(values) != 1 or not values[0].startswith(b"SharedKey "):
        return None
    account, colon, signature = values[0][len(b"SharedKey ") :].lstrip(b" ").partition(b":")
    return (account, signature) if account and colon and signature else None


def key_denial(asked, stamp, moment):
    head, claim = asked.head, claim_of(asked.head)
    if not claim:
        return Denial("K1", 400, "InvalidAuthenticationInfo")
    sent = head.all(b"x-ms-date") or head.all(b"date")
    date = read_http_date(sent[0]) if sent else None
    holds = {
        "K2": claim[0] != head.parts[0] or claim[0] != stamp.account,
        "K3": date is None,
        "K4": date is not None and abs(date - moment) > DATE_DISTANCE,
        "K5": claim[1] not in [hmac_of(key, string_to_sign(head)) for key in stamp.keys],
    }
    return next((Denial(rule, 403, "AuthenticationFailed") for rule in holds if holds[rule]), None)


def token_of(head):
    """The parameters of a token, empty ones as if they were not sent; nothing if the query is not a token."""
    sent = {name: [value for it, value in head.query if it == name] for name in (*TOKEN, *OVERRIDES)}
    is_newer = sent[b"sv"] == [NEWER]
    read = (*TOKEN, *(OVERRIDES if is_newer else ()))
    if any(len(sent[it]) > 1 for it in read) or not all(sent[it] for it in (b"sv", b"sr", b"sig")):
        return None
    token = {it: sent[it][0] if sent[it] else b"" for it in read}
    times = [token[it] and read_iso(token[it].decode("latin-1")) for it in (b"st", b"se")]
    is_good = (
        token[b"sv"] in (VERSION, NEWER)
        and token[b"sr"] in (b"b", b"c")
        and utf8_of(token[b"sp"]) is not None
        and token[b"sp"].decode() in [a + b + c + d for a in ("r", "") for b in ("w", "") for c in ("d", "") for d in ("l", "")]
        and None not in times
        and all(PRINTABLE.fullmatch(token[it]) for it in OVERRIDES if it in token)
    )
    return token if is_good else None


def string_of_token(token, asked):
    resource = b"/" + asked.head.parts[0] + b"/" + asked.container.encode() + (b"/" + asked.blob if token[b"sr"] == b"b" else b"")
    parts = [token[b"sp"], token[b"st"], token[b"se"], resource, token[b"si"], token[b"sv"]]
    return b"\n".join(parts + [token[it] for it in OVERRIDES if it in token])


def token_denial(asked, stamp, moment):
    token = token_of(asked.head)
    if not token:
        return Denial("S1", 403, "AuthenticationFailed")
    is_named = asked.container is not None and (token[b"sr"] == b"c" or asked.blob is not None)
    container = stamp.found(asked)
    stored = dict(container.policies if container else []).get(utf8_of(token[b"si"])) if token[b"si"] else (None, None, None)
    own = [read_iso(token[it].decode()) if token[it] else None for it in (b"st", b"se")] + [token[b"sp"].decode() or None]
    both = [*zip(own, stored or (None, None, None))]
    start, expiry, letters = [a if a is not None else b for a, b in both]
    holds = {
        "S2": asked.head.parts[0] != stamp.account,
        "S3": not is_named,
        "S4": is_named and token[b"sig"] not in [hmac_of(key, string_of_token(token, asked)) for key in stamp.keys],
        "S5": stored is None,
        "S6": any(None not in it for it in both),
        "S7": stored is not None and (expiry is None or letters is None),
        "S8": start is not None and moment < start,
        "S9": expiry is not None and moment >= expiry,
        "S10": not asked.operation.letter,
        "S11": letters is not None and (asked.operation.letter or "") not in letters,
    }
    return next((Denial(rule, 403, "AuthenticationFailed") for rule in holds if holds[rule]), None)


def public_denial(asked, stamp, _):
    container = stamp.found(asked)
    if not asked.level:
        return Denial("P1", 404, "ResourceNotFound")
    is_open = container and LEVELS[container.level] >= LEVELS[asked.level]
    return None if is_open else Denial("P2", 404, "ResourceNotFound")


def route(head):
    if head.all(b"authorization"):
        return key_denial
    return token_denial if head.parameter(b"sig") is not None else public_denial


def etag_text(etag):
    return b'"0x%016x"' % etag


def condition_denial(head, part):
    def matches(value):
        return part is not None and value in (b"*", etag_text(part.etag))

    wanted, unwanted = head.first(b"if-match"), head.first(b"if-none-match")
    if wanted is not None and not matches(wanted):
        return Denial("O4", 412, "ConditionNotMet")
    if unwanted is None or not matches(unwanted):
        return None
    if head.verb in ("GET", "HEAD"):
        return Denial("O4", 304, None)
    return Denial("O4", 409, "BlobAlreadyExists") if unwanted == b"*" else Denial("O4", 412, "ConditionNotMet")


def body_denial(asked):
    """The first cause of O5 that the request has by itself, and what its body says."""
    own = [b"content-md5"] + ([b"x-ms-blob-content-md5"] if asked.name == "PutBlob" else [])
    if asked.head.verb == "PUT" and any(asked.head.first(it) not in (None, md5_of(asked.body)) for it in own):
        return Denial("O5", 400, "Md5Mismatch"), None
    try:
        said = {"PutBlockList": block_list, "SetAcl": policies}.get(asked.name, lambda body: None)(asked.body)
    except NoForm:
        return Denial("O5", 400, "InvalidXmlDocument"), None
    is_bad = asked.name == "PutBlockList" and any(it is None for _, it in said)
    return (Denial("O5", 400, "InvalidBlockList") if is_bad else None), said


def listed_block(blob, kind, name):
    """The block that an entry of a block list takes, if there is one."""
    committed = [it for it in (blob.part.blocks if blob.part else []) if it[0] == name][:1]
    uncommitted = [(name, blob.blocks[name])] if name in blob.blocks else []
    found = {"Latest": uncommitted + committed, "Committed": committed, "Uncommitted": uncommitted}[kind]
    return found[0] if found else None


def limit_denial(asked, blob, blocks):
    """The first cause of O6 that holds. The count is never at its end here."""
    if asked.name == "PutBlockList" and len(blocks) > ENTRIES:
        return Denial("O6", 400, "BlockListTooLong")
    if asked.name == "PutBlock":
        name = block_id(asked)
        if any(len(it) != len(name) for it in blob.blocks):
            return Denial("O6", 400, "InvalidBlobOrBlock")
        if name not in blob.blocks and len(blob.blocks) >= UNCOMMITTED:
            return Denial("O6", 409, "BlockCountExceedsLimit")
    if asked.name == "PutBlockList" and sum(len(content) for _, content in blocks) > BLOB_LIMIT:
        return Denial("O6", 413, "RequestBodyTooLarge")
    wanted = range_of(asked.head) if asked.name == "GetBlob" else None
    if wanted and wanted[0] >= len(blob.part.content()):
        return Denial("O6", 416, "InvalidRange")
    return None


def block_id(asked):
    return base64.b64decode(asked.head.parameter(b"blockid"))


def range_of(head):
    """The first and the last byte that a range names, the latter if it does; nothing if no range has an effect."""
    value = head.first(b"x-ms-range") if head.all(b"x-ms-range") else head.first(b"range") or b""
    first, dash, last = value.removeprefix(b"bytes=").partition(b"-")
    is_range = value.startswith(b"bytes=") and dash and first.isdigit() and (not last or last.isdigit()) and not head.all(b"if-range")
    if not is_range or last and int(last) < int(first):
        return None
    return int(first), int(last) if last else None


def escaped(text):
    return text.replace(b"&", b"&amp;").replace(b"<", b"&lt;").replace(b">", b"&gt;")


def element(name, content):
    return b"<%s>%s</%s>" % (name, content, name)


def dates_of(it):
    return [("ETag", etag_text(it.etag)), ("Last-Modified", http_date(it.moment).encode())]


def metadata_lines(metadata):
    return [("x-ms-meta-" + name.decode(), value) for name, value in metadata]


def metadata_of(head):
    return sorted(head.metadata())


def properties(it, more):
    own = element(b"Last-Modified", http_date(it.moment).encode()) + element(b"Etag", etag_text(it.etag)) + more
    return element(b"Properties", own)


def shown_metadata(head, metadata):
    is_asked = head.parameter(b"include") == b"metadata"
    return element(b"Metadata", b"".join(element(name, escaped(value)) for name, value in metadata)) if is_asked else b""


def page(asked, kind, names, shown, delimiter):
    """A page of names, each shown by a call; a group is shown by its text."""
    head = asked.head
    prefix, marker = head.parameter(b"prefix") or b"", head.parameter(b"marker") or b""
    most = min(int(head.parameter(b"maxresults") or PAGE), PAGE)
    entries = {}
    for name in names:
        if name.startswith(prefix):
            at = name.find(delimiter, len(prefix)) if delimiter else -1
            entry = name if at < 0 else name[: at + len(delimiter)]
            entries[entry] = element(b"BlobPrefix", element(b"Name", escaped(entry))) if at >= 0 else shown(name)
    left = sorted(it for it in entries if it >= marker)
    text = element(b"Prefix", escaped(prefix)) if prefix else b""
    text += element(b"Marker", escaped(marker)) if marker else b""
    text += element(b"MaxResults", b"%d" % most)
    text += element(b"Delimiter", escaped(delimiter)) if delimiter else b""
    text += element(kind, b"".join(entries[it] for it in left[:most]))
    text += element(b"NextMarker", escaped(b"".join(left[most : most + 1])))
    return 200, [XML], PROLOG + element(b"EnumerationResults", text)


class Stamp:
    """The containers of one account, with the count of each that ever existed, and the calls that answer allowed requests.

    Each call gives a status, the headers in their order, and the body.
    """

    def __init__(self, account, keys):
        self.account, self.keys = account.encode(), keys
        self.counts, self.containers = {}, {}

    def found(self, asked):
        return self.containers.get(asked.container) if asked.head.parts[0] == self.account else None

    def changed(self, asked, moment, it=None):
        """Raises the count of the request's container, and gives the ETag to what was changed."""
        count = self.counts[asked.container] = self.counts.get(asked.container, 0) + 1
        if it:
            it.etag, it.moment = count, moment

    def denial(self, asked):
        """The first rule O that holds, and what the body says."""
        container, name = self.found(asked), asked.name
        blob = container.blobs.get(asked.blob, Blob()) if container else Blob()
        if not container and name not in ("ListContainers", "CreateContainer"):
            return Denial("O1", 404, "ContainerNotFound"), None
        if container and name == "CreateContainer":
            return Denial("O2", 409, "ContainerAlreadyExists"), None
        needs_part = name in ("GetBlob", "BlobProperties", "GetMetadata", "SetMetadata", "DeleteBlob", "GetBlockList")
        is_any_block = name == "GetBlockList" and asked.kinds != b"committed" and blob.blocks
        if needs_part and not blob.part and not is_any_block:
            return Denial("O3", 404, "BlobNotFound"), None
        failed = condition_denial(asked.head, blob.part)
        if failed:
            return failed, None
        failed, said = body_denial(asked)
        if not failed and name == "PutBlockList":
            said = [listed_block(blob, *it) for it in said]
            failed = Denial("O5", 400, "InvalidBlockList") if None in said else None
        return failed or limit_denial(asked, blob, said), said

    def answer(self, asked, moment, said):
        container = self.found(asked)
        blob = container.blobs.setdefault(asked.blob, Blob()) if container and asked.blob is not None else None
        answered = getattr(self, asked.name)(asked, moment, container or Container(), blob, said)
        if blob and not blob.part and not blob.blocks:
            del container.blobs[asked.blob]
        return answered

    def CreateContainer(self, asked, moment, container, *_):
        container.level, container.metadata = level_of(asked.head), metadata_of(asked.head)
        self.containers[asked.container] = container
        self.changed(asked, moment, container)
        return 201, dates_of(container), b""

    def SetContainerMetadata(self, asked, moment, container, *_):
        container.metadata = metadata_of(asked.head)
        self.changed(asked, moment, container)
        return 200, dates_of(container), b""

    def SetAcl(self, asked, moment, container, _, said):
        container.level, container.policies = level_of(asked.head), said
        self.changed(asked, moment, container)
        return 200, dates_of(container), b""

    def DeleteContainer(self, asked, moment, *_):
        self.changed(asked, moment)
        del self.containers[asked.container]
        return 202, [], b""

    def ContainerProperties(self, asked, moment, container, *_):
        return 200, metadata_lines(container.metadata) + dates_of(container), b""

    def GetAcl(self, asked, moment, container, *_):
        level = [("x-ms-blob-public-access", container.level.encode())] if container.level else []
        text = b"".join(element(b"SignedIdentifier", shown_policy(*it)) for it in container.policies)
        return 200, [XML, *level, *dates_of(container)], PROLOG + element(b"SignedIdentifiers", text)

    def PutBlob(self, asked, moment, container, blob, _):
        md5 = md5_of(asked.body)
        own = asked.head.first(b"x-ms-blob-content-md5")
        blob.part = Part(kept_by(asked), own or md5, metadata_of(asked.head), [(None, asked.body)])
        blob.blocks = {}
        self.changed(asked, moment, blob.part)
        return 201, [("Content-MD5", md5), *dates_of(blob.part)], b""

    def PutBlock(self, asked, moment, container, blob, _):
        blob.blocks[block_id(asked)] = asked.body
        self.changed(asked, moment)
        return 201, [("Content-MD5", md5_of(asked.body))], b""

    def PutBlockList(self, asked, moment, container, blob, said):
        blob.part = Part(kept_by(asked), asked.head.first(b"x-ms-blob-content-md5") or b"", metadata_of(asked.head), said)
        blob.blocks = {}
        self.changed(asked, moment, blob.part)
        return 201, [("Content-MD5", md5_of(asked.body)), *dates_of(blob.part)], b""

    def SetMetadata(self, asked, moment, container, blob, _):
        blob.part.metadata = metadata_of(asked.head)
        self.changed(asked, moment, blob.part)
        return 200, dates_of(blob.part), b""

    def DeleteBlob(self, asked, moment, container, blob, _):
        blob.part, blob.blocks = None, {}
        self.changed(asked, moment)
        return 202, [], b""

    def GetMetadata(self, asked, moment, container, blob, _):
        return 200, metadata_lines(blob.part.metadata) + dates_of(blob.part), b""

    def GetBlob(self, asked, moment, container, blob, _):
        content, wanted = blob.part.content(), range_of(asked.head) if asked.name == "GetBlob" else None
        first, last = wanted or (0, None)
        sent = content[first : None if last is None else last + 1]
        shown = {
            **{name.decode().title(): value for name, value in blob.part.kept.items()},
            "Content-MD5": b"" if wanted else blob.part.md5,
            "Content-Range": b"bytes %d-%d/%d" % (first, first + len(sent) - 1, len(content)) if wanted else b"",
            **overrides(asked.head),
        }
        order = ("Content-Type", "Content-Encoding", "Content-Language", "Content-MD5", "Cache-Control", "Content-Disposition", "Content-Range")
        headers = [(it, shown[it]) for it in order if shown.get(it)] + metadata_lines(blob.part.metadata)
        headers += [("x-ms-blob-type", b"BlockBlob"), ("Accept-Ranges", b"bytes"), *dates_of(blob.part)]
        return 206 if wanted else 200, headers, sent

    BlobProperties = GetBlob

    def GetBlockList(self, asked, moment, container, blob, _):
        committed = [it for it in (blob.part.blocks if blob.part else []) if it[0] is not None]
        lists = {b"committed": (b"CommittedBlocks", committed), b"uncommitted": (b"UncommittedBlocks", sorted(blob.blocks.items()))}
        text = b"".join(shown_blocks(*lists[kind]) for kind in lists if asked.kinds in (kind, b"all"))
        of_part = [("x-ms-blob-content-length", b"%d" % len(blob.part.content())), *dates_of(blob.part)] if blob.part else []
        return 200, [XML, *of_part], PROLOG + element(b"BlockList", text)

    def ListBlobs(self, asked, moment, container, *_):
        def shown(name):
            part = container.blobs[name].part
            more = element(b"Content-Length", b"%d" % len(part.content())) + element(b"Content-Type", escaped(part.kept[b"content-type"]))
            more += element(b"BlobType", b"BlockBlob")
            return element(b"Blob", element(b"Name", escaped(name)) + properties(part, more) + shown_metadata(asked.head, part.metadata))

        names = [it for it, blob in container.blobs.items() if blob.part]
        return page(asked, b"Blobs", names, shown, asked.head.parameter(b"delimiter") or b"")

    def ListContainers(self, asked, moment, *_):
        def shown(name):
            it = self.containers[name.decode()]
            return element(b"Container", element(b"Name", name) + properties(it, b"") + shown_metadata(asked.head, it.metadata))

        return page(asked, b"Containers", [it.encode() for it in self.containers], shown, b"")


def shown_blocks(name, blocks):
    shown = [element(b"Name", base64.b64encode(it)) + element(b"Size", b"%d" % len(content)) for it, content in blocks]
    return element(name, b"".join(element(b"Block", it) for it in shown))


def level_of(head):
    return (head.first(b"x-ms-blob-public-access") or b"").decode() or None


def kept_by(asked):
    kept = asked.head.kept(asked.operation)
    return {**kept, b"content-type": kept[b"content-type"] or b"application/octet-stream"}


def shown_policy(name, fields):
    start, expiry, letters = fields
    text = element(b"Start", iso_text(start).encode()) if start is not None else b""
    text += element(b"Expiry", iso_text(expiry).encode()) if expiry is not None else b""
    text += element(b"Permission", letters.encode()) if letters else b""
    return element(b"Id", escaped(name.encode())) + element(b"AccessPolicy", text)


def overrides(head):
    """The headers that the request's token overrides."""
    token = token_of(head) if route(head) is token_denial else None
    return {OVERRIDES[it]: token[it] for it in OVERRIDES if token and token.get(it)}


def reply_bytes(moment, verb, closes, status, headers, body, rule=None):
    lines = [("Date", http_date(moment).encode()), ("x-ms-version", VERSION)]
    lines += [("x-stamp-rule", rule.encode())] if rule else []
    lines += [*headers] + ([("Connection", b"close")] if closes else [])
    lines += [("Content-Length", b"%d" % len(body))] if status != 304 else []
    text = b"HTTP/1.1 %d %s\r\n" % (status, PHRASES[status].encode()) + b"".join(b"%s: %s\r\n" % (name.encode(), value) for name, value in lines)
    return text + b"\r\n" + (b"" if verb == "HEAD" or status == 304 else body)


def denied_bytes(moment, verb, closes, denial):
    if denial.status == 304:
        return reply_bytes(moment, verb, closes, 304, [], b"", denial.rule)
    error = element(b"Code", denial.code.encode()) + element(b"Message", f"Refused by rule {denial.rule}.".encode())
    return reply_bytes(moment, verb, closes, denial.status, [XML], PROLOG + element(b"Error", error), denial.rule)


def answered(head, body, stamp, moment):
    """The reply to a request that no rule F refuses, and the rule that refuses it if one does."""
    asked = Asked(head, body)
    denial, said = route(head)(asked, stamp, moment), None
    if not denial:
        denial, said = stamp.denial(asked)
    if denial:
        return denied_bytes(moment, head.verb, head.closes(), denial), Item(asked.name, denial.rule)
    return reply_bytes(moment, head.verb, head.closes(), *stamp.answer(asked, moment, said)), Item(asked.name, None)


def replay(stream, moments, account, keys):
    """What a connection to a new stamp writes, its exit status, and its items."""
    return connected(Stamp(account, keys), stream, moments)


def connected(stamp, stream, moments):
    """What a connection writes that gets this stream, its exit status, and its items. Each item has its moment; the last one holds on."""
    at, wrote, items = 0, b"", []
    while at < len(stream):
        moment, end = moments[min(len(items), len(moments) - 1)], head_end(stream, at)
        if (end or len(stream)) - at <= HEAD_LIMIT and not end:
            return wrote, CUT, items
        head = read_head(stream[at:end]) if end and end - at <= HEAD_LIMIT else None
        refused = refusal(head)
        if refused:
            items.append(Item(None, refused.rule))
            return wrote + denied_bytes(moment, head.verb if head else "", True, refused), DONE, items
        wrote += INTERIM if head.wants_interim() else b""
        body = stream[end : end + head.length()]
        if len(body) < head.length():
            return wrote, CUT, items
        reply, item = answered(head, body, stamp, moment)
        wrote, at = wrote + reply, end + len(body)
        items.append(item)
        if head.closes():
            return wrote, DONE, items
    return wrote, DONE, items
