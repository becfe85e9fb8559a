"""A plain model of times and of bodies in XML that are read: block lists and stored policies.

It is written from docs/formats (times.md, bodies.md) and shares no code with the program. A moment is a number of steps of 100 ns since 1970.
"""
import re
from datetime import datetime, timedelta

from head_model import CONTROL, base64_of, utf8_of

STEPS = 10_000_000
START = datetime(1970, 1, 1)
DAYS = ("Monday", "Tuesday", "Wednesday", "Thursday", "Friday", "Saturday", "Sunday")
MONTHS = ("Jan", "Feb", "Mar", "Apr", "May", "Jun", "Jul", "Aug", "Sep", "Oct", "Nov", "Dec")
ISO = re.compile(r"([0-9]{4})-([0-9]{2})-([0-9]{2})(?:T([0-9]{2}):([0-9]{2})(?::([0-9]{2})(?:\.([0-9]{1,7}))?)?Z)?")
WEEKDAY, CLOCK, MONTH = r"(?P<wday>[A-Z][a-z]+)", r"(?P<h>[0-9]{2}):(?P<m>[0-9]{2}):(?P<s>[0-9]{2})", r"(?P<month>[A-Z][a-z]{2})"
HTTP_DATES = (
    re.compile(rf"{WEEKDAY}, (?P<day>[0-9]{{2}}) {MONTH} (?P<year>[0-9]{{4}}) {CLOCK} GMT"),
    re.compile(rf"{WEEKDAY}, (?P<day>[0-9]{{2}})-{MONTH}-(?P<year>[0-9]{{2}}) {CLOCK} GMT"),
    re.compile(rf"{WEEKDAY} {MONTH} (?P<day>[0-9]{{2}}| [0-9]) {CLOCK} (?P<year>[0-9]{{4}})"),
)
# Of the three formats, the second one has whole names of days.
WHOLE_NAMES = (False, True, False)

WHITE = " \t\r\n"
NAME = r"[A-Za-z_:][A-Za-z0-9_:.\-]*"
REFERENCE = r"&(?:amp|lt|gt|quot|apos);"
VALUE = rf"""(?:"(?:{REFERENCE}|[^<&"])*"|'(?:{REFERENCE}|[^<&'])*')"""
ATTRIBUTES = rf"(?:[{WHITE}]+{NAME}[{WHITE}]*=[{WHITE}]*{VALUE})*[{WHITE}]*"
TEXT = re.compile(rf"(?:{REFERENCE}|[^<&])*")
BEGINNING = re.compile(rf"\ufeff?(?:<\?xml(?:[{WHITE}].*?)?\?>)?", re.S)
REFERENCES = {"&amp;": "&", "&lt;": "<", "&gt;": ">", "&quot;": '"', "&apos;": "'"}


def moment_at(date, steps=0):
    return (date - START) // timedelta(microseconds=1) * 10 + steps


def read_iso(text):
    """The moment of a time of ISO 8601, if it is one."""
    found = ISO.fullmatch(text)
    if not found or int(found[1]) < 1970:
        return None
    try:
        return moment_at(datetime(*(int(it or 0) for it in found.groups()[:6])), int((found[7] or "0").ljust(7, "0")))
    except ValueError:
        return None


def read_http_date(text):
    """The moment of a date of HTTP, if it is one."""
    text = text.decode("latin-1")
    for form, is_whole in zip(HTTP_DATES, WHOLE_NAMES):
        if found := form.fullmatch(text):
            year = int(found["year"])
            year += (1900 if year >= 70 else 2000) if is_whole else 0
            try:
                date = datetime(year, MONTHS.index(found["month"]) + 1, int(found["day"]), *(int(found[it]) for it in "hms"))
            except ValueError:
                return None
            day = DAYS[date.weekday()]
            return moment_at(date) if year >= 1970 and found["wday"] == (day if is_whole else day[:3]) else None
    return None


def http_date(moment):
    date = START + timedelta(seconds=moment // STEPS)
    return f"{DAYS[date.weekday()][:3]}, {date.day:02} {MONTHS[date.month - 1]} {date.year:04} {date:%H:%M:%S} GMT"


def iso_text(moment):
    date = START + timedelta(seconds=moment // STEPS)
    return f"{date.year:04}-{date:%m-%dT%H:%M:%S}.{moment % STEPS:07}Z"


class NoForm(Exception):
    """A body does not have its form."""


class Reader:
    """The text of a body, and how far it was read."""

    def __init__(self, body):
        text = utf8_of(body)
        if text is None or CONTROL.search(re.sub("[\t\r\n]", "", text)):
            raise NoForm
        self.text, self.at = text, BEGINNING.match(text).end()
        self.white()

    def take(self, form):
        """What comes next, if it has this form."""
        found = re.compile(form).match(self.text, self.at)
        self.at = found.end() if found else self.at
        return found

    def white(self):
        self.take(rf"[{WHITE}]*")

    def opens(self, name):
        return self.take(rf"<{name}{ATTRIBUTES}>")

    def is_empty(self, name):
        return self.take(rf"<{name}{ATTRIBUTES}/>")

    def close(self, name):
        if not self.take(rf"</{name}[{WHITE}]*>"):
            raise NoForm

    def text_of(self, names):
        """The name and the text of the next element, if it is one of these."""
        for name in names:
            if self.is_empty(name):
                return name, ""
            if self.opens(name):
                text = self.take(TEXT.pattern)[0]
                self.close(name)
                return name, re.sub("&.*?;", lambda it: REFERENCES[it[0]], text).strip(WHITE)
        return None

    def elements(self, name, element):
        """What an element has, each read by a call; nothing if no such element comes next."""
        if self.is_empty(name):
            return []
        if not self.opens(name):
            return None
        found = []
        self.white()
        while (it := element()) is not None:
            found.append(it)
            self.white()
        self.close(name)
        return found

    def whole(self, root):
        """What the root has, if nothing but white space comes after it."""
        found = root()
        self.white()
        if found is None or self.at < len(self.text):
            raise NoForm
        return found


def block_list(body):
    """The entries of a block list: of each its kind, and its id or nothing if its text is not an id."""
    reader = Reader(body)
    entries = reader.whole(lambda: reader.elements("BlockList", lambda: reader.text_of(("Latest", "Committed", "Uncommitted"))))
    ids = [(kind, base64_of(text.encode())) for kind, text in entries]
    return [(kind, it if it and len(it) <= 64 else None) for kind, it in ids]


def policies(body):
    """The stored policies that a body gives, in its order: of each its id, and the start, the expiry and the permissions that it gives."""
    if not body:
        return []
    reader = Reader(body)

    def part():
        fields = reader.elements("AccessPolicy", lambda: reader.text_of(("Start", "Expiry", "Permission")))
        return reader.text_of(("Id",)) if fields is None else ("AccessPolicy", fields)

    def policy():
        # An empty element of a policy has no id.
        if reader.is_empty("SignedIdentifier"):
            raise NoForm
        return reader.elements("SignedIdentifier", part)

    found = [policy_of(parts) for parts in reader.whole(lambda: reader.elements("SignedIdentifiers", policy))]
    if len(found) > 5 or len({name for name, _ in found}) < len(found):
        raise NoForm
    return found


def policy_of(parts):
    names = [name for name, _ in parts]
    if names.count("Id") != 1 or names.count("AccessPolicy") > 1:
        raise NoForm
    name, fields = dict(parts)["Id"], dict(parts).get("AccessPolicy", [])
    given = {field: text for field, text in fields if text}
    times = [read_iso(given[it]) if it in given else None for it in ("Start", "Expiry")]
    is_bad_time = any(it in given and time is None for it, time in zip(("Start", "Expiry"), times))
    if len({field for field, _ in fields}) < len(fields) or not 1 <= len(name) <= 64 or CONTROL.search(name) or is_bad_time:
        raise NoForm
    if not re.fullmatch("r?w?d?l?", given.get("Permission", "")):
        raise NoForm
    return name, (*times, given.get("Permission"))
