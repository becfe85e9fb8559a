"""Makes a film in WebM of still pictures, one a second, so that a browser can seek in it (RFC 8794; RFC 9559; RFC 6386)."""
import struct


def element(identifier, content):
    """An element of EBML. Its length has eight bytes."""
    return bytes.fromhex(identifier) + (len(content) | 1 << 56).to_bytes(8, "big") + content


def number(identifier, value, width=8):
    return element(identifier, value.to_bytes(width, "big"))


def frame_of(picture):
    """The frame of VP8 in a picture of WebP."""
    place = picture.index(b"VP8 ") + 4
    return picture[place + 4:place + 4 + int.from_bytes(picture[place:place + 4], "little")]


def cluster(second, picture, filling):
    """A picture that is shown from a second on, and bytes without a meaning before it, so that the film is long enough to come in parts."""
    block = b"\x81\0\0\x80" + frame_of(picture)
    return element("1F43B675", number("E7", second * 1000) + element("EC", bytes(filling)) + element("A3", block))


def cue(second, place):
    return element("BB", number("B3", second * 1000) + element("B7", number("F7", 1) + number("F1", place)))


def film(width, height, pictures, filling):
    head = element("1A45DFA3", number("4286", 1) + number("42F7", 1) + number("42F2", 4) + number("42F3", 8) + element("4282", b"webm")
                   + number("4287", 2) + number("4285", 2))
    info = element("1549A966", number("2AD7B1", 1_000_000) + element("4489", struct.pack(">d", len(pictures) * 1000.0))
                   + element("4D80", b"stamp") + element("5741", b"stamp"))
    video = element("E0", number("B0", width) + number("BA", height))
    track = element("1654AE6B", element("AE", number("D7", 1) + number("73C5", 1) + number("83", 1) + element("86", b"V_VP8") + video))
    clusters = [cluster(second, picture, filling) for second, picture in enumerate(pictures)]
    # (a cue takes the same room wherever it leads)
    places, place = [], len(info) + len(track) + len(element("1C53BB6B", b"".join(cue(it, 0) for it in range(len(pictures)))))
    for it in clusters:
        places.append(place)
        place += len(it)
    cues = element("1C53BB6B", b"".join(cue(second, it) for second, it in enumerate(places)))
    return head + element("18538067", info + track + cues + b"".join(clusters))
