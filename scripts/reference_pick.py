#!/usr/bin/env python3
"""What `smooth pick TRACK TIME` is to print and its status, by a plain and slow program written from docs/FORMATS.md and
docs/DECISIONS.md alone. It shares nothing with the program, so that each can be held against the other.
    reference_pick.py TRACK TIME < INPUT > OUTPUT
"""
import os
import re
import sys
from collections import namedtuple

from reference_words import told

MOST_INPUT = 268_435_456
MOST_MOOF = 2_097_152
MOST_HEADER = 1_048_576
MOST_MEDIA = 67_108_864
MOST_SAMPLES = 65_536
MOST_TIME = 2**63 - 1

TFXD = bytes.fromhex("6d1d9b0542d544e680e2141daff757b2")
TFRF = bytes.fromhex("d4807ef2ca3946958e5426cb9e46a79f")
ENCRYPTION = bytes.fromhex("a2394f525a9b4f14a2446c427c648df4")
MANIFEST = bytes.fromhex("a5d40b30e81411ddba2f0800200c9a66")

TEXT, MOOV = "BadLiveManifest", "BadMoov"
NUMBERS = {
    "BadBox": 1, "BoxTooLarge": 2, "OpenEnded": 3, "NoHeader": 4, "BadLiveManifest": 5, "BadMoov": 6, "UnknownTrack": 7,
    "Protected": 10, "ManyTracks": 11, "ManyRuns": 12, "BaseOffset": 13, "NoTime": 14, "NoDuration": 15, "NoSamples": 16,
    "SamplesOutside": 17, "NoMdat": 18, "CutOff": 21, "TimeTooLarge": 22, "TooManySamples": 23, "BadRun": 24,
}

Head = namedtuple("Head", "kind size length fault")  # length is that of the head, fault what the head shows to be wrong
Run = namedtuple("Run", "id time duration signed start rows")  # in a row None is what neither trun nor tfhd says
Fragment = namedtuple("Fragment", "id time duration signed rows media")


class Fault(Exception):
    """A cause, by its name, whose place the caller knows."""

    def __init__(self, cause):
        self.cause = cause


class Refused(Exception):
    """A cause and its place in the input."""

    def __init__(self, cause, at):
        self.cause, self.at = cause, at


def refuse(cause, is_so):
    if is_so:
        raise Fault(cause)


def number(b):
    return int.from_bytes(b, "big")


# ---- boxes


def read_head(data, at):
    """The head of the box at this place; None where the bytes end before the head does."""
    rest = len(data) - at
    if rest < 8:
        return None
    size, kind = number(data[at : at + 4]), data[at + 4 : at + 8]
    if size == 0:
        return Head(kind, size, 8, "OpenEnded")
    if size != 1:
        return Head(kind, size, 8, "BadBox" if size < 8 else None)
    if rest < 16:
        return None
    size = number(data[at + 8 : at + 16])
    return Head(kind, size, 16, "BadBox" if size < 16 else None)


def has_user_type(head):
    return head.kind == b"uuid" and head.size - head.length >= 16


def children(data):
    """The boxes that these bytes are, each as its type and its body; None where they are not whole boxes. The type is the
    kind, or the user type with the body behind it."""
    boxes, at = [], 0
    while at < len(data):
        head = read_head(data, at)
        if head is None or head.fault or at + head.size > len(data):
            return None
        kind, body = head.kind, data[at + head.length : at + head.size]
        if has_user_type(head):
            kind, body = body[:16], body[16:]
        boxes.append((kind, body))
        at += head.size
    return boxes


def bodies(kind, boxes):
    return [body for other, body in boxes if other == kind]


# ---- the moof and its mdat


def flags_of(body):
    return number(body[1:4])


def tfhd_fields(body):
    """What the tfhd says of duration, size and flags of each sample; None where its length is wrong."""
    flags, at, said = flags_of(body), 8, {}
    for flag, width in ((0x1, 8), (0x2, 4), (0x8, 4), (0x10, 4), (0x20, 4)):
        if flags & flag:
            said[flag] = number(body[at : at + width])
            at += width
    return (said.get(0x8), said.get(0x10), said.get(0x20)) if len(body) == at else None


def tfxd_fits(body):
    return (body[:1], len(body)) in ((b"\0", 12), (b"\1", 20))


def tfrf_fits(body):
    return len(body) >= 5 and body[0] in (0, 1) and len(body) == 5 + body[4] * (8, 16)[body[0]]


def read_trun(body, defaults):
    """Whether the offsets are signed, where the samples start, and their rows: duration, size, flags, offset."""
    version, flags, count = number(body[:1]), flags_of(body), number(body[4:8])
    refuse("NoSamples", len(body) >= 8 and count == 0)
    refuse("TooManySamples", len(body) >= 8 and count > MOST_SAMPLES)
    front = [flag for flag in (0x1, 0x4) if flags & flag]
    fields = [flag for flag in (0x100, 0x200, 0x400, 0x800) if flags & flag]
    refuse("BadRun", version > 1 or len(body) != 8 + 4 * len(front) + 4 * len(fields) * count)
    given = iter([number(body[at : at + 4]) for at in range(8, len(body), 4)])
    once, rows = {flag: next(given) for flag in front}, []
    for place in range(count):
        said = {flag: next(given) for flag in fields}
        sample_flags = once[0x4] if place == 0 and 0x4 in once else said.get(0x400, defaults[2])
        rows.append((said.get(0x100, defaults[0]), said.get(0x200, defaults[1]), sample_flags, said.get(0x800, 0)))
    start = once.get(0x1)
    return version == 1, start - 2**32 if start is not None and start >= 2**31 else start, rows


def read_moof(body):
    """What a moof says by itself, or the first cause of the list."""
    trafs = bodies(b"traf", children(body) or [])
    inside = children(trafs[0]) if trafs else None
    tfhds, tfxds, tfrfs, truns = (bodies(kind, inside or []) for kind in (b"tfhd", TFXD, TFRF, b"trun"))
    refuse("BadBox", len(tfhds) != 1 or len(tfxds) > 1 or len(tfrfs) > 1)
    refuse("BadBox", tfhd_fields(tfhds[0]) is None)
    refuse("BadBox", not all(map(tfxd_fits, tfxds)) or not all(map(tfrf_fits, tfrfs)))
    refuse("ManyTracks", len(trafs) > 1)
    refuse("Protected", bodies(ENCRYPTION, inside) or bodies(b"senc", inside))
    refuse("ManyRuns", len(truns) > 1)
    refuse("BaseOffset", flags_of(tfhds[0]) & 0x1)
    refuse("NoTime", not tfxds)
    middle = 4 + (len(tfxds[0]) - 4) // 2
    time, duration = number(tfxds[0][4:middle]), number(tfxds[0][middle:])
    refuse("NoDuration", duration == 0)
    refuse("TimeTooLarge", time + duration > MOST_TIME)
    refuse("NoSamples", not truns)
    return Run(number(tfhds[0][4:8]), time, duration, *read_trun(truns[0], tfhd_fields(tfhds[0])))


def finish(run, trex, moof_size, mdat_head, media):
    """The fragment of a run and the body of its mdat. `trex` has what neither trun nor tfhd says."""
    rows = [tuple(trex[i] if row[i] is None else row[i] for i in range(3)) + row[3:] for row in run.rows]
    total = sum(size for _, size, _, _ in rows)
    at = 0 if run.start is None or total == 0 else run.start - moof_size - mdat_head
    refuse("SamplesOutside", at < 0 or at + total > len(media))
    return Fragment(run.id, run.time, run.duration, run.signed, rows, media[at : at + total])


def box(kind, *parts):
    body = b"".join(parts)
    return (8 + len(body)).to_bytes(4, "big") + kind + body


def words(*values):
    return b"".join(value.to_bytes(4, "big") for value in values)


def canonical_text(fragment, sequence):
    n = len(fragment.rows)
    tfhd = box(b"tfhd", words(0, fragment.id))
    rows = b"".join(words(*row) for row in fragment.rows)
    trun = box(b"trun", words(fragment.signed << 24 | 0xF01, n, 112 + 16 * n + 8), rows)
    times = fragment.time.to_bytes(8, "big") + fragment.duration.to_bytes(8, "big")
    traf = box(b"traf", tfhd, trun, box(b"uuid", TFXD, words(1 << 24), times))
    return box(b"moof", box(b"mfhd", words(0, sequence)), traf) + box(b"mdat", fragment.media)


# ---- tags


SPACE = rb"[ \t\r\n]"
NAME = rb"[A-Za-z_][A-Za-z0-9_.:-]*"
ATTRIBUTE = SPACE + rb"+(" + NAME + rb")" + SPACE + rb"*=" + SPACE + rb"*(\"[^\"<]*\"|'[^'<]*')"
SKIPPED = re.compile(rb"<\?.*?\?>|<!--.*?-->|[^<]+", re.DOTALL)
START = re.compile(rb"<(" + NAME + rb")((?:" + re.sub(rb"\((?!\?)", rb"(?:", ATTRIBUTE) + rb")*)" + SPACE + rb"*(/?)>")
END = re.compile(rb"</(" + NAME + rb")" + SPACE + rb"*>")
REFERENCE = re.compile(rb"&(?:(lt|gt|amp|quot|apos)|#([0-9]+));|&")
CHARACTERS = {b"lt": b"<", b"gt": b">", b"amp": b"&", b"quot": b'"', b"apos": b"'"}
MOST_OPEN = 32


def character(reference):
    name, digits = reference.groups()
    if name:
        return CHARACTERS[name]
    scalar = int(digits.lstrip(b"0")[:9] or b"0") if digits else -1
    refuse(TEXT, not (0 <= scalar < 0xD800 or 0xE000 <= scalar <= 0x10FFFF))
    return chr(scalar).encode()


def attributes_of(text):
    """The values of attributes by their names, with each reference replaced by its character."""
    found = re.findall(ATTRIBUTE, text)
    values = {name: REFERENCE.sub(character, quoted[1:-1]) for name, quoted in found}
    refuse(TEXT, len(values) < len(found))
    return values


def elements(text):
    """The elements of a text in the order of their start tags, each as the names from the outermost one to its own, and its
    attributes."""
    text = text.removeprefix(b"\xef\xbb\xbf").rstrip(b"\0")
    at, path, found = 0, (), []
    while at < len(text):
        skipped, end, start = SKIPPED.match(text, at), END.match(text, at), START.match(text, at)
        if skipped:
            run = skipped.group()
            refuse(TEXT, not path and not run.startswith(b"<") and run.strip(b" \t\r\n"))
        elif end:
            refuse(TEXT, path[-1:] != (end.group(1),))
            path = path[:-1]
        elif start:
            refuse(TEXT, (found and not path) or len(path) == MOST_OPEN)
            found.append((path + (start.group(1),), attributes_of(start.group(2))))
            path = path if start.group(3) else found[-1][0]
        else:
            raise Fault(TEXT)
        at = (skipped or end or start).end()
    refuse(TEXT, path or not found)
    return found


# ---- the header

PARENTS = (b"smil", b"body", b"switch")
KINDS = {b"video": b"video", b"audio": b"audio", b"textstream": b"text"}
NUMERIC = [b"MaxWidth", b"MaxHeight", b"AudioTag", b"Channels", b"SamplingRate", b"BitsPerSample", b"PacketSize"]
READ = [b"systemBitrate", b"trackID", b"trackName", b"FourCC", b"CodecPrivateData"] + NUMERIC


def numeric(value):
    refuse(TEXT, not re.fullmatch(rb"[0-9]{1,10}", value) or int(value) >= 2**32)
    return int(value)


def is_name(value):
    """1 to 64 bytes of UTF-8, each an ASCII letter or digit, `_`, `-`, `.`, a space, or of a character beyond ASCII."""
    characters = value.decode("utf-8", "replace")
    return re.fullmatch(rb"[A-Za-z0-9_. \x80-\xff-]{1,64}", value) and characters.encode() == value


def track_of(kind, attributes, params):
    """The track_ID, name, bitrate and kind of a track with these params, and what else they say: FourCC, private data and numbers."""
    said = {}
    for name, value in params:
        if name not in READ or (name == b"systemBitrate" and name in attributes):
            continue
        refuse(TEXT, name in said)
        said[name] = value
    bitrate = attributes.get(b"systemBitrate", said.get(b"systemBitrate"))
    refuse(TEXT, bitrate is None or b"trackID" not in said)
    name = said.get(b"trackName", KINDS[kind])
    refuse(TEXT, not is_name(name))
    refuse(TEXT, not re.fullmatch(rb"[A-Za-z0-9_ -]{0,4}", said.get(b"FourCC", b"")))
    refuse(TEXT, not re.fullmatch(rb"([0-9A-Fa-f]{2}){0,32768}", said.get(b"CodecPrivateData", b"")))
    numbers = [numeric(said[key]) if key in said else None for key in NUMERIC]
    others = said.get(b"FourCC", b""), bytes.fromhex(said.get(b"CodecPrivateData", b"").decode()), *numbers
    return numeric(said[b"trackID"]), name, numeric(bitrate), kind, others


def live_manifest(text):
    """The tracks of a live manifest, each as `track_of` gives it."""
    raw = []
    for path, attributes in elements(text):
        refuse(TEXT, path[0] != b"smil")
        if path[:-1] == PARENTS and path[-1] in KINDS:
            raw.append((path[-1], attributes, []))
        elif len(path) == 5 and path[:3] == PARENTS and path[3] in KINDS and path[4] == b"param":
            if b"name" in attributes and b"value" in attributes:
                raw[-1][2].append((attributes[b"name"], attributes[b"value"]))
    tracks = [track_of(*track) for track in raw]
    ids = {identity for identity, *_ in tracks}
    keys = {(name, bitrate) for _, name, bitrate, *_ in tracks}
    kinds = {(name, kind) for _, name, _, kind, _ in tracks}
    names = {name for _, name, *_ in tracks}
    refuse(TEXT, not 1 <= len(tracks) <= 64)
    refuse(TEXT, len(ids) < len(tracks) or len(keys) < len(tracks) or len(kinds) > len(names))
    return tracks


def opened(body):
    boxes = children(body)
    refuse(MOOV, boxes is None)
    return boxes


def first(kind, boxes):
    found = bodies(kind, boxes)
    refuse(MOOV, not found)
    return found[0]


def behind_times(body):
    """The number of 4 bytes behind version and flags and two times."""
    refuse(MOOV, not body or body[0] > 1)
    at = (12, 20)[body[0]]
    refuse(MOOV, len(body) < at + 4)
    return number(body[at : at + 4])


def head_of_trak(body):
    """The track_ID, the timescale, and whether the samples are encrypted."""
    trak = opened(body)
    mdia = opened(first(b"mdia", trak))
    stbl = opened(first(b"stbl", opened(first(b"minf", mdia))))
    identity, timescale, stsd = behind_times(first(b"tkhd", trak)), behind_times(first(b"mdhd", mdia)), first(b"stsd", stbl)
    refuse(MOOV, timescale == 0 or len(stsd) < 8 or stsd[0] > 1 or number(stsd[4:8]) == 0)
    entry = read_head(stsd, 8)
    refuse(MOOV, entry is None or entry.fault or 8 + entry.size > len(stsd))
    return identity, timescale, entry.kind in (b"encv", b"enca")


def moov(body):
    """For each track_ID the timescale and whether it is encrypted; and what its trex says of duration, size and flags."""
    boxes, heads, trexes = opened(body), {}, {}
    for trak in bodies(b"trak", boxes):
        identity, timescale, encrypted = head_of_trak(trak)
        refuse(MOOV, identity in heads)
        heads[identity] = timescale, encrypted
    for mvex in bodies(b"mvex", boxes):
        for trex in bodies(b"trex", opened(mvex)):
            refuse(MOOV, len(trex) < 24)
            trexes.setdefault(number(trex[4:8]), tuple(number(trex[at : at + 4]) for at in (12, 16, 20)))
    return heads, trexes


def header_of(manifest, moov_body):
    """For each track_ID of the header what its trex says."""
    tracks = live_manifest(manifest[4:])
    heads, trexes = moov(moov_body)
    timescales = {}
    for identity, name, *_ in tracks:
        refuse(MOOV, identity not in heads)
        timescale, _ = heads[identity]
        refuse(MOOV, timescales.setdefault(name, timescale) != timescale)
    refuse("Protected", any(heads[identity][1] for identity, *_ in tracks))
    return {identity: trexes.get(identity, (0, 0, 0)) for identity, *_ in tracks}


# ---- the body of a push


def whole_boxes(data, check_head):
    """The boxes at the top, each as its type, its head, its body and its place. `check_head` is called with type, head and
    place before it is known whether the box is whole."""
    at = 0
    while at < len(data):
        head = read_head(data, at)
        if head is not None and head.fault:
            raise Refused(head.fault, at)
        if head is None or (has_user_type(head) and at + head.length + 16 > len(data)):
            raise Refused("CutOff", len(data))
        kind, start = head.kind, at + head.length
        if has_user_type(head):
            kind, start = data[start : start + 16], start + 16
        check_head(kind, head, at)
        if at + head.size > len(data):
            raise Refused("CutOff", len(data))
        yield kind, head, data[start : at + head.size], at
        at += head.size


def read_push(data):
    """The fragments of a whole headerless push."""
    header, tracks, waiting, fragments = {b"moov": None, MANIFEST: None}, None, None, []

    def is_read(kind):
        return kind == b"moof" or (tracks is None and kind in header and header[kind] is None)

    def check_head(kind, head, at):
        if waiting and kind != b"mdat":
            raise Refused("NoMdat", at)
        if is_read(kind) and head.size > (MOST_MOOF if kind == b"moof" else MOST_HEADER):
            raise Refused("BoxTooLarge", at)
        if waiting and head.size - head.length > MOST_MEDIA:
            raise Refused("BoxTooLarge", at)

    for kind, head, body, at in whole_boxes(data, check_head):
        try:
            if waiting:
                at, size, run = waiting
                trex = (tracks or {}).get(run.id, (0, 0, 0))
                fragments.append(finish(run, trex, size, head.length, body))
                waiting = None
            elif kind == b"moof":
                waiting = at, head.size, read_moof(body)
                refuse("UnknownTrack", tracks is not None and waiting[2].id not in tracks)
            elif is_read(kind):
                header[kind] = body
                if None not in header.values():
                    tracks = header_of(header[MANIFEST], header[b"moov"])
        except Fault as fault:
            raise Refused(fault.cause, at) from None
    if waiting:
        raise Refused("CutOff", len(data))
    return fragments


# ---- the command


def asked(texts):
    """The track_ID and the time that two words ask for."""
    if len(texts) != 2 or not all(re.fullmatch(rb"[0-9]{1,19}", text) for text in texts):
        return None
    track, time = map(int, texts)
    return (track, time) if 1 <= track < 2**32 and time <= MOST_TIME else None


def answer(texts, data):
    """What is printed, and the status, for the words behind `pick` and an input."""
    wanted = asked(texts)
    if wanted is None:
        return told(["pick", *(text.decode() for text in texts)]).encode(), 2
    if len(data) > MOST_INPUT:
        return f"error: input at {MOST_INPUT}: too long\n".encode(), 3
    try:
        fragments = read_push(data)
    except Refused as refused:
        return f"error: input at {refused.at}: {NUMBERS[refused.cause]} {refused.cause}\n".encode(), 3
    for place, fragment in enumerate(fragments, 1):
        if (fragment.id, fragment.time) == wanted:
            return canonical_text(fragment, place), 0
    return b"error: 47 NotKept\n", 4


def main():
    texts = [os.fsencode(text) for text in sys.argv[1:]]
    data = b"" if asked(texts) is None else sys.stdin.buffer.read(MOST_INPUT + 1)
    printed, status = answer(texts, data)
    sys.stdout.buffer.write(printed)
    sys.stdout.buffer.flush()
    sys.exit(status)


if __name__ == "__main__":
    main()
