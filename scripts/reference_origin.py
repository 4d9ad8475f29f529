"""What an origin replies to the bytes of one connection after another, by a plain and slow program written from docs/FORMATS.md alone, over
what `reference_pick.py` says of pushes. It shares nothing with the program."""
import re
from collections import namedtuple

from reference_pick import (
    MANIFEST, MOST_HEADER, MOST_MEDIA, MOST_MOOF, NUMBERS, TFRF, TFXD, Fault, Refused, box, finish, header_of, is_name, live_manifest, moov,
    read_moof, refuse, whole_boxes, words,
)

STATUS = {
    200: "OK", 400: "Bad Request", 404: "Not Found", 405: "Method Not Allowed", 409: "Conflict", 411: "Length Required",
    413: "Payload Too Large", 415: "Unsupported Media Type", 431: "Request Header Fields Too Large",
}
LARGE = {"BoxTooLarge": 413, "TooManySamples": 413, "Protected": 415}
MOST_HEAD, MOST_FIELDS, MOST_LINE, MOST_TRAILER = 8192, 64, 256, 8192
CONTINUE = b"HTTP/1.1 100 Continue\r\n\r\n"

TOKEN = rb"[A-Za-z0-9!#$%&'*+.^_`|~-]+"
FIRST_LINE = re.compile(rb"(" + TOKEN + rb") ([\x21-\x7e\x80-\xff]+) HTTP/1\.([01])\r?\n")
FIELD_LINE = re.compile(rb"(" + TOKEN + rb"):([\t\x20-\x7e\x80-\xff]*)\r?\n")
CHUNK_LINE = re.compile(rb"([0-9A-Fa-f]{1,15})(?:[ \t]*|;[^\r\n]*)\r\n")
CHUNK_FRONT = re.compile(rb"[0-9A-Fa-f]{0,15}|[0-9A-Fa-f]{1,15}(?:[ \t]*|;[^\r\n]*)\r?")
FRAGMENT = re.compile(rb"QualityLevels\(([0-9]{1,10})\)/Fragments\(([^=]*)=([0-9]{1,20})\)")

Track = namedtuple("Track", "kind name bitrate timescale others")
Kept = namedtuple("Kept", "place fragment")
# `counted` is the length of a body that isn't chunked
Request = namedtuple("Request", "verb target chunked counted close expects")


class Reply(Exception):
    """A refusal that closes."""

    def __init__(self, status, line):
        self.text = reply(status, line, closes=True)


def reply(status, line, kind=b"text/plain", closes=False):
    close = b"Connection: close\r\n" if closes else b""
    front = b"HTTP/1.1 %d %s\r\nContent-Type: %s\r\nContent-Length: %d\r\n" % (status, STATUS[status].encode(), kind, len(line))
    return front + close + b"\r\n" + line


# ---- heads


def lines_of(data):
    """The lines of a head with their line feeds; None for the last where it has none."""
    at = 0
    while at < min(len(data), MOST_HEAD):
        end = data.find(b"\n", at, MOST_HEAD)
        if end < 0:
            return
        yield data[at : end + 1], end + 1
        at = end + 1


def head_of(data):
    """The first line's parts, the fields and the length of a whole head; None where more has to come."""
    first, fields = None, []
    for line, end in lines_of(data):
        if first is None:
            if line in (b"\n", b"\r\n"):
                continue
            first = FIRST_LINE.fullmatch(line)
            if not first or first.group(2).decode("utf-8", "replace").encode() != first.group(2):
                raise Reply(400, b"40 BadHead\n")
        elif line in (b"\n", b"\r\n"):
            if len(fields) > MOST_FIELDS:
                raise Reply(431, b"41 HeadTooLarge\n")
            return first.groups(), fields, end
        else:
            field = FIELD_LINE.fullmatch(line)
            if not field:
                raise Reply(400, b"40 BadHead\n")
            fields.append((field.group(1).lower(), field.group(2).strip(b" \t")))
    if len(data) >= MOST_HEAD:
        raise Reply(431, b"41 HeadTooLarge\n")
    return None


def decoded(target):
    """A target without its query, and with its escapes read."""
    return re.sub(rb"%([0-9A-Fa-f]{2})", lambda it: bytes([int(it.group(1), 16)]), target.split(b"?")[0])


def target_of(target):
    """`Manifest`, `Streams`, or the address of a fragment; None for what names nothing."""
    text = decoded(target)
    end = text.find(b".isml/")
    if not text.startswith(b"/") or not 1 <= end - 1 <= 512 or b"?" in text[:end]:
        return None
    rest = text[end + 6 :]
    if rest in (b"Manifest", b"manifest"):
        return "Manifest"
    found = FRAGMENT.fullmatch(rest)
    if found and int(found[1]) < 2**32 and int(found[3]) < 2**64 and is_name(found[2]):
        return found[2], int(found[1]), int(found[3])
    return "Streams" if rest.startswith(b"Streams(") and rest.endswith(b")") and is_name(rest[8:-1]) else None


def judged(first, fields):
    """The request of a whole head, or its refusal."""
    verb, target, version = first
    values = {name: [value for other, value in fields if other == name] for name, _ in fields}
    lengths, codings, encodings = (values.get(name, []) for name in (b"content-length", b"transfer-encoding", b"content-encoding"))
    is_bad = max(len(lengths), len(codings), len(encodings)) > 1 or (lengths and codings)
    is_bad = is_bad or not all(re.fullmatch(rb"[0-9]{1,18}", length) for length in lengths)
    if is_bad or (verb == b"GET" and (codings or any(map(int, lengths)))):
        raise Reply(400, b"40 BadHead\n")
    asked = target_of(target)
    if verb not in (b"GET", b"POST") or (verb == b"POST") != (asked == "Streams"):
        raise Reply(405, b"43 Method\n")
    if verb == b"POST":
        if any(value.lower() != b"identity" for value in encodings) or any(value.lower() != b"chunked" for value in codings):
            raise Reply(415, b"44 Encoded\n")
        if not lengths and not codings:
            raise Reply(411, b"46 LengthRequired\n")
    close = version == b"0" or any(value.lower() == b"close" for value in values.get(b"connection", []))
    expects = verb == b"POST" and any(value.lower() == b"100-continue" for value in values.get(b"expect", []))
    return Request(verb, asked, bool(codings), int(lengths[0]) if lengths else 0, close, expects)


# ---- bodies


def trailer_end(data, at):
    """Where the trailer that begins there ends, None where more has to come, and -1 where it is too long."""
    begun, rest = at, data[: at + MOST_TRAILER]
    while True:
        end = rest.find(b"\r\n", at)
        if end < 0:
            return -1 if len(data) - begun >= MOST_TRAILER else None
        if end == at:
            return end + 2
        at = end + 2


def unframed(data, chunked, counted):
    """The bytes of a body as far as they have come, the place behind it where it has ended, and whether it is malformed."""
    if not chunked:
        return data[:counted], counted if len(data) >= counted else None, False
    body, at = [], 0
    while True:
        line = CHUNK_LINE.match(data, at, at + MOST_LINE)
        if not line:
            rest = data[at:]
            return b"".join(body), None, len(rest) >= MOST_LINE or not CHUNK_FRONT.fullmatch(rest)
        at, size = line.end(), int(line.group(1), 16)
        if size == 0:
            end = trailer_end(data, at)
            return b"".join(body), end if end != -1 else None, end == -1
        body.append(data[at : at + size])
        at += size
        if not b"\r\n".startswith(data[at : at + 2]):
            return b"".join(body), None, True
        if len(data) < at + 2:
            return b"".join(body), None, False
        at += 2


def tracks_of(manifest, moov_body):
    """The tracks of a header by their track_ID, and what each trex says; or its fault."""
    trexes, (heads, _) = header_of(manifest, moov_body), moov(moov_body)
    tracks = {}
    for identity, name, bitrate, kind, others in live_manifest(manifest[4:]):
        tracks[identity] = Track(kind.replace(b"textstream", b"text"), name, bitrate, heads[identity][0], others)
    return tracks, trexes


class Body:
    """The items of a push, one after another, and the refusal behind them if there is one."""

    def __init__(self):
        self.header, self.tracks, self.trexes, self.waiting = {b"moov": None, MANIFEST: None}, None, None, None

    def is_read(self, kind):
        return kind == b"moof" or (self.tracks is None and kind in self.header and self.header[kind] is None)

    def check_head(self, kind, head, at):
        if self.waiting and kind != b"mdat":
            raise Refused("NoMdat", at)
        if kind == b"moof" and self.tracks is None:
            raise Refused("NoHeader", at)
        if self.is_read(kind) and head.size > (MOST_MOOF if kind == b"moof" else MOST_HEADER):
            raise Refused("BoxTooLarge", at)
        if self.waiting and head.size - head.length > MOST_MEDIA:
            raise Refused("BoxTooLarge", at)

    def take(self, kind, head, body, at):
        """The item that a whole box completes, if it does."""
        if self.waiting:
            at, size, run = self.waiting
            self.waiting = None
            return finish(run, self.trexes[run.id], size, head.length, body)
        if kind == b"moof":
            self.waiting = at, head.size, read_moof(body)
            refuse("UnknownTrack", self.waiting[2].id not in self.tracks)
        elif self.is_read(kind):
            self.header[kind] = body
            if None not in self.header.values():
                self.tracks, self.trexes = tracks_of(self.header[MANIFEST], self.header[b"moov"])
                return list(self.tracks.values())
        return None

    def items(self, data, has_ended):
        for kind, head, body, at in self.boxes(data, has_ended):
            # the place of what an mdat shows is its moof's
            place = self.waiting[0] if self.waiting else at
            try:
                item = self.take(kind, head, body, at)
            except Fault as fault:
                raise Refused(fault.cause, place) from None
            if item is not None:
                yield item
        if self.waiting and has_ended:
            raise Refused("CutOff", len(data))

    def boxes(self, data, has_ended):
        try:
            yield from whole_boxes(data, self.check_head)
        except Refused as refused:
            if refused.cause != "CutOff" or has_ended:
                raise


# ---- the store


def fragment_text(sequence, identity, fragment, ahead):
    rows = b"".join(words(*row) for row in fragment.rows)
    n, more = len(fragment.rows), 29 + 16 * len(ahead) if ahead else 0
    trun = box(b"trun", words(fragment.signed << 24 | 0xF01, n, 112 + 16 * n + more + 8), rows)
    pair = lambda time, duration: time.to_bytes(8, "big") + duration.to_bytes(8, "big")
    tfrf = box(b"uuid", TFRF, words(1 << 24), bytes([len(ahead)]), *(pair(*it) for it in ahead)) if ahead else b""
    tfxd = box(b"uuid", TFXD, words(1 << 24), pair(fragment.time, fragment.duration))
    traf = box(b"traf", box(b"tfhd", words(0, identity)), trun, tfxd, tfrf)
    return box(b"moof", box(b"mfhd", words(0, sequence)), traf) + box(b"mdat", fragment.media)


def escaped(name):
    return b"".join(bytes([it]) if re.fullmatch(rb"[A-Za-z0-9_.-]", bytes([it])) else b"%%%02X" % it for it in name)


class Origin:
    """The store behind an origin, new."""

    def __init__(self):
        self.channel, self.kept, self.times, self.entries = [], {}, {}, 0

    def track(self, name, bitrate):
        return next((it for it in self.channel if (it.name, it.bitrate) == (name, bitrate)), None)

    def declare(self, tracks):
        """Takes a header, or refuses it."""
        if not self.channel:
            self.channel, self.entries = tracks, 1
            return
        for track in tracks:
            if not self.track(track.name, track.bitrate):
                raise Reply(409, b"8 NotDeclared %s %d\n" % (track.name, track.bitrate))
        for track in tracks:
            if self.track(track.name, track.bitrate) != track:
                raise Reply(409, b"9 DeclClash %s %d\n" % (track.name, track.bitrate))

    def keep(self, track, fragment):
        """Whether a fragment is new; it is kept then, or refused."""
        times, span = self.times.setdefault(track.name, {}), (fragment.time, fragment.time + fragment.duration)
        lasts = times.get(fragment.time)
        if lasts is not None and lasts != fragment.duration:
            raise Reply(409, b"19 DurationClash kept %d given %d\n" % (lasts, fragment.duration))
        if (track.name, track.bitrate, fragment.time) in self.kept:
            return False
        if lasts is None:
            for time in sorted(times):
                if time < span[1] and span[0] < time + times[time]:
                    raise Reply(409, b"20 Overlap end %d\n" % (time + times[time]))
        times[fragment.time] = fragment.duration
        self.kept[track.name, track.bitrate, fragment.time] = Kept(self.entries, fragment)
        self.entries += 1
        return True

    def listed(self, name):
        """The times at which each quality of a stream is kept, with their durations."""
        bitrates = [it.bitrate for it in self.channel if it.name == name]
        times = self.times.get(name, {})
        return {time: times[time] for time in sorted(times) if all((name, bitrate, time) in self.kept for bitrate in bitrates)}

    def fragment(self, address):
        if not self.channel:
            return reply(404, b"48 NoChannel\n")
        kept = self.kept.get(address)
        if not kept:
            return reply(404, b"47 NotKept\n")
        listed, ahead, at = self.listed(address[0]), [], kept.fragment.time + kept.fragment.duration
        while len(ahead) < 2 and at in listed:
            ahead.append((at, listed[at]))
            at += listed[at]
        identity = self.channel.index(self.track(*address[:2])) + 1
        return reply(200, fragment_text(kept.place, identity, kept.fragment, ahead), b"video/mp4")

    def manifest(self):
        if not self.channel:
            return reply(404, b"48 NoChannel\n")
        out = [b'<?xml version="1.0" encoding="utf-8"?>', b'<SmoothStreamingMedia MajorVersion="2" MinorVersion="2" TimeScale="10000000" '
               b'Duration="0" IsLive="TRUE" LookAheadFragmentCount="2" DVRWindowLength="0">']
        for name in dict.fromkeys(it.name for it in self.channel):
            tracks, listed = [it for it in self.channel if it.name == name], self.listed(name)
            url = b"QualityLevels({bitrate})/Fragments(%s={start time})" % escaped(name)
            out.append(b'<StreamIndex Type="%s" Name="%s" TimeScale="%d" Chunks="%d" QualityLevels="%d" Url="%s">' % (
                tracks[0].kind, name, tracks[0].timescale, len(listed), len(tracks), url))
            out += [self.quality(index, track) for index, track in enumerate(tracks)]
            out += self.runs(list(listed.items())) + [b"</StreamIndex>"]
        return reply(200, b"".join(it + b"\n" for it in [*out, b"</SmoothStreamingMedia>"]), b"text/xml")

    @staticmethod
    def quality(index, track):
        fourcc, private, *numbers = track.others
        names = (b"MaxWidth", b"MaxHeight", b"AudioTag", b"Channels", b"SamplingRate", b"BitsPerSample", b"PacketSize")
        said = [(b"Index", b"%d" % index), (b"Bitrate", b"%d" % track.bitrate), *([(b"FourCC", fourcc)] if fourcc else []),
                (b"CodecPrivateData", private.hex().upper().encode()), *((key, b"%d" % it) for key, it in zip(names, numbers) if it is not None)]
        return b"<QualityLevel" + b"".join(b' %s="%s"' % pair for pair in said) + b"/>"

    @staticmethod
    def runs(listed):
        """A line for each run of times of one duration without a gap."""
        runs = []
        for time, duration in listed:
            if runs and runs[-1][1] == duration and runs[-1][0] + runs[-1][1] * runs[-1][2] == time:
                runs[-1][2] += 1
            else:
                runs.append([time, duration, 1])
        return [b'<c t="%d" d="%d"/>' % (t, d) if r == 1 else b'<c t="%d" d="%d" r="%d"/>' % (t, d, r) for t, d, r in runs]

    # ---- a connection

    def push(self, data, has_ended):
        """The counts of a push as far as it has come; or its refusal."""
        body, counts = Body(), [0, 0]
        try:
            for item in body.items(data, has_ended):
                if isinstance(item, list):
                    self.declare(item)
                else:
                    counts[not self.keep(body.tracks[item.id], item)] += 1
        except Refused as refused:
            inside = b" inside ?" if refused.cause == "BadLiveManifest" else b""
            line = b"%d %s%s at %d\n" % (NUMBERS[refused.cause], refused.cause.encode(), inside, refused.at)
            raise Reply(LARGE.get(refused.cause, 400), line) from None
        return b"kept %d known %d\n" % tuple(counts)

    def replies(self, data):
        """What is sent to a connection that sends these bytes, and whether it is closed then."""
        out = b""
        try:
            while True:
                head = head_of(data)
                if head is None:
                    return out, False
                request, data = judged(*head[:2]), data[head[2] :]
                if request.expects:
                    out += CONTINUE
                if request.verb == b"POST":
                    body, end, is_bad = unframed(data, request.chunked, request.counted)
                    line = self.push(body, end is not None)
                    if is_bad:
                        raise Reply(400, b"45 BadChunk\n")
                    if end is None:
                        return out, False
                    data, told = data[end:], reply(200, line)
                elif request.target is None:
                    told = reply(404, b"42 NoTarget\n")
                else:
                    told = self.manifest() if request.target == "Manifest" else self.fragment(request.target)
                out += told
                if request.close:
                    return out, True
        except Reply as refusal:
            return out + refusal.text, True
