"""What the manifest of an origin says, and what became of it since the look before."""

import http.client
import time
import urllib.error
import urllib.request
import xml.etree.ElementTree as xml

TFXD = bytes.fromhex("6d1d9b0542d544e680e2141daff757b2")


class Stream:
    """What the manifest says of a stream, in its ticks: its stretches of times without a hole, and its qualities."""

    def __init__(self, element, scale):
        self.scale = int(element.get("TimeScale", scale))
        self.is_sparse = element.get("Type") == "text"
        self.qualities = [level.get("Bitrate") for level in element.iter("QualityLevel")]
        self.unplayable = [level.get("Bitrate") for level in element.iter("QualityLevel")
                           if not self.is_sparse and not (level.get("FourCC") and level.get("CodecPrivateData"))]
        self.stretches, self.times, self.lasts, end = [], 0, 0, None
        for run in element.iter("c"):
            start, count = int(run.get("t", end or 0)), int(run.get("r", 1))
            self.lasts = int(run.get("d", 0))
            if start != end:
                self.stretches.append([start, start])
            self.times += count
            end = self.stretches[-1][1] = start + self.lasts * count


def manifest(url, most):
    """The streams by their names, or why there are none, which is asked for so many seconds at most. The reply of an origin that has no event
    yet begins with 48."""
    try:
        with urllib.request.urlopen(f"{url}/Manifest", timeout=most) as reply:
            root = xml.fromstring(reply.read())
        return {it.get("Name"): Stream(it, root.get("TimeScale", 10_000_000)) for it in root.iter("StreamIndex")}, "ok"
    except urllib.error.HTTPError as error:
        return {}, error.read().decode(errors="replace").strip()
    except (OSError, ValueError, http.client.HTTPException, xml.ParseError) as error:
        return {}, str(error)


class Followed:
    """A stream from look to look: the stretch that grew last, and when that was."""

    def __init__(self, now):
        self.since, self.stretches, self.place, self.standing, self.is_sure = now, None, None, None, False

    def look(self, stream, now):
        grew = [it for it in stream.stretches if self.stretches is None or it[1] not in {end for _, end in self.stretches}]
        if self.stretches is None:
            grew = grew[-1:]
        else:
            self.is_sure |= bool(grew)
        if grew:
            # the one that was followed, or one behind it, before any other
            mine = [it for it in grew if self.place is not None and it[0] <= self.place[1] <= it[1]]
            self.place, self.since = list((mine or grew)[0]), now
        self.stretches = stream.stretches

    def end(self, scale):
        return self.place[1] / scale if self.place else 0

    def last(self, scale):
        """The latest time of the stream."""
        return self.stretches[-1][1] / scale if self.stretches else 0

    def holes(self):
        """The stretches without a time in front of where it grows, in ticks."""
        mine = [it for it in self.stretches or () if self.place and it[0] <= self.place[0]]
        return [after[0] - before[1] for before, after in zip(mine, mine[1:])]

    def far(self, scale, others, clock, far):
        """Whether the latest time of the stream is far from where it grows, from the other streams, or from the clock."""
        last = self.last(scale)
        dues = [self.end(scale), *others] if clock is None else [clock]
        if last and any(last > due + far for due in dues):
            return f"ahead={{}}/{last:.1f}s"
        if last and any(self.end(scale) < due - far for due in dues):
            return f"behind={{}}/{self.end(scale):.1f}s"
        return ""


def fragment(url, bitrate, name, start, most):
    """The ticks that a fragment lasts, None where there is none, or 0 where nothing is known of it."""
    try:
        with urllib.request.urlopen(f"{url}/QualityLevels({bitrate})/Fragments({name}={start})", timeout=most) as reply:
            data = reply.read()
    except urllib.error.HTTPError as error:
        error.close()
        return None if error.code == 404 else 0
    except (OSError, http.client.HTTPException):
        return 0
    at = data.find(TFXD) + 16
    if at < 16 or len(data) < at + 20:
        return 0
    wide = 8 if data[at] else 4
    return int.from_bytes(data[at + 4 + wide : at + 4 + 2 * wide], "big")


class Qualities:
    """How far each quality of a stream is, in its ticks, and when it last rose, in seconds since 1970. A time is listed once all qualities have
    it. So while a stream stands, what each of them has behind its end is asked for, as a player would."""

    PATIENCE, MOST = 3, 8

    def __init__(self, now):
        self.begun, self.end, self.since, self.ends, self.rose = now, None, now, {}, {}

    def look(self, url, name, stream, end, until):
        """Looks at the stream, which ends there now, and takes no longer than until then by the monotonic clock."""
        now = time.time()
        for gone in set(self.ends) - set(stream.qualities):
            del self.ends[gone], self.rose[gone]
        if end is None:
            # declared, and nothing came yet
            self.ends = {it: 0 for it in stream.qualities}
            self.rose = {it: self.rose.get(it, self.begun) for it in stream.qualities}
            return
        if end != self.end or set(self.ends) != set(stream.qualities):
            seen = self.begun if self.end is None else now
            self.end, self.since = end, now
            self.ends = {it: end for it in stream.qualities}
            self.rose = {it: seen for it in stream.qualities}
            return
        if len(stream.qualities) < 2 or now - self.since < self.PATIENCE:
            return
        for bitrate in stream.qualities:
            self.walk(url, name, bitrate, stream, until)

    def walk(self, url, name, bitrate, stream, until):
        """Goes on with one quality. Behind a hole it is looked for where it would be by the clock, or a little before."""
        start = self.ends[bitrate]
        steps = int((time.time() - self.rose[bitrate]) * stream.scale / stream.lasts) - 1 if stream.lasts else 0
        for at in range(self.MOST):
            lasts = self.fragment(url, bitrate, name, start, until)
            if lasts is None and at == 0 and steps > 0:
                start += steps * stream.lasts
                lasts = self.fragment(url, bitrate, name, start, until)
            if not lasts:
                return
            start += lasts
            self.ends[bitrate], self.rose[bitrate] = start, time.time()

    @staticmethod
    def fragment(url, bitrate, name, start, until):
        left = until - time.monotonic()
        return fragment(url, bitrate, name, start, left) if left > 0.1 else 0

    def missing(self):
        """The qualities that stand while others of the stream go on."""
        return [it for it, end in self.ends.items() if end < max(self.ends.values())]
