"""Requests and pushes that are mutated from good ones, and what an origin is to reply to them."""

import random
import re
import socket
import struct

from derived_inputs import derived, in_turn, turned
from live import UNIT, fragment

GOOD = [
    b"GET /live.isml/Manifest HTTP/1.1\r\nHost: origin\r\n\r\n",
    b"GET /live.isml/QualityLevels(%d)/Fragments(%s=%d) HTTP/1.1\r\nAccept: */*\r\n\r\n",
    b"GET /a%%20b/c.isml/manifest?x=1 HTTP/1.0\nConnection: keep-alive\n\n",
    b"\r\nGET /x HTTP/1.1\r\nA: b\r\n\r\nGET /live.isml/Manifest HTTP/1.1\r\nConnection: close\r\n\r\n",
    b"POST /live.isml/Streams(a) HTTP/1.1\r\nExpect: 100-continue\r\nContent-Length: 8\r\n\r\n\0\0\0\x08free",
    b"POST /live.isml/Streams(a%%2db) HTTP/1.1\r\nContent-Encoding: identity\r\nTransfer-Encoding: chunked\r\n\r\n8 \r\n\0\0\0\x09fre\r\n"
    b"1;a=b\r\ne\r\n1\r\nx\r\n00\r\nEnd: yes\r\n\r\nGET /live.isml/Manifest HTTP/1.1\r\n\r\n",
]
PUT_IN = [b"\0", b"\n", b"\r", b"\r\n", b" ", b"\t", b":", b"%", b"%41", b"?", b"\xff", b"\xc3\xa9", b"f" * 20, b"0", b";", b"/", b"(", b"x" * 9000]


def filled(text, stream, bitrate):
    return text % (bitrate, stream.encode(), 0) if b"%d" in text else text % ()


def mutated_texts(texts, chance):
    """Each byte of each text turned, left out or doubled, with something put before it, and the text cut there; in an order by chance."""
    made = []
    for number, text in enumerate(texts):
        for place in range(len(text)):
            made += [(f"request {number}: byte {place} xor {bits}", turned(text, place, bits)) for bits in (1, 0x20, 0x80)]
            made.append((f"request {number}: no byte {place}", text[:place] + text[place + 1 :]))
            made.append((f"request {number}: byte {place} twice", text[: place + 1] + text[place:]))
            made.append((f"request {number}: cut at {place}", text[:place]))
            made += [(f"request {number}: {some[:9]!r} before byte {place}", text[:place] + some + text[place:]) for some in PUT_IN]
        made += [(f"request {number}: {count} fields more", text.replace(b" HTTP/1.1\r\n", b" HTTP/1.1\r\n" + b"f: v\r\n" * count, 1)) for count in (62, 63, 64, 65)]
    chance.shuffle(made)
    return made


def framed(body, chance):
    """A push with this body, counted, or in chunks that are cut by chance."""
    head = b"POST /live.isml/Streams(hostile) HTTP/1.1\r\n"
    if chance.random() < 0.5:
        return head + b"Content-Length: %d\r\n\r\n" % len(body) + body
    cuts = sorted(chance.randrange(len(body) + 1) for _ in range(chance.randrange(4)))
    places = [0, *cuts, len(body)]
    parts = [body[a:b] for a, b in zip(places, places[1:]) if a < b]
    return head + b"Transfer-Encoding: chunked\r\n\r\n" + b"".join(b"%x\r\n%s\r\n" % (len(part), part) for part in parts) + b"0\r\n\r\n"


def small_push(front, tracks):
    """A header and two fragments of each track."""
    return front + b"".join(fragment(track, turn * UNIT, UNIT, b"%d %d" % (track, turn)) for turn in range(2) for track in tracks)


def mutated(front, tracks, count):
    """So many requests and pushes with their names, behind good ones, and nearly half of them requests."""
    chance, (stream, bitrate) = random.Random(1), next(iter(tracks.values()))
    good = small_push(front, tracks)
    texts = [filled(text, stream, bitrate) for text in GOOD]
    pushes = [(name, framed(body, chance)) for name, _, body in in_turn(derived(good, count // 8)[1:])]
    chance.shuffle(pushes)
    requests = mutated_texts(texts, chance)[: count * 2 // 5]
    made = pushes[: count - len(requests)] + requests
    chance.shuffle(made)
    # each store begins with a good push: its header is the channel
    return [("a good push", framed(good, chance))] * 4 + made


def plain(text):
    """A text of replies without the places in live manifests, and the lengths that depend on them."""
    return re.sub(rb"Content-Length: \d+(\r\nConnection: close\r\n\r\n5 BadLiveManifest inside )[\d?]+", rb"\1", text)


def exchange(port, data, want, closes):
    """Sends bytes on a connection of their own. None where what comes is what is wanted, and the connection is closed then if it is to
    be; else what came."""
    with socket.create_connection(("127.0.0.1", port), timeout=20) as peer:
        got = b""
        try:
            peer.sendall(data)
        except OSError:
            pass
        try:
            if not closes:
                while len(got) < len(want):
                    some = peer.recv(1 << 20)
                    if not some:
                        return b"closed behind %s" % got[:200]
                    got += some
                # nothing more comes behind what is due
                peer.shutdown(socket.SHUT_WR)
            while some := peer.recv(1 << 20):
                got += some
        except ConnectionResetError:
            pass
        except TimeoutError:
            return b"nothing more behind %s" % got[:200]
        # so that no port waits for the end of a connection
        peer.setsockopt(socket.SOL_SOCKET, socket.SO_LINGER, struct.pack("ii", 1, 0))
    return None if plain(got) == plain(want) else got[:200]
