"""Boxes for the inputs that are derived from one: boxes to be put between others, and edits of a `moof` and of a `moov`."""
from reference_pick import ENCRYPTION, MANIFEST, TFRF, TFXD, children, read_head

EMPTY_TFHD = bytes(4) + (7).to_bytes(4, "big")


def word(value):
    return value.to_bytes(4, "big")


def box(kind, body=b""):
    return word(8 + len(body)) + kind + body


def wide(kind, body=b"", size=None):
    return word(1) + kind + (16 + len(body) if size is None else size).to_bytes(8, "big") + body


def small_moof(*inside):
    return box(b"moof", box(b"traf", b"".join(inside)))


def inserted_boxes():
    """Boxes and parts of boxes, each with a name."""
    tfxd = box(b"uuid", TFXD + bytes(8) + word(5))
    trun = box(b"trun", word(0x101) + word(2) + word(0) + bytes(8))
    sized = box(b"trun", word(0x200) + word(2) + bytes(8))
    return [
        ("free", box(b"free", bytes(20))), ("an empty free", box(b"free")), ("wide free", wide(b"free", bytes(3))),
        ("size 0", bytes(4) + b"free"), ("size 0 moof", bytes(4) + b"moof"), ("size 7", word(7) + b"free" + bytes(8)),
        ("size 2", word(2) + b"mdat"), ("wide size 0", wide(b"free", size=0)), ("wide size 15", wide(b"free", size=15)),
        ("wide size 16", wide(b"free", size=16)), ("endless", wide(b"free", size=2**64 - 1)),
        ("endless moof", wide(b"moof", size=2**63)), ("an mdat alone", box(b"mdat", bytes(9))), ("an empty mdat", box(b"mdat")),
        ("a large mdat", word(8 + 67_108_865) + b"mdat"), ("the largest mdat", word(8 + 67_108_864) + b"mdat"),
        ("a large wide mdat", wide(b"mdat", size=16 + 67_108_865)), ("the largest moof", word(2_097_152) + b"moof"),
        ("a large moof", word(2_097_153) + b"moof"), ("a large moov", word(1_048_577) + b"moov"),
        ("the largest moov", word(1_048_576) + b"moov"), ("a large manifest", word(1_048_577) + b"uuid" + MANIFEST),
        ("the largest manifest", word(1_048_576) + b"uuid" + MANIFEST), ("uuid without a type", box(b"uuid", bytes(15))),
        ("an empty uuid", box(b"uuid")), ("uuid of zeros", box(b"uuid", bytes(16))), ("an empty manifest", box(b"uuid", MANIFEST)),
        ("a manifest of 3 bytes", box(b"uuid", MANIFEST + bytes(3))), ("a manifest of 4 bytes", box(b"uuid", MANIFEST + bytes(4))),
        ("a wide manifest", wide(b"uuid", MANIFEST + bytes(4) + b"<smil/>")), ("an empty moov", box(b"moov")),
        ("an empty moof", box(b"moof")), ("moof with an empty traf", small_moof()), ("tfhd alone", small_moof(box(b"tfhd", EMPTY_TFHD))),
        ("no samples", small_moof(box(b"tfhd", EMPTY_TFHD), tfxd)), ("a whole moof", small_moof(box(b"tfhd", EMPTY_TFHD), tfxd, trun)),
        ("a fragment of no bytes", small_moof(box(b"tfhd", EMPTY_TFHD), tfxd, trun) + box(b"mdat")),
        ("a fragment of empty samples", small_moof(box(b"tfhd", EMPTY_TFHD), tfxd, sized) + wide(b"mdat", b"x")),
        ("moof, free, mdat", small_moof(box(b"tfhd", EMPTY_TFHD), tfxd, trun) + box(b"free") + box(b"mdat")),
        ("moof and a manifest", small_moof(box(b"tfhd", EMPTY_TFHD), tfxd, trun) + word(1_048_577) + b"uuid" + MANIFEST),
        ("moof and a moov", small_moof(box(b"tfhd", EMPTY_TFHD), tfxd, trun) + word(1_048_577) + b"moov"),
    ]


def raw_children(body):
    """The child boxes, each with its head."""
    boxes, at = [], 0
    while at < len(body):
        head = read_head(body, at)
        boxes.append(body[at : at + head.size])
        at += head.size
    return boxes


def edits_of_children(boxes):
    """Each child left out, doubled, cut, longer, of another version, of another kind; and others put behind them."""
    for place, child in enumerate(boxes):
        name, before, after = child[4:8].decode(), boxes[:place], boxes[place + 1 :]
        yield f"no {name} {place}", before + after
        yield f"two {name} {place}", before + [child, child] + after
        yield f"{name} {place} last", before + after + [child]
        yield f"{name} {place} first", [child] + before + after
        yield f"an empty {name} before {place}", before + [box(child[4:8]), child] + after
        yield f"a broken {name} behind {place}", before + [child, box(child[4:8], bytes(3))] + after
        start = 24 if name == "uuid" else 8
        for lost in (1, 4, len(child) - start, len(child) - start - 3, len(child) - start - 4, len(child) - start - 5):
            if 0 < lost <= len(child) - 8:
                shorter = child[:-lost]
                yield f"{name} {place} shorter by {lost}", before + [word(len(shorter)) + shorter[4:]] + after
        for more in (1, 4, 8):
            yield f"{name} {place} longer by {more}", before + [word(len(child) + more) + child[4:] + bytes(more)] + after
        for version in (1, 2, 255):
            yield f"{name} {place} version {version}", before + [child[:start] + bytes([version]) + child[start + 1 :]] + after
        yield f"{name} {place} wide", before + [wide(child[4:8], child[8:])] + after
        yield f"{name} {place} of size 0", before + [bytes(4) + child[4:]] + after
        yield f"{name} {place} too long", before + [word(len(child) + 1) + child[4:]] + after
    for name, child in (
        ("senc", box(b"senc")), ("encryption", box(b"uuid", ENCRYPTION)), ("short uuid", box(b"uuid", TFXD[:15])),
        ("free", box(b"free", bytes(5))), ("7 bytes", bytes(7)), ("8 zero bytes", bytes(8)), ("size 7", word(7) + b"free"),
        ("no pairs", box(b"uuid", TFRF + bytes(5))), ("one pair", box(b"uuid", TFRF + bytes(4) + b"\1" + bytes(8))),
        ("wide pair", box(b"uuid", TFRF + b"\1\0\0\0\1" + bytes(16))), ("half a pair", box(b"uuid", TFRF + b"\1\0\0\0\1" + bytes(8))),
        ("version 2 pair", box(b"uuid", TFRF + b"\2\0\0\0\1" + bytes(16))), ("255 pairs", box(b"uuid", TFRF + b"\0\0\0\0\377" + bytes(255 * 8))),
        ("tfrf of 4 bytes", box(b"uuid", TFRF + bytes(4))), ("two tfrf", 2 * box(b"uuid", TFRF + bytes(5))),
    ):
        yield f"{name} behind", boxes + [child]


def with_other_fields(boxes):
    """Other flags, counts, times and offsets."""
    def put(kind, new):
        return [box(kind, new) if child[4:8] == kind and (kind != b"uuid" or child[8:24] == TFXD) else child for child in boxes]

    track = next(child for child in boxes if child[4:8] == b"tfhd")[12:16]
    trun = next(child for child in boxes if child[4:8] == b"trun")
    for flags in (0, 0x1, 0x2, 0x8, 0x10, 0x20, 0x38, 0x3A, 0x3B, 0x20000, 0xFFFFC4):
        fields = 8 * bool(flags & 1) + sum(4 for flag in (2, 8, 16, 32) if flags & flag)
        yield f"tfhd flags {flags:#x}", put(b"tfhd", word(flags) + track + b"\0\0\1\7" * (fields // 4))
    for time, duration in ((0, 0), (0, 1), (2**63 - 2, 1), (2**63 - 1, 1), (2**64 - 1, 2**64 - 1), (2**63 - 1, 0)):
        times = time.to_bytes(8, "big") + duration.to_bytes(8, "big")
        yield f"time {time} duration {duration}", put(b"uuid", TFXD + word(1 << 24) + times)
    yield "narrow times", put(b"uuid", TFXD + word(0) + word(2**32 - 1) + word(2**32 - 1))
    for version in (0, 1, 2):
        for flags in (0, 0x1, 0x4, 0x5, 0x100, 0x200, 0x400, 0x800, 0xF05, 0xFFF0FA):
            for count in (0, 1, 3):
                once = b"".join(b"\0\0\2\0" for flag in (1, 4) if flags & flag)
                row = b"".join(b"\0\0\0\3" for flag in (0x100, 0x200, 0x400, 0x800) if flags & flag)
                yield f"trun {version} {flags:#x} {count}", put(b"trun", word(version << 24 | flags) + word(count) + once + row * count)
    for count in (2**32 - 1, 65_537, 65_536, 65_535):
        yield f"trun of {count}", put(b"trun", trun[8:12] + word(count) + trun[16:])
        yield f"trun of {count} without fields", put(b"trun", word(0) + word(count))
    for start in (0, 1, 8, len(b"".join(boxes)), 2**31 - 1, 2**31, 2**32 - 1):
        yield f"samples from {start}", put(b"trun", trun[8:16] + word(start) + trun[20:])


def moved(boxes, by):
    """The boxes with the place where the samples start moved, where the run says it."""
    made = []
    for child in boxes:
        if child[4:8] == b"trun" and len(child) >= 20 and child[11] & 1:
            child = child[:16] + word((int.from_bytes(child[16:20], "big") + by) % 2**32) + child[20:]
        made.append(child)
    return made


def moof_edits(moof):
    outside = raw_children(moof[8:])
    place = next((i for i, child in enumerate(outside) if child[4:8] == b"traf"), None)
    if place is None or children(outside[place][8:]) is None:
        return
    traf, before, after = raw_children(outside[place][8:]), outside[:place], outside[place + 1 :]
    for name, boxes in [*edits_of_children(traf), *with_other_fields(traf)]:
        longer = sum(map(len, boxes)) - sum(map(len, traf))
        yield name, box(b"moof", b"".join(before + [box(b"traf", b"".join(boxes))] + after))
        if longer:
            yield name + " moved", box(b"moof", b"".join(before + [box(b"traf", b"".join(moved(boxes, longer)))] + after))
    for name, boxes in edits_of_children(outside):
        yield f"moof, {name}", box(b"moof", b"".join(boxes))
    yield "a second traf cut off", box(b"moof", b"".join(outside + [box(b"traf", bytes(7))]))
    yield "an empty traf first", box(b"moof", box(b"traf") + b"".join(outside))
    yield "a wide moof", wide(b"moof", b"".join(before + [box(b"traf", b"".join(moved(traf, 8)))] + after))


OPENED = (b"trak", b"mdia", b"minf", b"stbl", b"mvex")


def nested_edits(body, path=""):
    """The body of a box with one box edited, in it or in those below it that are opened."""
    boxes = raw_children(body)
    for name, edited in edits_of_children(boxes):
        yield f"{path}{name}", b"".join(edited)
    for place, child in enumerate(boxes):
        if child[4:8] in OPENED:
            for name, inner in nested_edits(child[8:], f"{path}{child[4:8].decode()} {place}, "):
                yield name, b"".join(boxes[:place] + [box(child[4:8], inner)] + boxes[place + 1 :])
        elif child[4:8] == b"stsd":
            for entry in (b"encv", b"enca", b"free"):
                yield f"{path}{entry.decode()}", b"".join(boxes[:place] + [child[:20] + entry + child[24:]] + boxes[place + 1 :])


def with_defaults(boxes):
    """The header with a trex for each track that says more than zeros, and for each track a fragment that leaves all to it."""
    made = []
    for child in boxes:
        if child[4:8] == b"moov":
            parts = child.split(b"trex")
            child = b"trex".join(parts[:1] + [part[:12] + word(3) + word(5) + word(7) + part[24:] for part in parts[1:]])
        if child[4:8] in (b"moof", b"mdat"):
            break
        made.append(child)
    for track in (1, 2, 3, 4):
        tfhd, tfxd = box(b"tfhd", word(0) + word(track)), box(b"uuid", TFXD + bytes(8) + word(5))
        made.append(small_moof(tfhd, tfxd, box(b"trun", word(0) + word(2))) + box(b"mdat", b"ten bytes!"))
    return made


def moov_edits(moov):
    for name, body in nested_edits(moov[8:]):
        yield name, box(b"moov", body)
