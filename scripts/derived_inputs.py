"""Inputs for `pick` that are derived from one file. Each is a few words on what it is, the words behind `pick`, and the bytes."""
import random

from derived_boxes import inserted_boxes, moof_edits, moov_edits, with_defaults
from derived_texts import text_edits
from reference_pick import MANIFEST, Refused, read_head, read_push

FRONT = 3000
WORDS = [
    [], ["1"], ["1", "0", "0"], ["", "0"], ["1", ""], ["0", "0"], ["x", "0"], ["1", "x"], ["+1", "0"], ["1", "-0"], ["1", " 0"],
    ["0001", "0"], ["1", "0" * 19], ["1", "0" * 20], ["0" * 18 + "1", "0"], ["0" * 19 + "1", "0"], ["4294967295", "0"],
    ["4294967296", "0"], ["1", "9223372036854775807"], ["1", "9223372036854775808"], ["1", "1"], ["1", "\u0661"],
]


def top_boxes(data):
    """The whole boxes at the top, each with its head, up to the first that is not whole."""
    boxes, at = [], 0
    while at < len(data):
        head = read_head(data, at)
        if head is None or head.fault or at + head.size > len(data):
            break
        boxes.append(data[at : at + head.size])
        at += head.size
    return boxes


def kind_of(box):
    return MANIFEST if box[4:8] == b"uuid" and box[8:24] == MANIFEST else box[4:8]


def fragments_of(data):
    try:
        return read_push(data)
    except Refused:
        return []


def front_of(boxes):
    """So many of the boxes that each track has a fragment."""
    tracks = {fragment.id for fragment in fragments_of(b"".join(boxes))}
    for count, box in enumerate(boxes, 1):
        front = boxes[:count]
        if box[4:8] == b"mdat" and {fragment.id for fragment in fragments_of(b"".join(front))} == tracks:
            return front
    return boxes


def turned(data, at, bits):
    return data[:at] + bytes([data[at] ^ bits]) + data[at + 1 :]


def cuts(boxes, length):
    """Places around the start of each box, and some in between."""
    places, at = set(range(0, length, max(1, length // 200))), 0
    for box in boxes:
        places.update(range(at - 2, at + 34))
        at += len(box)
    return sorted(place for place in places if 0 <= place < length)


def orders(boxes):
    """The boxes in other orders, with some doubled or left out."""
    headers = [box for box in boxes if kind_of(box) in (MANIFEST, b"moov")]
    others = [box for box in boxes if box not in headers]
    yield "headers doubled", headers + headers + others
    yield "headers turned round", headers[::-1] + others
    yield "headers last", others + headers
    yield "headers twice, around", headers + others + headers
    yield "headers behind the first fragment", others[:2] + headers + others[2:]
    yield "headers behind the second fragment", others[:4] + headers + others[4:]
    yield "no headers", others
    for count in (3, 2, 1, 0):
        yield f"fragments of defaults alone, {count}", with_defaults(boxes)[: count - 4]
    yield "fragments of defaults alone, turned round", with_defaults(boxes)[::-1]
    yield "fragments twice", boxes + [box for box in others if box[4:8] in (b"moof", b"mdat")]
    for left_out, header in enumerate(headers):
        rest = headers[:left_out] + headers[left_out + 1 :]
        yield f"no header {left_out}", rest + others
        yield f"header {left_out} doubled", headers[: left_out + 1] + headers[left_out:] + others
        yield f"header {left_out} last", rest + others + [header]
    for place in range(len(boxes)):
        yield f"no box {place}", boxes[:place] + boxes[place + 1 :]
        yield f"box {place} doubled", boxes[: place + 1] + boxes[place:]
        wide = (1).to_bytes(4, "big") + boxes[place][4:8] + (len(boxes[place]) + 8).to_bytes(8, "big") + boxes[place][8:]
        yield f"box {place} with a wide size", boxes[:place] + [wide] + boxes[place + 1 :]


def replaced(boxes):
    """The boxes with one edited or one more."""
    edits = {MANIFEST: text_edits, b"moov": moov_edits, b"moof": moof_edits}
    for place, box in enumerate(boxes):
        for name, edited in edits[kind_of(box)](box) if kind_of(box) in edits else ():
            yield f"box {place}: {name}", boxes[:place] + [edited] + boxes[place + 1 :]
    for place in range(len(boxes) + 1):
        for name, box in inserted_boxes():
            yield f"{name} before box {place}", boxes[:place] + [box] + boxes[place:]


def flips(boxes):
    """Each byte of the first 3,000, of the moov and of each moof, with its lowest or highest bit turned."""
    data, at = b"".join(boxes), 0
    places = set(range(min(FRONT, len(data))))
    for box in boxes:
        if box[4:8] in (b"moof", b"moov"):
            places.update(range(at, at + min(len(box), 600 if box[4:8] == b"moof" else FRONT)))
        at += len(box)
    for place in sorted(places):
        for bits in (0x01, 0x80):
            yield f"byte {place} xor {bits}", turned(data, place, bits)


def changes(boxes, data, count):
    """Random cuts and changed bytes, half of them outside the media."""
    chance = random.Random(1)
    quiet, at = [], 0
    for box in boxes:
        if box[4:8] != b"mdat":
            quiet.extend(range(at, at + len(box)))
        at += len(box)
    for number in range(count):
        changed = data
        for _ in range(chance.randint(1, 3)):
            place = chance.choice(quiet) if quiet and chance.random() < 0.5 else chance.randrange(len(data))
            changed = turned(changed, place, chance.randint(1, 255))
        if chance.random() < 0.3:
            changed = changed[: chance.randrange(len(data))]
        yield f"random {number}", changed


def derived(data, count):
    """All inputs derived from one file, with `count` random ones, in parts that may be taken in turn."""
    boxes = top_boxes(data)
    whole, front = fragments_of(data), front_of(boxes)
    short = b"".join(front)
    picks = [[str(fragment.id), str(fragment.time)] for fragment in fragments_of(short)] or [["1", "0"]]
    wanted = [[str(fragment.id), str(fragment.time)] for fragment in whole]

    def with_words(part):
        for number, (name, made) in enumerate(part):
            yield name, picks[number % len(picks)], made

    cut = ((f"cut at {place}", short[:place]) for place in cuts(front, len(short)))
    made = ((name, b"".join(changed)) for part in (orders(front), replaced(front)) for name, changed in part)
    parts = [cut, made, flips(front), changes(boxes, data, count) if data else ()]
    return [(("whole", words, data) for words in wanted + WORDS), *map(with_words, parts)]


def in_turn(parts):
    """One input of each part, and again, until all are taken."""
    parts = [iter(part) for part in parts]
    while parts:
        for part in list(parts):
            one = next(part, None)
            if one is None:
                parts.remove(part)
            else:
                yield one
