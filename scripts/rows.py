"""The rows of crates/*_rows/data, and the bytes of their expressions, as the head of crates/sm_rows/src/lib.rt says them."""

import glob
import os
import re
from collections import namedtuple

TOP = os.path.normpath(os.path.join(os.path.dirname(os.path.abspath(__file__)), ".."))
Row = namedtuple("Row", "path number name call source lines")
Line = namedtuple("Line", "key value number")
WIDTHS = {"u8": 1, "u16": 2, "u32": 4, "u64": 8}
ESCAPES = {"n": b"\n", "r": b"\r", "t": b"\t", "0": b"\0", '"': b'"', "\\": b"\\"}


def text_of(path):
    with open(os.path.join(TOP, path), encoding="utf-8") as it:
        return it.read()


def lines_of(text):
    """The lines of a text without comments, each with those that go on with it. A blank line is one with an empty key."""
    found = []
    for number, line in enumerate([*text.split("\n"), ""], 1):
        if line.startswith(" "):
            found[-1] = found[-1]._replace(value=found[-1].value + line)
        elif not line.startswith("#"):
            key, _, value = line.partition(" ")
            found.append(Line(key, value, number))
    return found


def tokens_of(text):
    """The words of a value; a text in quotes is one of bytes."""
    found = []
    for quoted, word in re.findall(r'"((?:[^"\\]|\\.)*)"|([()]|[^\s"()]+)', text):
        found.append(word or b"".join(
            bytes.fromhex(it[1]) if it[1] else ESCAPES[it[2]] if it[2] else it[0].encode()
            for it in re.finditer(r"\\x(..)|\\(.)|[^\\]", quoted, re.S)))
    return found


class Rows:
    """What the files of one program say."""

    def __init__(self, program):
        self.names, self.blocks, self.keys, self.rows = {}, {}, {}, []
        common = text_of("crates/sm_rows/src/common.rt")
        self.read(None, common[common.index('r#"') + 3 : common.index('"#;')])
        for page in re.findall(r'"(\w+\.txt)"', text_of(f"crates/{program}/src/main.rt")):
            path = f"crates/{program}/data/{page}"
            self.read(path, text_of(path))

    def read(self, path, text):
        place = None
        for line in lines_of(text):
            if not line.key:
                place = None
            elif place is None and line.key == "let":
                head, _, body = line.value.partition(" =")
                name, *parameters = head.split(" ")
                self.names[name] = (parameters, self.spread(tokens_of(body)))
            elif place is None and line.key == "keys":
                call, _, keys = line.value.partition(" =")
                self.keys[call] = keys.split()
            elif place is None and line.key == "block":
                place = self.blocks[line.value] = []
            elif place is None and line.key == "row":
                place = []
                self.rows.append(Row(path, line.number, line.value, "", "", place))
            elif line.key in ("call", "from") and place is not None and self.rows and place is self.rows[-1].lines:
                self.rows[-1] = self.rows[-1]._replace(**{{"from": "source"}.get(line.key, line.key): line.value})
            elif line.key == "use":
                place.extend(self.blocks[line.value])
            else:
                place.append(line)

    def spread(self, words):
        """The words with what names stand for in their place."""
        found, rest = [], list(words)
        while rest:
            word = rest.pop(0)
            if isinstance(word, bytes) or not word.startswith("$"):
                found.append(word)
                continue
            parameters, body = self.names[word[1:]]
            given, rest = dict(zip(parameters, rest)), rest[len(parameters) :]
            found += [given.get(it, it) for it in body]
        return found

    def bytes_of(self, text):
        """The bytes of an expression."""
        out, groups, digits, rest = b"", [], False, self.spread(tokens_of(text))
        while rest:
            word = rest.pop(0)
            was, digits = digits, False
            if isinstance(word, bytes):
                out += word
            elif word == "(":
                groups.append((out, lambda front, body: front + body))
                out = b""
            elif word == ")":
                front, form = groups.pop()
                out = form(front, out)
            elif word in WIDTHS:
                out += int(rest.pop(0)).to_bytes(WIDTHS[word], "big")
            elif word == "zeros":
                out += bytes(int(rest.pop(0)))
            elif word == "cut":
                out = out[: int(rest.pop(0))]
            elif word == "skip":
                out = out[int(rest.pop(0)) :]
            elif word in FORMS:
                groups.append((out, FORMS[word](rest.pop(0))))
                out = b""
                assert rest.pop(0) == "(", text
            else:
                assert word == "hex" or was, text
                digits, out = True, out + (b"" if word == "hex" else bytes.fromhex(word))
        assert not groups, text
        return out


def put(place):
    return lambda front, body: front[:place] + body + front[place + len(body) :]


def turns(count):
    return lambda front, body: front + b"".join(body.replace(b"#", b"%d" % turn) for turn in range(count))


FORMS = {
    "box": lambda kind: lambda front, body: front + (8 + len(body)).to_bytes(4, "big") + kind.encode() + body,
    "wide": lambda kind: lambda front, body: front + bytes(3) + b"\1" + kind.encode() + (16 + len(body)).to_bytes(8, "big") + body,
    "repeat": lambda count: lambda front, body: front + body * int(count),
    "numbered": lambda count: turns(int(count)),
    "at": lambda place: put(int(place)),
}


def programs():
    return sorted(os.path.basename(os.path.dirname(it)) for it in glob.glob(os.path.join(TOP, "crates", "*_rows", "data")))
