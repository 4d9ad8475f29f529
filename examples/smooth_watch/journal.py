"""What the journal of an origin tells: which pushes are on the air, and what was counted, refused and lost."""

import os
import re
import time

# How much of a journal is read at first, from its end, to know which pushes are on the air.
BEFORE = 64 * 2**20
# How many encoders are kept in mind that have ended.
MOST = 64
LINE = re.compile(r'(?P<time>\d+\.\d+) (?P<kind>begin|reply|push) (?P<conn>\d+) (?P<peer>\S+) '
                  r'(?:(?P<status>\d+) (?P<bytes>\d+) (?P<ms>\d+) )?"(?P<request>[^"]*)"(?P<rest>.*)')


class Encoder:
    """The pushes of one name, and what became of the last one that ended."""

    def __init__(self):
        self.pushes, self.ended, self.said = {}, None, ""


class Journal:
    """A journal that is read on at each look. It may be cut to nothing or replaced at any time. What is counted is what came since the first
    look; which pushes are on the air is known from before."""

    def __init__(self, path):
        self.path, self.file, self.rest, self.is_old = path, None, b"", True
        self.encoders, self.names, self.started, self.now = {}, {}, None, {}
        self.refusals, self.requests, self.pushes, self.faults, self.syncs = {}, {}, {}, {}, []
        self.counted = dict.fromkeys(("replies", "kept", "syncs", "in", "out", "lost", "answers"), 0)

    def look(self):
        """Whether it could be read."""
        try:
            if self.file is None:
                self.file = open(self.path, "rb")
                size = os.fstat(self.file.fileno()).st_size
                self.file.seek(max(0, size - BEFORE))
                if size > BEFORE:
                    self.file.readline()
            else:
                there = os.stat(self.path)
                if there.st_ino != os.fstat(self.file.fileno()).st_ino:
                    self.read()
                    self.file.close()
                    self.file, self.rest = open(self.path, "rb"), b""
                elif there.st_size < self.file.tell():
                    self.file.seek(0)
                    self.rest = b""
            self.read()
            self.is_old = False
            return True
        except OSError:
            # there is none yet: all of what comes is new
            self.is_old = False
            return False

    def read(self):
        while True:
            data = self.file.read(2**20)
            if not data:
                return
            lines = (self.rest + data).split(b"\n")
            self.rest = lines.pop()
            for line in lines:
                self.take(line.decode(errors="replace"))

    def take(self, line):
        kind = (line.split(" ", 2) + ["", ""])[1]
        if kind in ("begin", "push", "reply"):
            found = LINE.fullmatch(line)
            if found:
                getattr(self, f"take_{kind}")(found, float(found["time"]))
        elif kind in ("start", "end", "close", "counts", "fault"):
            at = re.match(r"(\d+\.\d+) ", line)
            if at:
                getattr(self, f"take_{kind}")(line.split(" "), float(at[1]))
        elif line.startswith("lost ") and kind.isdigit():
            self.count(self.counted, "lost", int(kind))

    def count(self, counts, key, more=1):
        if not self.is_old:
            counts[key] = counts.get(key, 0) + more

    def take_start(self, words, at):
        # a journal that was cut begins with the same line again
        if self.started != at:
            self.started = at
            for conn in list(self.names):
                self.ends(conn, at, "the origin was started again")

    def take_end(self, words, at):
        for conn in list(self.names):
            self.ends(conn, at, "the origin ended")

    def take_begin(self, found, at):
        name = found["rest"].partition(" encoder ")[2]
        self.names[found["conn"]] = name
        self.encoders.setdefault(name, Encoder()).pushes[found["conn"]] = (found["peer"], at)
        over = [it for it, encoder in self.encoders.items() if not encoder.pushes]
        for it in sorted(over, key=lambda it: self.encoders[it].ended)[: max(0, len(over) - MOST)]:
            del self.encoders[it]

    def take_push(self, found, at):
        line = found["rest"].strip()
        is_kept = found["status"] == "200"
        self.count(self.pushes, "kept" if is_kept else "refused")
        if not is_kept:
            self.refuse("push", line)
        self.ends(found["conn"], at, line.partition(" stored ")[0])

    def take_reply(self, found, at):
        self.count(self.requests, found["status"])
        if found["status"] != "200":
            self.refuse("push" if found["request"].startswith("POST ") else "get", found["rest"].strip())

    def take_close(self, words, at):
        conn, is_cut = words[2], words[4:5] == ["cut"]
        if is_cut:
            self.count(self.pushes, "cut")
        self.ends(conn, at, "cut off" if is_cut else "gone")

    def take_fault(self, words, at):
        self.count(self.faults, words[2])

    def take_counts(self, words, at):
        said = {word: int(number) for word, number in zip(words[2::2], words[3::2]) if number.isdigit()}
        self.now = {**said, "at": at}
        for key in ("replies", "kept", "syncs", "in", "out", "answers"):
            self.count(self.counted, key, said.get(key, 0))
        if said.get("syncs") and not self.is_old:
            self.syncs.append(said.get("longest", 0) / 1000)

    def refuse(self, what, line):
        found = re.match(r"\d+ (\w+)", line)
        self.count(self.refusals, (what, found[1] if found else "unknown"))

    def ends(self, conn, at, said):
        name = self.names.pop(conn, None)
        if name in self.encoders and self.encoders[name].pushes.pop(conn, None):
            self.encoders[name].ended, self.encoders[name].said = at, said

    def viewers(self):
        """The connections of viewers: those of the player threads, or else those that aren't pushes."""
        return self.now["viewers"] if "viewers" in self.now else max(0, self.now.get("connections", 0) - self.now.get("pushes", 0))

    def is_fresh(self):
        return time.time() - self.now.get("at", 0) < 30
