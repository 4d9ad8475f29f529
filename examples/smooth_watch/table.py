"""What smooth-watch shows in a terminal."""

import os
import re
import shutil
import sys
import time

PLAIN, BOLD, BAD = "\x1b[0m", "\x1b[1m", "\x1b[31m"
# An encoder that ended is shown for so long.
SHOWN = 3600


def clock(seconds):
    """Seconds as hours, minutes and seconds."""
    minutes, seconds = divmod(seconds, 60)
    return f"{int(minutes) // 60}:{int(minutes) % 60:02}:{seconds:05.2f}"


def since(at):
    """How long ago a time was, by the wall clock."""
    gone = max(0, int(time.time() - at))
    return f"{gone}s" if gone < 120 else f"{gone // 3600}:{gone // 60 % 60:02}:{gone % 60:02}"


def rows(event):
    """The table's lines, each with whether it tells something bad."""
    said = event.said if event.is_up else f"doesn't answer: {event.said}"
    took = "" if event.took is None else f" in {event.took * 1000:.0f} ms"
    yield f"{event.url}  {said}{took}  {time.strftime('%H:%M:%S')}", not event.is_up
    yield "", False
    yield f"{'stream':<12} {'quality':>10} {'end':>12} {'rose':>8} {'holes':>6} {'rate':>6}", None
    for name, stream in event.streams.items():
        yield from stream_rows(event, name, stream)
    if event.journal:
        yield "", False
        yield from encoder_rows(event.journal)
    yield "", False
    yield machine_row(event), False


def stream_rows(event, name, stream):
    followed, qualities, speed = event.followed[name], event.qualities.get(name), event.speed(name)
    rate = "" if speed is None else f"{speed:.2f}x"
    told = [f"{event.holes[name]:>6} {rate:>6}"]
    far = followed.last(stream.scale) - followed.end(stream.scale)
    if far > event.told.far:
        told.append(f"something lies {far:.0f} s ahead")
    if qualities is None or not qualities.ends:
        yield f"{name:<12} {'':>10} {clock(followed.end(stream.scale)):>12} {'':>8} {' '.join(told)}", False
    for at, quality in enumerate(qualities.ends if qualities else ()):
        more = told if at == 0 else [" " * 13]
        is_missing = quality in qualities.missing()
        # a stream of which all qualities stand is as old as its own end
        is_old = time.time() - qualities.rose[quality] > 10
        more = more + ["missing"] * is_missing + ["can't be played"] * (quality in stream.unplayable)
        line = f"{name if at == 0 else '':<12} {quality:>10} {clock(qualities.ends[quality] / stream.scale):>12} {since(qualities.rose[quality]):>8}"
        yield f"{line} {' '.join(more)}".rstrip(), is_missing or is_old


def encoder_rows(journal):
    yield f"{'encoder':<12} {'from':<24} {'for':>8}", None
    for name, encoder in journal.encoders.items():
        for peer, begun in encoder.pushes.values():
            yield f"{name or '-':<12} {peer:<24} {since(begun):>8}  on the air", False
        if not encoder.pushes and encoder.ended and time.time() - encoder.ended < SHOWN:
            yield f"{name or '-':<12} {'':<24} {since(encoder.ended):>8}  ended: {encoder.said}", not encoder.said.startswith("kept")
    if journal.is_fresh():
        now = journal.now
        rates = f"in {now.get('in', 0) * 8 / 1e7:.2f} Mbit/s, out {now.get('out', 0) * 8 / 1e7:.2f} Mbit/s"
        yield f"{rates}, {journal.viewers()} viewers' connections, longest sync {now.get('longest', 0)} ms", False


def machine_row(event):
    size, _, free = event.disk or (0, None, 0)
    memory = "not known" if event.memory is None else f"{event.memory / 2**20:.0f} MiB"
    return f"store {size / 2**20:.1f} MiB, free {free / 2**30:.1f} GiB, memory {memory}"


def plain(line):
    """A line without what a terminal would obey: names come from whoever pushes."""
    return re.sub(r"[^\x20-\x7e\xa0-\uffff]", "?", line)


def show(event, goes_on):
    """Draws the table over the one before, as much of it as there is room for."""
    width, height = shutil.get_terminal_size()
    lines = [(plain(line)[: width - 1], kind) for line, kind in rows(event)][: height - 2 if goes_on else None]
    has_colour = "NO_COLOR" not in os.environ
    drawn = [(BOLD if kind is None else BAD if kind else "") + line + PLAIN if has_colour and kind is not False else line for line, kind in lines]
    if goes_on:
        sys.stdout.write("\x1b[H" + "".join(f"{line}\x1b[K\n" for line in drawn) + "\x1b[J")
    else:
        sys.stdout.write("".join(f"{line}\n" for line in drawn))
    sys.stdout.flush()
