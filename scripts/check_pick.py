#!/usr/bin/env python3
"""Compares what a program's `pick` prints, and its status, with the reference, on files and on inputs derived from them.
    check_pick.py PROGRAM FILE...
"""
import multiprocessing
import os
import sys
import tempfile
import time

from derived_inputs import derived, in_turn
from reference_pick import answer

SECONDS = float(os.environ.get("CHECK_PICK_SECONDS", "60"))
RANDOM = int(os.environ.get("CHECK_PICK_RANDOM", "300"))
KEEP = os.environ.get("CHECK_PICK_KEEP")


class Program:
    """A program whose input and output are files, so that starting it costs little."""

    def __init__(self, path):
        self.path = path
        self.input, self.output = tempfile.TemporaryFile(buffering=0), tempfile.TemporaryFile(buffering=0)

    def run(self, words, data):
        """What it prints for these words behind `pick`, and its status: negative where a signal ended it."""
        for file in self.input, self.output:
            file.seek(0)
            file.truncate()
        os.pwrite(self.input.fileno(), data, 0)
        ends = [(os.POSIX_SPAWN_DUP2, file.fileno(), end) for end, file in enumerate((self.input, self.output))]
        process = os.posix_spawn(self.path, [self.path, "pick", *words], os.environ, file_actions=ends)
        _, status = os.waitpid(process, 0)
        size = os.fstat(self.output.fileno()).st_size
        return os.pread(self.output.fileno(), size + 1, 0), os.waitstatus_to_exitcode(status)


def shown(printed):
    return repr(printed.decode()) if len(printed) < 80 and printed.isascii() else f"{len(printed)} bytes"


def named_parts(file):
    with open(file, "rb") as source:
        parts = derived(source.read(), RANDOM)
    return [(((file, what), words, data) for what, words, data in part) for part in parts]


def without_sentence(told):
    """What is printed, and the status; of a refusal its line, without the sentence behind it."""
    printed, status = told
    line, end, sentence = printed.partition(b"\n")
    return (line + end, status) if status in (3, 4) and sentence.endswith(b".\n") else told


def compare(program, files, share, shares, until):
    """The differences in one share of all inputs, how many were compared, and how many time did not suffice for."""
    program, differences, compared, left = Program(program), [], 0, 0
    inputs = in_turn([part for file in files for part in named_parts(file)])
    for place, ((file, what), words, data) in enumerate(inputs):
        if place % shares != share:
            continue
        if time.monotonic() > until:
            left += 1
            continue
        compared += 1
        ours, theirs = without_sentence(program.run(words, data)), answer([os.fsencode(word) for word in words], data)
        if ours != theirs:
            told = " against ".join(f"{status} {shown(printed)}" for printed, status in (ours, theirs))
            differences.append(f"{file}: {what}: pick {' '.join(words)}: {told}")
            if KEEP:
                differences[-1] += f": {KEEP}/{place}"
                with open(f"{KEEP}/{place}", "wb") as kept:
                    kept.write(data)
    return differences, compared, left


def main():
    program, files = os.path.abspath(sys.argv[1]), sys.argv[2:]
    shares, until = os.cpu_count() or 1, time.monotonic() + SECONDS
    if KEEP:
        os.makedirs(KEEP, exist_ok=True)
    with multiprocessing.Pool(shares) as pool:
        parts = pool.starmap(compare, [(program, files, share, shares, until) for share in range(shares)])
    for differences, _, _ in parts:
        for difference in differences:
            print(difference)
    compared, differing, left = (sum(part) for part in zip(*((c, len(d), n) for d, c, n in parts)))
    print(f"{compared} compared, {differing} differ" + (f", {left} left when {SECONDS:.0f} s were over" if left else ""))
    sys.exit(1 if differing or not compared else 0)


if __name__ == "__main__":
    main()
