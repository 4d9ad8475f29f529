"""A program one of whose calls of a function gives nothing, at full speed: what counts the calls is written into its memory once it is
loaded, by ptrace, behind the last instruction of the text, and the count behind the last byte of the data, where a page goes on."""

import ctypes
import os
import re
import signal
import struct
import subprocess

TRACEME, CONT, DETACH, SETOPTIONS, TRACE_EXIT = 0, 7, 17, 0x4200, 0x40
EXITS = signal.SIGTRAP | 6 << 8
PAGE = 4096
LIBC = ctypes.CDLL(None, use_errno=True)
LIBC.ptrace.argtypes = [ctypes.c_long, ctypes.c_long, ctypes.c_void_p, ctypes.c_void_p]
LIBC.ptrace.restype = ctypes.c_long


def trace(request, pid=0, value=0):
    if LIBC.ptrace(request, pid, None, value) < 0:
        raise OSError(ctypes.get_errno(), "ptrace")


class Function:
    """Where a function of a program begins, its first instructions, and where there is room for others and for a count."""

    def __init__(self, program, name):
        self.program = os.path.abspath(program)
        said = subprocess.run(["readelf", "-Wls", self.program], capture_output=True, text=True, check=True).stdout
        self.at = int(re.search(rf"^ *\d+: ([0-9a-f]+) .* {name}$", said, re.M).group(1), 16)
        loads = [line.split() for line in re.findall(r"^ *LOAD (.*)$", said, re.M)]
        parts = [(int(it[1], 16), int(it[4], 16), "".join(it[5:-1])) for it in loads]
        text = next(start + size for start, size, flags in parts if "E" in flags)
        data = max(start + size for start, size, flags in parts if "W" in flags)
        self.room, self.count = -(-text // 16) * 16, -(-data // 8) * 8
        self.first = self.begin(name)
        if -text % PAGE < 96 or -data % PAGE < 16:
            raise ValueError("no room behind the text or the data")

    def begin(self, name):
        """The first instructions, of 5 bytes at least, which mean the same at another place."""
        words = ["objdump", "-d", "-w", f"--start-address={self.at:#x}", f"--stop-address={self.at + 32:#x}", self.program]
        taken = b""
        for line in subprocess.run(words, capture_output=True, text=True, check=True).stdout.splitlines():
            found = re.match(r" *[0-9a-f]+:\t([0-9a-f ]+)\t(.*)", line)
            if not found:
                continue
            if re.search(r"rip|^j|^call|^ret|^loop", found.group(2)):
                raise ValueError(f"{name} begins with {found.group(2)}")
            taken += bytes.fromhex(found.group(1))
            if len(taken) >= 5:
                return taken
        raise ValueError(f"{name} is too short")

    def code(self, number):
        """Counts a call, gives nothing to that of this number, and goes on otherwise."""
        near = lambda at, target: struct.pack("<i", target - at)
        at = self.room
        code = b"\x50\xb8\x01\x00\x00\x00"  # push rax; mov eax, 1
        code += b"\xf0\x48\x0f\xc1\x05" + near(at + len(code) + 9, self.count)  # lock xadd [count], rax
        code += b"\x48\x3d" + struct.pack("<i", number - 1)  # cmp rax, number - 1
        code += b"\x58\x74" + bytes([len(self.first) + 5])  # pop rax; je
        code += self.first
        code += b"\xe9" + near(at + len(code) + 5, self.at + len(self.first))  # jmp
        return code + b"\x31\xc0\xc3"  # xor eax, eax; ret


class Refusing:
    """A program whose call of that number gives nothing; where the number is 0 the calls are counted alone. To be used by one thread."""

    def __init__(self, function, number, words, counts=False, **ends):
        self.function = function
        self.process = subprocess.Popen([function.program, *words], preexec_fn=lambda: trace(TRACEME), **ends)
        self.pid = self.process.pid
        os.waitpid(self.pid, 0)
        with open(f"/proc/{self.pid}/maps") as maps:
            path = os.path.realpath(function.program)
            self.base = min(int(line.split("-")[0], 16) for line in maps if line.rstrip().endswith(path))
        if self.base < 0x1000000 and function.at >= self.base:
            self.base = 0
        code = function.code(number)
        with open(f"/proc/{self.pid}/mem", "r+b", buffering=0) as memory:
            for at, written in ((function.room, code), (function.at, b"\xe9" + struct.pack("<i", function.room - function.at - 5))):
                memory.seek(self.base + at)
                memory.write(written)
        if counts:
            trace(SETOPTIONS, self.pid, TRACE_EXIT)
            trace(CONT, self.pid)
        else:
            trace(DETACH, self.pid)

    def counted(self):
        with open(f"/proc/{self.pid}/mem", "rb", buffering=0) as memory:
            memory.seek(self.base + self.function.count)
            return struct.unpack("<Q", memory.read(8))[0]

    def count_to_end(self):
        """How many calls there were, up to its end, which is let go on to."""
        while True:
            _, status = os.waitpid(self.pid, 0)
            if not os.WIFSTOPPED(status):
                return 0
            if status >> 8 == EXITS:
                calls = self.counted()
                trace(DETACH, self.pid)
                return calls
            trace(CONT, self.pid, os.WSTOPSIG(status) if os.WSTOPSIG(status) != signal.SIGTRAP else 0)
