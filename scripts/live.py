"""What the scripts share that try the running program with others: an origin of its own, requests to it, and pushes."""

import atexit
import http.client
import os
import random
import re
import shutil
import signal
import socket
import struct
import subprocess
import sys
import tempfile
import threading
import time
import traceback
import xml.etree.ElementTree as xml

HERE = os.path.dirname(os.path.abspath(__file__))
PROGRAM = os.environ.get("SMOOTH") or os.path.join(HERE, "..", "crates", "smooth", "out", "smooth")
SAMPLE = os.path.join(HERE, "..", "examples", "push.isml")
TFXD = bytes.fromhex("6d1d9b0542d544e680e2141daff757b2")
TFRF = bytes.fromhex("d4807ef2ca3946958e5426cb9e46a79f")
# how long a check may take, in seconds: no wait of it for a program is longer
MOST = int(os.environ.get("CHECK_SECONDS", "3600"))
# ffmpeg with these makes fragments of 1.92 s in every track, from 0 on: 48 pictures, and 90 frames of sound.
PICTURES = 25
GROUP = 48
UNIT = 19_200_000
BITRATES = (400_000, 200_000)


def need(*programs):
    """Ends the script well, with a word, where one of these is missing, and with a failure where a check takes too long."""
    if name().startswith("check_"):
        signal.signal(signal.SIGALRM, lambda *_: test(False, f"not done within {MOST} s"))
        signal.alarm(MOST)
    if not os.access(PROGRAM, os.X_OK):
        sys.exit(f"{name()}: no program at {PROGRAM}")
    for program in programs:
        if not shutil.which(program):
            print(f"{name()}: skipped, since {program} is missing")
            sys.exit(0)


def left_out(part, why):
    """Says that a part of the check isn't tried. `check_all` tells it in its last line."""
    print(f"{name()}: left out: {part}, since {why}", flush=True)


def name():
    return os.path.basename(sys.argv[0])


def test(holds, words):
    if not holds:
        sys.exit(f"{name()}: {words}")


class Task(threading.Thread):
    """Work in a thread, which has begun. What ends it, `test` included, is told at once, is raised where `end` waits for it, and makes the
    check fail even where nothing does."""

    failed = []

    def __init__(self, work, *words):
        super().__init__(daemon=True)
        self.work, self.words_of_it, self.gave, self.fault = work, words, None, None
        self.start()

    def run(self):
        try:
            self.gave = self.work(*self.words_of_it)
        except BaseException as fault:  # pylint: disable=broad-except
            self.fault = fault
            Task.failed.append(fault)
            told = str(fault) if isinstance(fault, SystemExit) else traceback.format_exc()
            print(f"{name()}: in a thread: {told}", file=sys.stderr, flush=True)

    def end(self, seconds=300):
        """Waits for the end of the work, and gives what it gave."""
        self.join(seconds)
        test(not self.is_alive(), f"{self.work.__name__} has not ended within {seconds} s")
        if self.fault is not None:
            raise self.fault
        return self.gave


def fail_where_a_thread_did():
    if Task.failed:
        sys.stdout.flush()
        sys.stderr.flush()
        os._exit(1)


atexit.register(fail_where_a_thread_did)


def lines_of(printed):
    """What a command printed, in three: its line, where that is a failure's the sentence behind it, and what the system said behind that."""
    text = printed.decode()
    if not text.startswith("error: ") or text.startswith("error: words\n"):
        return text, "", ""
    line, sentence, behind = [*text.split("\n", 2), "", ""][:3]
    test(sentence[:1].isupper() and sentence.endswith("."), f"{line} has no sentence behind it but {sentence!r}")
    return line + "\n", sentence, behind.rstrip("\n")


def line_of(printed):
    """What a command printed, a failure's line alone."""
    return lines_of(printed)[0]


def free_port():
    with socket.socket() as tried:
        tried.bind(("127.0.0.1", 0))
        return tried.getsockname()[1]


def is_free(port):
    with socket.socket() as tried:
        try:
            tried.bind(("127.0.0.1", port))
            return True
        except OSError:
            return False


def free_pair():
    """A port that nobody has, as nobody has the next one, below those from which the system takes the ports of connections: while nobody
    listens there, a connection could else meet itself."""
    return next(port for port in iter(lambda: random.randrange(10_000, 32_000), None) if is_free(port) and is_free(port + 1))


def boxes(data):
    at = 0
    while at + 8 <= len(data):
        size = int.from_bytes(data[at : at + 4], "big")
        yield data[at + 4 : at + 8], data[at : at + size]
        at += size


def box(kind, body):
    return (8 + len(body)).to_bytes(4, "big") + kind + body


class Origin:
    """An origin on a store in a folder of its own."""

    def __init__(self, at=None):
        self.folder = tempfile.mkdtemp(prefix="smooth-", dir=at)
        self.store = os.path.join(self.folder, "store")
        self.port = free_port()
        self.process = None

    def __enter__(self):
        self.start()
        return self

    def __exit__(self, *_):
        self.kill()
        shutil.rmtree(self.folder, ignore_errors=True)

    def words(self):
        """Further options."""
        return []

    def start(self):
        words = [PROGRAM, "serve", self.store, "--port", str(self.port), *self.words()]
        with open(os.path.join(self.folder, "printed"), "ab") as printed:
            self.process = subprocess.Popen(words, stdin=subprocess.DEVNULL, stdout=printed)
        for _ in range(2000):
            test(self.process.poll() is None, f"the origin ended with {self.process.returncode}: {self.printed()}")
            try:
                socket.create_connection(("127.0.0.1", self.port)).close()
                return
            except OSError:
                time.sleep(0.01)
        sys.exit(f"{name()}: the origin does not listen")

    def pids(self):
        """The process, and those that it started, where the program is a script in front of another one."""
        found = subprocess.run(["pgrep", "-P", str(self.process.pid)], stdout=subprocess.PIPE, check=False).stdout.split()
        return [self.process.pid, *map(int, found)]

    def kill(self):
        if self.process:
            self.process.kill()
            self.process.wait()
            self.process = None

    def printed(self):
        with open(os.path.join(self.folder, "printed")) as printed:
            return printed.read()

    def url(self, path):
        return f"http://127.0.0.1:{self.port}/live.isml/{path}"

    def curl(self, path):
        """The status and the body that curl gets."""
        done = subprocess.run(["curl", "-s", "-w", "%{http_code}", self.url(path)], stdout=subprocess.PIPE, check=True)
        return int(done.stdout[-3:]), done.stdout[:-3]

    def get(self, path):
        """The same on a connection of its own, without curl."""
        connection = http.client.HTTPConnection("127.0.0.1", self.port, timeout=60)
        connection.request("GET", f"/live.isml/{path}")
        reply = connection.getresponse()
        body = reply.read()
        connection.close()
        return reply.status, body

    def push(self, body, who="one"):
        """Pushes a body as one chunk. The status and the line of the reply."""
        with socket.create_connection(("127.0.0.1", self.port), timeout=60) as peer:
            peer.sendall(head(who) + chunk(body) + b"0\r\n\r\n")
            reply = http.client.HTTPResponse(peer)
            reply.begin()
            return reply.status, reply.read().decode()

    def listing(self, get=None):
        """What the manifest lists: for each stream its bitrates and its times with their durations."""
        status, text = (get or self.get)("Manifest")
        return listed(text) if status == 200 else {}

    def kept(self):
        """The lines of `list` of the store, which must not be served meanwhile."""
        done = subprocess.run([PROGRAM, "list", self.store], stdout=subprocess.PIPE, stdin=subprocess.DEVNULL, check=True)
        return done.stdout.decode().splitlines()


def head(who):
    return f"POST /live.isml/Streams({who}) HTTP/1.1\r\nHost: origin\r\nTransfer-Encoding: chunked\r\n\r\n".encode()


def chunk(data):
    return f"{len(data):x}\r\n".encode() + data + b"\r\n"


def listed(text):
    streams = {}
    for stream in xml.fromstring(text).iter("StreamIndex"):
        times, time_now = [], 0
        for run in stream.iter("c"):
            time_now = int(run.get("t", time_now))
            for _ in range(int(run.get("r", 1))):
                times.append((time_now, int(run.get("d"))))
                time_now += int(run.get("d"))
        streams[stream.get("Name")] = ([int(level.get("Bitrate")) for level in stream.iter("QualityLevel")], times)
    return streams


def path_of(bitrate, stream, start):
    return f"QualityLevels({bitrate})/Fragments({stream}={start})"


def read(fragment):
    """The time, the duration and the samples of a fragment."""
    (moof, first), (mdat, second) = list(boxes(fragment))[:2]
    test((moof, mdat) == (b"moof", b"mdat"), "what is served is no fragment")
    at = first.index(TFXD) + 20
    return int.from_bytes(first[at : at + 8], "big"), int.from_bytes(first[at + 8 : at + 16], "big"), second[8:]


def ahead(fragment):
    """The times ahead that a fragment tells, with their durations."""
    moof = next(boxes(fragment))[1]
    if TFRF not in moof:
        return []
    at = moof.index(TFRF) + 16
    wide = 8 if moof[at] else 4
    found = [int.from_bytes(moof[at + 5 + n * wide : at + 5 + (n + 1) * wide], "big") for n in range(2 * moof[at + 4])]
    return list(zip(found[::2], found[1::2]))


def check_ahead(origin):
    """Each fragment that is listed tells the next two listed times of its stream, as many as there are. Gives how many fragments did."""
    count = 0
    for stream, (bitrates, times) in origin.listing().items():
        for place, (start, _) in enumerate(times):
            for bitrate in bitrates:
                status, data = origin.get(path_of(bitrate, stream, start))
                test(status == 200, f"{stream} {bitrate} {start} is listed and answered by {status}")
                told, due = ahead(data), times[place + 1 : place + 3]
                test(told == due, f"{stream} {bitrate} {start} tells the times {told} ahead, and {due} are listed")
                count += 1
    return count


def spent(*pids):
    """The processor time that these processes have taken, in seconds."""
    took = 0
    for pid in pids:
        with open(f"/proc/{pid}/stat") as stat:
            fields = stat.read().rsplit(")", 1)[1].split()
        took += int(fields[11]) + int(fields[12])
    return took / os.sysconf("SC_CLK_TCK")


def load(pids, url, connections, seconds, script=None, spent=spent):
    """Requests a second of wrk, and requests for each second of the servers' processor time, which is asked of `spent`."""
    words = ["wrk", "-t2", f"-c{connections}", f"-d{seconds}s"] + (["-s", script] if script else []) + [url]
    before = spent(*pids)
    told = subprocess.run(words, stdout=subprocess.PIPE).stdout.decode()
    took = spent(*pids) - before
    bad = re.search(r"Non-2xx or 3xx responses: (\d+)", told)
    test(not bad, f"{url}: {bad and bad.group(1)} answers are refusals")
    broken = re.search(r"Socket errors: (.*)", told)
    test(not broken, f"{url}: {broken and broken.group(1)}")
    count = int(re.search(r"(\d+) requests in", told).group(1))
    return float(re.search(r"Requests/sec:\s+([\d.]+)", told).group(1)), count / took


class Nginx:
    """An nginx on a folder of files, with so many workers; uploads by PUT are stored. Where `tuned`, files stay open between requests, so that
    one costs no open, fstat and close; `nopush` sends a head and its file together."""

    def __init__(self, files, sendfile, at=None, workers=1, tuned=False, nopush=False):
        self.folder = tempfile.mkdtemp(prefix="nginx-", dir=at)
        self.port = free_port()
        os.chmod(self.folder, 0o777)
        with open(os.path.join(self.folder, "conf"), "w") as conf:
            conf.write(f"""worker_processes {workers}; daemon off; pid {self.folder}/pid; error_log {self.folder}/log;
{'user root;' if os.getuid() == 0 else ''}
events {{ worker_connections 512; }}
http {{
    access_log off; sendfile {'on' if sendfile else 'off'}; tcp_nopush {'on' if nopush else 'off'}; tcp_nodelay on;
    keepalive_requests 1000000000; {'open_file_cache max=1000 inactive=1h; open_file_cache_valid 1h;' if tuned else ''}
    client_body_temp_path {self.folder}/body; client_max_body_size 0; proxy_temp_path {self.folder}/a; fastcgi_temp_path {self.folder}/b;
    uwsgi_temp_path {self.folder}/c; scgi_temp_path {self.folder}/d;
    server {{
        listen 127.0.0.1:{self.port};
        location / {{ root {files}; default_type video/mp4; }}
        location /up/ {{ root {self.folder}; dav_methods PUT; create_full_put_path on; }}
    }}
}}""")
        self.process = subprocess.Popen(["nginx", "-c", os.path.join(self.folder, "conf")], stderr=subprocess.DEVNULL)
        for _ in range(500):
            try:
                socket.create_connection(("127.0.0.1", self.port)).close()
                break
            except OSError:
                time.sleep(0.01)
        children = subprocess.run(["pgrep", "-P", str(self.process.pid)], stdout=subprocess.PIPE).stdout.split()
        self.workers = [int(child) for child in children]

    def stop(self):
        self.process.terminate()
        self.process.wait()
        shutil.rmtree(self.folder, ignore_errors=True)


def encode(target, groups, rate=8, first=0, beside=None):
    """An ffmpeg that pushes test pictures at two bitrates with a sound, so many times as fast as they last, from a group on; it also
    writes what it pushes to the file beside, if one is named."""
    words = ["ffmpeg", "-nostdin", "-v", "error"]
    for source in (f"testsrc2=size=320x180:rate={PICTURES}", "sine=frequency=440:sample_rate=48000"):
        words += ["-readrate", str(rate), "-f", "lavfi", "-i", source]
    words += ["-map", "0:v", "-map", "0:v", "-map", "1:a", "-t", str(groups * UNIT / 10_000_000)]
    words += ["-c:v", "libx264", "-preset", "ultrafast", "-bf", "0", "-g", str(GROUP), "-keyint_min", str(GROUP), "-sc_threshold", "0"]
    words += ["-b:v:0", str(BITRATES[0]), "-b:v:1", str(BITRATES[1]), "-c:a", "aac", "-b:a", "64000"]
    words += ["-af", "asetpts=PTS+1024/48000/TB", "-output_ts_offset", str(first * UNIT / 10_000_000)]
    if beside is None:
        return subprocess.Popen(words + ["-movflags", "isml+frag_keyframe", "-f", "ismv", target])
    # the file has each packet before it is pushed
    form = "[f=ismv:movflags=isml+frag_keyframe:flush_packets=1]"
    words += ["-flags", "+global_header", "-f", "tee", f"{form}{beside}|{form}{target}"]
    return subprocess.Popen(words)


# ---- what an encoder pushed, read by this script alone


def within(data, *path):
    """The bodies of the boxes at a path of kinds below a body."""
    for kind, text in boxes(data):
        if kind == path[0]:
            if len(path) == 1:
                yield text[8:]
            else:
                yield from within(text[8:], *path[1:])


def number(data, at):
    return int.from_bytes(data[at : at + 4], "big")


def rows(traf, defaults):
    """The duration, size, flags and offset of each sample of a traf's body, where a track has these defaults of the first three."""
    tfhd, trun = next(within(traf, b"tfhd")), next(within(traf, b"trun"))
    flags, at = number(tfhd, 0) & 0xFFFFFF, 8 + 8 * (tfhd[3] & 1) + 4 * (tfhd[3] >> 1 & 1)
    usual = list(defaults)
    for place, bit in enumerate((8, 16, 32)):
        if flags & bit:
            usual[place], at = number(tfhd, at), at + 4
    flags, count, at, found = number(trun, 0) & 0xFFFFFF, number(trun, 4), 8, []
    at += 4 * (flags & 1)
    first = number(trun, at) if flags & 4 else None
    at += 4 * (flags >> 2 & 1)
    for turn in range(count):
        row = [*usual, 0]
        if turn == 0 and first is not None:
            row[2] = first
        for place, bit in enumerate((0x100, 0x200, 0x400, 0x800)):
            if flags & bit:
                row[place], at = number(trun, at), at + 4
        found.append(tuple(row))
    return found


class Pushed:
    """A push as a file: its tracks as the live manifest says them, their timescales, and its fragments."""

    def __init__(self, path):
        with open(path, "rb") as file:
            data = file.read()
        text = data[data.index(b"<?xml") : data.index(b"</smil>") + 7]
        moov = next(within(data, b"moov"))
        scales = {}
        for trak in within(moov, b"trak"):
            tkhd, mdhd = next(within(trak, b"tkhd")), next(within(trak, b"mdia", b"mdhd"))
            scales[number(tkhd, 20 if tkhd[0] else 12)] = number(mdhd, 20 if mdhd[0] else 12)
        usual = {number(trex, 4): [number(trex, at) for at in (12, 16, 20)] for trex in within(moov, b"mvex", b"trex")}
        self.tracks = {}
        for track in (element for element in xml.fromstring(text).iter() if element.get("systemBitrate")):
            said = {param.get("name"): param.get("value") for param in track}
            self.tracks[int(said["trackID"])] = (said.get("trackName", track.tag), int(track.get("systemBitrate")), said)
        self.scales = {place[:2]: scales[track] for track, place in self.tracks.items()}
        self.fragments = {}
        moof = None
        for kind, text in boxes(data):
            if len(text) < number(text, 0):
                # the file of an encoder that was cut off
                break
            if kind == b"moof":
                moof = text[8:]
            elif kind == b"mdat" and moof is not None:
                traf = next(within(moof, b"traf"))
                track = number(next(within(traf, b"tfhd")), 4)
                at = traf.index(TFXD) + 16
                wide = 8 if traf[at] else 4
                start, lasts = (int.from_bytes(traf[at + 4 + n * wide : at + 4 + (n + 1) * wide], "big") for n in (0, 1))
                stream, bitrate, _ = self.tracks[track]
                self.fragments[stream, bitrate, start] = (lasts, rows(traf, usual.get(track, [0, 0, 0])), text[8:])

    def is_everywhere(self, place):
        """Whether each quality of the stream has a fragment of that time."""
        stream, _, start = place
        return all((name, bitrate, start) in self.fragments for name, bitrate, _ in self.tracks.values() if name == stream)


def check_manifest(text, pushed):
    """Each value that the manifest says of a track is the one that the encoder's header said."""
    streams = {stream.get("Name"): stream for stream in xml.fromstring(text).iter("StreamIndex")}
    names = {name for name, _, _ in pushed.tracks.values()}
    test(set(streams) == names, f"the manifest has the streams {sorted(streams)}, and not {sorted(names)}")
    for name, bitrate, said in pushed.tracks.values():
        scale = streams[name].get("TimeScale")
        test(scale == str(pushed.scales[name, bitrate]), f"{name} has the timescale {scale}")
        levels = [level for level in streams[name].iter("QualityLevel") if level.get("Bitrate") == str(bitrate)]
        test(len(levels) == 1, f"{name} has {len(levels)} levels of {bitrate}")
        for key in ("FourCC", "CodecPrivateData", "MaxWidth", "MaxHeight", "AudioTag", "Channels", "SamplingRate", "BitsPerSample", "PacketSize"):
            mine, its = levels[0].get(key), said.get(key)
            test(its is None or (mine or "").lower() == its.lower(), f"{name} {bitrate} has {key} {mine}, and not {its}")


def check_fragments(origin, files, get=None, cut=()):
    """Each fragment that the manifest lists has the samples that one of these pushes had for that track and time, and each time that
    they had in each quality is listed, but for those of pushes that were cut off. Gives the sequence number of each fragment."""
    get = get or origin.get
    status, text = get("Manifest")
    test(status == 200, f"the manifest is answered by {status}")
    check_manifest(text, files[0])
    numbers = {}
    for stream, (bitrates, times) in listed(text).items():
        for start, _ in times:
            for bitrate in bitrates:
                place = (stream, bitrate, start)
                had = [pushed.fragments[place] for pushed in [*files, *cut] if place in pushed.fragments]
                test(had, f"{place} is listed, and was not pushed")
                status, fragment = get(path_of(bitrate, stream, start))
                test(status == 200, f"{place} is listed and answered by {status}")
                moof = next(within(fragment, b"moof"))
                lasts, samples = read(fragment)[1:]
                served = (lasts, rows(next(within(moof, b"traf")), [0, 0, 0]), samples)
                test(served in had, f"{place} is served with other samples than were pushed")
                numbers[place] = number(next(within(moof, b"mfhd")), 4)
    for pushed in files:
        # a time is listed once each quality of its stream has it
        lost = {place for place in pushed.fragments if pushed.is_everywhere(place)} - set(numbers)
        test(not lost, f"{sorted(lost)[:3]} were pushed and are not listed")
    return numbers


def check_numbers(numbers, lines):
    """The sequence number of each fragment is its place in the store, as `list` says it."""
    for line in lines:
        _, place, stream, bitrate, start, *_ = line.split()
        served = numbers.get((stream, int(bitrate), int(start)))
        test(served is None or served == int(place), f"{stream} {bitrate} {start} is numbered {served}, and stands at {place}")


def header():
    """The header of the sample push, and for each track_ID in it the stream and the bitrate."""
    front = b""
    with open(SAMPLE, "rb") as sample:
        for kind, data in boxes(sample.read()):
            if kind == b"moof":
                break
            front += data
    text = front[front.index(b"<?xml") : front.index(b"</smil>") + 7]
    tracks = {}
    for track in (element for element in xml.fromstring(text).iter() if element.get("systemBitrate")):
        said = {param.get("name"): param.get("value") for param in track}
        tracks[int(said["trackID"])] = (said["trackName"], int(track.get("systemBitrate")))
    return front, tracks


def fragment(track, start, lasts, sample):
    """A fragment of one sample."""
    tfhd = box(b"tfhd", struct.pack(">2I", 0, track))
    trun = box(b"trun", struct.pack(">6I", 0xF00, 1, lasts, len(sample), 0, 0))
    tfxd = box(b"uuid", TFXD + struct.pack(">I2Q", 0x01000000, start, lasts))
    return box(b"moof", box(b"mfhd", struct.pack(">2I", 0, 1)) + box(b"traf", tfhd + trun + tfxd)) + box(b"mdat", sample)
