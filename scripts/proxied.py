"""An nginx that runs examples/nginx.conf in front of an origin, on ports of its own: one with TLS, as the example has it, and one without."""

import os
import re
import signal
import subprocess
import tempfile
import time
import shutil

from live import HERE, free_port, test


class Proxy:
    """The example on other ports and with other files. `more` has further words to be replaced."""

    def __init__(self, origin, more=(), connections=512):
        self.folder = tempfile.mkdtemp(prefix="smooth-nginx-")
        self.port, self.plain = free_port(), free_port()
        self.process = None
        with open(os.path.join(HERE, "..", "examples", "nginx.conf")) as example:
            text = example.read()
        listens = f"listen 127.0.0.1:{self.plain}; listen 127.0.0.1:{self.port} ssl"
        changes = [("127.0.0.1:8080", f"127.0.0.1:{origin.port}"), ("listen 443 ssl", listens), ("/var/cache/nginx/smooth", f"{self.folder}/cache"),
                   ("/etc/ssl/certs/live.example.org.pem", f"{self.folder}/pem"), ("/etc/ssl/private/live.example.org.key", f"{self.folder}/key"),
                   ("/var/log/nginx/smooth.log", f"{self.folder}/asked"),
                   ("/usr/share/smooth/player", os.path.join(HERE, "..", "examples", "player")), *more]
        for old, new in changes:
            test(old in text, f"examples/nginx.conf lacks {old}")
            text = text.replace(old, new)
        front = f"daemon off; pid {self.folder}/pid; error_log {self.folder}/log;" + (" user root;" if os.getuid() == 0 else "")
        paths = " ".join(f"{name}_temp_path {self.folder}/{name};" for name in ("client_body", "proxy", "fastcgi", "uwsgi", "scgi"))
        with open(os.path.join(self.folder, "conf"), "w") as conf:
            conf.write(f"{front}\nevents {{ worker_connections {connections}; }}\nhttp {{ {paths}\n{text}\n}}\n")

    def __enter__(self):
        self.start()
        return self

    def __exit__(self, *_):
        self.stop()
        shutil.rmtree(self.folder, ignore_errors=True)

    def certificate(self, name, subject):
        """A key and a certificate that it signed itself."""
        ends = ["-keyout", f"{self.folder}/{name}key", "-out", f"{self.folder}/{name}pem"]
        words = ["openssl", "req", "-x509", "-newkey", "rsa:2048", "-nodes", "-subj", f"/CN={subject}", "-days", "1", *ends]
        subprocess.run(words, check=True, stderr=subprocess.DEVNULL)

    def start(self):
        self.certificate("", "localhost")
        self.process = subprocess.Popen(["nginx", "-c", os.path.join(self.folder, "conf")], stderr=subprocess.DEVNULL)
        time.sleep(1)
        test(self.process.poll() is None, "nginx does not take examples/nginx.conf")

    def change(self, old, new):
        """Puts other words into the configuration while nginx runs."""
        with open(os.path.join(self.folder, "conf")) as conf:
            text = conf.read()
        test(old in text, f"examples/nginx.conf lacks {old}")
        with open(os.path.join(self.folder, "conf"), "w") as conf:
            conf.write(text.replace(old, new))
        self.process.send_signal(signal.SIGHUP)

    def stop(self):
        if self.process:
            self.process.terminate()
            self.process.wait()
            self.process = None

    def url(self, path, tls=False):
        return f"{'https' if tls else 'http'}://127.0.0.1:{self.port if tls else self.plain}/live.isml/{path}"

    def asked(self):
        """For each request the time, the client's address, its status, the status that the origin gave where it was asked, and the address."""
        with open(os.path.join(self.folder, "asked")) as lines:
            found = [re.fullmatch(r'([\d.]+) (\S+) \d+ (\d+) (.*) \S+ [\d.]+ "\S+ (\S+) .*"\n', line) for line in lines]
        return [(float(it[1]), it[2], int(it[3]), it[4], it[5]) for it in found if it]
