"""A server as a process, and a client that speaks RESP or lines, for the tests beside it."""
import atexit
import os
import shutil
import signal
import socket
import subprocess
import tempfile
import time

HANDLERS = """map sums;
map kept;
handler plus(k, n) { bump(sums, k, n); reply 'ok; }
handler take(k, n) {
  let had = get(kept, k);
  if had == nil { had = 0; }
  let now = had + n;
  put(kept, k, now);
  reply now;
}
handler sum(k) { let s = get(sums, k); reply s; }
handler taken(k) { let s = get(kept, k); reply s; }
handler both(k) { let s = get(sums, k); let c = get(kept, k); reply s, c, 'x, nil; }
handler store(k, v) { put(kept, k, v); reply v; }
handler heavy() { repeat 999 as i { repeat 48 as j { let x = j; } } }
"""


class Server:
    """A server over data in a folder."""

    def __init__(self, program, folder, *words, env=None, handlers=HANDLERS, data=True):
        self.folder, self.program = folder, program
        self.path = f"{folder}/socket"
        self.file = f"{folder}/given.handlers"
        self.data = f"{folder}/data" if data else None
        self.words, self.env, self.process = list(words), env or {}, None
        with open(self.file, "w", encoding="utf-8") as out:
            out.write(handlers)

    def line(self, *words):
        """The words of a run over the same data."""
        kept = ["--data", self.data] if self.data else []
        return [self.program, "--handlers", self.file, *kept, *words]

    def start(self, *words, env=None):
        """Starts it; fails if it ends before it listens."""
        if os.path.exists(self.path):
            os.unlink(self.path)
        log = open(f"{self.folder}/log", "ab")  # pylint: disable=consider-using-with
        self.process = subprocess.Popen(  # pylint: disable=consider-using-with
            self.line("--unix", self.path, *self.words, *words), stderr=log,
            stdin=subprocess.DEVNULL, stdout=subprocess.DEVNULL,
            env={**os.environ, **self.env, **(env or {})})
        log.close()
        atexit.register(self.process.kill)
        for _ in range(6000):
            if self.process.poll() is not None:
                raise AssertionError(f"ended with {self.process.returncode}: {self.told()}")
            try:
                self.connect().close()
                return self
            except OSError:
                time.sleep(0.005)
        raise AssertionError("it doesn't listen")

    def connect(self):
        """A socket to it."""
        made = socket.socket(socket.AF_UNIX)
        try:
            made.connect(self.path)
        except OSError:
            made.close()
            raise
        return made

    def kill(self):
        """As a power cut does."""
        self.process.send_signal(signal.SIGKILL)
        self.process.wait()
        atexit.unregister(self.process.kill)

    def stop(self):
        """In order: its status."""
        self.process.send_signal(signal.SIGTERM)
        return self.process.wait(timeout=40)

    def told(self):
        """The end of what it told."""
        with open(f"{self.folder}/log", "rb") as read:
            return read.read()[-600:].decode().strip()

    def run(self, *words):
        """A run that ends by itself: status, output, errors."""
        done = subprocess.run(self.line(*words), capture_output=True, check=False, timeout=60)
        return done.returncode, done.stdout, done.stderr.decode()


def command(*words):
    """A command of RESP."""
    parts = [str(word).encode() for word in words]
    return b"*%d\r\n" % len(parts) + b"".join(b"$%d\r\n%s\r\n" % (len(p), p) for p in parts)


class Client:
    """A connection that speaks RESP: errors are answers that begin with `-`."""

    def __init__(self, server, timeout=20):
        self.socket = server.connect() if isinstance(server, Server) else server
        self.socket.settimeout(timeout)
        self.read = self.socket.makefile("rb")

    def send(self, *words):
        """Sends without reading."""
        self.socket.sendall(command(*words))

    def answer(self):
        """The next answer; None is the end of the connection."""
        line = self.read.readline()
        if not line.endswith(b"\r\n"):
            return None
        kind, text = line[:1], line[1:-2].decode()
        if kind == b"$":
            size = int(text)
            return "nil" if size < 0 else self.read.read(size + 2)[:-2].decode()
        if kind == b"*":
            return [self.answer() for _ in range(int(text))]
        return {b":": lambda: int(text), b"+": lambda: text, b"-": lambda: "-" + text}[kind]()

    def __call__(self, *words):
        self.send(*words)
        return self.answer()

    def close(self):
        """Ends it."""
        self.read.close()
        self.socket.close()


def run_cases(program, cases, chosen):
    """Runs all cases, each in a folder of its own, or those that are chosen."""
    for name, case in list(cases.items()):
        if not name.startswith("test_") or (chosen and name not in chosen):
            continue
        if name == "test_redis_programs" and shutil.which("redis-cli") is None:
            print(f"{program}: NOT RUN: redis-cli, redis-benchmark, since there is no redis-tools")
            continue
        with tempfile.TemporaryDirectory() as folder:
            began = time.monotonic()
            os.mkdir(f"{folder}/in")
            case(f"{folder}/in")
            print(f"{program}: {name[5:]}: fine, {time.monotonic() - began:.1f} s", flush=True)
