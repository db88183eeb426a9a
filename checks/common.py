"""What the scripts of this folder have in common: the program, looks, ports, clients, servers, other hosts, and what is
missing.

It stands on Python's own library, as they do. `sys.dont_write_bytecode` before its import keeps the folder clean."""
import http.client
import http.server
import importlib.machinery
import importlib.util
import json
import os
import queue
import random
import re
import shutil
import signal
import socket
import struct
import subprocess
import sys
import tempfile
import threading
import time

LOCAL = "127.0.0.1"
TOP = os.path.dirname(os.path.dirname(os.path.realpath(__file__)))
NAME = "checks/" + os.path.basename(sys.argv[0])

ports, asking = iter(range(random.randrange(10000, 30000), 32768)), threading.Lock()


def sources():
    """The files of the crates that a program is made of."""
    for folder, below, names in os.walk(f"{TOP}/crates"):
        below[:] = [it for it in below if it not in ("out", "proofs", "must-fail")]
        yield from (os.path.join(folder, it) for it in names if it.endswith(".rt"))


def program():
    """The program's file: the one that is named first, or the one that `./cse` has built."""
    if len(sys.argv) > 1:
        if not (os.path.isfile(sys.argv[1]) and os.access(sys.argv[1], os.X_OK)):
            sys.exit(f"{NAME}: {sys.argv[1]} is no program; ./cse builds one, and then it is crates/cse/out/cse")
        return os.path.abspath(sys.argv[1])
    built = f"{TOP}/crates/cse/out/cse"
    if not os.path.exists(built):
        sys.exit(f"{NAME}: no program is named, and none is built: ./cse builds it, or name another one")
    if os.path.getmtime(built) < max(map(os.path.getmtime, sources())):
        print(f"{NAME}: a source is newer than crates/cse/out/cse, which ./cse builds anew", file=sys.stderr)
    return built


def is_watched(file):
    """Whether clang's address sanitizer is in a program. Such a one has an allocator of its own, and is slow."""
    with open(file, "rb") as it:
        return b"AddressSanitizer" in it.read()


def loaded(file):
    """A script of the repository as a module. Its name is the file's."""
    loader = importlib.machinery.SourceFileLoader(os.path.basename(file).partition(".")[0], f"{TOP}/{file}")
    made = importlib.util.module_from_spec(importlib.util.spec_from_loader(loader.name, loader))
    loader.exec_module(made)
    return made


def has(tool, what):
    """Whether a tool is installed. Where it isn't, it says what is skipped."""
    if shutil.which(tool):
        return True
    print(f"{NAME}: {tool} is not installed, so this is skipped: {what}", flush=True)
    return False


# Looks: what is compared, counted and told.

# The word before each look that holds. Where there is none, only those are told that don't.
well = ""
looked, differed, telling = 0, 0, threading.Lock()
played = []


def counts(holds, text):
    """Counts a look, and prints this of it if it is anything. Looks may be beside each other."""
    global looked, differed
    with telling:
        looked += 1
        differed += not holds
        if text:
            print(text, flush=True)


def shows(title, holds, said="", fault=""):
    """Prints a line for a look: what is said of it, and where it doesn't hold, what is at fault."""
    parts = [f"{well if holds else 'FAILED':6} {title}", said, "" if holds else fault]
    counts(holds, ": ".join(str(it) for it in parts if it != ""))


def look(title, came, wanted=True):
    """Compares what came with what must come, and tells what differs. It tells what doesn't, where there is a word for
    that."""
    fault = f"{came!r}, not {wanted!r}"
    if well:
        shows(title, came == wanted, fault=fault)
    else:
        counts(came == wanted, "" if came == wanted else f"{NAME}: {title}: {fault}")


def within(low, high, seconds):
    """`in time` where it took at least `low` and at most `high` seconds; else how long it took."""
    return "in time" if low <= seconds <= high else f"{seconds:.1f} seconds"


def plays(play):
    """Has a function stand among those that a script plays, in the order of the file."""
    played.append(play)
    return play


def named():
    """Those of them that are named behind the program, or all."""
    names = sys.argv[2:]
    unknown = set(names) - {play.__name__ for play in played}
    if unknown:
        sys.exit(f"{NAME}: there is no look {', '.join(sorted(unknown))}; there are "
                 + ", ".join(play.__name__ for play in played))
    return [play for play in played if play.__name__ in names or not names]


def in_threads(plays):
    """Has these run beside each other."""
    threads = [threading.Thread(target=play) for play in plays]
    for thread in threads:
        thread.start()
    return threads


def sums_up(what="looks", fault="differ"):
    """Prints the last line, and gives the status with which a script ends."""
    print(f"{NAME}: {looked} {what}, {differed} {fault}")
    return 1 if differed else 0


# Clients, over WebSocket and over HTTP.

class Browser:
    """Headless Chromium, which shows a page until it is closed, and keeps its profile in this folder."""

    def __init__(self, url, folder):
        words = ["--headless", "--no-sandbox", "--disable-gpu", "--remote-debugging-port=0"]
        self.process = subprocess.Popen(["chromium", *words, f"--user-data-dir={folder}/profile", url],
                                        stdout=subprocess.DEVNULL, stderr=subprocess.DEVNULL, start_new_session=True)

    def close(self):
        """Ends all its processes, so that none writes into the folder any more."""
        os.killpg(self.process.pid, signal.SIGKILL)
        self.process.wait()
        time.sleep(0.5)


HANDSHAKE = (b"GET / HTTP/1.1\r\nHost: a\r\nUpgrade: websocket\r\nConnection: Upgrade\r\nSec-WebSocket-Version: 13\r\n"
             b"Sec-WebSocket-Key: dGhlIHNhbXBsZSBub25jZQ==\r\nSec-WebSocket-Protocol: oneM2M.R2.0.json\r\n\r\n")


def frame_of(payload, first=0x81, mask=bytes(4), told=None):
    """A client's frame of WebSocket, which says this length, or another one. Its mask is of zeros unless it is said;
    where that is None, it has none."""
    length, bit = len(payload) if told is None else told, 0 if mask is None else 128
    size = (bytes([bit | length]) if length < 126 else struct.pack(">BH", bit | 126, length) if length < 65536
            else struct.pack(">BQ", bit | 127, length % 2**64))
    if not any(mask or b""):
        return bytes([first]) + size + (mask or b"") + payload
    keys = (mask * (len(payload) // 4 + 1))[:len(payload)]
    mixed = int.from_bytes(payload, "big") ^ int.from_bytes(keys, "big")
    return bytes([first]) + size + mask + mixed.to_bytes(len(payload), "big")


def content_of(text):
    """What a text of JSON says: None where it is empty, and the text where it is no JSON."""
    try:
        return json.loads(text) if text else None
    except ValueError:
        return text


def reply_to(connection, method, path, ty=None, content=None, who="CAdmin", rqi="r1", **fields):
    """The reply over a connection of `http.client`: its status, its status code, which is 0 where it has none of four
    digits, and its text."""
    fields = {"X-M2M-Origin": who, "X-M2M-RI": rqi, **fields}
    if content is not None:
        fields["Content-Type"] = "application/json" + (f";ty={ty}" if ty else "")
    connection.request(method, path, None if content is None else json.dumps(content), fields)
    reply = connection.getresponse()
    code = reply.getheader("X-M2M-RSC", "")
    return reply.status, int(code) if re.fullmatch("[0-9]{4}", code) else 0, reply.read().decode()


# What is raised where a client isn't answered.
Unanswered = OSError, http.client.HTTPException


class Client:
    """A connection over HTTP, at which an originator asks."""

    def __init__(self, port, who="CAdmin", patience=60):
        self.connection, self.who = http.client.HTTPConnection(LOCAL, port, timeout=patience), who

    def ask(self, method, path, ty=None, content=None, **how):
        """The status of the reply, its status code, and its content."""
        status, code, text = reply_to(self.connection, method, path, ty, content, **{"who": self.who, **how})
        return status, code, content_of(text)

    def close(self):
        self.connection.close()


def read_reply(replies):
    """The first line of the next reply of a stream, and its content; nothing where it doesn't come whole."""
    first, length, content = replies.readline(), 0, b""
    if first[-2:] != b"\r\n":
        return "", b""
    for line in iter(replies.readline, b"\r\n"):
        if not line:
            return "", b""
        if line.lower().startswith(b"content-length:"):
            length = int(line.split(b":")[1])
    while len(content) < length:
        piece = replies.read(length - len(content))
        if not piece:
            return "", b""
        content += piece
    return first[:-2].decode(errors="replace"), content


def resets(sock):
    """The end of this one resets its connection."""
    sock.setsockopt(socket.SOL_SOCKET, socket.SO_LINGER, struct.pack("ii", 1, 0))


def waits_until(holds, seconds=30, pause=0.05):
    """Waits until this holds, or for so many seconds. Tells whether it does."""
    last = time.monotonic() + seconds
    while not holds() and time.monotonic() < last:
        time.sleep(pause)
    return holds()


# Ports, servers and other hosts.

def free_port():
    """A port at which nobody listens. It lies below those that the system gives, and no look gets it twice: so nobody
    takes it before it is used."""
    with asking:
        for port in ports:
            try:
                socket.create_server((LOCAL, port)).close()
                return port
            except OSError:
                pass
    raise SystemExit(f"{NAME}: no port is free")


def waits_for(port, process=None, seconds=30):
    """Waits until somebody listens at a port, unless this process ends before."""
    last = time.monotonic() + seconds
    while time.monotonic() < last:
        try:
            socket.create_connection((LOCAL, port), 1).close()
            return
        except OSError:
            if process and process.poll() is not None:
                raise SystemExit(f"{NAME}: the server ended with status {process.returncode}") from None
            time.sleep(0.01)
    raise SystemExit(f"{NAME}: nothing listens at {port}")


def exit_code(status):
    """The status of a process, as `os.wait4` gives it: a signal's number is below 0."""
    return -os.WTERMSIG(status) if os.WIFSIGNALED(status) else os.WEXITSTATUS(status)


# The processes that were started.
started = []


def end_all():
    """Ends what was started and runs still."""
    for it in started:
        if it.poll() is None:
            it.terminate()
            try:
                it.wait(10)
            except subprocess.TimeoutExpired:
                it.kill()
                it.wait()


class Server:
    """`cse serve` with these words, at a free port or at this one. It runs under another program where that is given,
    as `strace` and its words."""

    def __init__(self, file, *words, port=0, under=(), **how):
        self.port = port or free_port()
        how = {"stdout": subprocess.DEVNULL, "stderr": subprocess.DEVNULL, **how}
        self.process = subprocess.Popen([*under, file, "serve", f"--listen={LOCAL}:{self.port}", *words], **how)
        started.append(self.process)
        self.waits()

    def waits(self):
        """Waits until it listens."""
        waits_for(self.port, self.process)

    def end(self):
        """Ends it as an operator does, or kills it where that doesn't help."""
        self.process.terminate()
        try:
            self.process.wait(30)
        except subprocess.TimeoutExpired:
            self.kill()

    def kill(self):
        self.process.kill()
        self.process.wait()

    def ticks(self):
        """The processor time that it took so far, in hundredths of a second."""
        with open(f"/proc/{self.process.pid}/stat") as stat:
            return sum(map(int, stat.read().rsplit(")", 1)[1].split()[11:13]))


class Asked:
    """A server that is asked over HTTP, over a connection of its own each time."""
    # How many seconds it may take to answer.
    patience = 30

    def reply(self, method, path, *what, **how):
        """The status code of a reply over a connection of its own, and its text."""
        connection = http.client.HTTPConnection(LOCAL, self.port, timeout=self.patience)
        try:
            return reply_to(connection, method, path, *what, Connection="close", **how)[1:]
        finally:
            connection.close()

    def ask(self, method, path, *what, **how):
        """The status code of such a reply, and its content."""
        code, text = self.reply(method, path, *what, **how)
        return code, content_of(text)


class Teller(Server):
    """A server whose standard error goes into a file, unless it is told otherwise."""

    def __init__(self, file, *words, **how):
        self.told = tempfile.NamedTemporaryFile("r")
        with open(self.told.name, "w") as errors:
            super().__init__(file, *words, **{"stderr": errors, **how})

    def text(self):
        """All that it said."""
        with open(self.told.name) as told:
            return told.read()

    def lines(self):
        """What it said behind the line that it listens; in front of that stands that it made its journal."""
        said = self.text().splitlines()
        return said[2:] if said[0].startswith("made a new journal ") else said[1:]

    def descriptors(self):
        """How many it has open."""
        return len(os.listdir(f"/proc/{self.process.pid}/fd"))

    def status(self, key):
        """What the system says of it, as `Threads` and `VmRSS`."""
        with open(f"/proc/{self.process.pid}/status") as status:
            return int(re.search(rf"^{key}:\s+(\d+)", status.read(), re.M)[1])


def instance_of(body):
    """What the instance holds of which a notification tells; None where it tells of none."""
    try:
        return json.loads(body)["m2m:sgn"]["nev"]["rep"]["m2m:cin"]["con"]
    except (ValueError, KeyError, TypeError):
        return None


class Listener:
    """Takes notifications at a port, and answers each so many seconds later."""

    def __init__(self, port=0, delay=0):
        listener = self
        self.got, self.told, self.lock = [], [], threading.Lock()

        class Handler(http.server.BaseHTTPRequestHandler):
            protocol_version = "HTTP/1.1"

            def do_POST(self):
                body = self.rfile.read(int(self.headers.get("Content-Length", 0)))
                listener.take(self.path, body)
                time.sleep(delay)
                self.send_response(200)
                self.send_header("X-M2M-RSC", "2000")
                self.send_header("X-M2M-RI", self.headers.get("X-M2M-RI", ""))
                self.send_header("Content-Length", "0")
                self.end_headers()

            def log_message(self, *words):
                pass

        class Threads(http.server.ThreadingHTTPServer):
            request_queue_size = 1024
            daemon_threads = True

            def handle_error(self, request, client):
                pass

        self.server = Threads((LOCAL, port), Handler)
        self.port = self.server.server_address[1]
        threading.Thread(target=self.server.serve_forever, daemon=True).start()

    def take(self, path, body):
        """Keeps a body with the moment at which it came, and what its instance holds with the path at which it came."""
        found = instance_of(body)
        with self.lock:
            self.got.append((time.monotonic(), body))
            if found is not None:
                self.told.append((path, found))

    def url(self, path="/n"):
        return f"http://{LOCAL}:{self.port}{path}"

    def contents(self):
        """What the instances hold that it was told of, in the order in which they came."""
        with self.lock:
            return [content for _, content in self.told]

    def waits_for(self, count, seconds):
        """Waits until so many notifications came, or for so many seconds. Tells whether they did."""
        return waits_until(lambda: len(self.got) >= count, seconds, 0.002)

    def clear(self):
        """Forgets what came."""
        with self.lock:
            self.got.clear()
            self.told.clear()

    def missing(self, wanted, seconds):
        """What of this, as paths and contents, isn't told within so many seconds."""
        def left():
            with self.lock:
                told = set(self.told)
            return [it for it in wanted if it not in told]

        waits_until(lambda: not left(), seconds, 0.2)
        return left()

    def close(self):
        self.server.shutdown()
        self.server.server_close()


def head_of(stream):
    """What comes on a connection up to the end of a head, with what came behind it."""
    came = b""
    while b"\r\n\r\n" not in came:
        more = stream.recv(65536)
        if not more:
            break
        came += more
    return came


def message_of(stream):
    """The head of a message, and as many bytes behind it as that says."""
    came = head_of(stream)
    head, _, body = came.partition(b"\r\n\r\n")
    sizes = [int(it.split(b":")[1]) for it in head.split(b"\r\n") if it.lower().startswith(b"content-length:")]
    while sizes and len(body) < sizes[0]:
        more = stream.recv(65536)
        if not more:
            break
        body += more
    return head, body


class Peer:
    """Another host, which gives each connection, and the number of those before, to a function. It counts them."""

    def __init__(self, gives, port=0):
        self.socket, self.gives, self.came = socket.create_server((LOCAL, port), backlog=64), gives, queue.Queue()
        self.port = self.socket.getsockname()[1]
        threading.Thread(target=self.accept, daemon=True).start()

    def accept(self):
        place = 0
        while True:
            try:
                stream, _ = self.socket.accept()
            except OSError:
                return
            stream.settimeout(30)
            self.came.put(time.monotonic())
            threading.Thread(target=self.serve, args=(stream, place), daemon=True).start()
            place += 1

    def serve(self, stream, place):
        try:
            self.gives(stream, place)
        except OSError:
            pass
        stream.close()

    def count(self):
        return self.came.qsize()

    def url(self):
        return f"http://{LOCAL}:{self.port}/n"

    def close(self):
        """Takes no connection any more."""
        self.socket.shutdown(socket.SHUT_RDWR)
        self.socket.close()
