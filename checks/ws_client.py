"""A client of checks/websocket, which writes each byte of a handshake and of a frame (RFC 6455) itself, and requests as
payloads."""
import itertools
import json
import socket
import struct
import time

import common
from common import LOCAL

TEXT, BINARY, CLOSE, PING, PONG = 1, 2, 8, 9, 10
# The sample of RFC 6455, 1.3
KEY = "dGhlIHNhbXBsZSBub25jZQ=="


def head(offered=(), **fields):
    """The head of a handshake. A field that is None is left out."""
    lines = {"Host": LOCAL, "Upgrade": "websocket", "Connection": "Upgrade", "Sec-WebSocket-Key": KEY,
             "Sec-WebSocket-Version": "13", **{name.replace("_", "-"): value for name, value in fields.items()}}
    text = "".join(f"{name}: {value}\r\n" for name, value in lines.items() if value is not None)
    text += "".join(f"Sec-WebSocket-Protocol: {names}\r\n" for names in offered)
    return f"GET / HTTP/1.1\r\n{text}\r\n".encode()


def frame(opcode, payload=b"", fin=True, bits=0, mask=b"\x37\xfa\x21\x3d", size=None):
    """A frame as a client sends it: with a mask, unless that is None. `size` is the length that it says."""
    return common.frame_of(payload, fin << 7 | bits << 4 | opcode, mask, size)


def fragments(opcode, payload, count, between=b""):
    """The frames of a message in so many fragments, with this between each two."""
    step = len(payload) // count + 1
    pieces = [payload[at:at + step] for at in range(0, len(payload), step)]
    last = len(pieces) - 1
    return between.join(frame(0 if at else opcode, it, at == last) for at, it in enumerate(pieces))


def closing(code, reason=b""):
    return frame(CLOSE, struct.pack("!H", code) + reason)


class Client:
    """A client of its own, which makes the handshake at once, unless it is told not to."""

    def __init__(self, port, offered=(), shakes=True, patience=60, room=None):
        self.sock = socket.socket()
        if room:
            self.sock.setsockopt(socket.SOL_SOCKET, socket.SO_RCVBUF, room)
        self.sock.settimeout(patience)
        self.sock.connect((LOCAL, port))
        self.sock.setsockopt(socket.IPPROTO_TCP, socket.TCP_NODELAY, 1)
        self.replies = self.sock.makefile("rb")
        if shakes:
            self.send(head(offered))
            self.told = self.head()

    def __enter__(self):
        return self

    def __exit__(self, *_):
        self.replies.close()
        self.sock.close()

    def send(self, data):
        self.sock.sendall(data)

    def trickle(self, data, pause=0.0):
        """Sends it a byte at a time."""
        for at in range(len(data)):
            self.send(data[at:at + 1])
            time.sleep(pause)

    def head(self):
        """The lines of a head."""
        lines = itertools.takewhile(lambda line: line != b"\r\n", iter(self.replies.readline, b""))
        return [line.decode().strip() for line in lines] or ["nothing"]

    def frame(self):
        """The next frame of the server: its opcode and its payload. None at the end."""
        first = self.replies.read(2)
        if len(first) < 2:
            return None
        size = first[1] & 127
        if size > 125:
            size = int.from_bytes(self.replies.read(2 if size == 126 else 8), "big")
        if first[0] & 0xF0 != 0x80 or first[1] & 128:
            raise ValueError(f"a frame that is masked, a fragment or has reserved bits: {first!r}")
        return first[0] & 15, self.replies.read(size)

    def reply(self):
        """The opcode of the next frame, and its payload as JSON; its payload as it is where it is no reply."""
        came = self.frame()
        return (came[0], json.loads(came[1])) if came and came[0] in (TEXT, BINARY) else came

    def ask(self, payload, opcode=TEXT):
        """What a payload is answered."""
        self.send(frame(opcode, payload if isinstance(payload, bytes) else json.dumps(payload).encode()))
        came = self.reply()
        return came[1] if came and came[0] == opcode else came

    def end(self):
        """How the connection ends: the code of the Close, if one comes, and then the end of the stream."""
        try:
            came = self.frame()
            code = struct.unpack("!H", came[1][:2])[0] if came and came[0] == CLOSE and came[1] else came
            return code, self.replies.read(1) == b""
        except OSError as error:
            return type(error).__name__, False

    def rest(self):
        """What comes until the server ends the connection."""
        try:
            return self.replies.read()
        except OSError:
            return b""


def retrieve(to="cse-in", rqi="r1", who="CAdmin"):
    return {"fr": who, "op": 2, "rqi": rqi, "to": to}


def create(to, ty, content, rqi="r1", who="CDev"):
    return {"fr": who, "op": 1, "pc": content, "rqi": rqi, "to": to, "ty": ty, "rcn": 0}


GET = json.dumps(retrieve()).encode()
AE = create("cse-in", 2, {"m2m:ae": {"api": "N1", "rn": "dev", "rr": True}})
CONTAINER = create("cse-in/dev", 3, {"m2m:cnt": {"rn": "c"}})


def instance(con, rqi="r1", to="cse-in/dev/c", **more):
    return create(to, 4, {"m2m:cin": {"con": con, **more}}, rqi)


def codes(client, *requests):
    """The status code of each of these requests."""
    return [client.ask(it)["rsc"] for it in requests]


def of_size(size):
    """A Create of an instance that has so many bytes as a payload."""
    empty = json.dumps(instance("")).encode()
    return json.dumps(instance("x" * (size - len(empty)))).encode()
