"""A server of checks/server_limits with clients whose sockets are set by hand, and what these are answered."""
import os
import re
import signal
import socket
import subprocess
import time

import common
from common import LOCAL, look, read_reply, resets, within

HEAD = b'X-M2M-Origin: CAdmin\r\nX-M2M-RI: r1\r\n'
GET = b'GET /cse-in HTTP/1.1\r\n' + HEAD + b'\r\n'
SERVED = 'HTTP/1.1 200 OK'


def skips(title):
    print(f'{common.NAME}: {title}: skipped', flush=True)


def post(target, kind, body):
    """A Create of this type."""
    head = b'POST %s?rcn=0 HTTP/1.1\r\n%sContent-Type: application/json;ty=%d\r\nContent-Length: %d\r\n\r\n'
    return head % (target, HEAD, kind, len(body)) + body


class Server(common.Teller):
    """A server of its own with these options. No connection shows that it listens, as some looks count them."""

    def __init__(self, *options, errors=None, before=None, under=()):
        how = {} if errors is None else {'stderr': errors}
        super().__init__(common.program(), *options, under=under, stdin=subprocess.DEVNULL, preexec_fn=before,
                         start_new_session=True, **how)

    def waits(self):
        for _ in range(600):
            if self.sockets(0)[0]:
                return
            time.sleep(0.05)
        print(f'{common.NAME}: nothing listens at {self.port}')

    def sockets(self, client):
        """Whether its socket for a client at this port, or the one that listens, is open, and the bytes that it holds
        for the client."""
        with open('/proc/net/tcp') as table:
            for _, here, there, state, queues, *_ in map(str.split, table):
                if here.endswith(f':{self.port:04X}') and there.endswith(f':{client:04X}'):
                    return state in ('01', '0A'), int(queues.split(':')[0], 16)
        return False, 0

    def __enter__(self):
        return self

    def __exit__(self, *_):
        if self.process.poll() is None:
            os.killpg(self.process.pid, signal.SIGKILL)
        self.process.wait()

    def client(self, room=None, patience=90):
        """A client that is connected, with so many bytes of room for what it hasn't read."""
        sock = socket.socket()
        if room:
            sock.setsockopt(socket.SOL_SOCKET, socket.SO_RCVBUF, room)
        sock.settimeout(patience)
        sock.connect((LOCAL, self.port))
        return sock

    def resetter(self):
        """A client whose end resets its connection."""
        sock = self.client()
        resets(sock)
        return sock

    def answer(self, request=GET, patience=5):
        """What a client of its own is answered, and whether it is answered at once."""
        began = time.time()
        try:
            with self.client(patience=patience) as sock:
                status = ask(sock, request)
        except OSError as error:
            return repr(error)
        return status, within(0, 1, time.time() - began)

    def fills(self):
        """Makes instances of 60,000 and of 4,000 bytes."""
        with self.client() as sock:
            for name, size in (b'long', 60_000), (b'middle', 4_000):
                made = ask(sock, post(b'/cse-in', 3, b'{"m2m:cnt":{"rn":"%s"}}' % name))
                content = b'{"m2m:cin":{"con":"' + b'x' * size + b'"}}'
                look(f'an instance of {size} bytes is made', (made, ask(sock, post(b'/cse-in/' + name, 4, content))),
                     ('HTTP/1.1 201 Created',) * 2)

    def waits_for(self, client):
        """Waits until what it holds for this client doesn't grow any more."""
        held, last = 0, -1
        while held > last:
            time.sleep(1.5)
            held, last = self.sockets(client.getsockname()[1])[1], held


LONG_GET, MIDDLE_GET = (b'GET /cse-in/%s/la HTTP/1.1\r\n%s\r\n' % (name, HEAD) for name in (b'long', b'middle'))


def ask(sock, request):
    """What this is answered, read a byte at a time so that nothing of a later reply is taken."""
    sock.sendall(request)
    with sock.makefile('rb', buffering=0) as replies:
        return read_reply(replies)[0]


def is_let_go(sock, seconds):
    """Whether its end comes within so many seconds."""
    sock.settimeout(seconds)
    try:
        return sock.recv(4096) == b''
    except socket.timeout:
        return False
    except OSError:
        return True


def left_out(lines):
    """How many lines it was told that were left out."""
    return sum(int(count) for line in lines for count in re.findall(r' left out (\d+) lines$', line))


def told(server):
    """What it said of its clients, without the moments and the clients."""
    return sorted(line.split(' ', 2)[2] for line in server.lines())
