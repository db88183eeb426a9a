#!/usr/bin/env python3
"""A device over WebSocket: registers as an AE, makes a container and posts a reading each second, as a message over one
connection. It goes on after the server was away: readings are kept meanwhile, and what the server has forgotten is made
again. Python's standard library only.

    examples/ws_device.py [--cse URL] [--name NAME] [--reader ORIGINATOR] [--every SECONDS] [--readings COUNT]
"""
import argparse
import base64
import collections
import hashlib
import itertools
import json
import math
import os
import socket
import time
import urllib.parse

CREATED, THERE_ALREADY, NOT_FOUND = 2001, 4105, 4004
CREATE = 1
AE, POLICY, CONTAINER, INSTANCE = 2, 1, 3, 4
ALL_RIGHTS, RETRIEVE_AND_DISCOVERY = 63, 2 + 32
KEPT = 1000  # readings at most while the server is away
TEXT, CLOSE, PING, PONG = 1, 8, 9, 10
WHOLE, MASKED = 0x80, 0x80
GUID = '258EAFA5-E914-47DA-95CA-C5AB0DC85B11'


class Away(Exception):
    """The server can't be reached, or didn't answer."""


class WebSocket:
    """The client's side of a WebSocket (RFC 6455), for messages of text that come in one frame, as the server's do."""

    def __init__(self, host, port, path, subprotocol):
        self.socket = socket.create_connection((host, port), 10)
        self.stream = self.socket.makefile('rb')
        key = base64.b64encode(os.urandom(16)).decode()
        self.socket.sendall((f'GET {path} HTTP/1.1\r\nHost: {host}:{port}\r\nUpgrade: websocket\r\n'
                             f'Connection: Upgrade\r\nSec-WebSocket-Key: {key}\r\nSec-WebSocket-Version: 13\r\n'
                             f'Sec-WebSocket-Protocol: {subprotocol}\r\n\r\n').encode())
        head = b''.join(itertools.takewhile(lambda line: line != b'\r\n', self.stream))
        accept = base64.b64encode(hashlib.sha1((key + GUID).encode()).digest())
        if not head.startswith(b'HTTP/1.1 101 ') or accept not in head:
            raise OSError(f'no WebSocket: {head[:60].decode(errors="replace")}')

    def close(self):
        self.stream.close()
        self.socket.close()

    def send(self, opcode, payload):
        """Sends a frame. A client masks its frames by a key that nobody can guess."""
        size, mask = len(payload), os.urandom(4)
        if size < 126:
            head = bytes([WHOLE | opcode, MASKED | size])
        elif size < 65536:
            head = bytes([WHOLE | opcode, MASKED | 126]) + size.to_bytes(2, 'big')
        else:
            head = bytes([WHOLE | opcode, MASKED | 127]) + size.to_bytes(8, 'big')
        self.socket.sendall(head + mask + bytes(byte ^ mask[at % 4] for at, byte in enumerate(payload)))

    def read(self, size):
        came = self.stream.read(size)
        if len(came) < size:
            raise OSError('the connection ended')
        return came

    def receive(self):
        """The next message. Pings are answered on the way."""
        while True:
            opcode, size = self.read(2)
            if size > 125:
                size = int.from_bytes(self.read(2 if size == 126 else 8), 'big')
            payload = self.read(size)
            if opcode == WHOLE | TEXT:
                return payload
            if opcode == WHOLE | PING:
                self.send(PONG, payload)
            if opcode == WHOLE | CLOSE:
                raise OSError('the server closed the connection')


class Cse:
    """Requests to a CSE over one WebSocket, each by the same originator."""

    def __init__(self, url, originator):
        self.at = urllib.parse.urlsplit(url)
        self.base, self.originator, self.numbers = self.at.path.lstrip('/'), originator, itertools.count(1)
        self.socket = None

    def create(self, below, kind, member, attributes):
        """Asks for a resource, and gives the response status code."""
        request = {'op': CREATE, 'to': f'{self.base}{below}', 'fr': self.originator, 'rqi': str(next(self.numbers)),
                   'ty': kind, 'rcn': 0, 'pc': {member: attributes}}
        for last_try in False, True:
            try:
                if self.socket is None:
                    self.socket = WebSocket(self.at.hostname, self.at.port or 80, '/', 'oneM2M.json')
                self.socket.send(TEXT, json.dumps(request).encode())
                return json.loads(self.socket.receive())['rsc']
            except OSError as error:
                # A connection that was idle too long is closed by the server, so a new one is tried once.
                if self.socket is not None:
                    self.socket.close()
                    self.socket = None
                if last_try:
                    raise Away(error) from error


class Device:
    def __init__(self, url, name, reader):
        self.cse, self.name, self.reader = Cse(url, f'C{name}'), name, reader

    def set_up(self):
        """Makes what the readings go to. What is there already stays."""
        container = {'rn': 'temperature', 'mni': 100}
        self.make('', AE, 'm2m:ae', {'rn': self.name, 'api': 'Nexample', 'rr': False})
        if self.reader:
            rules = [{'acor': [f'C{self.name}'], 'acop': ALL_RIGHTS}]
            shown = rules + [{'acor': [self.reader], 'acop': RETRIEVE_AND_DISCOVERY}]
            policy = {'rn': 'readers', 'pv': {'acr': shown}, 'pvs': {'acr': rules}}
            self.make(f'/{self.name}', POLICY, 'm2m:acp', policy)
            container['acpi'] = [f'{self.cse.base}/{self.name}/readers']
        self.make(f'/{self.name}', CONTAINER, 'm2m:cnt', container)

    def make(self, below, kind, member, attributes):
        status = self.cse.create(below, kind, member, attributes)
        if status not in (CREATED, THERE_ALREADY):
            raise SystemExit(f'ws_device: {attributes["rn"]} is refused: {status}')

    def post(self, moment, reading):
        """Posts a reading, whose name tells a second try from a second reading."""
        instance = {'rn': f'r{int(moment * 1000)}', 'con': reading}
        status = self.cse.create(f'/{self.name}/temperature', INSTANCE, 'm2m:cin', instance)
        if status == NOT_FOUND:
            self.set_up()
            status = self.cse.create(f'/{self.name}/temperature', INSTANCE, 'm2m:cin', instance)
        if status not in (CREATED, THERE_ALREADY):
            raise SystemExit(f'ws_device: a reading is refused: {status}')


def measured(moment):
    """The temperature of a room, as text: numbers in a content are whole."""
    return f'{21 + 3 * math.sin(moment / 12) + 0.3 * math.sin(moment):.1f}'


def main():
    words = argparse.ArgumentParser(description=__doc__.split('\n\n', maxsplit=1)[0])
    words.add_argument('--cse', default='ws://127.0.0.1:8080/cse-in', help='where the server is, and its CSEBase')
    words.add_argument('--name', default='dev', help='the name of the AE, and behind C its AE-ID')
    words.add_argument('--reader', help='an originator who may read the container')
    words.add_argument('--every', type=float, default=1, help='seconds between readings')
    words.add_argument('--readings', type=int, help='how many to post; without end where it is left out')
    said = words.parse_args()
    device, waiting, away = Device(said.cse, said.name, said.reader), collections.deque(maxlen=KEPT), False
    taken = 0
    while waiting or said.readings is None or taken < said.readings:
        if said.readings is None or taken < said.readings:
            moment = time.time()
            waiting.append((moment, measured(moment)))
            taken += 1
        try:
            while waiting:
                device.post(*waiting[0])
                moment, reading = waiting.popleft()
                print(f'{time.strftime("%H:%M:%S", time.localtime(moment))} {reading}', flush=True)
            away = False
        except Away as error:
            if not away:
                print(f'ws_device: the server is away ({error}); {len(waiting)} readings wait', flush=True)
            away = True
        time.sleep(said.every)


if __name__ == '__main__':
    main()
