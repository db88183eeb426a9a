#!/usr/bin/env python3
"""A gateway: registers as an AE, makes a container for readings, and subscribes to it. It is told of each reading over
HTTP, and writes an alarm into a second container where one is too high. With --poll it listens nowhere, and fetches
what it is told from a polling channel. Python's standard library only.

    examples/gateway.py [--cse URL] [--name NAME] [--writer ORIGINATOR] [--limit NUMBER] [--alarms COUNT]
                        [--listen HOST:PORT | --poll]
"""
import argparse
import http.client
import http.server
import itertools
import json
import queue
import secrets
import threading
import time
import urllib.parse

FINE, CREATED, UPDATED, NOT_FOUND, NOTHING_WAITS, THERE_ALREADY = 2000, 2001, 2004, 4004, 4008, 4105
POLICY, AE, CONTAINER, INSTANCE, CHANNEL, SUBSCRIPTION = 1, 2, 3, 4, 15, 23
ALL_RIGHTS, CREATE = 63, 1
NEW_CHILD = 3  # the kind of event that is told
LOOK_AGAIN = 5  # seconds between two looks whether the subscription still stands


class Away(Exception):
    """The server can't be reached, or didn't answer."""


class Cse:
    """Requests to a CSE, each by the same originator and over a connection of its own."""

    def __init__(self, url, originator):
        self.at, self.originator, self.numbers = urllib.parse.urlsplit(url), originator, itertools.count(1)
        self.base = self.at.path.lstrip('/')

    def ask(self, method, below, kind=None, content=None):
        """The response status code, and the content of the reply."""
        headers = {'X-M2M-Origin': self.originator, 'X-M2M-RI': f'g{next(self.numbers)}'}
        if content is not None:
            headers['Content-Type'] = 'application/json' + (f';ty={kind}' if kind else '')
        body = None if content is None else json.dumps(content)
        try:
            connection = http.client.HTTPConnection(self.at.hostname, self.at.port or 80, timeout=10)
            try:
                connection.request(method, f'{self.at.path}{below}', body, headers)
                reply = connection.getresponse()
                text = reply.read()
                return int(reply.getheader('X-M2M-RSC', '0')), json.loads(text) if text else None
            finally:
                connection.close()
        except (OSError, http.client.HTTPException) as error:
            raise Away(error) from error


class Gateway:
    def __init__(self, said):
        self.cse, self.name = Cse(said.cse, f'C{said.name}'), said.name
        self.writer, self.limit = said.writer, said.limit
        self.told, self.own = queue.Queue(), f'{self.cse.base}/{said.name}'
        # Whoever knows the URL can notify, so nobody else is to know it.
        self.url = None if said.poll else f'http://{said.listen}/{secrets.token_hex(16)}'

    def set_up(self):
        """Makes what it needs. What is there already stays, but the subscription, which leads here from now on."""
        poa = {'poa': [self.url]} if self.url else {}
        self.make('', AE, 'm2m:ae', {'rn': self.name, 'api': 'Nexample', 'rr': bool(self.url), **poa})
        readings = {'rn': 'readings', 'mni': 100}
        if self.writer:
            rules = [{'acor': [f'C{self.name}'], 'acop': ALL_RIGHTS}]
            writers = {'acr': rules + [{'acor': [self.writer], 'acop': CREATE}]}
            self.make(f'/{self.name}', POLICY, 'm2m:acp', {'rn': 'writers', 'pv': writers, 'pvs': {'acr': rules}})
            readings['acpi'] = [f'{self.own}/writers']
        self.make(f'/{self.name}', CONTAINER, 'm2m:cnt', readings)
        self.make(f'/{self.name}', CONTAINER, 'm2m:cnt', {'rn': 'alarms', 'mni': 100})
        if not self.url:
            self.make(f'/{self.name}', CHANNEL, 'm2m:pch', {'rn': 'channel'})
        # A target is a URL, or the address of an AE, which is told through its polling channel.
        target = {'nu': [self.url or self.own]}
        wanted = {'rn': 'watch', 'enc': {'net': [NEW_CHILD]}, **target}
        if self.make(f'/{self.name}/readings', SUBSCRIPTION, 'm2m:sub', wanted) == THERE_ALREADY:
            self.cse.ask('PUT', f'/{self.name}/readings/watch', None, {'m2m:sub': target})
        # A notification is sent once. What came while nobody listened is read here, as far as it is the newest.
        status, content = self.cse.ask('GET', f'/{self.name}/readings/la')
        if status == FINE:
            self.told.put(content['m2m:cin'])

    def make(self, below, kind, member, attributes):
        status, _ = self.cse.ask('POST', f'{below}?rcn=0', kind, {member: attributes})
        if status not in (CREATED, THERE_ALREADY):
            raise SystemExit(f'gateway: {attributes["rn"]} is refused: {status}')
        return status

    def stands(self):
        return self.cse.ask('GET', f'/{self.name}/readings/watch')[0] != NOT_FOUND

    def take(self, notification):
        """Keeps what a notification tells; a notice that the subscription is gone is seen by the next look."""
        event = notification.get('m2m:sgn', {}).get('nev', {})
        if event.get('net') == NEW_CHILD and 'm2m:cin' in event.get('rep', {}):
            self.told.put(event['rep']['m2m:cin'])

    def poll(self):
        """Fetches what waits in the channel, and says whether anything did."""
        status, content = self.cse.ask('GET', f'/{self.name}/channel/pcu')
        if status == FINE:
            self.take(content['m2m:rqp'].get('pc', {}))
        elif status not in (NOTHING_WAITS, NOT_FOUND):
            raise SystemExit(f'gateway: a poll is refused: {status}')
        return status == FINE

    def next(self, seconds):
        """The next reading that it was told of, or None where none comes in so many seconds."""
        try:
            return self.told.get(timeout=seconds)
        except queue.Empty:
            return None

    def act(self, reading):
        """Writes an alarm where the reading is too high, and says whether it did. The alarm is named by the reading, so
        that a second telling isn't a second alarm."""
        try:
            high = float(reading['con']) > self.limit
        except (TypeError, ValueError):
            return False
        if not high:
            return False
        alarm = {'rn': f'a-{reading["ri"]}', 'con': f'{reading["con"]} is above {self.limit:g}'}
        status, _ = self.cse.ask('POST', f'/{self.name}/alarms?rcn=0', INSTANCE, {'m2m:cin': alarm})
        if status == CREATED:
            print(f'{time.strftime("%H:%M:%S")} {alarm["con"]}', flush=True)
        return status == CREATED


def listener(gateway):
    """Takes notifications. Each is answered at once, and acted on behind the answer: the next one waits for it."""
    at = urllib.parse.urlsplit(gateway.url)

    class Notified(http.server.BaseHTTPRequestHandler):
        def do_POST(self):
            known = self.path == at.path
            length = int(self.headers.get('Content-Length', '0'))
            body = self.rfile.read(length) if known and length <= 2_000_000 else b'{}'
            try:
                gateway.take(json.loads(body))
                code = (200, FINE) if known else (404, NOT_FOUND)
            except (ValueError, AttributeError):
                code = (400, 4000)
            self.send_response(code[0])
            self.send_header('X-M2M-RSC', str(code[1]))
            self.send_header('X-M2M-RI', self.headers.get('X-M2M-RI', ''))
            self.send_header('Content-Length', '0')
            self.end_headers()

        def log_message(self, *_):
            pass

    server = http.server.ThreadingHTTPServer((at.hostname, at.port), Notified)
    threading.Thread(target=server.serve_forever, daemon=True).start()


def main():
    words = argparse.ArgumentParser(description=__doc__.split('\n\n', maxsplit=1)[0])
    words.add_argument('--cse', default='http://127.0.0.1:8080/cse-in', help='the URL of the CSEBase')
    words.add_argument('--name', default='gw', help='the name of the AE, and behind C its AE-ID')
    words.add_argument('--writer', help='an originator who may write readings')
    words.add_argument('--limit', type=float, default=23, help='a reading above this is an alarm')
    words.add_argument('--alarms', type=int, help='how many to write before it ends; without end where it is left out')
    words.add_argument('--listen', default='127.0.0.1:9000', help='where it is notified')
    words.add_argument('--poll', action='store_true', help='it listens nowhere, and polls a channel')
    said = words.parse_args()
    gateway, written, looks_at, away, reading = Gateway(said), 0, 0, False, None
    if not said.poll:
        listener(gateway)
    while said.alarms is None or written < said.alarms:
        try:
            if time.monotonic() >= looks_at:
                if looks_at == 0 or not gateway.stands():
                    gateway.set_up()
                looks_at = time.monotonic() + LOOK_AGAIN
            fetched = said.poll and gateway.poll()
            reading = reading or gateway.next(0 if fetched else 1)
            if reading:
                written += gateway.act(reading)
            reading, away = None, False
        except Away as error:
            if not away:
                print(f'gateway: the server is away ({error})', flush=True)
            away, looks_at = True, 0
            time.sleep(1)


if __name__ == '__main__':
    main()
