#!/usr/bin/env python3
"""A device: registers as an AE, makes a container and posts a reading each second. It goes on after the server was
away: readings are kept meanwhile, and what the server has forgotten is made again. Python's standard library only.

    examples/device.py [--cse URL] [--name NAME] [--reader ORIGINATOR] [--every SECONDS] [--readings COUNT]
"""
import argparse
import collections
import http.client
import itertools
import json
import math
import time
import urllib.parse

CREATED, THERE_ALREADY, NOT_FOUND = 2001, 4105, 4004
AE, POLICY, CONTAINER, INSTANCE = 2, 1, 3, 4
ALL_RIGHTS, RETRIEVE_AND_DISCOVERY = 63, 2 + 32
KEPT = 1000  # readings at most while the server is away


class Away(Exception):
    """The server can't be reached, or didn't answer."""


class Cse:
    """Requests to a CSE over one connection, each by the same originator."""

    def __init__(self, url, originator):
        at = urllib.parse.urlsplit(url)
        self.base, self.originator, self.numbers = at.path, originator, itertools.count(1)
        self.connection = http.client.HTTPConnection(at.hostname, at.port or 80, timeout=10)

    def create(self, below, kind, member, attributes):
        """Asks for a resource, and gives the response status code."""
        headers = {
            'X-M2M-Origin': self.originator,
            'X-M2M-RI': str(next(self.numbers)),
            'Content-Type': f'application/json;ty={kind}',
        }
        body = json.dumps({member: attributes})
        for last_try in False, True:
            try:
                self.connection.request('POST', f'{self.base}{below}?rcn=0', body, headers)
                reply = self.connection.getresponse()
                reply.read()
                return int(reply.getheader('X-M2M-RSC', '0'))
            except (OSError, http.client.HTTPException) as error:
                # A connection that was idle too long is closed by the server, so a new one is tried once.
                self.connection.close()
                if last_try:
                    raise Away(error) from error


class Device:
    def __init__(self, url, name, reader):
        self.cse, self.name, self.reader = Cse(url, f'C{name}'), name, reader

    def set_up(self):
        """Makes what the readings go to. What is there already stays."""
        container = {'rn': 'temperature', 'mni': 100}
        self.make('', AE, 'm2m:ae', {'rn': self.name, 'api': 'Nexample', 'rr': False})
        if self.reader:
            rules = [{'acor': [f'C{self.name}'], 'acop': ALL_RIGHTS}]
            shown = rules + [{'acor': [self.reader], 'acop': RETRIEVE_AND_DISCOVERY}]
            policy = {'rn': 'readers', 'pv': {'acr': shown}, 'pvs': {'acr': rules}}
            self.make(f'/{self.name}', POLICY, 'm2m:acp', policy)
            container['acpi'] = [f'{self.cse.base.lstrip("/")}/{self.name}/readers']
        self.make(f'/{self.name}', CONTAINER, 'm2m:cnt', container)

    def make(self, below, kind, member, attributes):
        status = self.cse.create(below, kind, member, attributes)
        if status not in (CREATED, THERE_ALREADY):
            raise SystemExit(f'device: {attributes["rn"]} is refused: {status}')

    def post(self, moment, reading):
        """Posts a reading, whose name tells a second try from a second reading."""
        instance = {'rn': f'r{int(moment * 1000)}', 'con': reading}
        status = self.cse.create(f'/{self.name}/temperature', INSTANCE, 'm2m:cin', instance)
        if status == NOT_FOUND:
            self.set_up()
            status = self.cse.create(f'/{self.name}/temperature', INSTANCE, 'm2m:cin', instance)
        if status not in (CREATED, THERE_ALREADY):
            raise SystemExit(f'device: a reading is refused: {status}')


def measured(moment):
    """The temperature of a room, as text: numbers in a content are whole."""
    return f'{21 + 3 * math.sin(moment / 12) + 0.3 * math.sin(moment):.1f}'


def main():
    words = argparse.ArgumentParser(description=__doc__.split('\n\n', maxsplit=1)[0])
    words.add_argument('--cse', default='http://127.0.0.1:8080/cse-in', help='the URL of the CSEBase')
    words.add_argument('--name', default='dev', help='the name of the AE, and behind C its AE-ID')
    words.add_argument('--reader', help='an originator who may read the container')
    words.add_argument('--every', type=float, default=1, help='seconds between readings')
    words.add_argument('--readings', type=int, help='how many to post; without end where it is left out')
    said = words.parse_args()
    device, waiting, away = Device(said.cse, said.name, said.reader), collections.deque(maxlen=KEPT), False
    taken = 0
    while waiting or said.readings is None or taken < said.readings:
        if said.readings is None or taken < said.readings:
            moment = time.time()
            waiting.append((moment, measured(moment)))
            taken += 1
        try:
            while waiting:
                device.post(*waiting[0])
                moment, reading = waiting.popleft()
                print(f'{time.strftime("%H:%M:%S", time.localtime(moment))} {reading}', flush=True)
            away = False
        except Away as error:
            if not away:
                print(f'device: the server is away ({error}); {len(waiting)} readings wait', flush=True)
            away = True
        time.sleep(said.every)


if __name__ == '__main__':
    main()
