#!/usr/bin/env python3
"""Announces anew what a CSE announces to another one, for instance after that one was away and its copies are out of
date. Each resource whose `at` has that CSE-ID is taken back there and announced again, so that its copy is made anew.
Its address and its `at` are printed before. Instances can't be announced anew: those that come from then on have
copies. Python's standard library only.

    examples/announce_anew.py --peer CSE-ID [--cse URL] [--originator ORIGINATOR] [ADDRESS..]
"""
import argparse
import http.client
import itertools
import json
import sys
import urllib.parse

FOUND, UPDATED = 2000, 2004
POLICY, AE, CONTAINER, GROUP = 1, 2, 3, 9  # what may be announced, and updated
LISTED_AT_MOST = 4096


class Cse:
    """Requests to a CSE over one connection, each by the same originator."""

    def __init__(self, url, originator):
        at = urllib.parse.urlsplit(url)
        self.base, self.originator, self.numbers = at.path.lstrip('/'), originator, itertools.count(1)
        self.connection = http.client.HTTPConnection(at.hostname, at.port or 80, timeout=10)

    def ask(self, method, path, content=None):
        """The response status code, and the content of the reply."""
        headers = {'X-M2M-Origin': self.originator, 'X-M2M-RI': f'a{next(self.numbers)}'}
        body = None
        if content is not None:
            headers['Content-Type'] = 'application/json'
            body = json.dumps(content)
        self.connection.request(method, f'/{path}', body, headers)
        reply = self.connection.getresponse()
        text = reply.read()
        return int(reply.getheader('X-M2M-RSC', '0')), json.loads(text) if text else {}

    def listed(self, kind):
        """The addresses of the resources of a type."""
        status, content = self.ask('GET', f'{self.base}?fu=1&ty={kind}')
        if status != FOUND:
            sys.exit(f'announce_anew: the discovery at {self.base} is answered {status}: name the addresses')
        found = content.get('m2m:uril', [])
        if len(found) >= LISTED_AT_MOST:
            print(f'announce_anew: {len(found)} of type {kind} are listed, and there may be more', file=sys.stderr)
        return found


def announced_anew(cse, address, peer):
    """Whether a resource that is announced to the peer is so anew; None where it isn't announced to it."""
    _, content = cse.ask('GET', address)
    for member, attributes in content.items():
        before = attributes.get('at', [])
        if peer not in before:
            return None
        others = [other for other in before if other != peer]
        print(address, json.dumps(before), flush=True)
        # With the other CSEs alone, or with an empty list, the copy at the peer is deleted.
        statuses = [cse.ask('PUT', f'{address}?rcn=0', {member: {'at': at}})[0] for at in (others, before)]
        if statuses == [UPDATED, UPDATED]:
            return True
        print(f'announce_anew: {address}: the Updates are answered {statuses}', file=sys.stderr)
    return False


def main():
    words = argparse.ArgumentParser(description=__doc__.split('\n\n', maxsplit=1)[0])
    words.add_argument('--cse', default='http://127.0.0.1:8080/cse-in', help='the URL of the CSEBase')
    words.add_argument('--peer', required=True, help='the CSE-ID of the other CSE, for instance /id-mn')
    words.add_argument('--originator', default='CAdmin', help='who may update these resources')
    words.add_argument('addresses', metavar='ADDRESS', nargs='*', help='as cse-in/room; all, where none is given')
    said = words.parse_args()
    cse = Cse(said.cse, said.originator)
    addresses = said.addresses or [a for kind in (POLICY, AE, CONTAINER, GROUP) for a in cse.listed(kind)]
    results = [announced_anew(cse, address, said.peer) for address in addresses]
    sys.exit(1 if False in results else 0)


if __name__ == '__main__':
    main()
