"""The commands of checks/refused_memory: what may come of a whole `replay`, of connections, of servers, of what goes to
another host, of requests that are answered later, and of `snapshot`."""
import itertools
import json
import os
import re
import socket
import sys
import threading
import time

import common
from common import HANDSHAKE, LOCAL, frame_of
from refused_lines import DIRECT, FIVE, MEMORY, OTHER, PREPARED, REFUSED, SHOWN, Asked, create

FAILED, CLOCK, PORT = 4, 1_700_000_000, 20000


def read(name):
    """The bytes of a file, or None."""
    try:
        with open(name, "rb") as file:
            return file.read()
    except FileNotFoundError:
        return None


# Whole commands.

TEN = [
    create("cse-in/dev/c1", 4, "cin", con="one", lbl=["t"]),
    create("cse-in/dev", 3, "cnt", rn="t", lbl=["t"], mni=1),
    create("cse-in/dev/t", 23, "sub", rn="s", nu=["CDev"], enc={"net": [3]}, nct=1),
    create("cse-in/dev/t", 4, "cin", con={"two": [1, 2]}),
    Asked(3, "cse-in/dev/t", {"m2m:cnt": {"lbl": ["u"], "mni": 2}}, rcn=1),
    Asked(2, "cse-in/dev/t", rcn=4),
    Asked(2, "cse-in/dev/q/pcu"),
    Asked(4, "cse-in/dev/c2"),
    Asked(2, "cse-in/dev", fu=1, lbl="t"),
    Asked(5, "CDev", {"m2m:sgn": {"sur": "cse-in/dev/t/s", "nev": {"net": 3}}}),
]


def framed(out):
    """The messages at the front of an output, and what stands behind them."""
    found = []
    while b"\r\n\r\n" in out:
        head, _, rest = out.partition(b"\r\n\r\n")
        length = re.search(rb"(?im)^content-length: (\d+)", head)
        length = int(length[1]) if length else 0
        if len(rest) < length:
            break
        found.append(head + b"\r\n\r\n" + rest[:length])
        out = rest[length:]
    return found, out


def split(out):
    """The lines of an output, and what stands behind them."""
    found = out.splitlines(keepends=True)
    return (found[:-1], found[-1]) if found and found[-1][-1:] != b"\n" else (found, b"")


class Command:
    """A whole command: of requests of which each that is answered 5000 has changed nothing."""

    client, window = None, {}

    def __init__(self, program, name):
        self.program, self.kept, self.known, self.made = program, None, {}, {}
        if name == "a replay":
            self.words, self.parts = ["replay"], split
            self.asked, self.encoded = PREPARED + TEN[:5] + SHOWN[:4], lambda it, at: it.line(f"r{at}").encode() + b"\n"
        else:
            self.words, self.parts = ["http"], framed
            self.asked, self.encoded = TEN, lambda it, at: it.message(f"r{at}")
            here = [it for it in PREPARED if not any(word in it.line("") for word in (DIRECT, OTHER, "/id-mn"))]
            made = self.program.play(["http", "--journal", "journal"], b"".join(it.message("p") for it in here), b"")
            if "journal" in name:
                self.words, self.kept = ["http", "--journal", "journal"], made.journal
            else:
                self.asked = [it for it in PREPARED if it.fr == "CDev"][:4] + TEN[1:7]
        self.reference(frozenset())

    def reference(self, cut):
        """The replies and the rest of the output, and the journal, of a run in which these requests do nothing."""
        if cut not in self.known:
            given = [self.encoded(REFUSED if at in cut else it, at) for at, it in enumerate(self.asked)]
            came = self.program.play(self.words, b"".join(given), self.kept, self.client)
            if came.status:
                sys.exit(f"{common.NAME}: with all its memory {self.words} ends with {came.status}: {came.err}")
            self.known[cut] = self.parts(came.out)[0], self.state(came)
        return self.known[cut]

    def state(self, came):
        """What shows the whole CSE behind a run."""
        return self.snapshot(came.journal) if self.kept is not None else None

    def snapshot(self, journal):
        """The lines of the snapshot of the CSE that a journal keeps, without the moment of the last event."""
        if journal not in self.made:
            came = self.program.play(["snapshot", "journal"], b"", journal)
            if came.status:
                return f"status {came.status}: {came.err}"
            head, rest = came.journal.split(b"\n", 1)
            head = json.loads(head)
            self.made[journal] = [head[0], head[1], head[2][0], head[2][2], head[3]], rest
        return self.made[journal]

    def play(self, more):
        given = b"".join(self.encoded(it, at) for at, it in enumerate(self.asked))
        for at, came in self.program.each(self.words, given, more, self.kept, self.client, **self.window):
            yield at, came, self.judge(came)

    def judge(self, came):
        replies, rest = self.parts(came.out)
        cut = frozenset(at for at, it in enumerate(replies[:len(self.asked)])
                        if b'"rsc":5000' in it or b"RSC: 5000" in it)
        expected, _ = self.reference(cut)
        if came.status not in (0, MEMORY) or rest or self.ends(came) and len(replies) != len(expected):
            return None
        if any(now != then for at, (now, then) in enumerate(zip(replies, expected)) if at not in cut):
            return None
        if not self.keeps(came, cut, len(replies)):
            return None
        if len(replies) < len(expected) or came.status:
            return "ended"
        return f"{len(cut)} of {len(self.asked)} answered 5000" if cut else "done"

    def ends(self, came):
        """Whether it went on to the end of its input."""
        return came.status == 0

    def keeps(self, came, cut, replied):
        """Whether the CSE is as was answered. Of what was answered 5000, or wasn't answered, at most the first is
        done."""
        behind = set(range(replied, len(self.asked)))
        allowed = [frozenset(cut | behind)] + [frozenset((cut | behind) - {it}) for it in sorted(cut | behind)[:1]]
        return self.state(came) in [self.reference(it)[1] for it in allowed]


class Server(Command):
    """A server of two connections: memory is refused from when it listens until the first has ended, which it may for
    want of memory. Over the second one everything is read, and asked with memory again."""

    window = {"after": 1, "stream": 2}

    def __init__(self, program, name):
        self.program, self.kept, self.known, self.made, self.talks = program, None, {}, {}, "WebSocket" in name
        self.behind = BEHIND_ALL
        self.words = ["serve", f"--listen={LOCAL}:{PORT}", "--accept=2", "--workers=1"]
        self.words += ["--bind=ws"] * self.talks
        self.asked = [it for it in PREPARED if it.fr == "CDev"][:4] + TEN[1:7]
        self.parts = lambda out: (self.payloads if self.talks else framed)(out.partition(BEHIND)[0])
        text, http = (lambda it, at: frame_of(it.line(f"r{at}").encode())), (lambda it, at: it.message(f"r{at}"))
        self.encoded = text if self.talks else http
        self.reference(frozenset())

    def ends(self, came):
        return False

    def state(self, came):
        return came.out.partition(BEHIND)[2]

    def keeps(self, came, cut, replied):
        return came.status == MEMORY and not self.state(came) or super().keeps(came, cut, replied)

    def payloads(self, out):
        """The payloads of the text messages behind a handshake, and what stands behind them."""
        found, rest = [], out.partition(b"\r\n\r\n")[2]
        while len(rest) > 1:
            size, at = (rest[1], 2) if rest[1] < 126 else (int.from_bytes(rest[2:4], "big"), 4)
            if len(rest) < at + size:
                break
            if rest[0] == 0x81:
                found.append(rest[at:at + size])
            rest = rest[at + size:]
        return found, rest

    def client(self, below, process, given):
        """Asks each child as soon as it listens. What each answered, by its number."""
        got, number = {}, None
        while process.poll() is None:
            names = [int(it) for it in os.listdir(below) if it.isdigit() and int(it) not in got]
            number = min(names, default=None)
            if number is None or b"listening" not in (read(f"{below}/{number}/err") or b""):
                time.sleep(0.002)
                continue
            first = self.asking(PORT + number, given)
            self.settled(below)
            with open(f"{below}/tally", "r+b") as tally:
                tally.seek(24)
                tally.write((number + 1).to_bytes(8, "little"))
            behind = b"".join(self.encoded(it, at) for at, it in enumerate(self.behind))
            got[number] = first + BEHIND + self.asking(PORT + number, behind)
        return got

    def settled(self, below):
        """Waits until all is done by which memory is to be refused: nothing, where the connection's end is that."""

    def asking(self, port, given):
        """What a connection gives. A client of WebSocket says nothing before its handshake is answered."""
        found = b""
        try:
            with socket.create_connection((LOCAL, port), 20) as to:
                if self.talks:
                    to.sendall(HANDSHAKE)
                    while b"\r\n\r\n" not in found and (it := to.recv(65536)):
                        found += it
                to.sendall(given + frame_of(b"\x03\xe8", 0x88) if self.talks else given)
                if not self.talks:
                    to.shutdown(socket.SHUT_WR)
                while it := to.recv(65536):
                    found += it
        except OSError:
            pass
        return found


BEHIND = b"\0behind\0"
BEHIND_ALL = [it for it in SHOWN[:4] if it.fr != "COp"] + [SHOWN[-1]] * 4


class Host:
    """Another host: it keeps what each run says to it, by the address that the run comes from, and answers each
    message."""

    FIRST, CONTENT = 0x7F010000, b'{"m2m:cnt":{"lbl":["there"],"rn":"x"}}'

    def __init__(self, program):
        self.program, self.listener = program, socket.create_server((LOCAL, 0), backlog=64)
        self.url = f"http://{LOCAL}:{self.listener.getsockname()[1]}"
        threading.Thread(target=self.listen, daemon=True).start()

    def listen(self):
        while True:
            it, (address, _) = self.listener.accept()
            with it:
                it.settimeout(20)
                try:
                    self.answer(it, int.from_bytes(socket.inet_aton(address), "big") - self.FIRST)
                except OSError:
                    pass

    def answer(self, it, number):
        """Takes a message, and answers it with its own identifier."""
        message = b""
        while not framed(message)[0]:
            more = it.recv(65536)
            if not more:
                return
            message += more
        self.program.heard[number].append(message)
        rqi = re.search(rb"(?im)^x-m2m-ri: *(\S+)", message)[1]
        it.sendall(b"HTTP/1.1 200 OK\r\nX-M2M-RSC: 2000\r\nX-M2M-RI: %s\r\nContent-Type: application/json\r\n"
                   b"Content-Length: %d\r\n\r\n%s" % (rqi, len(self.CONTENT), self.CONTENT))
        it.shutdown(socket.SHUT_WR)
        it.recv(1)


class Sending(Command):
    """A connection whose requests go on to another host, or leave items that are sent there once it has ended. That
    host hears what it hears with all memory, and where the command ends for want of memory, the items up to one of
    them."""

    words, kept = ["http"], None

    def __init__(self, program, name):
        self.program, self.known, self.made = program, {}, {}
        self.parts, self.encoded = framed, lambda it, at: it.message(f"r{at}")
        url = Host(program).url
        self.asked = [
            create("cse-in", 16, "csr", "CAdmin", rn="id-mn", csi="/id-mn", cb="/id-mn/cse-mn", poa=[url], rr=True),
            create("cse-in", 2, "ae", rn="dev", api="N1", rr=True),
            create("cse-in/dev", 3, "cnt", rn="a", mni=1, at=["/id-mn"], aa=["lbl"], lbl=["l"]),
            create("cse-in/dev/a", 23, "sub", rn="s", nu=[url + "/n"], enc={"net": [3, 4]}, nct=1),
            create("cse-in/dev/a", 4, "cin", con="one", lbl=["t"]),
            Asked(2, "~/id-mn/cse-mn/x", rcn=4),
            create("cse-in/dev/a", 4, "cin", con={"two": [1, 2]}),
            create("~/id-mn/cse-mn", 3, "cnt", lbl=["t"], mni=1),
            Asked(5, "~/id-mn/cse-mn/y", {"m2m:sgn": {"sur": "cse-in/dev/a/s", "nev": {"net": 3}}}),
            Asked(4, "cse-in/dev/a"),
        ]
        self.onward = [at for at, it in enumerate(self.asked) if it.to.startswith("~")]
        self.reference(frozenset())

    def goes_on(self, message):
        """The number of the request that goes on as this message, if it is none of an item."""
        rqi = re.search(rb"(?im)^x-m2m-ri: *r(\d+)", message)
        return int(rqi[1]) if rqi and int(rqi[1]) in self.onward else None

    def heard(self, came):
        """The items that the other host hears, and the numbers of the requests."""
        numbers = [self.goes_on(it) for it in came.heard]
        return [it for it, at in zip(came.heard, numbers) if at is None], [at for at in numbers if at is not None]

    def state(self, came):
        return self.heard(came)

    def keeps(self, came, cut, replied):
        (items, went), behind = self.heard(came), set(range(replied, len(self.asked)))
        sure = set(self.reference(cut)[1][1]) - behind
        if went != sorted(set(went)) or not sure <= set(went) <= sure | cut | {replied}:
            return False
        return self.leaves(came, items, cut, behind)

    def leaves(self, came, items, cut, behind):
        """Whether these are the items that are to be heard, where these requests did nothing, and those got no
        answer."""
        expected = self.reference(cut if came.status == 0 else frozenset(cut | behind))[1][0]
        return items == (expected if came.status == 0 else expected[:len(items)])


class SendingKept(Sending):
    """The same with a journal, in which an item stands until it was sent. It is opened again with memory, and what is
    left is sent then. The last item that was heard may come once more; and one for which memory ran out may be gone. Of
    what was answered 5000, or wasn't answered, at most the first is done."""

    words, kept = ["http", "--journal", "journal"], b""

    def state(self, came):
        return *self.heard(came), self.opened(came.journal)

    def opened(self, journal):
        """The items that a journal sends as it is opened, and its CSE behind that."""
        if ("opened", journal) not in self.made:
            came = self.program.play(self.words, b"", journal)
            shown = self.snapshot(came.journal) if came.status == 0 else f"status {came.status}: {came.err}"
            self.made["opened", journal] = came.heard, shown
        return self.made["opened", journal]

    def leaves(self, came, items, cut, behind):
        (left, shown), undone, at = self.opened(came.journal), cut | behind, len(items)
        for lost in [undone] + [undone - {it} for it in sorted(undone)[:1]]:
            expected, _, (_, last) = self.reference(frozenset(lost))[1]
            if came.status == 0:
                well = items == expected and left == []
            else:
                rests = [expected[at:]] + [expected[at - 1:]] * (at > 0) + [expected[at + 1:]] * (not behind)
                well = items == expected[:at] and left in rests
            if well and shown == last:
                return True
        return False


def later(it):
    """The same request, which is to be answered later."""
    return Asked(it.op, it.to, it.pc, it.fr, **it.more, rt=1)


def partly(it, done):
    """A request that is to be answered later, and does as much as this one where so many members are done."""
    return later(REFUSED if not done else Asked(it.op, it.to.replace("/g5/", f"/g{done}/"), it.pc, it.fr, **it.more))


# What is asked later, behind what it needs: a group of each first members of the five among that.
NEEDED = [create("cse-in", 2, "ae", rn="dev", api="N1", rr=True), create("cse-in/dev", 15, "pch", rn="q"),
          *(create("cse-in/dev", 3, "cnt", rn=it, mni=2) for it in FIVE),
          create("cse-in/dev/c1", 23, "sub", rn="s", nu=["CDev"], enc={"net": [3]}, nct=1),
          *(create("cse-in/dev", 9, "grp", rn=f"g{n}", mnm=9, mid=[f"cse-in/dev/{it}" for it in FIVE[:n]])
            for n in range(1, 6))]
RUN = [Asked(1, "cse-in/dev/g5/fopt", {"m2m:cin": {"con": "of all"}}, ty=4, rcn=1),
       create("cse-in/dev/c1", 4, "cin", con="one", lbl=["t"]), Asked(2, "cse-in/dev/q/pcu"),
       Asked(3, "cse-in/dev/c2", {"m2m:cnt": {"lbl": ["u"]}}, rcn=1), Asked(2, "cse-in/dev", rcn=4),
       Asked(4, "cse-in/dev/c3")]
LOOKS = [Asked(2, f"req{n + 1}") for n in range(len(RUN))]
SEEN = [Asked(2, "cse-in/dev", rcn=4), create("cse-in/dev", 3, "cnt", lbl=["behind"]),
        *[Asked(2, "cse-in/dev/q/pcu")] * 3]
AGAIN = [REFUSED, *LOOKS, *SEEN, later(REFUSED)]


def meant(reply):
    """The codes of a reply, and its content without moments."""
    head, _, body = re.sub(rb"\d{8}T\d{6}", b"then", reply).partition(b"\r\n\r\n")
    return re.sub(rb"(?i)\r\ncontent-length: *\d+", b"", head), json.loads(body) if body else None


class Later(Command):
    """A connection with requests that are to be answered later, each answered before the next is read. Behind them
    their results are read, one is taken away, and all is read. With a journal they were accepted before, and wait as it
    is opened."""

    tick = {"tick": 1, "messages": 1}

    def __init__(self, program, name):
        self.program, self.known, self.made = program, {}, {}
        self.parts, self.encoded, self.kept = framed, lambda it, at: it.message(f"r{at}"), "journal" in name
        self.words = ["http", "--later=yes", *["--journal", "journal"] * self.kept]
        self.first, behind = len(NEEDED), [Asked(2, "cse-in/dev/c4"), *LOOKS, Asked(4, "req1"), *SEEN]
        self.asked = behind if self.kept else [*NEEDED, *map(later, RUN), *behind]
        expected, _ = self.reference((), {})
        after = 0 if self.kept else sum(map(len, framed(self.played({}, ()).out)[0][:self.first]))
        self.window = {**self.tick, "after": after}
        if sum('"ors"' in json.dumps(body) for _, body in expected) != len(RUN):
            sys.exit(f"{common.NAME}: not all that is asked later is run: {expected}")

    def runs(self, starved):
        """What is asked later, with these in the place of those whose run has no memory."""
        return [partly(it, starved[at]) if at in starved else later(it) for at, it in enumerate(RUN)]

    def given(self, cut, starved):
        """What is asked, where these have no memory."""
        asked = self.asked if self.kept else [*NEEDED, *self.runs(starved), *self.asked[self.first + len(RUN):]]
        return b"".join(self.encoded(REFUSED if at in cut else it, at) for at, it in enumerate(asked))

    def journal(self, starved):
        """The journal in which all of them were accepted, and none was run: the time stands still for it."""
        given = b"".join(it.message(f"r{at}") for at, it in enumerate([*NEEDED, *self.runs(starved)]))
        made = self.program.play(self.words, given, b"").journal
        last = made.index(b"\n", made.index(b"\n", made.rindex(b"@3:accepted")) + 1)
        return made[:last + 1] + b"\n"

    def played(self, starved, cut):
        kept = self.journal(starved) if self.kept else None
        came = self.program.play(self.words, self.given(cut, starved), kept, self.client, **self.tick)
        if came.status:
            sys.exit(f"{common.NAME}: with all its memory {self.words} ends with {came.status}: {came.err}")
        return came

    def reference(self, cut, starved):
        """The replies, and what is seen behind them, of a run in which these requests do nothing, and these runs have
        no memory: all their members are done that are said."""
        key = tuple(sorted(cut)), tuple(sorted(starved.items()))
        if key not in self.known:
            came, accepted = self.played(starved, cut), self.accepted(cut)
            seen, self.known[key] = self.state(came), None
            self.known[key] = [[self.shown(it, accepted, starved) for it in some]
                               for some in (map(meant, self.parts(came.out)[0]), seen)]
        return self.known[key]

    def accepted(self, cut):
        """Which of them have a number, in their order."""
        return [at for at in range(len(RUN)) if self.kept or self.first + at not in cut]

    def shown(self, reply, accepted, starved):
        """A reply of a reference, as it is where these runs have no memory."""
        head, body = reply
        entry = body.get("m2m:req") if isinstance(body, dict) else None
        at = accepted[int(entry["ri"][3:]) - 1] if entry else None
        if at in starved:
            result = {"rqi": f"r{self.first + at}", "rsc": 5000}
            body = {"m2m:req": {**entry, "op": RUN[at].op, "tg": RUN[at].to, "rs": 2, "ors": result}}
        return head, body

    def state(self, came):
        """What is seen behind a run: what its journal opens as, to which all is run that waits."""
        if not self.kept:
            return []
        if came.journal not in self.made:
            given = b"".join(it.message(f"b{at}") for at, it in enumerate(AGAIN))
            again = self.program.play(self.words, given, came.journal, **self.tick, clock=CLOCK + 3600)
            self.made[came.journal] = [meant(it) for it in framed(again.out)[0]] if again.status == 0 else [again.err]
        return self.made[came.journal]

    def play(self, more):
        kept = self.journal({}) if self.kept else None
        for at, came in self.program.each(self.words, self.given((), {}), more, kept, self.client, **self.window):
            yield at, came, self.judge(came)

    def judge(self, came):
        replies, rest = self.parts(came.out)
        cut = frozenset(at for at, it in enumerate(replies[:len(self.asked)]) if b"RSC: 5000" in it)
        replies, state, behind = [meant(it) for it in replies], self.state(came), range(len(replies), len(self.asked))
        ended, given_up = came.status == MEMORY, came.status == FAILED and self.kept
        if rest or came.status and not ended and not given_up or not ended and self.ends(came) and behind:
            return None
        for lost in self.lost(cut | set(behind)):
            for starved in self.starved([*replies, *state], lost):
                expected, seen = self.reference(lost, starved)
                well = all(now == then for at, (now, then) in enumerate(zip(replies, expected)) if at not in cut)
                if well and (state == seen or ended and not self.kept and state == seen[:len(state)]):
                    return "journal given up" if given_up else self.told(cut, starved, ended or behind)
        return None

    def lost(self, cut):
        """Which of what was answered 5000, or wasn't answered, is not done: all, or with a journal all but the
        first."""
        return [cut] + [cut - {it} for it in sorted(cut)[:1] if self.kept]

    def starved(self, shown, cut):
        """Which runs may have had no memory, and how many members each has done. Where a result is shown, that says
        it."""
        results = {body["m2m:req"]["ri"]: body["m2m:req"].get("ors", {}).get("rsc") for _, body in shown
                   if isinstance(body, dict) and "m2m:req" in body}
        ways = []
        for number, at in enumerate(self.accepted(cut)):
            result = results.get(f"req{number + 1}")
            some = [(at, done) for done in range(6 if "/fopt" in RUN[at].to else 1)]
            ways.append([None] * (result != 5000) + some * (result in (None, 5000)))
        return (dict(filter(None, way)) for way in itertools.product(*ways))

    def told(self, cut, starved, ended):
        some = [f"{len(cut)} answered 5000"] * bool(cut) + [f"{len(starved)} run without memory"] * bool(starved)
        return "ended" if ended else " and ".join(some) or "done"


class LaterServer(Later):
    """A server of two connections: over the first one requests are accepted, which the sender runs, and memory is
    refused meanwhile; over the second one all is read with memory, a second later."""

    def __init__(self, program, name):
        self.program, self.known, self.made, self.kept, self.talks = program, {}, {}, False, False
        self.words = ["serve", "--later=yes", f"--listen={LOCAL}:{PORT}", "--accept=2", "--workers=1"]
        self.parts, self.encoded = lambda out: framed(out.partition(BEHIND)[0]), lambda it, at: it.message(f"r{at}")
        self.first, self.asked, self.behind = len(NEEDED), [*NEEDED, *map(later, RUN)], AGAIN
        self.window = {**self.tick, **Server.window}

    def ends(self, came):
        return False

    def state(self, came):
        return [meant(it) for it in framed(came.out.partition(BEHIND)[2])[0]]

    def lost(self, cut):
        return [cut] + [cut - {it} for it in sorted(cut)[:1]]

    def settled(self, below):
        """Waits until no more memory is asked for: the sender runs what was accepted beside the connection."""
        counted = None
        for _ in range(200):
            with open(f"{below}/tally", "rb") as tally:
                before, counted = counted, tally.read(8)
            if counted == before:
                return
            time.sleep(0.05)

    client, asking = Server.client, Server.asking


class Snapshot(Command):
    """`snapshot`, which replaces a journal, or leaves each byte of it."""

    def __init__(self, program, name):
        super().__init__(program, "with a journal")
        self.whole = program.play(["snapshot", "journal"], b"", self.kept).journal

    def play(self, more):
        for at, came in self.program.each(["snapshot", "journal"], b"", more, self.kept):
            ended = came.status == MEMORY and came.journal == self.kept
            yield at, came, "ended" if ended else "done" if came.status == 0 and came.journal == self.whole else None
