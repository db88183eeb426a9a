"""The lines of checks/refused_memory: requests, what is prepared by them, and what may come of one line of `replay` and
of `twin`, and of the items that wait."""
import json
import sys

import common
from common import LOCAL

MEMORY = 5  # the status of a command for which memory ran out
DIRECT, OTHER = f"http://{LOCAL}:9/n", f"http://{LOCAL}:9"


# Requests, as lines of `replay` and as messages.

class Asked:
    """A request: its operation, whom it is sent to, its content, and what else it has."""

    def __init__(self, op, to, pc=None, fr="CDev", **more):
        self.op, self.to, self.pc, self.fr, self.more = op, to, pc, fr, more

    def line(self, rqi):
        made = {"op": self.op, "to": self.to, "fr": self.fr, "rqi": rqi, **self.more}
        return json.dumps(made if self.pc is None else {**made, "pc": self.pc}, separators=(",", ":"))

    def message(self, rqi):
        method = {1: "POST", 2: "GET", 3: "PUT", 4: "DELETE", 5: "POST"}[self.op]
        asked = "&".join(f"{key}={it}" for key, it in self.more.items() if key != "ty")
        body = b"" if self.pc is None else json.dumps(self.pc, separators=(",", ":")).encode()
        head = f"{method} /{self.to}{'?' if asked else ''}{asked} HTTP/1.1\r\n"
        head += f"X-M2M-Origin: {self.fr}\r\nX-M2M-RI: {rqi}\r\n"
        if body:
            ty = f";ty={self.more['ty']}" if self.op == 1 else ""
            head += f"Content-Type: application/json{ty}\r\nContent-Length: {len(body)}\r\n"
        return head.encode() + b"\r\n" + body


def create(to, ty, root, fr="CDev", **members):
    return Asked(1, to, {f"m2m:{root}": members}, fr, ty=ty, rcn=1)


REFUSED = Asked(2, "cse-in/none", fr="CDev")
RIGHTS = {"pv": {"acr": [{"acor": ["CDev", "CAdmin"], "acop": 63}]},
          "pvs": {"acr": [{"acor": ["CDev", "CAdmin"], "acop": 63}]}}
FIVE = [f"c{n}" for n in range(1, 6)]

# A CSE with some of each: what is announced, notified, polled, pushed out and fanned out.
PREPARED = [
    create("cse-in", 16, "csr", "CAdmin", rn="id-mn", csi="/id-mn", cb="/id-mn/cse-mn", poa=[OTHER], rr=True),
    create("cse-in", 2, "ae", rn="dev", api="N1", rr=True),
    create("cse-in", 2, "ae", "COp", rn="op", api="N1", rr=True, poa=[OTHER]),
    create("cse-in/dev", 1, "acp", rn="p", **RIGHTS),
    create("cse-in/dev", 15, "pch", rn="q"),
    *(create("cse-in/dev", 3, "cnt", rn=it, mni=2, lbl=["l", it]) for it in FIVE),
    *(create(f"cse-in/dev/{it}", 4, "cin", con=f"{it} {n}", lbl=["x"]) for it in FIVE for n in (1, 2)),
    create("cse-in/dev", 9, "grp", rn="g", mnm=9, mid=[f"cse-in/dev/{it}" for it in FIVE]),
    create("cse-in/dev", 3, "cnt", rn="a", mni=2, lbl=["l"], at=["/id-mn"], aa=["mni", "lbl"]),
    create("cse-in/dev/a", 4, "cin", con="a 1", at=["/id-mn"], aa=["con"]),
    create("cse-in/dev/a", 4, "cin", con={"a": [1, "2", None]}, at=["/id-mn"], aa=["con"]),
    *(create(to, 23, "sub", rn=f"s{at}", nu=[nu], enc={"net": [1, 2, 3, 4]}, nct=nct, exc=90)
      for to, nct in (("cse-in/dev/a", 1), ("cse-in/dev/c1", 3), ("cse-in/dev", 1))
      for at, nu in enumerate((DIRECT, "CDev"))),
    create("cse-in/dev", 3, "cnt", rn="e", et="20200101T000000", at=["/id-mn"], aa=["lbl"], lbl=["l"]),
    create("cse-in/dev/e", 4, "cin", con="e 1", at=["/id-mn"], aa=["con"]),
    create("cse-in/dev", 3, "cnt", rn="f", et="20200101T000000"),
]
SHOWN = [Asked(2, "cse-in", fr="CAdmin", rcn=4), Asked(2, "cse-in/dev", rcn=4),
         Asked(2, "cse-in/op", fr="COp", rcn=4),
         create("cse-in/dev", 3, "cnt", lbl=["behind"]), Asked(2, "cse-in/dev/g"),
         *[Asked(2, "cse-in/dev/q/pcu")] * 12]
BEFORE, DUE = 1_000_000_000, 1_800_000_000
LONG = [f"l{n}" for n in range(70)]  # so many that the values are shared, and not copied

EVENTS = {
    "create": create("cse-in/dev/a", 4, "cin", con={"b": ["x" * 40, {"c": 1}]}, lbl=["y", "z"], at=["/id-mn"],
                     aa=["con"]),
    "create a group": create("cse-in/dev", 9, "grp", rn="h", mnm=9, mid=[f"cse-in/dev/{it}" for it in FIVE], lbl=["h"]),
    "create with long lists": create("cse-in/dev", 3, "cnt", rn="long", acpi=["cse-in/dev/p"] * 70, lbl=LONG),
    "update": Asked(3, "cse-in/dev/a", {"m2m:cnt": {"mni": 1, "lbl": ["n", "o"], "aa": ["lbl"]}}, rcn=1),
    "update to a long list": Asked(3, "cse-in/dev/a", {"m2m:cnt": {"lbl": LONG}}, rcn=1),
    "delete": Asked(4, "cse-in/dev/a"),
    "delete all": Asked(4, "cse-in/dev"),
    "retrieve": Asked(2, "cse-in/dev", rcn=4),
    "discover": Asked(2, "cse-in/dev", rcn=6, fc={"fu": 1, "lbl": ["l"], "ty": [3, 4]}),
    "discover by a long list": Asked(2, "cse-in/dev", rcn=6, fc={"fu": 1, "lbl": ["l", *LONG], "ty": [3, 4]}),
    "notify": Asked(5, "CDev", {"m2m:sgn": {"sur": "cse-in/dev/s", "nev": {"net": 3}}}),
    "notify on": Asked(5, "COp", {"m2m:sgn": {"sur": "cse-in/dev/s", "nev": {"net": 3}}}),
    "poll": Asked(2, "cse-in/dev/q/pcu"),
    "fan-out of five Creates": Asked(1, "cse-in/dev/g/fopt", {"m2m:cin": {"con": "of all", "lbl": ["f"]}}, ty=4, rcn=1),
    "fan-out of five Updates": Asked(3, "cse-in/dev/g/fopt", {"m2m:cnt": {"mni": 1, "lbl": ["f"]}}, rcn=1),
    "fan-out of five Retrieves": Asked(2, "cse-in/dev/g/fopt/la", rcn=1),
    "expiry with notes and copies": Asked(2, "cse-in/dev/g"),
    "a refused request": REFUSED,
}


def members(asked):
    """What a fan-out asks of each of its members."""
    if "/fopt" not in asked.to:
        return []
    return [Asked(asked.op, f"cse-in/dev/{it}" + asked.to.partition("/fopt")[2], asked.pc, asked.fr, **asked.more)
            for it in FIVE]


# What may come.

def starved(line):
    """The reply to a line for which there was no memory."""
    return json.dumps({"rqi": json.loads(line)["rqi"], "rsc": 5000}, separators=(",", ":")).encode() + b"\n"


class Event:
    """One line of `replay`, and all that may be written where memory is refused during it."""

    def __init__(self, program, name):
        self.program, asked = program, EVENTS[name]
        due = [f"@{DUE}"] if name.startswith("expiry") else []
        self.first = [f"@{BEFORE}", *(it.line("q") for it in PREPARED)]
        self.due, self.behind = due, [it.line("q") for it in SHOWN]
        self.prepared = self.written([], [])[:len(PREPARED)]
        if any(b'"rsc":2001' not in it for it in self.prepared):
            sys.exit(f"{common.NAME}: what is prepared is refused: {self.prepared}")
        line = asked.line("q")
        self.given = self.input([line], self.behind)
        self.allowed = {b"".join(self.written([line], self.behind)): "done"}
        self.cut([REFUSED.line("q")], line, "not done")
        served = [it.line("q") for it in members(asked)]
        for done in range(1, len(served) + 1):
            self.cut(served[:done], line, f"{done} members done")

    def input(self, lines, behind):
        return "".join(f"{it}\n" for it in [*self.first, *self.due, *lines, *behind]).encode()

    def written(self, lines, behind):
        came = self.program.play(["replay"], self.input(lines, behind))
        if came.status:
            sys.exit(f"{common.NAME}: with all its memory the program ends with {came.status}: {came.err}")
        return came.out.splitlines(keepends=True)

    def cut(self, instead, line, what):
        """What is written where the line is answered 5000, and the CSE is as these lines would leave it."""
        first, written = len(PREPARED), self.written(instead, self.behind)
        written[first:first + len(instead)] = [starved(line)]
        self.allowed.setdefault(b"".join(written), f"5000, {what}")

    def judge(self, came):
        prepared = b"".join(self.prepared)
        if came.status == MEMORY and came.out == prepared:
            return "ended"
        return self.allowed.get(came.out) if came.status == 0 else None

    def play(self, more):
        """How often each of what may come came; and the runs of which something else did."""
        after = sum(map(len, self.prepared))
        for at, came in self.program.each(["replay"], self.given, more, after=after, until=after + 1, lines=1):
            yield at, came, self.judge(came)


class Line:
    """One line of `twin` behind what is prepared, and all that may be written where memory is refused during it."""

    def __init__(self, program, name):
        self.program, self.first = program, "sights agree\n".encode() * (name == "a line of twin")
        self.prepared = [f"@{BEFORE}", *(it.line("q") for it in PREPARED if it.fr == "CDev")]
        line = Asked(1, "cse-in/dev/a", {"m2m:cin": {"con": "both", "lbl": ["t"]}}, ty=4, rcn=1).line("q")
        self.behind = [it.line("q") for it in SHOWN if it.fr == "CDev"]
        self.given = self.input([], [], [line, *self.behind])
        done = self.written([], [], [line, *self.behind])
        self.allowed = {b"".join(done): "done"}
        reply, not_done = done[1].partition(b" ")[2], starved(line)
        for left, right in ((False, False), (False, True), (True, False)) if self.first else ():
            rest = self.written([line] * left, [line] * right, self.behind)[1:]
            both = [reply if it else not_done for it in (left, right)]
            told = [b"same " + both[0]] if left == right else [b"left " + both[0], b"right " + both[1]]
            where = "one side" if left or right else "both sides"
            self.allowed[b"".join([done[0], *told, *rest])] = f"5000 on {where}"

    def input(self, left, right, asked):
        sides = ["!left", *self.prepared, *left, "!right", *self.prepared, *right, "!as CDev"]
        return "".join(f"{it}\n" for it in [*sides, *asked]).encode()

    def written(self, *what):
        came = self.program.play(["twin"], self.input(*what))
        if came.status:
            sys.exit(f"{common.NAME}: with all its memory twin ends with {came.status}: {came.err}")
        return came.out.splitlines(keepends=True)

    def play(self, more):
        after = len(self.first)
        for at, came in self.program.each(["twin"], self.given, more, after=after, until=after + 1, lines=1):
            ended = came.status == MEMORY and came.out == self.first
            yield at, came, "ended" if ended else self.allowed.get(came.out) if came.status == 0 else None


class Items:
    """The items that wait at the end of a `replay`, each of which is taken and written: whole lines, up to where it
    ends."""

    def __init__(self, program, name):
        self.program = program
        self.given = "".join(f"{it}\n" for it in [f"@{BEFORE}", *(it.line("q") for it in PREPARED)]).encode()
        self.written = program.play(["replay"], self.given).out.splitlines(keepends=True)

    def play(self, more):
        whole = b"".join(self.written)
        after = len(b"".join(self.written[:len(PREPARED)]))
        for at, came in self.program.each(["replay"], self.given, more, after=after, lines=1):
            ended = came.status == MEMORY and whole.startswith(came.out) and came.out[-1:] == b"\n"
            yield at, came, "done" if came.status == 0 and came.out == whole else "ended" if ended else None
