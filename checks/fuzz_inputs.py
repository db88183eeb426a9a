"""The inputs of checks/fuzz: those of the cases, and what a mutator makes of them. It works on bytes, on lines and on
the values of JSON, and makes most lengths right again."""
import json
import random
import re

NUMBERS = [0, 1, -1, 2, 16, 31, 32, 64, 127, 128, 256, 4095, 4096, 4097, 65535, 65536, 99999, 100000, 131072, 1048576,
           1048577, 2**31, 2**32, 253402300798, 253402300799, 10**18 - 1, 10**18, 2**63 - 1, 2**63, 2**64 - 1, 2**64,
           -2**63, -2**63 - 1, 10**30]
PIECES = [b"", b"\0", b"\xff\xfe", b"\xed\xa0\x80", b"\\u0000", b"\\ud800", b"\r", b"\n", b"\r\n\r\n", b"//",
          b"/~/", b"/_/", b"/fopt", b"/la", b"/ol", b"/pcu", b"%00", b"%", b"?", b"&", b"*", b"..", b"{}", b"[]", b'""',
          b"null", b"1e9"]


# The inputs of the cases.

def unescaped(text):
    """The bytes of a line of a block."""
    made = bytearray()
    for it in re.finditer(r"\\(x..|\{\d+\}|.)|([^\\]+)|\\$", text, re.S):
        how = it[1]
        if how is None:
            made += (it[2] or "").encode()
        elif how[0] == "{":
            made += made[-1:] * (int(how[1:-1]) - 1)
        elif how[0] == "x":
            made.append(int(how[1:], 16))
        else:
            made += {"n": b"\n", "r": b"\r", "t": b"\t"}.get(how, how.encode())
    return bytes(made)


def line_of(line):
    """What a line `| TEXT` stands for."""
    text = line[2:]
    goes_on = re.search(r"(?<!\\)(\\\\)*\\$", text)
    return unescaped(text[:-1] if goes_on else text) + (b"" if goes_on else b"\r\n")


class Case:
    """What goes into a case: its words, its input, the answers of its link, and whether it ends well."""

    def __init__(self, words):
        self.words, self.input, self.answers, self.well = words, b"", [], True


def cases(file):
    """The cases of a file, and its texts of replies."""
    texts, found, words, into, case = {}, [], "", None, None
    for line in open(file, encoding="utf-8").read().split("\n"):
        if line.startswith("|"):
            if into:
                into(line_of(line))
            continue
        head, into = line.split(), None
        if line.startswith("== "):
            case = Case(words)
            found.append(case)
        elif head[:1] == ["words"]:
            words = head[1] if len(head) > 1 and not case else words
            if case:
                case.words = head[1] if len(head) > 1 else ""
        elif head[:1] == ["status"]:
            case.well = False
        elif head[:1] == ["text"]:
            texts[head[1]] = b""
            into = lambda it, name=head[1]: texts.__setitem__(name, texts[name] + it)
        elif head[:1] in (["in"], ["answer"]) and case:
            times = int(head[1]) if len(head) > 1 and head[1].isdigit() else 1
            named = head[-1] if len(head) > 1 and not head[-1].isdigit() else None
            into = taker(case, head[0], min(times, 20))
            if named:
                into(texts[named])
    return found, texts


def taker(case, head, times):
    """What takes the lines of a block of a case."""
    if head == "in":
        return lambda it: setattr(case, "input", case.input + it * times)
    at = len(case.answers)
    case.answers.append(b"")
    return lambda it: case.answers.__setitem__(at, case.answers[at] + it)


def inputs_of(found, kind, well):
    """The inputs of this kind: all, or those of cases that end well."""
    return sorted({it.input for it in found if it.words == kind and it.input and (it.well or not well)})


def all_of(journal):
    """A journal, and where a request was accepted, what stands of it before that was run: up to the first result, and
    behind a closed gate nothing."""
    at = journal.find(b"@3:ran")
    return [journal] if at < 0 else [journal, journal[:at] + b"\n"]


def braced(it):
    """Where a value of JSON may stand in each line: from its first brace or bracket to its last one."""
    found, at = [], 0
    for line in it.split(b"\n"):
        first = min((k for k in (line.find(b"["), line.find(b"{")) if k >= 0), default=-1)
        last = max(line.rfind(b"]"), line.rfind(b"}")) + 1
        if 0 <= first < last:
            found.append((at + first, at + last))
        at += len(line) + 1
    return found


def asked_later(chance, kind, it):
    """The same with some requests that are to be answered later, and with questions for what came of them."""
    lines, number = it.split(b"\n"), chance.choice([1, 1, 1, 2, 3, 5])
    for at, line in enumerate(lines):
        if chance.random() < 0.6:
            lines[at] = said_later(line)
    look = json.dumps({"op": chance.choice([2, 2, 4]), "to": f"req{number}", "fr": "CAdmin", "rqi": "l"}).encode()
    if kind in ("ws", "replay", "twin"):
        return b"\n".join([*lines, look, b""])
    method = chance.choice([b"GET", b"GET", b"DELETE"])
    return b"\n".join(lines) + b"%s /req%d HTTP/1.1\r\nX-M2M-Origin: CAdmin\r\nX-M2M-RI: l\r\n\r\n" % (method, number)


def said_later(line):
    """A line of a request, as a line in JSON or as the first line of a message, that is to be answered later."""
    if head := re.fullmatch(rb"((?:GET|POST|PUT|DELETE) [^ ?]*)(\?[^ ]*)?( HTTP/1\.1\r?)", line):
        return head[1] + (head[2] + b"&" if head[2] else b"?") + b"rt=1" + head[3]
    return line[:1] + b'"rt":1,' + line[1:] if line.startswith(b'{"') else line


# The mutator.

class Mutator:
    """Makes an input out of those of a corpus."""

    def __init__(self, seed, corpora, well):
        self.random, self.corpora, self.well = random.Random(seed), corpora, well
        words, self.values = set(), {}
        for it in (it for corpus in corpora.values() for it in set(corpus) if len(it) < 20_000):
            words.update(re.findall(rb'"[^"\\\n]{1,40}"|[^\s"?&{}\[\],]{2,60}', it))
            for first, last in braced(it):
                try:
                    self.take(json.loads(it[first:last]))
                except (ValueError, RecursionError):
                    pass
        self.words = sorted(words)

    def take(self, it):
        """Keeps which values a member has."""
        for key, below in it.items() if isinstance(it, dict) else ():
            known = self.values.setdefault(key, [])
            if len(known) < 40 and below not in known:
                known.append(below)
        for below in it.values() if isinstance(it, dict) else it if isinstance(it, list) else ():
            self.take(below)

    def one(self, kind):
        """An input of this kind, and most often with the lengths that its bodies have."""
        it = self.known(kind)
        while self.random.random() < 0.4:
            it += self.known(kind)
        for _ in range(self.random.choice([1, 1, 1, 1, 2, 2, 3, 5, 12])):
            it = self.random.choice(self.WAYS)(self, kind, it)[:3_000_000]
        return measured(it) if kind in ("http", "peer", "door") and self.random.random() < 0.8 else it

    def known(self, kind):
        """An input of the corpus, most often one that ends well."""
        return self.random.choice(self.well[kind] if self.random.random() < 0.8 else self.corpora[kind])

    def place(self, it):
        first = self.random.randrange(len(it) + 1)
        return first, min(len(it), first + int(self.random.expovariate(1 / 20)))

    def bit(self, kind, it):
        made = bytearray(it or b"\0")
        made[self.random.randrange(len(made))] ^= 1 << self.random.randrange(8)
        return bytes(made)

    def cut(self, kind, it):
        first, last = self.place(it)
        return it[:first] + it[last:]

    def ends(self, kind, it):
        return it[:self.random.randrange(len(it) + 1)]

    def again(self, kind, it):
        first, last = self.place(it)
        times = self.random.choice([1, 2, 3, 10, 100, 1000])
        return it[:last] + it[first:last] * times + it[last:]

    def piece(self, kind, it):
        first, last = self.place(it)
        put = self.random.choice(PIECES) if self.random.random() < 0.4 else self.random.choice(self.words)
        return it[:first] + put + it[first if self.random.random() < 0.5 else last:]

    def word(self, kind, it):
        """Another word in the place of one."""
        found = list(re.finditer(rb'"[^"\\\n]*"', it))
        if not found:
            return self.piece(kind, it)
        at = self.random.choice(found)
        put = self.random.choice([w for w in self.random.choices(self.words, k=8) if w[:1] == b'"'] or [b'""'])
        return it[:at.start()] + put + it[at.end():]

    def number(self, kind, it):
        found = list(re.finditer(rb"-?\d+", it))
        if not found:
            return self.piece(kind, it)
        at = self.random.choice(found)
        near = int(at[0][:30]) + self.random.choice([-1, 1, 2, 10])
        return it[:at.start()] + str(self.random.choice([*NUMBERS, near, near])).encode() + it[at.end():]

    def run(self, kind, it):
        first, last = self.place(it)
        put = self.random.choice([b"a", b"/", b"%41", b"[", b"1", b" ", b"\n", b",", b'"x",', b"a/"])
        return it[:first] + put * self.random.choice([2, 64, 65, 127, 128, 257, 513, 4096, 70000]) + it[last:]

    def line(self, kind, it):
        """A line goes, comes twice, changes places, or comes from another input."""
        lines = it.split(b"\n")
        at, way = self.random.randrange(len(lines)), self.random.randrange(4)
        if way == 0:
            del lines[at]
        elif way == 1:
            lines.insert(self.random.randrange(len(lines) + 1), lines[at])
        elif way == 2:
            lines[at], lines[-1 - at] = lines[-1 - at], lines[at]
        else:
            other = self.known(kind).split(b"\n")
            first = self.random.randrange(len(other))
            lines[at:at] = other[first:first + self.random.choice([1, 1, 2, 5, 50])]
        return b"\n".join(lines)

    def other(self, kind, it):
        """What begins as this one and ends as another."""
        to = self.known(kind)
        return it[:self.random.randrange(len(it) + 1)] + to[self.random.randrange(len(to) + 1):]

    def value(self, kind, it):
        """A value of JSON in it, changed at one place."""
        found = braced(it)
        if not found:
            return self.line(kind, it)
        first, last = self.random.choice(found)
        if last - first > 5000:
            return self.number(kind, it)
        try:
            made = self.changed(json.loads(it[first:last]))
            text = json.dumps(made, ensure_ascii=self.random.random() < 0.2, separators=(",", ":"))
        except (ValueError, RecursionError):
            return self.number(kind, it)
        return it[:first] + text.encode("utf-8", "surrogatepass") + it[last:]

    def changed(self, it):
        below = list(it) if isinstance(it, dict) else list(range(len(it))) if isinstance(it, list) else []
        if not below or self.random.random() < 0.15:
            return self.leaf(it)
        at, way = self.random.choice(below), self.random.random()
        if isinstance(it, dict) and way < 0.3:
            it[at] = self.random.choice(self.values.get(at, [it[at]]))
        elif way < 0.7:
            it[at] = self.changed(it[at])
        elif way < 0.8:
            del it[at]
        elif isinstance(it, list):
            it.extend([it[at]] * self.random.choice([1, 2, 63, 64, 65, 500, 2000]))
        else:
            it[self.text()] = self.leaf(it[at])
        return it

    def text(self):
        return self.random.choice(self.words).decode("utf-8", "replace").strip('"')

    def leaf(self, it):
        way = self.random.randrange(8)
        if way == 0:
            return self.random.choice(NUMBERS)
        if way == 1:
            deep = it
            for _ in range(self.random.choice([1, 2, 30, 120, 125, 126, 127, 128, 200])):
                deep = [deep] if self.random.random() < 0.8 else {"m2m:cnt": deep}
            return deep
        if way == 2:
            return [it] * self.random.choice([0, 1, 2, 64, 65, 1000, 3000])
        if way == 3:
            return {self.text(): it}
        if way == 4:
            return self.random.choice([None, True, False, "", [], {}])
        if way == 5:
            return self.random.choice(["\0", "a" * 257, "é" * 64, "\U0001f600", "cse-in/dev/c", "http://127.0.0.1:9/",
                                       "/id-mn/a", "//sp.example/id-in/x", "CDev", "all", "20300101T000000", "acp2"])
        return self.text()

    def later(self, kind, it):
        return asked_later(self.random, kind, it)

    WAYS = [bit, cut, ends, again, piece, run, other] + [word, number, line] * 5 + [value] * 9 + [later] * 3


def measured(it):
    """The same with each Content-Length as long as what stands up to the next message, or to the end."""
    parts = re.split(rb"(?m)(?=^(?:GET|POST|PUT|DELETE|HTTP/1\.1) )|(?<=\})(?=(?:GET|POST|PUT|DELETE|HTTP/1\.1) )", it)
    made = []
    for part in parts:
        head, blank, body = part.partition(b"\r\n\r\n")
        length = str(len(body)).encode()
        made.append(re.sub(rb"(?i)(content-length: *)\d+", lambda m: m[1] + length, head) + blank + body)
    return b"".join(made)
