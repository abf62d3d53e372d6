#!/usr/bin/env python3
# Works out the answers to the requests on standard input from the rules of the requests, apart from the program.
import re
import sys

LATEST = 17179869183
WORDS = {
    1: "the date is over 17179869183",
    2: "there are more than 64 parents",
    3: "a parent is not held",
    4: "the id is held already",
    5: "there is no room for one commit more",
    6: "there is no room for the parents",
    7: "the marks or the queue are too short",
    8: "the list or buffer for the results is too short, %d needed",
    9: "a named commit is not held",
}


class Numbers:
    def __init__(self, top, start):
        self.top = top
        self.first = start

    def grow(self, x, p):
        return max(x, min(p + 1, self.top))

    # Whether a commit with the label x may reach one with the label y.
    def may(self, x, y):
        return x > y or x >= self.top

    def text(self, x):
        return str(x)


class Blank:
    def first(self, n, d):
        return None

    def grow(self, x, p):
        return None

    def may(self, x, y):
        return True

    def text(self, x):
        return "-"


class Interval:
    def first(self, n, d):
        return (n, n)

    def grow(self, x, p):
        return (min(x[0], p[0]), max(x[1], min(p[1] + 1, 2**32 - 1)))

    def may(self, x, y):
        return x[0] <= y[0] and (x[1] > y[1] or x[1] >= 2**32 - 1)

    def text(self, x):
        return "%d..%d" % x


class Pair:
    def __init__(self, a, b):
        self.a = a
        self.b = b

    def first(self, n, d):
        return (self.a.first(n, d), self.b.first(n, d))

    def grow(self, x, p):
        return (self.a.grow(x[0], p[0]), self.b.grow(x[1], p[1]))

    def may(self, x, y):
        return self.a.may(x[0], y[0]) and self.b.may(x[1], y[1])

    def text(self, x):
        return "(%s, %s)" % (self.a.text(x[0]), self.b.text(x[1]))


BASE = {
    "blank": Blank(),
    "level": Numbers(2**30 - 1, lambda n, d: 1),
    "byte-level": Numbers(255, lambda n, d: 1),
    "corrected-date": Numbers(2**63 - 1, lambda n, d: d),
    "interval": Interval(),
}
LEVEL = BASE["level"]
CORRECTED = BASE["corrected-date"]


class History:
    def __init__(self, kind, lengths):
        self.kind = kind
        self.capacity = min(lengths[0], lengths[1], lengths[2], 65536)
        self.room = min(lengths[3], 262144)
        self.commits = []

    def refusal(self, i, date, parents):
        if date > LATEST:
            return 1
        if len(parents) > 64:
            return 2
        if any(p >= len(self.commits) for p in parents):
            return 3
        if self.find(i) is not None:
            return 4
        if len(self.commits) + 1 > self.capacity:
            return 5
        if sum(len(c["parents"]) for c in self.commits) + len(parents) > self.room:
            return 6
        return 0

    def find(self, i):
        for n, c in enumerate(self.commits):
            if c["id"] == i:
                return n
        return None

    def add(self, i, tree, date, parents):
        n = len(self.commits)
        level, corrected, label = 1, date, self.kind.first(n, date)
        for p in parents:
            q = self.commits[p]
            level = max(level, q["level"] + 1)
            corrected = max(corrected, q["corrected"] + 1)
            label = self.kind.grow(label, q["label"])
        self.commits.append(
            dict(id=i, tree=tree, date=date, parents=parents, level=level, corrected=corrected, label=label)
        )
        return n

    # Every commit that the commit reaches, with itself.
    def reached(self, n):
        return self.closure([n], lambda k: True)

    # The commits on the chains from some commits through parents whose members all pass the test.
    def closure(self, starts, test):
        found, waiting = set(), list(starts)
        while waiting:
            k = waiting.pop()
            if k not in found and test(k):
                found.add(k)
                waiting += self.commits[k]["parents"]
        return found

    def is_open(self, k, target):
        label = [self.commits[x]["label"] for x in (k, target)]
        return k == target or self.kind.may(*label)

    def fits(self, named, lengths):
        return all(lengths.get(b, len(self.commits)) > max(named) for b in ("marks", "queue"))

    def holds(self, named):
        return max(named) < len(self.commits)

    def contains(self, target, tips, lengths):
        named = [target] + tips
        if not self.holds(named):
            return refused(9)
        if lengths.get("results", len(tips)) < len(tips):
            return refused(8, len(tips))
        if not self.fits(named, lengths):
            return refused(7)
        trail = self.closure(tips, lambda k: k >= target and self.is_open(k, target))
        words = ["yes" if target in self.reached(t) else "no" for t in tips]
        return " ".join(["contains"] + words + ["visits", str(len(trail))])

    def ahead_behind(self, a, b, lengths):
        if not self.holds([a, b]):
            return refused(9)
        if not self.fits([a, b], lengths):
            return refused(7)
        ra, rb = self.reached(a), self.reached(b)
        return "ahead %d behind %d" % (len(ra - rb), len(rb - ra))

    def merge_bases(self, a, b, lengths):
        if not self.holds([a, b]):
            return refused(9)
        if not self.fits([a, b], lengths):
            return refused(7)
        common = self.reached(a) & self.reached(b)
        bases = [k for k in common if not any(k in self.reached(c) for c in common if c != k)]
        words = [str(k) for k in sorted(bases, reverse=True)]
        room = lengths.get("results", len(self.commits))
        if room < len(words):
            return " ".join([refused(8, len(words)), "holds"] + words[:room])
        return " ".join(["merge-bases"] + (words or ["none"]))


def refused(number, needed=None):
    words = WORDS[number] if needed is None else WORDS[number] % needed
    return "refused %d %s" % (number, words)


class Bad(Exception):
    pass


NAMES = {
    "rows": "the length of the rows",
    "labels": "the length of the labels",
    "order": "the length of the order",
    "parents": "the length of the parents",
}


def take(words, at, name):
    if at >= len(words):
        raise Bad(name + " is missing")
    return words[at]


def decimal(words, at, name, most):
    w = take(words, at, name)
    if not re.fullmatch("[0-9]+", w) or int(w) > most:
        raise Bad("word %d: %s is not a decimal number up to %d" % (at + 1, name, most))
    return int(w)


def an_id(words, at, name):
    w = take(words, at, name)
    if not re.fullmatch("[0-9a-fA-F]{40}", w):
        raise Bad("word %d: %s is not 40 hex digits" % (at + 1, name))
    return w.lower()


def done(words, at):
    if len(words) > at:
        raise Bad("word %d is one too many" % (at + 1))


# The options from a place on, each of which sets a length.
def options(words, at, names):
    lengths = {}
    for k in range(at, len(words)):
        name, sign, value = words[k].partition("=")
        if not sign or name not in names:
            raise Bad("word %d is not an option of the request" % (k + 1))
        what = "the length of the " + name
        if name in lengths:
            raise Bad("word %d sets %s again" % (k + 1, what))
        if not re.fullmatch("[0-9]+", value) or int(value) > 1000000:
            raise Bad("word %d: %s is not a decimal number up to 1000000" % (k + 1, what))
        lengths[name] = int(value)
    return lengths


def kind_of(words):
    w = take(words, 1, "the label kind")
    parts = w.split("+")
    if len(parts) <= 2 and all(p in BASE for p in parts):
        return BASE[w] if len(parts) == 1 else Pair(BASE[parts[0]], BASE[parts[1]])
    raise Bad(
        "word 2: the label kind is not blank, level, byte-level, corrected-date, interval or two of these joined by +"
    )


def answer(state, words):
    if words[0] == "open":
        kind = kind_of(words)
        lengths = [decimal(words, 2 + k, NAMES[n], 1000000) for k, n in enumerate(NAMES)]
        done(words, 6)
        h = state["history"] = History(kind, lengths)
        return "opened %s capacity %d parents %d" % (words[1], h.capacity, h.room)
    if words[0] == "add":
        i = an_id(words, 1, "the id")
        tree = an_id(words, 2, "the tree's id")
        date = decimal(words, 3, "the date", 2**64 - 1)
        parents = [decimal(words, k, "a parent", 2**32 - 1) for k in range(4, len(words))]
    elif words[0] == "find":
        i = an_id(words, 1, "the id")
        done(words, 2)
    elif words[0] == "show":
        n = decimal(words, 1, "the commit's number", 2**32 - 1)
        done(words, 2)
    elif words[0] == "contains":
        target = decimal(words, 1, "the target's number", 2**32 - 1)
        end = 2
        while end < len(words) and "=" not in words[end]:
            end += 1
        tips = [decimal(words, k, "a tip", 2**32 - 1) for k in range(2, end)]
        lengths = options(words, end, ["results", "marks", "queue"])
    elif words[0] in ("ahead-behind", "merge-bases"):
        a = decimal(words, 1, "the first commit's number", 2**32 - 1)
        b = decimal(words, 2, "the second commit's number", 2**32 - 1)
        names = ["marks", "queue"] + (["results"] if words[0] == "merge-bases" else [])
        lengths = options(words, 3, names)
    elif words[0] == "write":
        if len(words) < 2:
            raise Bad("the path is missing")
        room = decimal(words, 2, "the length of the buffer", 1000000) if len(words) > 2 else None
        done(words, 3)
    else:
        raise Bad("word 1 is not open, add, find, show, contains, ahead-behind, merge-bases or write")
    h = state["history"]
    if h is None:
        raise Bad("no history is open")
    if words[0] == "add":
        r = h.refusal(i, date, parents)
        if r:
            return refused(r)
        return "added %d" % h.add(i, tree, date, parents)
    if words[0] == "find":
        n = h.find(i)
        return "none" if n is None else "found %d" % n
    if words[0] == "contains":
        return h.contains(target, tips, lengths)
    if words[0] == "ahead-behind":
        return h.ahead_behind(a, b, lengths)
    if words[0] == "merge-bases":
        return h.merge_bases(a, b, lengths)
    if words[0] == "write":
        edges = sum(len(c["parents"]) - 1 for c in h.commits if len(c["parents"]) > 2)
        length = (1092 if edges else 1080) + 56 * len(h.commits) + 4 * edges
        if room is not None and room < length:
            return refused(8, length)
        if words[1] != "/dev/null":
            raise Bad("the file cannot be written")
        return "wrote %d" % length
    if n >= len(h.commits):
        return "none"
    c = h.commits[n]
    return "commit %d id %s tree %s date %d level %d corrected %d label %s parents %s" % (
        n,
        c["id"],
        c["tree"],
        c["date"],
        c["level"],
        c["corrected"],
        h.kind.text(c["label"]),
        " ".join(str(p) for p in c["parents"]) or "none",
    )


def main():
    state = {"history": None}
    for raw in sys.stdin.buffer.read().split(b"\n")[:-1]:
        try:
            try:
                words = raw.decode().split()
            except UnicodeDecodeError:
                raise Bad("the line is not UTF-8 text")
            if not words or words[0].startswith("#"):
                continue
            print(answer(state, words))
        except Bad as e:
            print("error " + str(e))


main()
