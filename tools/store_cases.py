#!/usr/bin/env python3
"""Writes the tables of the program storecheck: crates/storecheck/data/*.calls and
diagrams.rows, and crates/storecheck/stdout.

What is expected is worked out here, from the rules in docs/stores.md, with a list of truth tables in the place of a
store; nothing of the libraries is used. Run it from the top of the repository. The tables are the same on every run.

A line is the name of a call and its numbers, each after `h` (the number itself) or `r` (what that line answered).
"""
import random
import shutil
from pathlib import Path


class Store:
    """A list of functions, each a number with the function's bit at point p = e * 2^n + a as its bit p."""

    def __init__(self, most, places):
        self.most, self.places = most, min(places, 4096)
        self.begin(0)

    def begin(self, n):
        self.n, self.full = n, 2 ** 2 ** (n + 1) - 1
        self.held, self.at = [], {}
        self.hold(0)
        self.hold(self.full)

    def hold(self, f):
        self.at[f] = len(self.held)
        self.held.append(f)

    def kept(self, f):
        """The functions that are kept with f, f last."""
        raise NotImplementedError

    def yields(self, f):
        new = [g for g in self.kept(f) if g not in self.at]
        if len(self.held) - 2 + len(new) > self.places:
            return None
        for g in new:
            self.hold(g)
        return self.at[f]

    def call(self, name, x=0, y=0, z=0):
        """The answer of a call, or the word `stop` and a number."""
        if name == "length":
            return len(self.held)
        if name == "start":
            if not 1 <= x <= self.most:
                return "stop 9"
            self.begin(x)
            return 0
        if name == "release":
            if not 2 <= x <= len(self.held):
                return "stop 15"
            for f in self.held[x:]:
                del self.at[f]
            del self.held[x:]
            return 0
        if name == "value":
            if x >= len(self.held) or z >= 2 ** self.n:
                return "stop 15"
            return self.held[x] >> (y * 2 ** self.n + z) & 1
        if name == "majority":
            return self.majority(x, y, z)
        f = self.function(name, x, y)
        if f is None:
            return "stop 15"
        h = self.yields(f)
        return "stop 10" if h is None else h

    def majority(self, x, y, z):
        """Five joins, all of them or none."""
        length = len(self.held)
        if max(x, y, z) >= length:
            return "stop 15"
        f, g, h = (self.held[i] for i in (x, y, z))
        for k in (f & g, f & h, g & h, f & g | f & h, f & g | f & h | g & h):
            answer = self.yields(k)
            if answer is None:
                self.call("release", length)
                return "stop 10"
        return answer

    def function(self, name, x, y):
        points, half = 2 ** (self.n + 1), 2 ** self.n
        if name == "variable":
            return None if x > self.n else sum(1 << p for p in range(points) if p >> (self.n - x) & 1)
        if x >= len(self.held):
            return None
        f = self.held[x]
        if name == "flip":
            return f ^ self.full
        if name == "fix":
            part = f >> (half if y == 1 else 0) & (2 ** half - 1)
            return part | part << half
        if y >= len(self.held):
            return None
        g = self.held[y]
        return {"and": f & g, "or": f | g, "xor": f ^ g}[name]

    def digest(self, h):
        digest = 7
        for p in range(2 ** (self.n + 1)):
            digest = (digest * 31 + 1 + (self.held[h] >> p & 1)) % 2 ** 64
        return digest


class Words(Store):
    def __init__(self, places):
        super().__init__(5, places)

    def kept(self, f):
        return [] if f in (0, self.full) else [f]


class Diagram(Store):
    def __init__(self, places):
        super().__init__(12, places)

    def kept(self, f):
        found = []
        for k in range(self.n + 1, -1, -1):
            size = 2 ** (self.n + 1 - k)
            repeat = sum(1 << (i * size) for i in range(2 ** k))
            for v in range(2 ** k):
                g = (f >> (v * size) & (2 ** size - 1)) * repeat
                if g not in (0, self.full) and g not in found:
                    found.append(g)
        return found


class Memo:
    """A memo over a store: what it answers is what the store answers; it is only told here which calls reach the store."""

    ACTIONS = {"and": 0, "or": 1, "xor": 2, "flip": 3, "fix": 4, "variable": 5}

    def __init__(self, below):
        self.below, self.entries, self.reached = below, {}, 0

    def asked(self, name, x, y=0):
        """A call that yields a function, which may be remembered."""
        action = self.ACTIONS[name]
        y = 0 if name in ("flip", "variable") else min(y, 1) if name == "fix" else y
        place = (x + 3 * y + action) % 64
        if place in self.entries and self.entries[place][0] == (name, x, y):
            return self.entries[place][1]
        self.reached += 1
        answer = self.below.call(name, x, y)
        if not isinstance(answer, str):
            self.entries[place] = ((name, x, y), answer, len(self.below.held))
        return answer

    def call(self, name, x=0, y=0, z=0):
        if name in self.ACTIONS:
            return self.asked(name, x, y)
        if name == "majority":
            return self.majority(x, y, z)
        answer = self.below.call(name, x, y, z)
        if name == "start" and answer == 0:
            self.entries = {}
        if name == "release" and answer == 0:
            self.entries = {place: entry for place, entry in self.entries.items() if entry[2] <= x}
        return answer

    def majority(self, x, y, z):
        before = len(self.below.held)
        if max(x, y, z) >= before:
            return "stop 15"
        made = []
        for name, f, g in (("and", x, y), ("and", x, z), ("and", y, z), ("or", 0, 1), ("or", 3, 2)):
            answer = self.asked(name, f, g) if name == "and" else self.asked(name, made[f], made[g])
            if isinstance(answer, str):
                self.call("release", before)
                return answer
            made.append(answer)
        return answer


YIELDS = ("variable", "and", "or", "xor", "majority", "flip", "fix")


def run(store, lines):
    """What the program prints for these lines."""
    out, answers = [], []
    for line in lines:
        name, rest = line[0], line[1:]
        numbers = [answers[x] if kind == "r" else x for kind, x in rest]
        answer = store.call(name, *numbers)
        granted = not isinstance(answer, str)
        answers.append(answer if granted else 0)
        out.append(f"{len(store.held)} {store.digest(answer)}" if granted and name in YIELDS else str(answer))
    return out


def written(line):
    return " ".join([line[0]] + [f"{kind} {x}" for kind, x in line[1:]])


def random_words(places):
    """Calls of a word store by handles: what one call gains is one function, so each handle is known."""
    r = random.Random(places)
    store, lines = Words(places), []
    for k in range(300):
        length = len(store.held)
        name = r.choice(["variable"] * 3 + ["and", "or", "xor"] * 2 + ["majority", "flip", "fix", "value", "value", "length", "release", "start"])
        if k % 60 == 0:
            line = ("start", k // 60 + 1)
        elif k == 3:
            line = ("start", r.choice([0, 6]))
        elif name == "start":
            line = (name, r.choice([0, 6, 7]))
        elif name == "variable":
            line = (name, r.randint(0, store.n + 1))
        elif name in ("and", "or", "xor"):
            line = (name, r.randint(0, length), r.randint(0, length - 1))
        elif name == "majority":
            line = (name, r.randint(0, length), r.randint(0, length - 1), r.randint(0, length - 1))
        elif name == "flip":
            line = (name, r.randint(0, length))
        elif name == "fix":
            line = (name, r.randint(0, length), r.randrange(2))
        elif name == "value":
            line = (name, r.randint(0, length), r.randrange(2), r.randint(0, 2 ** store.n))
        elif name == "release":
            line = (name, r.choice([r.randint(0, length + 1), length]))
        else:
            line = (name,)
        line = (line[0],) + tuple(("h", x) for x in line[1:])
        if k % 60 > 5 and r.randrange(3) == 0:
            # once more what was asked a while ago
            line = r.choice([old for old in lines[-12:] if old[0] != "start"])
        store.call(line[0], *[x for _, x in line[1:]])
        lines.append(line)
    return lines


class Writer:
    """Writes calls of a diagram store, by what earlier lines answered: the order of what one call gains is free."""

    def __init__(self, r, n, places, releases):
        self.r, self.store, self.lines, self.releases = r, Diagram(places), [], releases
        self.answers, self.live, self.lengths = [], [], [2]
        self.put("start", ("h", n))

    def put(self, name, *operands):
        numbers = [self.answers[x] if kind == "r" else x for kind, x in operands]
        before = len(self.store.held)
        answer = self.store.call(name, *numbers)
        granted = not isinstance(answer, str)
        self.lines.append((name,) + operands)
        self.answers.append(answer if granted else 0)
        length = len(self.store.held)
        if granted and name in YIELDS:
            self.live.append((len(self.lines) - 1, answer))
        if length < before:
            self.live = [(k, h) for k, h in self.live if h < length]
        self.lengths = sorted({m for m in self.lengths if m <= length} | {length})
        return granted and length > before and name in YIELDS

    def some(self):
        """A handle: mostly one of the last answers, now and then a constant."""
        if not self.live or self.r.randrange(12) == 0:
            return ("h", self.r.randrange(2))
        return ("r", self.r.choice(self.live[-8:])[0])

    def step(self):
        r, store = self.r, self.store
        n, length = store.n, len(store.held)
        name = r.choice(["variable"] * 3 + ["and", "or", "xor"] * 4 + ["majority", "flip", "flip", "fix", "fix", "value", "value", "length"] + ["bounds"] + ["release"] * self.releases)
        if name == "variable":
            self.put(name, ("h", r.randint(0, n)))
        elif name in ("and", "or", "xor"):
            grew = self.put(name, self.some(), self.some())
            if grew and self.releases and r.randrange(15) == 0:
                self.put("release", ("h", len(store.held) - 1))
        elif name == "majority":
            self.put(name, self.some(), self.some(), self.some())
        elif name == "flip":
            self.put(name, self.some())
        elif name == "fix":
            self.put(name, self.some(), ("h", r.randrange(2)))
        elif name == "value":
            self.put(name, self.some(), ("h", r.randrange(2)), ("h", r.randrange(2 ** n)))
        elif name == "release":
            self.put(name, ("h", r.choice(self.lengths)))
        elif name == "length":
            self.put(name)
        else:
            past = ("h", length + r.choice([0, 0, 1, 5000]))
            self.put(*r.choice([
                ("variable", ("h", n + r.choice([1, 2, 300]))), ("and", past, self.some()), ("xor", self.some(), past), ("flip", past),
                ("fix", past, ("h", 1)), ("value", past, ("h", 0), ("h", 0)), ("value", self.some(), ("h", 1), ("h", 2 ** n)),
                ("release", ("h", length + 1)), ("release", ("h", r.randrange(2))), ("start", ("h", r.choice([0, 13, 99]))),
            ]))


def random_diagram(seed, n, places, count, releases=2):
    writer = Writer(random.Random(seed), n, places, releases)
    while len(writer.lines) < count:
        writer.step()
    return writer.lines


def crowded(seed, n, places, rounds):
    """Calls that choose between two functions by a variable, over and over, so that large functions come about."""
    writer = Writer(random.Random(seed), n, places, 0)
    r = writer.r

    def made(name, *operands):
        writer.put(name, *operands)
        return ("r", len(writer.lines) - 1)

    variables = [made("variable", ("h", v)) for v in range(n + 1)]
    flips = [made("flip", x) for x in variables]
    pool = list(variables)
    for _ in range(rounds):
        v = r.randint(0, n)
        f, g = r.sample(pool, 2)
        either = made("or", made("and", variables[v], f), made("and", flips[v], g))
        pool[r.randrange(len(pool))] = made("xor", either, r.choice(pool))
    return writer.lines


def half_adder():
    """The functions that the opening of a job on the half adder with an `or` for its sum needs: twelve are different."""
    h, r = (lambda x: ("h", x)), (lambda x: ("r", x))
    return [
        ("start", h(2)), ("variable", h(1)), ("variable", h(2)), ("flip", r(1)), ("flip", r(2)),
        ("and", r(3), r(4)), ("and", r(3), r(2)), ("and", r(1), r(4)), ("and", r(1), r(2)),
        ("or", r(5), r(8)), ("or", r(6), r(7)), ("or", r(3), r(4)), ("or", r(1), r(2)), ("length",),
    ]


def most_held(lines):
    """How many places these calls need."""
    store, answers, most = Diagram(4096), [], 0
    for line in lines:
        answer = store.call(line[0], *[answers[x] if kind == "r" else x for kind, x in line[1:]])
        answers.append(0 if isinstance(answer, str) else answer)
        most = max(most, len(store.held) - 2)
    return most


def diagrams():
    """Pairs of a number of rows and the calls over them."""
    for places in (12, 11):
        yield places, half_adder()
    yield 0, random_diagram(90, 3, 0, 30)
    for n in range(1, 13):
        yield 4096, random_diagram(n, n, 4096, 90)
        yield 4 * n, random_diagram(100 + n, n, 4 * n, 90)
        exact = random_diagram(200 + n, n, 4096, 60, releases=0)
        for places in (most_held(exact), most_held(exact) - 1):
            yield places, exact
    # large functions, and more rows than count
    yield 300, crowded(300, 9, 300, 40)
    yield 5000, crowded(301, 12, 5000, 60)


def main():
    crate = Path("crates/storecheck")
    data = crate / "data"
    shutil.rmtree(data, ignore_errors=True)
    data.mkdir(parents=True)
    out = []
    for places in (0, 1, 2, 5, 12, 4096):
        lines = random_words(places)
        (data / f"words-{places}.calls").write_text("".join(written(line) + "\n" for line in lines))
        memo = Memo(Words(places))
        for line in lines:
            memo.call(line[0], *[x for _, x in line[1:]])
        out += [f"words,{places}"] + run(Words(places), lines) + [f"memo,true,{memo.reached}"]
    rows = []
    for k, (places, lines) in enumerate(diagrams()):
        rows.append(places)
        (data / f"diagram-{k}.calls").write_text("".join(written(line) + "\n" for line in lines))
        out += [f"diagram,{places}"] + run(Diagram(places), lines) + ["memo,true,true"]
    (data / "diagrams.rows").write_text("".join(f"{places}\n" for places in rows))
    (crate / "stdout").write_text("\n".join(out) + "\n")
    print(len(out), "rows,", sum(row == "stop 10" for row in out), "refusals for places,", max(int(row.split()[0]) for row in out if " " in row and row[0] != "s"), "functions held at most")


main()
