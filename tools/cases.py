#!/usr/bin/env python3
"""Writes the cases of the program crosscheck: crates/crosscheck/data/N.netlist and N.spec, P.calls, and crates/crosscheck/stdout.

What is expected is worked out here, from the rules in docs/ and by plain evaluation of truth tables; nothing of the
libraries is used. Run it from the top of the repository. The cases are the same on every run.
"""
import itertools
import random
import shutil
from pathlib import Path

KINDS = ["and", "nand", "or", "nor", "xor", "xnor", "buf", "not"]
LETTERS = set(b"abcdefghijklmnopqrstuvwxyz0123456789")


class Stop(Exception):
    pass


def is_name(f):
    return 1 <= len(f) <= 8 and all(b in LETTERS for b in f)


def unmark(f):
    return (True, f[1:]) if f[:1] == b"!" else (False, f)


def records(text):
    """(number, place, bytes, whether a line feed ends it) of each record."""
    place, number = 0, 1
    while place < len(text):
        end = text.find(b"\n", place)
        ended = end >= 0
        end = end if ended else len(text)
        yield number, place, text[place:end], ended
        place, number = end + 1, number + 1


def fits(kind, pins):
    return pins == 1 if kind in (b"buf", b"not") else 2 <= pins <= 4


def read_netlist(text):
    if len(text) > 8192:
        raise Stop(1, "n", 0, 0, 0)
    inputs, gates, outputs = [], [], []
    stems = {}
    for number, place, record, ended in records(text):
        def refuse(cause):
            raise Stop(cause, "n", number, place, len(record))

        f = record.split(b",")
        if not ended:
            refuse(2)
        if f[0] == b"in":
            if len(f) != 2 or not is_name(f[1]):
                refuse(2)
            if gates or outputs:
                refuse(3)
            if len(inputs) == 12:
                refuse(5)
            if f[1] in stems:
                refuse(4)
            stems[f[1]] = len(stems)
            inputs.append(f[1])
        elif f[0] == b"gate":
            if len(f) < 4 or not is_name(f[1]) or f[2].decode("latin1") not in KINDS:
                refuse(2)
            pins = [unmark(p) for p in f[3:]]
            if not all(is_name(p[1]) for p in pins):
                refuse(2)
            if outputs:
                refuse(3)
            if len(gates) == 64:
                refuse(5)
            if f[1] in stems or not all(p[1] in stems for p in pins):
                refuse(4)
            if not fits(f[2], len(pins)):
                refuse(6)
            gates.append((f[2].decode(), [(stems[p[1]], p[0]) for p in pins]))
            stems[f[1]] = len(stems)
        elif f[0] == b"out":
            if len(f) != 3 or not is_name(f[1]) or not is_name(unmark(f[2])[1]):
                refuse(2)
            if len(outputs) == 16:
                refuse(5)
            mark, stem = unmark(f[2])
            if f[1] in [o[0] for o in outputs] or stem not in stems:
                refuse(4)
            outputs.append((f[1], stems[stem], mark))
        else:
            refuse(2)
    if not inputs or not outputs:
        count = sum(1 for _ in records(text))
        raise Stop(5, "n", count + 1, len(text), 0)
    return len(inputs), gates, outputs


def covers(pattern, bits):
    return all(p == "-" or p == b for p, b in zip(pattern, bits))


def read_spec(text, n, outputs):
    if len(text) > 8192:
        raise Stop(1, "s", 0, 0, 0)
    names = [o[0] for o in outputs]
    rows = []
    for number, place, record, ended in records(text):
        def refuse(cause):
            raise Stop(cause, "s", number, place, len(record))

        f = record.split(b",")
        if not ended or f[0] != b"spec" or len(f) != 4 or not is_name(f[1]):
            refuse(2)
        if len(rows) == 256:
            refuse(5)
        if f[1] not in names:
            refuse(4)
        pattern = f[2].decode("latin1")
        if len(pattern) != n or any(c not in "01-" for c in pattern) or f[3] not in (b"0", b"1"):
            refuse(7)
        k, value = names.index(f[1]), f[3] == b"1"
        for j, other, v in rows:
            if j == k and v != value and all(x == y or "-" in (x, y) for x, y in zip(other, pattern)):
                refuse(8)
        rows.append((k, pattern, value))
    return rows


def gate_bit(kind, bits):
    ones = sum(bits)
    return {
        "and": ones == len(bits),
        "nand": ones != len(bits),
        "or": ones > 0,
        "nor": ones == 0,
        "xor": ones % 2 == 1,
        "xnor": ones % 2 == 0,
        "buf": bits[0],
        "not": not bits[0],
    }[kind]


def lines_at(n, gates, bits):
    """The bits of the stems, and of the pins gate by gate."""
    stems, pins = [b == "1" for b in bits], []
    for kind, readers in gates:
        got = [stems[s] != mark for s, mark in readers]
        pins += got
        stems.append(gate_bit(kind, got))
    return stems, pins


def show(bits):
    return "".join("1" if b else "0" for b in bits)


def expected(netlist, spec):
    try:
        n, gates, outputs = read_netlist(netlist)
        rows = read_spec(spec, n, outputs)
    except Stop as stop:
        return ["stop," + ",".join(str(x) for x in stop.args)]
    all_bits = ["".join(b) for b in itertools.product("01", repeat=n)]
    worked = [lines_at(n, gates, bits) for bits in all_bits]
    table = [[stems[s] != mark for stems, _ in worked] for _, s, mark in outputs]
    met = []
    for k, column in enumerate(table):
        met.append(all(column[a] == v for a, bits in enumerate(all_bits) for j, p, v in rows if j == k and covers(p, bits)))
    out = [f"job,{n},{len(gates)},{len(outputs)},{met.count(False)}"]
    if n <= 4:
        lines = list(zip(*[stems + pins for stems, pins in worked]))
        out += [f"line,{l},{show(column)}" for l, column in enumerate(lines)]
        out += [f"out,{k},{show(column)},{'met' if met[k] else 'missed'}" for k, column in enumerate(table)]
    return out


def text(*rows):
    return ("\n".join(rows) + "\n").encode() if rows else b""


HALF = text("in,a", "in,b", "gate,s,or,a,b", "gate,c,and,a,b", "out,s,s", "out,c,c")
ROWS = ["spec,s,00,0", "spec,s,01,1", "spec,s,10,1", "spec,s,11,0", "spec,c,11,1", "spec,c,0-,0", "spec,c,-0,0"]
WIRE = text("in,a", "out,y,a")


def kinds_design(pins):
    names = "abcd"[:pins]
    kinds = KINDS[6:] if pins == 1 else KINDS[:6]
    rows = [f"in,{x}" for x in names]
    for i, kind in enumerate(kinds):
        rows.append(f"gate,{kind},{kind}," + ",".join(names))
        marked = ",".join(("!" if (i + j) % 2 else "") + x for j, x in enumerate(names))
        rows.append(f"gate,{kind}x,{kind},{marked}")
    outs = [f"out,{k},{k}" for k in kinds] + [f"out,{k}x,!{k}x" for k in kinds]
    return text(*rows, *outs)


def widest():
    """A design at every limit."""
    r = random.Random(1)
    names = [f"i{k}" for k in range(12)]
    rows = [f"in,{x}" for x in names]
    for g in range(64):
        pins = [r.choice(["", "!"]) + r.choice(names) for _ in range(4)]
        rows.append(f"gate,g{g},{KINDS[g % 6]}," + ",".join(pins))
        names.append(f"g{g}")
    outs = [f"out,o{k},{'!' if k % 2 else ''}g{63 - k}" for k in range(16)]
    spec = [f"spec,o{k % 16},{format(k * 16 + 3, '012b')},{k // 16 % 2}" for k in range(256)]
    return text(*rows, *outs), text(*spec)


def some_design(r):
    n = r.randint(1, 4)
    names = [f"x{k}" for k in range(n)]
    rows = [f"in,{x}" for x in names]
    for g in range(r.randint(0, 6)):
        kind = r.choice(KINDS)
        count = 1 if kind in ("buf", "not") else r.randint(2, 4)
        rows.append(f"gate,g{g},{kind}," + ",".join(r.choice(["", "!"]) + r.choice(names) for _ in range(count)))
        names.append(f"g{g}")
    m = r.randint(1, 3)
    outs = [f"out,o{k},{r.choice(['', '!'])}{r.choice(names)}" for k in range(m)]
    netlist = text(*rows, *outs)
    spec = []
    for _ in range(r.randint(0, 8)):
        row = f"spec,o{r.randrange(m)},{''.join(r.choice('01-') for _ in range(n))},{r.randrange(2)}"
        if expected(netlist, text(*spec, row))[0].startswith("job"):
            spec.append(row)
    return netlist, text(*spec)


def cases():
    yield HALF, text(*ROWS)
    yield HALF, text(*[x for x in ROWS if x != "spec,s,11,0"])
    yield HALF.replace(b"or", b"xor"), text(*ROWS)
    for pins in range(1, 5):
        yield kinds_design(pins), b""
    yield widest()
    yield WIRE, b""
    yield WIRE, text("spec,y,1,1", "spec,y,-,1")
    # 1
    long = text(*["in,a"] * 1638) + b"in\n"
    assert len(long) == 8193
    yield long, b""
    yield long[:8192], b""
    yield WIRE, b"x" * 8193
    yield WIRE, b"x" * 8192
    yield text("in,A"), b"x" * 9000
    # 2
    for bad in ["", "in", "in,", "in,a,b", "in,A", "in,abcdefghi", "in,a b", "inn,b", "gate,g,and", "gate,g,and,", "gate,g,nxor,a",
                "gate,,buf,a", "gate,g,buf,!", "gate,g,buf,!!a", "gate,g,buf,a,", "gate,g,buf,a,B", "out,y", "out,y,a,a", "out,y,", "out,Y,a", "spec,y,1,1", "IN,b", "in,b\r", "in,\u00e9"]:
        yield text("in,a") + bad.encode() + b"\n" + text("out,y,a"), b""
    yield text("in,a") + b"out,y,a", b""
    yield b"in,a", b""
    yield b"\n", b""
    yield b"in,\x00\n", b""
    for bad in ["", "spec", "spec,y,1", "spec,y,1,1,1", "spec,Y,1,1", "spec,,1,1", "in,a", "spec,abcdefghi,1,1"]:
        yield WIRE, text("spec,y,0,0", bad)
    yield WIRE, b"spec,y,0,0"
    # 3
    yield text("in,a", "gate,g,not,a", "in,b", "out,y,g"), b""
    yield text("in,a", "out,y,a", "in,b"), b""
    yield text("in,a", "out,y,a", "gate,g,not,a"), b""
    yield text("in,a", "out,y,a", "in,a"), b""
    # 5
    yield b"", b""
    yield text("in,a", "gate,g,not,a"), b""
    yield text(*[f"in,i{k}" for k in range(12)], "out,y,i11"), b""
    yield text(*[f"in,i{k}" for k in range(12)], "in,i0", "out,y,i11"), b""
    yield text("in,a", *[f"gate,g{k},not,a" for k in range(64)], "out,y,g63"), b""
    yield text("in,a", *[f"gate,g{k},not,a" for k in range(64)], "gate,g0,not,b", "out,y,g63"), b""
    yield text("in,a", *[f"out,y{k},a" for k in range(16)]), b""
    yield text("in,a", *[f"out,y{k},a" for k in range(16)], "out,y0,b"), b""
    yield text("in,a", "out,y,a"), text(*["spec,y,1,1"] * 256)
    yield text("in,a", "out,y,a"), text(*["spec,y,1,1"] * 256, "spec,z,1,1")
    # 4
    yield text("in,a", "in,a", "out,y,a"), b""
    yield text("in,a", "gate,a,not,a", "out,y,a"), b""
    yield text("in,a", "gate,g,not,a", "gate,g,buf,a", "out,y,a"), b""
    yield text("in,a", "gate,g,not,g", "out,y,a"), b""
    yield text("in,a", "gate,g,and,a,b,a,a,a", "out,y,a"), b""
    yield text("in,a", "gate,g,and,a,a,a,a,b", "out,y,a"), b""
    yield text("in,a", "out,y,b"), b""
    yield text("in,a", "out,y,a", "out,y,a"), b""
    yield text("in,a", "out,a,a", "out,b,!a"), b""
    yield WIRE, text("spec,a,1,1")
    # 6
    for bad in ["gate,g,and,a", "gate,g,buf,a,a", "gate,g,not,a,!a", "gate,g,xor,a,a,a,a,a", "gate,g,buf,a,a,a,a,a"]:
        yield text("in,a", bad, "out,y,a"), b""
    # 7
    for bad in ["spec,y,,1", "spec,y,11,1", "spec,y,x,1", "spec,y,1,", "spec,y,1,2", "spec,y,1,-", "spec,y,1,11", "spec,y,0000000000000,1"]:
        yield WIRE, text("spec,y,0,0", bad)
    # 8
    yield HALF, text("spec,s,11,1", "spec,s,1-,1")
    yield HALF, text("spec,s,11,1", "spec,s,1-,0")
    yield HALF, text("spec,s,-0,1", "spec,c,-0,0", "spec,s,0-,0")
    yield HALF, text("spec,s,-0,1", "spec,c,-0,0", "spec,s,01,0")
    r = random.Random(7)
    for _ in range(60):
        yield some_design(r)
    for _ in range(60):
        netlist, spec = some_design(r)
        which = r.randrange(2) if spec else 0
        damaged = bytearray([netlist, spec][which])
        for _ in range(r.randint(1, 2)):
            at = r.randrange(len(damaged))
            if r.randrange(2):
                damaged[at] = r.choice(b"ab!,\n01-\x00\xff")
            else:
                del damaged[at]
        yield (bytes(damaged), spec) if which == 0 else (netlist, bytes(damaged))


class WordStore:
    """A list of functions, each a tuple of its bits at the points e * 2^n + a."""

    def __init__(self, places):
        self.places, self.n, self.held = places, 0, [(False,) * 2, (True,) * 2]

    def yields(self, f):
        if f not in self.held:
            if len(self.held) - 2 >= self.places:
                return "stop 10"
            self.held.append(f)
        return self.held.index(f)

    def call(self, name, x=0, y=0, z=0):
        size, held = 2 ** (self.n + 1), self.held
        if name == "start":
            if not 1 <= x <= 5:
                return "stop 9"
            self.n = x
            self.held = [(False,) * 2 ** (x + 1), (True,) * 2 ** (x + 1)]
            return 0
        if name == "variable":
            if x > self.n:
                return "stop 15"
            return self.yields(tuple(p >> (self.n - x) & 1 == 1 for p in range(size)))
        if name in ("and", "or", "xor"):
            if x >= len(held) or y >= len(held):
                return "stop 15"
            make = {"and": lambda s, t: s and t, "or": lambda s, t: s or t, "xor": lambda s, t: s != t}[name]
            return self.yields(tuple(make(s, t) for s, t in zip(held[x], held[y])))
        if name == "length":
            return len(held)
        if name == "release":
            if not 2 <= x <= len(held):
                return "stop 15"
            self.held = held[:x]
            return 0
        if x >= len(held):
            return "stop 15"
        if name == "flip":
            return self.yields(tuple(not b for b in held[x]))
        if name == "fix":
            half = held[x][size // 2:] if y == 1 else held[x][:size // 2]
            return self.yields(half + half)
        if z >= size // 2:
            return "stop 15"
        return int(held[x][(size // 2 if y == 1 else 0) + z])


def calls(places):
    """A table of calls over so many words: their answers depend on what came before."""
    r = random.Random(places)
    store, table, out = WordStore(places), [], []
    for k in range(300):
        length = len(store.held)
        if k % 60 == 0:
            call = ("start", k // 60 + 1)
        elif k == 3:
            call = ("start", r.choice([0, 6]))
        else:
            name = r.choice(["variable"] * 3 + ["and", "or", "xor"] * 2 + ["flip", "fix", "value", "value", "length", "release", "start"])
            if name == "start":
                call = ("start", r.choice([0, 6, 7]))
            elif name == "variable":
                call = (name, r.randint(0, store.n + 1))
            elif name in ("and", "or", "xor"):
                call = (name, r.randint(0, length), r.randint(0, length - 1))
            elif name == "flip":
                call = (name, r.randint(0, length))
            elif name == "fix":
                call = (name, r.randint(0, length), r.randrange(2))
            elif name == "value":
                call = (name, r.randint(0, length), r.randrange(2), r.randint(0, 2 ** store.n))
            elif name == "release":
                call = (name, r.choice([r.randint(0, length + 1), length]))
            else:
                call = (name,)
        table.append(" ".join(str(x) for x in call))
        out.append(str(store.call(*call)))
    return table, out


def main():
    crate = Path("crates/crosscheck")
    data = crate / "data"
    shutil.rmtree(data, ignore_errors=True)
    data.mkdir(parents=True)
    out = []
    for k, (netlist, spec) in enumerate(cases(), 1):
        (data / f"{k}.netlist").write_bytes(netlist)
        (data / f"{k}.spec").write_bytes(spec)
        out += [f"case,{k}"] + expected(netlist, spec)
    for places in (0, 1, 2, 5, 12, 4096):
        table, answers = calls(places)
        (data / f"{places}.calls").write_text("\n".join(table) + "\n")
        out += [f"words,{places}"] + answers
    (crate / "stdout").write_text("\n".join(out) + "\n")
    print(len(out), "rows for", k, "cases")


main()
