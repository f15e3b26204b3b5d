#!/usr/bin/env python3
"""The reference: netlist, delays, scan chains, first paths, and what there is by brute force over all pairs of a mode.

    reference.py NET DELAYS [--paths K] [--mode enhanced|broadside|skewed] [--scan FILE]      prints path,direction,length,source,steps,verdict

All pairs at once: a line has one big integer for each vector, with a bit for each pair of vectors (4^sources of them)."""
import argparse
import csv
import io
import sys

KINDS = {"AND": 1024, "NAND": 1024, "OR": 1024, "NOR": 1024, "XOR": 1024, "XNOR": 1024, "NOT": 1, "INV": 1, "BUFF": 1, "BUF": 1, "DFF": 1}
SAME = {"INV": "NOT", "BUF": "BUFF"}
INVERTING = ("NAND", "NOR", "XNOR", "NOT")
RISE, FALL = "rise", "fall"
ROBUST, NONROBUST = "robust", "nonrobust"


class Refused(Exception):
    pass


class Net:
    """names: of all lines. Sources are lines 0 to s - 1, gate g is line s + g. flops: (source, data line). gates: (kind, pins)."""


def tokens(line):
    out, run = [], ""
    for byte in line.split(b"#", 1)[0]:
        c = chr(byte)
        if c in "(),=":
            out += [run, c] if run else [c]
            run = ""
        elif byte in (9, 12, 13, 32):
            out += [run] if run else []
            run = ""
        else:
            run += c
    return out + ([run] if run else [])


def read_bench(data):
    inputs, outputs, flops, gates = [], [], [], []
    for line in data.split(b"\n"):
        t = tokens(line)
        if not t:
            continue
        if len(t) > 1 and t[1] == "=":
            kind, args = t[2].upper(), t[4:-1:2]
            if kind not in KINDS or len(args) < 1 or len(args) > KINDS[kind]:
                raise Refused(line)
            (flops if kind == "DFF" else gates).append((t[0], SAME.get(kind, kind), args))
        elif t[0].upper() == "INPUT":
            inputs.append(t[2])
        elif t[0].upper() == "OUTPUT":
            outputs.append(t[2])
        else:
            raise Refused(line)
    net = Net()
    net.names = inputs + [f[0] for f in flops] + [g[0] for g in gates]
    net.inputs = len(inputs)
    net.s = len(inputs) + len(flops)
    net.line = {name: at for at, name in enumerate(net.names)}
    net.flops = [(len(inputs) + at, net.line[f[2][0]]) for at, f in enumerate(flops)]
    net.gates = [(g[1], [net.line[a] for a in g[2]]) for g in gates]
    net.observed = list(dict.fromkeys([net.line[o] for o in outputs] + [d for _, d in net.flops]))
    net.order, done = [], set(range(net.s))           # gate numbers, each behind those that it reads
    while len(net.order) < len(net.gates):
        ready = [g for g in range(len(net.gates)) if net.s + g not in done and all(p in done for p in net.gates[g][1])]
        if not ready:
            raise Refused("loop")
        net.order += ready
        done.update(net.s + g for g in ready)
    net.readers = [[] for _ in net.names]             # (gate, pin) in order
    for g, (_, pins) in enumerate(net.gates):
        for p, l in enumerate(pins):
            net.readers[l].append((g, p))
    return net


def read_delays(net, data):
    """A delay for each pin of each gate: the last row that matches, or 1."""
    delays = [[1] * len(pins) for _, pins in net.gates]
    text = data.decode("utf-8-sig")
    rows = [[f.strip(" \t") for f in row] for row in csv.reader(io.StringIO(text, newline="")) if row]
    if not rows or rows[0] != ["gate", "pin", "delay"]:
        raise Refused("header")
    for gate, pin, delay in rows[1:]:
        for g in range(len(net.gates)):
            for p in range(len(delays[g])):
                if gate in ("*", net.names[net.s + g]) and pin in ("*", str(p)):
                    delays[g][p] = int(delay)
    return delays


class ScanRefused(Exception):
    pass


def read_scan(net, data):
    """The chains, or ScanRefused with what stands on err behind `scan: `."""
    flops = {net.names[q]: q for q, _ in net.flops}
    pieces = data.split(b"\n")
    whole = pieces[:-1]
    lines = whole + ([pieces[-1]] if pieces[-1] else [])
    chains, seen, behind_empty = [[]], set(), True
    for at, line in enumerate(lines, 1):
        name = line.decode("latin-1")
        if at > len(whole):
            raise ScanRefused("line %d unknown" % at)
        if name == "":
            if behind_empty or at == len(lines):
                raise ScanRefused("line %d unknown" % at)
            chains.append([])
            behind_empty = True
            continue
        behind_empty = False
        if name not in flops:
            raise ScanRefused("line %d unknown" % at)
        if name in seen:
            raise ScanRefused("line %d twice" % at)
        seen.add(name)
        chains[-1].append(flops[name])
    for q, _ in net.flops:
        if net.names[q] not in seen:
            raise ScanRefused("missing " + net.names[q])
    return [c for c in chains if c]


def links_of(net, mode, chains=()):
    """(source, line): the source's bit in V2 is the line's value under V1. None in mode enhanced."""
    if mode == "enhanced":
        return None
    if mode == "broadside":
        return [(q, d) for q, d in net.flops]
    return [(after, before) for chain in chains for before, after in zip(chain, chain[1:])]


def all_paths(net, delays, most=10 ** 6):
    """All paths as (length, source, steps), in the order of listing."""
    observed, out = set(net.observed), []

    def go(source, line, steps, length):
        if line in observed:
            out.append((length, source, tuple(steps)))
            if len(out) > most:
                raise Refused("too many paths")
        for g, p in net.readers[line]:
            go(source, net.s + g, steps + [(g, p)], length + delays[g][p])

    for s in range(net.s):
        go(s, s, [], 0)
    return sorted(out, key=lambda path: (-path[0], path[1], path[2]))


def first_paths(net, delays, k):
    return all_paths(net, delays)[:k]


def end_of(net, source, steps):
    return net.s + steps[-1][0] if steps else source


def cone(net, line):
    seen, due = {line}, [line]
    while due:
        l = due.pop()
        for p in net.gates[l - net.s][1] if l >= net.s else ():
            if p not in seen:
                seen.add(p)
                due.append(p)
    return seen


def support(net, end, links):
    """The sources in the fan-in cone of a line, closed over links."""
    found = {l for l in cone(net, end) if l < net.s}
    while True:
        more = {l for q, d in links or () if q in found for l in cone(net, d) if l < net.s}
        if more <= found:
            return found
        found |= more


class Universe:
    """All pairs of vectors. For each line the pairs under whose first and second vector it is 1 (v1, v2), and under which it is steady at 0 and 1
    (k0, k1). of_mode: the pairs of the mode."""

    def __init__(self, net, links):
        self.net, self.links, n = net, links, net.s
        self.size = 1 << 2 * n
        self.all = (1 << self.size) - 1
        self.v1 = [self.variable(i) for i in range(n)]
        self.v2 = [self.variable(n + i) for i in range(n)]
        self.k0 = [self.all & ~(a | b) for a, b in zip(self.v1, self.v2)]
        self.k1 = [a & b for a, b in zip(self.v1, self.v2)]
        for store in (self.v1, self.v2, self.k0, self.k1):
            store += [0] * len(net.gates)
        for g in net.order:
            kind, pins = net.gates[g]
            l = net.s + g
            self.v1[l] = self.function(kind, [self.v1[p] for p in pins])
            self.v2[l] = self.function(kind, [self.v2[p] for p in pins])
            self.k0[l], self.k1[l] = self.kleene(kind, [self.k0[p] for p in pins], [self.k1[p] for p in pins])
        self.of_mode = self.all
        for q, d in links or ():
            self.of_mode &= ~(self.v2[q] ^ self.v1[d])

    def variable(self, at):
        pattern, width = ((1 << (1 << at)) - 1) << (1 << at), 2 << at
        while width < self.size:
            pattern |= pattern << width
            width *= 2
        return pattern

    def function(self, kind, values):
        out = values[0]
        for v in values[1:]:
            out = out & v if kind in ("AND", "NAND") else out | v if kind in ("OR", "NOR") else out ^ v
        return self.all & ~out if kind in INVERTING else out

    def kleene(self, kind, zeros, ones):
        zero, one = zeros[0], ones[0]
        for z, o in zip(zeros[1:], ones[1:]):
            if kind in ("AND", "NAND"):
                zero, one = zero | z, one & o
            elif kind in ("OR", "NOR"):
                zero, one = zero & z, one | o
            else:
                zero, one = zero & z | one & o, zero & o | one & z
        return (one, zero) if kind in INVERTING else (zero, one)

    def launch(self, source, direction):
        change = self.v1[source] ^ self.v2[source]
        return change & (self.v2[source] if direction == RISE else ~self.v2[source])

    def step(self, g, pin, kind_of_test):
        """The pairs that meet the condition of one step."""
        kind, pins = self.net.gates[g]
        x, good = self.v2[pins[pin]], self.all
        for at, side in enumerate(pins):
            if at == pin:
                continue
            ends1, ends0 = self.v2[side], self.all & ~self.v2[side]
            if kind in ("AND", "NAND"):
                good &= (self.k1[side] & ~x | ends1 & x) if kind_of_test == ROBUST else ends1
            elif kind in ("OR", "NOR"):
                good &= (self.k0[side] & x | ends0 & ~x) if kind_of_test == ROBUST else ends0
            elif kind_of_test == ROBUST:
                good &= self.k0[side] | self.k1[side]
        return good

    def meeting(self, source, steps, direction, kind_of_test):
        """The pairs, of the mode or not, that meet the conditions on a prefix."""
        found = self.launch(source, direction)
        for g, pin in steps:
            found &= self.step(g, pin, kind_of_test)
        return found & self.all

    def verdict(self, source, steps, direction):
        if self.meeting(source, steps, direction, ROBUST) & self.of_mode:
            return ROBUST
        return NONROBUST if self.meeting(source, steps, direction, NONROBUST) & self.of_mode else "untestable"

    def steady(self, source):
        return self.k0[source] | self.k1[source]

    def of_rules(self, source, rules):
        """The pairs over which a refutation under these rules speaks: One all, Two those whose other sources are steady, linked those of the mode."""
        if rules != "Two":
            return self.of_mode if rules == "Linked" else self.all
        found = self.all
        for other in range(self.net.s):
            if other != source:
                found &= self.steady(other)
        return found

    def index(self, v1, v2):
        """The bit of a pair that is told as lists of 0 and 1."""
        return sum(bit << at for at, bit in enumerate(list(v1) + list(v2)))


def values(net, vector):
    """The value of each line under one vector, line by line."""
    out = list(vector) + [0] * len(net.gates)
    for g in net.order:
        kind, pins = net.gates[g]
        ones = sum(out[p] for p in pins)
        if kind in ("AND", "NAND"):
            v = ones == len(pins)
        else:
            v = ones > 0 if kind in ("OR", "NOR") else ones % 2 == 1 if kind in ("XOR", "XNOR") else ones == 1
        out[net.s + g] = int(v != (kind in INVERTING))
    return out


def steadies(net, v1, v2):
    """For each line 0, 1 or None by Kleene's three values."""
    out = [a if a == b else None for a, b in zip(v1, v2)] + [None] * len(net.gates)
    for g in net.order:
        kind, pins = net.gates[g]
        at = [out[p] for p in pins]
        if kind in ("AND", "NAND"):
            v = 0 if 0 in at else None if None in at else 1
        elif kind in ("OR", "NOR"):
            v = 1 if 1 in at else None if None in at else 0
        else:
            v = None if None in at else sum(at) % 2
        out[net.s + g] = v if v is None else 1 - v if kind in INVERTING else v
    return out


def meets(net, source, steps, direction, kind_of_test, v1, v2):
    """The conditions for one pair, written a second time, without the big integers."""
    if v1[source] == v2[source] or v2[source] != (direction == RISE):
        return False
    ends, steady = values(net, v2), steadies(net, v1, v2)
    for g, pin in steps:
        kind, pins = net.gates[g]
        x = ends[pins[pin]]
        for at, side in enumerate(pins):
            if at == pin:
                continue
            if kind in ("XOR", "XNOR"):
                if kind_of_test == ROBUST and steady[side] is None:
                    return False
                continue
            free = 1 if kind in ("AND", "NAND") else 0
            if ends[side] != free or kind_of_test == ROBUST and x != free and steady[side] != free:
                return False
    return True


def of_links(net, links, v1, v2):
    before = values(net, v1)
    return all(v2[q] == before[d] for q, d in links or ())


def steps_text(net, steps):
    return " ".join("%s:%d" % (net.names[net.s + g], p) for g, p in steps) or "-"


def main():
    parser = argparse.ArgumentParser(description=__doc__, formatter_class=argparse.RawDescriptionHelpFormatter)
    parser.add_argument("net")
    parser.add_argument("delays")
    parser.add_argument("--paths", type=int, default=100)
    parser.add_argument("--mode", choices=("enhanced", "broadside", "skewed"), default="enhanced")
    parser.add_argument("--scan")
    a = parser.parse_args()
    net = read_bench(open(a.net, "rb").read())
    delays = read_delays(net, open(a.delays, "rb").read())
    chains = read_scan(net, open(a.scan, "rb").read()) if a.mode == "skewed" else ()
    universe = Universe(net, links_of(net, a.mode, chains))
    for number, (length, source, steps) in enumerate(first_paths(net, delays, a.paths), 1):
        for direction in (RISE, FALL):
            print("%d,%s,%d,%s,%s,%s" % (number, direction, length, net.names[source], steps_text(net, steps),
                                         universe.verdict(source, steps, direction)))


if __name__ == "__main__":
    sys.exit(main())
