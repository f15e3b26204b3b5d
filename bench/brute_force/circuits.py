"""Random small circuits with delays, scan chains, numbers of paths and budgets."""
import random

import reference

MULTI = ("AND", "NAND", "OR", "NOR", "XOR", "XNOR")


def names_for(rng, count, letter):
    return ["%s%d" % (letter, at) for at in range(count)]


def dress(rng, kind):
    return rng.choice((kind, kind.lower(), {"NOT": "INV", "BUFF": "BUF"}.get(kind, kind)))


def random_gates(rng, lines, count, heavy_xor):
    gates = []
    for at in range(count):
        if rng.random() < 0.15:
            kind = rng.choice(("NOT", "BUFF"))
        else:
            kind = rng.choice(("XOR", "XNOR")) if rng.random() < heavy_xor else rng.choice(MULTI[:4] * 2 + MULTI)
        fan = 1 if kind in ("NOT", "BUFF") else rng.choice((1, 2, 2, 2, 2, 3, 3, 4))
        near = lines[-6:] if rng.random() < 0.7 else lines
        pins = [rng.choice(near if rng.random() < 0.7 else lines) for _ in range(fan)]
        gates.append(("g%d" % at, kind, pins))
        lines = lines + ["g%d" % at]
    return gates


def clause_gates(rng, sources):
    """A path's source and an AND of random clauses over the others: narrowing alone doesn't see what they leave."""
    head, others = sources[0], sources[1:]
    gates = [("n" + o, "NOT", [o]) for o in others]
    clauses = []
    for at in range(rng.randint(3, 9)):
        width = min(len(others), rng.choice((2, 3, 3)))
        chosen = rng.sample(others, width)
        gates.append(("c%d" % at, "OR", [rng.choice((o, "n" + o)) for o in chosen]))
        clauses.append("c%d" % at)
    gates.append(("g", rng.choice(("AND", "NAND")), clauses))
    gates.append(("y", rng.choice(("AND", "OR", "NAND", "XOR", "NOR")), [head, "g"]))
    return gates


def parity_gates(rng, sources):
    """Two parities of the same sources in other orders, joined."""
    gates = []
    ends = []
    for side in "ab":
        order = sources[:]
        rng.shuffle(order)
        last = order[0]
        for at, s in enumerate(order[1:]):
            gates.append(("%s%d" % (side + "x", at), rng.choice(("XOR", "XNOR")), [last, s]))
            last = "%s%d" % (side + "x", at)
        ends.append(last)
    gates.append(("y", rng.choice(("AND", "OR", "XOR")), ends))
    return gates


class Case:
    """The texts of a netlist, a delay file and a scan file, a number of paths and a budget."""


def make(seed, mode, most_paths=400, most_sources=8, whole=0.7):
    rng = random.Random("%s %d" % (mode, seed))
    while True:
        case = attempt(rng, most_sources)
        net = reference.read_bench(case.net)
        try:
            paths = reference.all_paths(net, reference.read_delays(net, case.delays), most_paths)
        except reference.Refused:
            continue
        if not paths and rng.random() < 0.98:
            continue
        case.seed, case.mode, case.count = seed, mode, len(paths)
        total = len(paths)
        case.paths = max(1, rng.choice((total, total, total + 3, rng.randint(1, max(1, total)), 100)))
        links = None
        if mode != "enhanced":
            chains = reference.read_scan(net, case.scan) if mode == "skewed" else ()
            links = reference.links_of(net, mode, chains)
        n = max([len(reference.support(net, o, links)) for o in net.observed] or [1])
        full = 4 ** max(0, n - 1)
        case.whole = rng.random() < whole
        budget = full if case.whole else rng.choice((1, 1, 2, 2, 3, 4, 5, 7, 10, 16))
        case.budget = max(1, min(budget, 1_000_000, 4_000_000 // case.paths))
        return case


def attempt(rng, most_sources):
    case = Case()
    sources = rng.randint(3, most_sources)
    flops = 0 if rng.random() < 0.08 else rng.randint(1, sources)
    inputs = names_for(rng, sources - flops, "i")
    states = names_for(rng, flops, "q")
    lines = inputs + states
    rng.shuffle(lines)
    style = rng.random()
    if style < 0.7:
        gates = random_gates(rng, lines, rng.randint(2, 14), rng.choice((0, 0.1, 0.4)))
    elif style < 0.9:
        gates = clause_gates(rng, lines)
        if rng.random() < 0.5:
            gates += [("h%d" % at, kind, pins) for at, (_, kind, pins) in enumerate(random_gates(rng, lines, 3, 0.2))
                      if all(p in lines for p in pins)]
    else:
        gates = parity_gates(rng, lines)
    outs = [g[0] for g in gates]
    read = {p for g in gates for p in g[2]}
    shared = rng.choice(lines + outs)
    data = []
    for q in states:
        way = rng.random()
        if way < 0.6 and outs:
            d = rng.choice(outs)
        elif way < 0.7:
            d = rng.choice(lines)
        elif way < 0.78:
            d = q
        elif way < 0.88:
            d = rng.choice(states)
        else:
            d = shared
        data.append((q, d))
    observed = [o for o in outs if o not in read] if rng.random() < 0.8 else []
    observed += rng.sample(outs + lines, rng.randint(0, 2))
    statements = ["INPUT(%s)" % i for i in inputs] + ["%s = %s(%s)" % (q, rng.choice(("DFF", "dff")), d) for q, d in data]
    statements += ["OUTPUT(%s)" % o for o in observed]
    statements += ["%s = %s(%s)" % (g, dress(rng, kind), ", ".join(pins)) for g, kind, pins in gates]
    if rng.random() < 0.6:
        rng.shuffle(statements)
    case.net = "".join(s + "\n" for s in statements).encode()
    rows = ["gate,pin,delay"]
    way = rng.random()
    if way > 0.3:
        for g, _, pins in gates:
            for p in range(len(pins)):
                if rng.random() < 0.7:
                    rows.append("%s,%d,%d" % (g, p, rng.choice((0, 1, 2, 2, 3, 5, 9)) if way < 0.8 else rng.randint(0, 1_000_000)))
    elif rng.random() < 0.5:
        rows.append("*,*,%d" % rng.randint(0, 20))
    case.delays = "".join(r + "\n" for r in rows).encode()
    order = states[:]
    rng.shuffle(order)
    chains, at = [], 0
    while at < len(order):
        size = rng.randint(1, len(order) - at)
        chains.append(order[at:at + size])
        at += size
    case.scan = "\n".join("".join(q + "\n" for q in chain) for chain in chains).encode()
    return case
