"""Netlists whose lines change often, each with a pair of vectors that is replayed again and again. For the scripts beside it."""
import random

import empty_run

DOUBLINGS = 16
WIDE = 1_024
CHANGES_EACH = 60
MULTIPLIER = "mularray8"


class Case:
    """A netlist with delays, a pair of vectors with bits to expect, how often it is replayed, and how many changes are merged each time,
    if that is known."""

    def __init__(self, name, net, delays, pair, times, merged=None):
        self.name, self.net, self.delays, self.pair, self.times, self.merged = name, net, delays, pair, times, merged


def written(folder, name, net, rows):
    """The files of a netlist and its delays."""
    files = folder / f"{name}.bench", folder / f"{name}.csv"
    files[0].write_text(net)
    files[1].write_text("gate,pin,delay\n*,*,0\n" + rows)
    return files


def doubling(folder, stem, name, shift):
    """A chain in which each gate reads the line before it twice, the second time later by a shift of its own. Line x(at) changes 2^at
    times."""
    gates = "".join(f"x{at} = XOR(x{at - 1}, x{at - 1})\n" for at in range(1, DOUBLINGS + 1))
    rows = "".join(f"x{at},1,{shift(at)}\n" for at in range(1, DOUBLINGS + 1))
    net, delays = written(folder, stem, f"INPUT(x0)\nOUTPUT(x{DOUBLINGS})\n{gates}", rows)
    return Case(name, net, delays, "0 1 0", 20, sum(2 * 2 ** at for at in range(DOUBLINGS)))


def doublings(folder):
    """The two chains: of each gate's pins, the second sees its changes behind those of the first, or between them."""
    return (
        doubling(folder, "behind", "XOR chain, one pin after the other", lambda at: 2 ** (at - 1)),
        doubling(folder, "between", "XOR chain, both pins in turns", lambda at: 2 ** (DOUBLINGS - at)),
    )


def wide(folder):
    """A gate of many pins on a line that changes often, each later by another delay. The line gathers copies of a source."""
    copies = "".join(f"d{at} = BUFF(a)\n" for at in range(CHANGES_EACH))
    gather = "s = XOR(" + ", ".join(f"d{at}" for at in range(CHANGES_EACH)) + ")\n"
    gate = "y = XOR(" + ", ".join(["s"] * WIDE) + ")\n"
    rows = "".join(f"d{at},0,{1 + 1_000 * at}\n" for at in range(CHANGES_EACH))
    draw = random.Random(2)
    rows += "".join(f"y,{pin},{draw.randrange(60_000)}\n" for pin in range(WIDE))
    net, delays = written(folder, "wide", f"INPUT(a)\nOUTPUT(y)\n{copies}{gather}{gate}", rows)
    return Case(f"gate of {WIDE:,} pins", net, delays, "0 1 0", 40, 2 * CHANGES_EACH + CHANGES_EACH * WIDE)


def multiplier(top):
    """A pair of vectors, drawn once for all, that makes the lines of the multiplier of this folder change often."""
    net = top / "nets" / f"{MULTIPLIER}.bench"
    draw = random.Random(1)
    _, sources, observed = (line.split()[1:] for line in empty_run.heading(net).splitlines())
    first, second = ("".join(draw.choice("01") for _ in sources) for _ in range(2))
    pair = f"{first} {second} {'0' * len(observed)}"
    return Case(MULTIPLIER, net, top / "delays" / f"{MULTIPLIER}.rand.csv", pair, 2_000)


def tests_file(folder, net, name, tests):
    """A file of these tests, each a text behind its number."""
    file = folder / name
    file.write_text(empty_run.heading(net) + "".join(f"{number} {test}\n" for number, test in enumerate(tests, 1)))
    return file


def cases(folder, top):
    """All of them; those that are made stand in the folder."""
    return (*doublings(folder), multiplier(top), wide(folder))
