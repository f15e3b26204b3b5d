"""Which tests serve which faults, for all tests at once: a line has one number for all of them, with a bit for each test. For the scripts
beside it; written from the definitions, without a look at the program."""
import functools
import operator

import empty_run

INVERTING = ("NAND", "NOR", "XNOR", "NOT", "INV")


class Circuit:
    """The sources, and the gates in an order in which each stands behind those that it reads."""

    def __init__(self, net):
        self.sources = empty_run.heading(net).splitlines()[1].split()[1:]
        self.kinds, self.pins = {}, {}
        for line in net.read_text().splitlines():
            form = empty_run.FORM.match(line.partition("#")[0])
            if form and form[3] and form[4].upper() != "DFF":
                self.kinds[form[3]] = form[4].upper()
                self.pins[form[3]] = [name.strip() for name in form[5].split(",")]
        self.order = self.in_order()

    def in_order(self):
        order, done = [], set(self.sources)
        for gate in self.pins:
            waiting = [gate]
            while waiting:
                due = [name for name in self.pins.get(waiting[-1], ()) if name not in done]
                if due:
                    waiting += due
                    continue
                last = waiting.pop()
                if last not in done:
                    done.add(last)
                    order.append(last)
        return order


def of_gate(kind, ones, zeros):
    """For which tests a gate is 1, and for which 0, by those for which each of its pins is 1 and 0."""
    every, some = functools.partial(functools.reduce, operator.and_), functools.partial(functools.reduce, operator.or_)
    if kind in ("AND", "NAND"):
        one, zero = every(ones), some(zeros)
    elif kind in ("OR", "NOR"):
        one, zero = some(ones), every(zeros)
    else:
        one, zero = ones[0], zeros[0]
        for other_one, other_zero in zip(ones[1:], zeros[1:]):
            one, zero = one & other_zero | zero & other_one, one & other_one | zero & other_zero
    return (zero, one) if kind in INVERTING else (one, zero)


class Tests:
    """For each line the tests under whose second vector it is 1, and those under which it is steady at 1, and at 0; for each source also those
    whose first vector has it at 1."""

    def __init__(self, circuit, tests):
        words = [test.split(" ") for test in tests]
        self.count = len(tests)
        self.every = (1 << len(tests)) - 1
        self.before, self.after = ({source: 0 for source in circuit.sources} for _ in range(2))
        for vectors, place in ((self.before, 3), (self.after, 4)):
            for source, bits in zip(circuit.sources, zip(*(word[place] for word in reversed(words)))):
                vectors[source] = int("".join(bits), 2)
        self.one = {source: self.before[source] & self.after[source] for source in circuit.sources}
        self.zero = {source: self.every & ~(self.before[source] | self.after[source]) for source in circuit.sources}
        for gate in circuit.order:
            kind, pins = circuit.kinds[gate], circuit.pins[gate]
            ends = [self.after[name] for name in pins]
            self.after[gate] = of_gate(kind, ends, [self.every & ~one for one in ends])[0]
            self.one[gate], self.zero[gate] = of_gate(kind, [self.one[name] for name in pins], [self.zero[name] for name in pins])


def serving(circuit, tests, source, steps, rises, verdict):
    """The tests that serve a fault: robust ones, and where its verdict is nonrobust those that are nonrobust."""
    ends_at_one, began_at_one = tests.after[source], tests.before[source]
    launched = ends_at_one & ~began_at_one if rises else began_at_one & ~ends_at_one
    robust = nonrobust = launched
    for gate, pin in steps:
        kind, pins = circuit.kinds[gate], circuit.pins[gate]
        on_path = tests.after[pins[pin]]
        for side in pins[:pin] + pins[pin + 1:]:
            steady_one, steady_zero, one = tests.one[side], tests.zero[side], tests.after[side]
            if kind in ("AND", "NAND"):
                robust &= steady_one | on_path & one
                nonrobust &= one
            elif kind in ("OR", "NOR"):
                robust &= steady_zero | ~on_path & ~one
                nonrobust &= ~one
            else:
                robust &= steady_one | steady_zero
    return (robust | nonrobust if verdict == "nonrobust" else robust) & tests.every


def served(circuit, tests, report):
    """For each test the faults of a report that it serves, a bit for each."""
    found = [0] * tests.count
    for fault, line in enumerate(report.read_text().splitlines()[1:]):
        _, direction, _, source, told, verdict, *_ = line.split(",")
        steps = [(gate, int(pin)) for gate, _, pin in (step.rpartition(":") for step in told.split(" ") if step != "-")]
        which = serving(circuit, tests, source, steps, direction == "rise", verdict)
        while which:
            low = which & -which
            found[low.bit_length() - 1] |= 1 << fault
            which ^= low
    return found
