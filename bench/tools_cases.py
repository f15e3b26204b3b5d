"""Large designs for the tools of tools/: yosys JSON, SDF of it, and a run of its netlist, made up and the same for each seed."""
import json
import random

from pdfgen_tools import bench, judging, run_files

KINDS = ("AND", "NAND", "OR", "NOR", "XOR", "XNOR", "NOT")
INPUTS, OUTPUTS = 100, 100
NEAR = 3000  # how far back a gate reads: so levels are some tens
REPORT_HEADER = "path,direction,length,source,steps,verdict,test,robust_proof,nonrobust_proof"
PAIRS, TRIES_OF_PAIRS = 200, 20000


def yosys_json(gates, flip_flops, seed=1):
    """A design of so many gates of one or two pins and flip-flops, mapped and enumerated."""
    chance = random.Random(seed)
    clock, reset = 2, 3
    inputs = list(range(4, 4 + INPUTS))
    states = list(range(4 + INPUTS, 4 + INPUTS + flip_flops))
    nets, cells = inputs + states, {}
    chance.shuffle(nets)
    for number in range(gates):
        kind, net = chance.choice(KINDS), 4 + INPUTS + flip_flops + number
        pins = chance.sample(nets[-NEAR:] if chance.random() < 0.8 else nets, 1 if kind == "NOT" else 2)
        connections = dict(zip("AB", ([pin] for pin in pins)))
        cells[f"_{number}_"] = cell(f"$_{kind}_", {**connections, "Y": [net]})
        nets.append(net)
    for number, state in enumerate(states):
        cells[f"_{gates + number}_"] = cell("$_DFF_PN0_", {"C": [clock], "D": [chance.choice(nets[-gates // 2:])], "R": [reset], "Q": [state]})
    ports = {"clk": port("input", [clock]), "rst_n": port("input", [reset]), "in": port("input", inputs),
             "out": port("output", chance.sample(nets[-gates // 2:], OUTPUTS))}
    names = {"state": named(states, 0), **{f"_{gates + flip_flops + net}_": named([net], 0) for net in nets if net > states[-1]}}
    return json.dumps({"creator": "made up", "modules": {"top": {"attributes": {"top": "1"}, "ports": ports, "cells": cells, "netnames": names}}},
                      indent=2)


def cell(kind, connections):
    directions = {pin: "output" if pin in "YQ" else "input" for pin in connections}
    return {"hide_name": 0, "type": kind, "parameters": {}, "attributes": {}, "port_directions": directions, "connections": connections}


def port(direction, bits):
    return {"direction": direction, "bits": bits}


def named(bits, hidden):
    return {"hide_name": hidden, "bits": bits, "attributes": {}}


def sdf(map_rows, circuit, seed=1):
    """SDF with a delay for each pin of each gate and flip-flop, rise and fall, three corners, and a wire to each pin of a gate."""
    chance = random.Random(seed)

    def triple():
        least = chance.randrange(20, 90)
        return f"(0.{least:03}:0.{least + 5:03}:0.{least + 12:03})"

    cells_of_line = {line: name for what, name, line, _ in map_rows if what in ("gate", "flip_flop")}
    text = ['(DELAYFILE\n  (SDFVERSION "3.0")\n  (DESIGN "top")\n  (DIVIDER .)\n  (TIMESCALE 1ns)\n  (CELL (CELLTYPE "top") (INSTANCE)\n'
            '    (DELAY (ABSOLUTE\n']
    for what, name, line, pins in map_rows:
        if what == "gate":
            for pin, read in zip(pins.split(), circuit.gates[circuit.line_of[line] - circuit.source_count].pins):
                driver = circuit.names[read].replace("%clock_to_q", "")
                cell_of_driver = cells_of_line.get(driver)
                source = driver if cell_of_driver is None else f"{cell_of_driver}.{'Q' if driver.startswith('state') else 'Y'}"
                text.append(f"      (INTERCONNECT {source} {name}.{pin} {triple()})\n")
    text.append("    ))\n  )\n")
    for what, name, line, pins in map_rows:
        if what == "gate":
            paths = "".join(f"      (IOPATH {pin} Y {triple()} {triple()})\n" for pin in pins.split())
            text.append(f'  (CELL (CELLTYPE "simple") (INSTANCE {name})\n    (DELAY (ABSOLUTE\n{paths}    ))\n  )\n')
        elif what == "clock_to_q":
            text.append(f'  (CELL (CELLTYPE "dff") (INSTANCE {name})\n    (DELAY (ABSOLUTE\n      (IOPATH (posedge C) Q {triple()} {triple()})\n'
                        f"    ))\n    (TIMINGCHECK\n      (SETUP D (posedge C) {triple()})\n      (HOLD D (posedge C) (0.01))\n    )\n  )\n")
    return "".join([*text, ")\n"])


def run_of(circuit, count, seed=1):
    """TESTS, REPORT and SCAN of mode skewed: so many tests, each of a path of its own."""
    chance = random.Random(seed)
    tests, faults, seen = [], [], set()
    while len(tests) < count:
        drawn = [skewed_pair(circuit, chance) for _ in range(PAIRS)]
        pairs = judging.JudgedPairs(circuit, drawn)
        reached, expected = reached_by(pairs, circuit), pairs.values_after(circuit.observed)
        for _ in range(TRIES_OF_PAIRS):
            pair, end = chance.randrange(PAIRS), chance.choice(circuit.observed)
            source, steps = traced(circuit, pairs, reached, pair, end, chance)
            if steps and steps not in seen and len(tests) < count:
                seen.add(steps)
                add_test(tests, faults, circuit, pairs, pair, drawn[pair], expected[pair], source, steps)
    heads = ["pdfgen tests 1", " ".join(["sources", *circuit.names[:circuit.source_count]]),
             " ".join(["observed", *(circuit.names[line] for line in circuit.observed)])]
    scan = "".join(circuit.names[line] + "\n" for line, _ in circuit.flip_flops)
    return "\n".join(heads + tests) + "\n", "\n".join([REPORT_HEADER, *faults]) + "\n", scan


def add_test(tests, faults, circuit, pairs, pair, vectors, expected, source, steps):
    """Adds the line of a test, and the two of its path."""
    number, (first, second) = len(tests) + 1, vectors
    direction = "rise" if second[source] == "1" else "fall"
    fault = run_files.Fault(number, direction, len(steps), source, steps, "", number, None, None)
    kind = "robust" if pairs.meets(fault, "robust") >> pair & 1 else "nonrobust"
    tests.append(f"{number} {number} {direction} {kind} {first} {second} {expected}")
    named_steps = " ".join(f"{circuit.names[circuit.source_count + gate]}:{pin}" for gate, pin in steps)
    for way in ("rise", "fall"):
        verdict = f"{kind},{number},{'-' if kind == 'robust' else 1},-" if way == direction else "untestable,-,-,1"
        faults.append(f"{number},{way},{len(steps)},{circuit.names[source]},{named_steps},{verdict}")


def reached_by(pairs, circuit):
    """For each line the pairs of which some path to it, whose side pins end noncontrolling, begins at a source that changes."""
    reached = [pairs.launches(line, "rise") | pairs.launches(line, "fall") for line in range(circuit.source_count)] + [0] * len(circuit.gates)
    for number in circuit.order:
        pins = range(len(circuit.gates[number].pins))
        reached[circuit.source_count + number] = sum_of(reached[circuit.gates[number].pins[pin]] & sides(pairs, number, pin) for pin in pins)
    return reached


def sum_of(bits):
    found = 0
    for some in bits:
        found |= some
    return found


def sides(pairs, number, on_path):
    """The pairs under which all pins of a gate but one end noncontrolling."""
    kind, pins = pairs.circuit.gates[number]
    good = pairs.every
    for pin, line in enumerate(pins):
        if pin != on_path and kind in bench.CONTROLLING:
            good &= pairs.every & ~pairs.after[line] if bench.CONTROLLING[kind] else pairs.after[line]
    return good


def traced(circuit, pairs, reached, pair, end, chance):
    """The source and the steps of a path to this end of which a pair is a test; no steps where there is none."""
    steps, line = [], end
    if not reached[end] >> pair & 1:
        return line, ()
    while line >= circuit.source_count:
        number = line - circuit.source_count
        pins = circuit.gates[number].pins
        pin = chance.choice([pin for pin, read in enumerate(pins) if (reached[read] & sides(pairs, number, pin)) >> pair & 1])
        steps.append(run_files.Step(number, pin))
        line = pins[pin]
    return line, tuple(steps[::-1])


def skewed_pair(circuit, chance):
    """A pair of mode skewed, of one chain in NET's order."""
    inputs = len(circuit.inputs)
    bits = [chance.choice("01") for _ in circuit.names[:circuit.source_count]]
    second = [chance.choice("01") for _ in circuit.inputs] + [chance.choice("01")] + bits[inputs:-1]
    return "".join(bits), "".join(second)
