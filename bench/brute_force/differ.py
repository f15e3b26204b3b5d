#!/usr/bin/env python3
"""differ.py PROGRAM MODE FIRST COUNT: gen and check of the program on random small circuits, beside the reference and the judge.

Cases that fail are kept in failed/. Ends with 1 where one does."""
import collections
import sys
import tempfile

import calling
import circuits
import judge as j
import reference as r

TALLY = collections.Counter()
LONG = 20_000           # bytes of PROOFS above which hulls aren't judged here


def half_mask(universe, node, second):
    kind, line = node
    mask = universe.v2[line] if kind == "V" else universe.v1[line] if kind == "F" else universe.all & ~universe.steady(line)
    return mask if second else universe.all & ~mask


def masks(universe, tree):
    """Each node with the pairs of its halves, in preorder."""
    due = [universe.all]
    for node in tree:
        at = due.pop()
        yield node, at
        if node[0] in j.SPLITS:
            due += [at & half_mask(universe, node, 1), at & half_mask(universe, node, 0)]


def state_mask(universe, rules, q, state):
    steady, first, last = j.STATES[rules.algebra][state]
    mask = universe.v2[q] if last else universe.all & ~universe.v2[q]
    mask &= universe.steady(q) if steady else ~universe.steady(q)
    return mask & universe.all


class Flaws(list):
    def need(self, fine, *told):
        if not fine:
            self.append(" ".join(map(str, told)))


def look(flaws, setting, case, universe, texts, summary):
    net = setting.net
    try:
        tests = j.read_tests(net, texts[0])
        paths, faults = j.read_report(net, texts[1])
        version, proofs = j.read_proofs(net, texts[2], tuple(j.VERSIONS))
    except j.Malformed as e:
        flaws.need(False, "a file is malformed at line", e.line)
        return
    flaws.need(version == j.version_written(net, case.mode, [proof[5] for proof in proofs]), "PROOFS has version", version)
    flaws.need(paths == setting.first, "other paths are listed")
    counts = collections.Counter(f[0] for f in faults)
    due = "paths %d robust %d nonrobust %d untestable %d aborted %d\n" % (len(paths), *(counts[v] for v in j.HAS))
    flaws.need(summary == due, "out is", repr(summary), "for", repr(due))
    if flaws:
        return
    rules = setting.rules(version)
    look_at_proofs(flaws, setting, rules, universe, paths, proofs, len(texts[2]) > LONG)
    cited = {n for f in faults for n in f[2:] if n is not None}
    flaws.need(cited == set(range(1, len(proofs) + 1)), "proofs cited", sorted(cited), "of", len(proofs))
    flaws.need(len(tests) == counts["robust"] + counts["nonrobust"], "tests", len(tests))
    for at, fault in enumerate(faults):
        look_at_fault(flaws, setting, rules, universe, paths[at // 2], r.FALL if at % 2 else r.RISE, at, fault, tests, proofs)
    if len(texts[2]) > LONG:
        TALLY["too long for the judge"] += 1
        return
    said = j.judge(setting, tests, paths, faults, version, proofs)
    flaws.need(said == "good", "the judge says", said)


def look_at_proofs(flaws, setting, rules, universe, paths, proofs, long):
    net = setting.net
    for at, (word, kind, direction, number, count, tree) in enumerate(proofs, 1):
        if number > len(paths) or count > len(paths[number - 1][2]):
            flaws.need(False, "proof", at, "names no prefix")
            continue
        path = paths[number - 1]
        steps = path[2][:count]
        meeting = universe.meeting(path[1], steps, direction, kind)
        over = universe.of_rules(path[1], rules.name)
        size = j.splits(tree)
        TALLY["%s, %s" % (word, "with splits" if size else "X")] += 1
        TALLY["STEPS 0"] += count == 0 and word == "refutes"
        for node, mask in masks(universe, tree):
            if node[0] == "X":
                flaws.need(not over & mask & meeting, "proof", at, "has a closed leaf that a test gets into")
        if word == "refutes":
            flaws.need(not universe.of_mode & meeting, "proof", at, "refutes what has a test")
            flaws.need(not any(node[0] == "O" for node in tree), "proof", at, "has an open leaf")
            flaws.need(size <= setting.budget, "proof", at, "has more splits than the budget")
            flaws.need(not any(j.same_prefix(path, other, count) for other in paths[:number - 1]), "proof", at, "names another than the least path")
            closing = [c for c in range(count + 1) if j.hull(net, rules, path[2][:c], kind, j.start(net, rules, path[1], direction)) is None]
            flaws.need(not closing or closing == [count] and tree == [("X",)], "proof", at, "isn't the shortest: closes at", closing)
        else:
            flaws.need(size == setting.budget and count == len(path[2]) and ("O",) in tree, "spent proof", at, "has", size, "splits")
            if not long:
                look_at_spent(flaws, setting, rules, universe, path, kind, direction, tree, meeting, at)


def look_at_spent(flaws, setting, rules, universe, path, kind, direction, tree, meeting, at):
    """At each split and open leaf, the pairs with the least states of the hull are no tests; no split is decided already."""
    net = setting.net
    of_support = r.support(net, r.end_of(net, path[1], path[2]), rules.links)
    for node, found in j.walk(net, rules, path[2], kind, tree, j.start(net, rules, path[1], direction)):
        if node[0] == "X":
            continue
        if found is None:
            flaws.need(False, "spent proof", at, "has a split or an open leaf that closes")
            continue
        tried = universe.of_mode & meeting
        for q in of_support:
            tried &= state_mask(universe, rules, q, (found[q] & -found[q]).bit_length() - 1)
        flaws.need(not tried, "spent proof", at, "has a node whose pair is a test")
        if node[0] in j.SPLITS:
            flaws.need(node[1] in of_support and all(found[node[1]] & j.half(rules.algebra, node[0], s) for s in (0, 1)),
                       "spent proof", at, "has a vain split")


def look_at_fault(flaws, setting, rules, universe, path, direction, at, fault, tests, proofs):
    net = setting.net
    verdict, test, robust_proof, nonrobust_proof = fault
    told = ("fault", at + 1, verdict)
    _, source, steps = path
    truth = universe.verdict(source, steps, direction)
    TALLY[verdict] += 1
    of_support = r.support(net, r.end_of(net, source, steps), rules.links)
    complete = (2 if rules.name == "Two" else 4) ** (len(of_support) - 1)
    if setting.budget >= complete:
        flaws.need(verdict == truth, *told, "is", truth, "at a complete budget")
    TALLY["complete" if setting.budget >= complete else "not complete"] += 1
    spent_robust = robust_proof is not None and proofs[robust_proof - 1][0] == "spent"
    lawful = {"robust": ("robust",), "nonrobust": ("nonrobust", "robust") if spent_robust else ("nonrobust",), "untestable": ("untestable",),
              "aborted": tuple(j.HAS) if spent_robust else ("nonrobust", "untestable")}[verdict]
    flaws.need(truth in lawful, *told, "but truly", truth)
    begins = j.start(net, rules, source, direction)
    if j.hull(net, rules, steps, r.NONROBUST, begins) is None:
        flaws.need(verdict == "untestable", *told, "but its start closes")
    found = j.hull(net, rules, steps, r.ROBUST, begins)
    if found is not None and j.trial(net, rules, steps, r.ROBUST, found, of_support) is not None:
        flaws.need(verdict == "robust", *told, "but the first pair is robust")
    if test is None:
        return
    of_path, of_direction, kind, v1, v2, expected = tests[test - 1]
    index = universe.index(v1, v2)
    flaws.need((of_path, of_direction, kind) == (at // 2 + 1, direction, verdict), *told, "has a test of another fault")
    flaws.need(universe.of_mode >> index & 1, *told, "has a pair not of the mode")
    flaws.need(universe.meeting(source, steps, direction, kind) >> index & 1, *told, "has a pair that fails")
    flaws.need(kind == r.ROBUST or not universe.meeting(source, steps, direction, r.ROBUST) >> index & 1, *told, "has a robust pair")
    flaws.need(expected == [universe.v2[o] >> index & 1 for o in net.observed], *told, "expects other bits")
    outside = [q for q in range(net.s) if q not in of_support]
    before = r.values(net, v1)
    links = dict(rules.links)
    TALLY["outside the support not 0, then steady or linked"] += any(v1[q] or v2[q] != (before[links[q]] if q in links else v1[q]) for q in outside)


def one(program, modes, scans, mode, seed, folder):
    case = circuits.make(seed, mode)
    files = calling.Folder(program, folder, case)
    knows = len(modes) > 1
    setting = j.Setting(case, knows=knows)
    flaws = Flaws()
    universe = r.Universe(setting.net, setting.links)
    status, out, err = files.call("gen")
    flaws.need(status == 0 and err == "", "gen ends with", status, err)
    if not flaws:
        texts = files.texts()
        look(flaws, setting, case, universe, texts, out)
        flaws.need(files.call("check") == (0, "good\n", ""), "check says", files.call("check"))
        for other in modes:
            if other == mode or "enhanced" not in (mode, other) and len(texts[2]) > LONG:
                continue
            due = j.check(j.Setting(case, mode=other, knows=knows), *texts)
            flaws.need(due == "check: PROOFS line 1 malformed" or "enhanced" not in (mode, other), "the judge says", due, "in mode", other)
            is_ = files.call("check", mode=other)
            flaws.need(is_ == ((0, "good\n", "") if due == "good" else (1, "", due + "\n")), "check in mode", other, "says", is_, "for", due)
            TALLY["other mode: " + due.split(" ")[-1]] += 1
        if scans and mode == "skewed":
            chains = r.read_scan(setting.net, case.scan)
            due = ""
            for at, test in enumerate(j.read_tests(setting.net, texts[0]), 1):
                due += str(at) + "".join(" " + "".join(str(test[3][q]) for q in reversed(chain)) + str(test[4][chain[0]]) for chain in chains) + "\n"
            flaws.need(files.scan() == (0, due, ""), "scan says", files.scan(), "for", due)
            TALLY["scan"] += 1
    TALLY["circuits"] += 1
    TALLY["circuits without flip-flops"] += not setting.net.flops
    for flaw in flaws[:5]:
        print("%s %d: %s" % (mode, seed, flaw), flush=True)
    if flaws:
        TALLY["bad"] += 1
        files.keep("%s-%d" % (mode, seed), "\n".join(flaws))


def main():
    program, mode, first, count = sys.argv[1], sys.argv[2], int(sys.argv[3]), int(sys.argv[4])
    modes, scans = calling.modes_of(program), calling.knows_scan(program)
    if mode not in modes:
        print("%s has no mode %s" % (program, mode))
        return 2
    for seed in range(first, first + count):
        with tempfile.TemporaryDirectory() as folder:
            one(program, modes, scans, mode, seed, folder)
    print(mode, "from", first, ", ".join("%s %d" % pair for pair in sorted(TALLY.items())))
    print("bad %d of %d" % (TALLY["bad"], TALLY["circuits"]))
    return 1 if TALLY["bad"] else 0


if __name__ == "__main__":
    sys.exit(main())
