"""The judge: hulls, refutations and spent trees by their definitions, the forms of the three files, and what `check` has to say of them."""
import collections
import functools
import itertools

import reference as r

FOUR, SIX = 4, 6
# A state: (steady, first, last). Of four states the first value is left out.
STATES = {FOUR: ((1, None, 0), (1, None, 1), (0, None, 0), (0, None, 1)),
          SIX: ((1, 0, 0), (1, 1, 1), (0, 0, 0), (0, 0, 1), (0, 1, 0), (0, 1, 1))}
SOURCE_STATES = {FOUR: 0b1111, SIX: 0b011011}         # S0 S1 N0 N1; S0 S1 N01 N10
STEADY = 0b11
# A split is by last value V, by steadiness H, or by first value F. Of each version of PROOFS: the name of its rules, the letters of its splits,
# and whether they are at any line, or else at sources alone.
SPLITS = "VHF"
Version = collections.namedtuple("Version", "rules letters any_line")
VERSIONS = {1: Version("One", "VH", False), 2: Version("Two", "VH", False), 3: Version("Linked", "VH", False), 4: Version("Two", "VH", True),
            5: Version("Linked", SPLITS, True)}


def last_of(algebra, state):
    return STATES[algebra][state][2]


def first_of(algebra, state):
    return STATES[algebra][state][1]


def number_of(algebra, steady, first, last):
    if steady:
        return last
    return 2 + last if algebra == FOUR else 2 + 2 * first + last


def operate(op, bits):
    return int(all(bits)) if op == "AND" else int(any(bits)) if op == "OR" else sum(bits) % 2


def gate_state(algebra, kind, pins):
    """The state of a gate whose pins are in these states."""
    at = [STATES[algebra][p] for p in pins]
    op = {"NAND": "AND", "NOR": "OR", "XNOR": "XOR", "NOT": "OR", "BUFF": "OR"}.get(kind, kind)
    steady = [s[2] for s in at if s[0]]
    last = operate(op, [s[2] for s in at])
    first = operate(op, [s[1] for s in at]) if algebra == SIX else 0
    if op == "AND":
        fixed = 0 in steady or len(steady) == len(at)
    elif op == "OR":
        fixed = 1 in steady or len(steady) == len(at)
    else:
        fixed = len(steady) == len(at)
    if kind in r.INVERTING:
        first, last = 1 - first, 1 - last
    return number_of(algebra, fixed, first, last)


def step_allows(algebra, kind, on, kind_of_test, choice):
    """The condition of a step through pin `on`, read on states."""
    x = last_of(algebra, choice[on])
    for at, side in enumerate(choice):
        if at == on:
            continue
        steady, last = side < 2, last_of(algebra, side)
        if kind in ("XOR", "XNOR"):
            if kind_of_test == r.ROBUST and not steady:
                return False
        else:
            free = 1 if kind in ("AND", "NAND") else 0
            if last != free or (kind_of_test == r.ROBUST and x != free and not steady):
                return False
    return True


def narrow_by_folds(algebra, kind, on, kind_of_test, sets, out):
    """The same for gates of many pins: for each final value of the on-path pin, the joins of the pins before and behind each pin."""
    op = {"NAND": "AND", "NOR": "OR", "XNOR": "XOR"}.get(kind, kind)
    join = lambda some, others: {gate_state(algebra, op, (a, b)) for a in some for b in others}
    unit = {1 if op == "AND" else 0}
    meets = {s for s in range(algebra) if out >> gate_state(algebra, kind, (s,)) & 1}      # joins whose gate state lies in out
    kept, own = [0] * len(sets), 0
    for x in (0, 1) if on is not None else (None,):
        lists = []
        for at, some in enumerate(sets):
            lists.append([s for s in range(algebra) if some >> s & 1 and
                          (x is None or at == on and last_of(algebra, s) == x or at != on and step_allows(algebra, kind, 0, kind_of_test, (x, s)))])
        front, back = [unit], [unit]
        for some in lists:
            front.append(join(front[-1], some))
        for some in reversed(lists):
            back.append(join(some, back[-1]))
        back.reverse()
        for s in front[-1] & meets:
            own |= 1 << gate_state(algebra, kind, (s,))
        for at, some in enumerate(lists):
            beside = join(front[at], back[at + 1])
            for s in some:
                if join({s}, beside) & meets:
                    kept[at] |= 1 << s
    return own, tuple(kept)


@functools.lru_cache(maxsize=None)
def narrow_gate(algebra, kind, on, kind_of_test, sets, out):
    """What a gate's narrowing keeps at its own line, and at each pin for itself."""
    if len(sets) > 4:
        return narrow_by_folds(algebra, kind, on, kind_of_test, sets, out)
    kept, own = [0] * len(sets), 0
    lists = [[s for s in range(algebra) if some >> s & 1] for some in sets]
    for choice in itertools.product(*lists):
        state = gate_state(algebra, kind, choice)
        if out >> state & 1 and (on is None or step_allows(algebra, kind, on, kind_of_test, choice)):
            own |= 1 << state
            for at, s in enumerate(choice):
                kept[at] |= 1 << s
    return own, tuple(kept)


@functools.lru_cache(maxsize=None)
def narrow_link(algebra, source, line):
    """What a link keeps at the source, and at its line."""
    def fit(s, c):
        return last_of(algebra, s) == first_of(algebra, c)
    a = sum(1 << s for s in range(algebra) if source >> s & 1 and any(line >> c & 1 and fit(s, c) for c in range(algebra)))
    b = sum(1 << c for c in range(algebra) if line >> c & 1 and any(source >> s & 1 and fit(s, c) for s in range(algebra)))
    return a, b


class Rules:
    """One, Two or Linked with links."""

    def __init__(self, name, links=None):
        self.name, self.links = name, links or []
        self.algebra = SIX if name == "Linked" else FOUR


def start(net, rules, source, direction):
    algebra = rules.algebra
    ends = direction == r.RISE
    other = SOURCE_STATES[algebra] & STEADY if rules.name == "Two" else SOURCE_STATES[algebra]
    labels = [other] * net.s + [(1 << algebra) - 1] * len(net.gates)
    labels[source] = sum(1 << s for s in range(2, algebra) if SOURCE_STATES[algebra] >> s & 1 and last_of(algebra, s) == ends)
    return labels


def narrowings_at(net, rules):
    """For each line the narrowings (gates, then links by -1 - number) that look at it."""
    key = tuple(rules.links)
    store = net.__dict__.setdefault("narrowings", {})
    if key not in store:
        at = [[g for g, _ in readers] + ([l - net.s] if l >= net.s else []) for l, readers in enumerate(net.readers)]
        for number, link in enumerate(rules.links):
            for l in set(link):
                at[l].append(-1 - number)
        store[key] = at
    return store[key]


def hull(net, rules, steps, kind_of_test, labels, lines=None):
    """The hull of a labelling, or None where it closes. lines: those whose sets were cut in labels at rest; all if not told."""
    labels = list(labels)
    if 0 in labels:
        return None
    on, at = dict(steps), narrowings_at(net, rules)
    due = set(range(-len(rules.links), len(net.gates))) if lines is None else {n for l in lines for n in at[l]}

    def cut(line, to):
        if labels[line] & to != labels[line]:
            labels[line] &= to
            due.update(at[line])
        return labels[line] != 0

    while due:
        for g in net.order:
            if g not in due:
                continue
            due.discard(g)
            kind, pins = net.gates[g]
            pin = on.get(g)
            own, kept = narrow_gate(rules.algebra, kind, pin, kind_of_test if pin is not None else None, tuple(labels[p] for p in pins),
                                    labels[net.s + g])
            if not cut(net.s + g, own) or not all([cut(p, k) for p, k in zip(pins, kept)]):
                return None
        for number, (q, d) in enumerate(rules.links):
            if -1 - number not in due:
                continue
            due.discard(-1 - number)
            a, b = narrow_link(rules.algebra, labels[q], labels[d])
            if not cut(q, a) or not cut(d, b):
                return None
    return labels


def half(algebra, node, second):
    """The states of a half of V, H or F."""
    if node in "VF":
        value_of = last_of if node == "V" else first_of
        return sum(1 << s for s in range(algebra) if value_of(algebra, s) == second)
    return ((1 << algebra) - 1) & ~STEADY if second else STEADY


def is_whole(tree):
    """Whether a list of nodes is exactly one tree in preorder."""
    due = 1
    for at, node in enumerate(tree):
        if due == 0:
            return False
        due += 1 if node[0] in SPLITS else -1
    return due == 0


def splits(tree):
    return sum(node[0] in SPLITS for node in tree)


def is_source_split(net, node):
    return node[0] in "VH" and node[1] < net.s


def is_tree_of_sources(net, tree):
    return all(node[0] in "XO" or is_source_split(net, node) for node in tree)


def is_split_of(net, rules, node):
    """Whether a node is a split that a refutation under these rules may have."""
    if rules.name == "One":
        return is_source_split(net, node)
    return node[0] in (SPLITS if rules.name == "Linked" else "VH") and node[1] < len(net.names)


def version_written(net, mode, trees):
    """The version in which a run of this mode with these trees is written."""
    of_sources = all(is_tree_of_sources(net, tree) for tree in trees)
    if mode == "enhanced":
        return 2 if of_sources else 4
    return 3 if of_sources else 5


def walk(net, rules, steps, kind, tree, labels):
    """Each node with its hull (None where it closes), in preorder. A half's hull is that of its split's hull, cut: each labelling at rest within
    the one is within the other. A split's line may be any: all gates are narrowed."""
    due = [(labels, None)]
    for node in tree:
        at, lines = due.pop()
        found = at and hull(net, rules, steps, kind, at, lines)
        yield node, found
        if node[0] in SPLITS:
            line = node[1]
            for second in (1, 0):
                cut = found and list(found)
                if cut:
                    cut[line] &= half(rules.algebra, node[0], second)
                due.append((cut, [line]))


def refutes(net, rules, source, steps, direction, kind, tree):
    if not all(node[0] == "X" or node[0] != "O" and is_split_of(net, rules, node) for node in tree):
        return False
    return all(found is None for node, found in walk(net, rules, steps, kind, tree, start(net, rules, source, direction)) if node[0] == "X")


def trial(net, rules, steps, kind, found, of_support):
    """The hull of the trial at a node whose hull is `found`."""
    cut = list(found)
    for q in of_support:
        cut[q] = found[q] & -found[q]
    return hull(net, rules, steps, kind, cut)


def is_spent(net, rules, source, steps, direction, kind, tree, budget):
    if splits(tree) != budget or not any(node[0] == "O" for node in tree):
        return False
    if not is_tree_of_sources(net, tree):
        return False
    of_support = r.support(net, r.end_of(net, source, steps), rules.links)
    for node, found in walk(net, rules, steps, kind, tree, start(net, rules, source, direction)):
        if (found is None) != (node[0] == "X"):
            return False
        if node[0] == "X":
            continue
        if node[0] in SPLITS and (node[1] not in of_support or not all(found[node[1]] & half(rules.algebra, node[0], second) for second in (0, 1))):
            return False
        if trial(net, rules, steps, kind, found, of_support) is not None:
            return False
    return True


# Forms. Each reader answers a list of records or the number of the first line that lacks its form.

class Malformed(Exception):
    def __init__(self, line):
        self.line = line


def canonical(text, least=0, most=None):
    """The number of a canonical text, or None."""
    if not text or any(c not in "0123456789" for c in text) or text != "0" and text[0] == "0":
        return None
    n = int(text)
    return n if n >= least and (most is None or n <= most) else None


def lines_of(data):
    """The lines, and whether the last one is whole."""
    pieces = data.decode("latin-1").split("\n")
    if pieces[-1] == "":
        return pieces[:-1], True
    return pieces, False


def each_line(data):
    """The number and the text of each line. An unfinished last piece lacks its form; so only the lines before it are looked at first."""
    lines, whole = lines_of(data)
    for at, line in enumerate(lines, 1):
        if at == len(lines) and not whole:
            raise Malformed(at)
        yield at, line


def bits(text, count):
    return [int(c) for c in text] if len(text) == count and all(c in "01" for c in text) else None


def read_tests(net, data):
    heads = ["pdfgen tests 1", " ".join(["sources"] + net.names[:net.s]), " ".join(["observed"] + [net.names[o] for o in net.observed])]
    tests, seen = [], 0
    for at, line in each_line(data):
        seen = at
        if at <= 3:
            if line != heads[at - 1]:
                raise Malformed(at)
            continue
        f = line.split(" ")
        if len(f) != 7 or not net.s or not net.observed or f[0] != str(len(tests) + 1) or canonical(f[1], 1, 10_000) is None \
                or f[2] not in (r.RISE, r.FALL) or f[3] not in (r.ROBUST, r.NONROBUST) or bits(f[4], net.s) is None or bits(f[5], net.s) is None \
                or bits(f[6], len(net.observed)) is None:
            raise Malformed(at)
        tests.append((int(f[1]), f[2], f[3], bits(f[4], net.s), bits(f[5], net.s), bits(f[6], len(net.observed))))
    if seen < 3:
        raise Malformed(seen + 1)
    return tests


HEADER = "path,direction,length,source,steps,verdict,test,robust_proof,nonrobust_proof"
# Which of test, robust_proof and nonrobust_proof a verdict has.
HAS = {"robust": (1, 0, 0), "nonrobust": (1, 1, 0), "untestable": (0, 0, 1), "aborted": (0, 1, 1)}


def read_steps(net, text):
    if text == "-":
        return ()
    steps = []
    for step in text.split(" "):
        gate, colon, pin = step.rpartition(":")
        g = net.line.get(gate, -1) - net.s
        p = canonical(pin)
        if not colon or g < 0 or p is None or p >= len(net.gates[g][1]):
            return None
        steps.append((g, p))
    return tuple(steps)


def read_report(net, data):
    """The listed paths (length, source, steps), and the faults (verdict, test, robust proof, nonrobust proof)."""
    paths, faults, seen, tests, proofs = [], [], 0, 0, 0
    for at, line in each_line(data):
        seen = at
        if at == 1:
            if line != HEADER:
                raise Malformed(1)
            continue
        rises = at % 2 == 0
        f = line.split(",")
        if len(f) != 9 or f[0] != str(at // 2) or f[1] != (r.RISE if rises else r.FALL) or f[5] not in HAS:
            raise Malformed(at)
        length, source, steps = canonical(f[2], 0, 2 ** 64 - 1), net.line.get(f[3], net.s), read_steps(net, f[4])
        if length is None or source >= net.s or steps is None or not rises and paths[-1] != (length, source, steps):
            raise Malformed(at)
        told = []
        for has, text in zip(HAS[f[5]], f[6:]):
            if not has and text != "-" or has and canonical(text, 1) is None:
                raise Malformed(at)
            told.append(int(text) if has else None)
        if told[0] is not None:
            tests += 1
            if told[0] != tests:
                raise Malformed(at)
        for proof in told[1:]:
            if proof is not None:
                if proof > proofs + 1:
                    raise Malformed(at)
                proofs = max(proofs, proof)
        if rises:
            paths.append((length, source, steps))
        faults.append((f[5], *told))
    if seen < 1 or seen % 2 == 0:
        raise Malformed(seen + 1)
    return paths, faults


def read_tree(net, version, words):
    tree, lines = [], len(net.names) if VERSIONS[version].any_line else net.s
    for word in words:
        if word in ("X", "O"):
            tree.append((word,))
        elif word and word[0] in VERSIONS[version].letters and canonical(word[1:]) is not None and int(word[1:]) < lines:
            tree.append((word[0], int(word[1:])))
        else:
            return None
    return tree if is_whole(tree) else None


def read_proofs(net, data, versions):
    """The version, and the proofs (word, kind, direction, path, steps, tree)."""
    proofs, version = [], None
    for at, line in each_line(data):
        if at == 1:
            version = {"pdfgen proofs %d" % v: v for v in versions}.get(line)
            if version is None:
                raise Malformed(1)
            continue
        f = line.split(" ")
        if len(f) < 7 or f[0] != str(len(proofs) + 1) or f[1] not in ("refutes", "spent") or f[2] not in (r.ROBUST, r.NONROBUST) \
                or f[3] not in (r.RISE, r.FALL) or canonical(f[4], 1, 10_000) is None or canonical(f[5], 0, 4_096) is None:
            raise Malformed(at)
        tree = read_tree(net, version, f[6:])
        if tree is None:
            raise Malformed(at)
        proofs.append((f[1], f[2], f[3], int(f[4]), int(f[5]), tree))
    if version is None:
        raise Malformed(1)
    return version, proofs


class Setting:
    """Netlist, delays, mode, its links, number of paths, budget; whether the program knows modes."""

    def __init__(self, case, mode=None, knows=True):
        self.net = r.read_bench(case.net)
        self.delays = r.read_delays(self.net, case.delays)
        self.mode = mode or case.mode
        self.paths, self.budget, self.knows = case.paths, case.budget, knows
        self.set_scan(case.scan)
        self.first = r.first_paths(self.net, self.delays, self.paths)

    def set_scan(self, scan):
        self.links = r.links_of(self.net, self.mode, r.read_scan(self.net, scan) if self.mode == "skewed" else ())

    def rules(self, version):
        name = VERSIONS[version].rules
        return Rules(name, self.links if name == "Linked" else None)

    def versions(self):
        return tuple(VERSIONS) if self.knows else (1, 2)

    def is_of_mode(self, version):
        return (VERSIONS[version].rules == "Linked") == (self.mode != "enhanced")


def check(setting, tests_text, report_text, proofs_text, memo=None):
    """What check has to say: `good`, or its line on err without the LF."""
    net = setting.net
    for name, read in (("TESTS", lambda: read_tests(net, tests_text)), ("REPORT", lambda: read_report(net, report_text)),
                       ("PROOFS", lambda: read_proofs(net, proofs_text, setting.versions()))):
        try:
            found = read()
        except Malformed as e:
            return "check: %s line %d malformed" % (name, e.line)
        if name == "TESTS":
            tests = found
        elif name == "REPORT":
            paths, faults = found
        else:
            version, proofs = found
    if not setting.is_of_mode(version):
        return "check: PROOFS line 1 malformed"
    return judge(setting, tests, paths, faults, version, proofs, memo)


def same_prefix(path, other, count):
    return len(other[2]) >= count and path[1] == other[1] and path[2][:count] == other[2][:count]


def judge(setting, tests, paths, faults, version, proofs, memo=None):
    net, rules = setting.net, setting.rules(version)
    tested = sum(f[1] is not None for f in faults)
    cited = max([n for f in faults for n in f[2:] if n is not None] or [0])
    for at, (is_, due) in enumerate(((len(paths), len(setting.first)), (len(tests), tested), (len(proofs), cited)), 1):
        if is_ != due:
            return "check: count %d WrongCount" % at
    for at, (path, due) in enumerate(zip(paths, setting.first), 1):
        if path[1:] != due[1:]:
            return "check: path %d WrongPath" % at
        if path[0] != due[0]:
            return "check: path %d WrongLength" % at
    for at, proof in enumerate(proofs, 1):
        if not holds(setting, rules, paths, proof, memo):
            return "check: proof %d %s" % (at, "BadRefutation" if proof[0] == "refutes" else "BadSpent")
    for at, fault in enumerate(faults, 1):
        flaw = fault_flaw(setting, rules, paths, proofs, tests, at, fault)
        if flaw:
            return "check: fault %d %s" % (at, flaw)
    return "good"


def holds(setting, rules, paths, proof, memo):
    word, kind, direction, number, count, tree = proof
    if number > len(paths):
        return False
    path = paths[number - 1]
    if count > len(path[2]):
        return False
    if word == "refutes":
        if any(same_prefix(path, other, count) for other in paths[:number - 1]) or splits(tree) > setting.budget:
            return False
    elif count != len(path[2]):
        return False
    key = (rules.name, tuple(rules.links), word, kind, direction, path[1], path[2][:count], tuple(tree), setting.budget)
    if memo is not None and key in memo:
        return memo[key]
    if word == "refutes":
        found = refutes(setting.net, rules, path[1], path[2][:count], direction, kind, tree)
    else:
        found = is_spent(setting.net, rules, path[1], path[2], direction, kind, tree, setting.budget)
    if memo is not None:
        memo[key] = found
    return found


def applying(paths, proofs, number, direction, kind):
    """The numbers of the refutations of a kind that apply to a fault."""
    return [at for at, p in enumerate(proofs, 1)
            if p[0] == "refutes" and p[1] == kind and p[2] == direction and same_prefix(paths[p[3] - 1], paths[number - 1], p[4])]


def is_own_spent(proofs, cited, number, direction, kind):
    p = proofs[cited - 1]
    return p[0] == "spent" and p[1] == kind and p[2] == direction and p[3] == number


def fault_flaw(setting, rules, paths, proofs, tests, fault_number, fault):
    verdict, test, robust_proof, nonrobust_proof = fault
    number, direction = (fault_number + 1) // 2, r.RISE if fault_number % 2 else r.FALL
    path = paths[number - 1]
    if verdict == "untestable" and applying(paths, proofs, number, direction, r.NONROBUST)[:1] != [nonrobust_proof]:
        return "NotShared"
    if robust_proof is not None:
        found = applying(paths, proofs, number, direction, r.ROBUST)
        if (found[0] != robust_proof) if found else not is_own_spent(proofs, robust_proof, number, direction, r.ROBUST):
            return "NotShared"
    if verdict == "aborted" and (applying(paths, proofs, number, direction, r.NONROBUST)
                                 or not is_own_spent(proofs, nonrobust_proof, number, direction, r.NONROBUST)):
        return "NotShared"
    if test is None:
        return None
    of_path, of_direction, kind, v1, v2, expected = tests[test - 1]
    if (of_path, of_direction, kind) != (number, direction, verdict) or not r.of_links(setting.net, rules.links, v1, v2) \
            or not r.meets(setting.net, path[1], path[2], direction, kind, v1, v2) \
            or kind == r.NONROBUST and r.meets(setting.net, path[1], path[2], direction, r.ROBUST, v1, v2):
        return "BadTest"
    ends = r.values(setting.net, v2)
    if expected != [ends[o] for o in setting.net.observed]:
        return "WrongExpected"
    return None
