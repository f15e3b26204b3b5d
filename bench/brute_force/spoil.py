#!/usr/bin/env python3
"""spoil.py PROGRAM MODE FIRST COUNT [EACH]: good runs' files, spoiled at EACH (20) places for each of COUNT circuits, judged by `check` and by
the judge.

Cases in which they differ are kept in failed/. Ends with 1 where there is one."""
import collections
import random
import re
import sys
import tempfile

import calling
import circuits
import judge as j
import reference as r

TESTS, REPORT, PROOFS, SCAN = range(4)
LONG = 12_000           # bytes of PROOFS above which a case is passed over


class Spoiler:
    """Texts of a good run as lists of lines, and ways to spoil them. A way answers False where there is nothing to spoil so."""

    def __init__(self, rng, setting, universe, texts, scan):
        self.rng, self.setting, self.universe = rng, setting, universe
        self.lines = [t.decode("latin-1").split("\n")[:-1] for t in texts] + [scan.decode("latin-1").split("\n")[:-1]]
        self.paths, self.budget = setting.paths, setting.budget
        self.raw = {}

    def texts(self):
        return [self.raw.get(at, "".join(line + "\n" for line in lines).encode("latin-1")) for at, lines in enumerate(self.lines)]

    def pick(self, which, head):
        """The number of a line behind the heading."""
        lines = self.lines[which]
        return self.rng.randrange(head, len(lines)) if len(lines) > head else None

    def field(self, which, head, sep, places, change):
        at = self.pick(which, head)
        if at is None:
            return False
        f = self.lines[which][at].split(sep)
        place = self.rng.choice([p for p in places if p < len(f)])
        new = change(f[place], f)
        if new is None:
            return False
        f[place] = new
        self.lines[which][at] = sep.join(f)
        return True

    def flip(self, text, _=None):
        if not text:
            return None
        at = self.rng.randrange(len(text))
        return text[:at] + ("0" if text[at] == "1" else "1") + text[at + 1:]

    def beside(self, text, _=None):
        """A number near by, or a dash, or not canonical."""
        if text == "-":
            return self.rng.choice(("1", "2", "0"))
        way = self.rng.random()
        n = int(text) if text.isdigit() else 0
        if way < 0.85:
            return str(max(0, n + self.rng.choice((-2, -1, 1, 1, 2))))
        return self.rng.choice(("-", "0" + text, "0", "", text + "0", "10001", "18446744073709551616"))

    # Tests

    def v1(self):
        return self.field(TESTS, 3, " ", [4], self.flip)

    def v2(self):
        return self.field(TESTS, 3, " ", [5], self.flip)

    def expected(self):
        return self.field(TESTS, 3, " ", [6], self.flip)

    def test_word(self):
        swap = {"rise": "fall", "fall": "rise", "robust": "nonrobust", "nonrobust": "robust"}
        return self.field(TESTS, 3, " ", [2, 3], lambda word, _: swap.get(word))

    def test_number(self):
        return self.field(TESTS, 3, " ", [0, 1], self.beside)

    def pair(self):
        """Another pair for a test: one that meets its conditions, of the mode or not; or one of the mode, whether or not it meets them."""
        at = self.pick(TESTS, 3)
        if at is None:
            return False
        f = self.lines[TESTS][at].split(" ")
        _, source, steps = self.setting.first[int(f[1]) - 1]
        universe, n = self.universe, self.setting.net.s
        meeting = universe.meeting(source, steps, f[2], self.rng.choice((f[3], f[3], r.ROBUST, r.NONROBUST)))
        mask = self.rng.choice((meeting, meeting & universe.of_mode, universe.of_mode, meeting & ~universe.of_mode))
        if not mask:
            return False
        shift = self.rng.randrange(universe.size)
        index = self.low_from(mask, shift)
        v1, v2 = ([index >> at & 1 for at in range(begin, begin + n)] for begin in (0, n))
        ends = r.values(self.setting.net, v2)
        f[4], f[5] = ("".join(map(str, v)) for v in (v1, v2))
        if self.rng.random() < 0.9:
            f[6] = "".join(str(ends[o]) for o in self.setting.net.observed)
        self.lines[TESTS][at] = " ".join(f)
        return True

    def low_from(self, mask, shift):
        high = mask >> shift
        if high:
            return shift + (high & -high).bit_length() - 1
        return (mask & -mask).bit_length() - 1

    # Report

    def report_cell(self):
        return self.field(REPORT, 1, ",", [0, 2, 6, 7, 8], self.beside)

    def report_cells_of_proofs(self):
        """Another lawful number of a proof."""
        most = len(self.lines[PROOFS]) - 1
        return most > 0 and self.field(REPORT, 1, ",", [7, 8], lambda word, _: None if word == "-" else str(self.rng.randint(1, most)))

    def length(self):
        """Another length in both lines of a path."""
        at = self.pick(REPORT, 1)
        if at is None:
            return False
        first = at if at % 2 else at - 1
        new = self.beside(self.lines[REPORT][first].split(",")[2])
        for line in (first, first + 1):
            f = self.lines[REPORT][line].split(",")
            f[2] = new
            self.lines[REPORT][line] = ",".join(f)
        return True

    def path(self):
        """Other steps, or another source, in both lines of a path, or two paths' parts in each other's places."""
        at = self.pick(REPORT, 1)
        if at is None:
            return False
        first, other = (a if a % 2 else a - 1 for a in (at, self.pick(REPORT, 1)))
        a, b = (self.lines[REPORT][line].split(",") for line in (first, other))
        way = self.rng.random()
        net = self.setting.net
        if way < 0.3:
            new = a[:2] + b[2:5]
        elif way < 0.5:
            new = a[:3] + [net.names[self.rng.randrange(net.s)]] + a[4:5]
        elif way < 0.8 and net.gates:
            g = self.rng.randrange(len(net.gates))
            steps = [] if a[4] == "-" else a[4].split(" ")
            steps[self.rng.randrange(len(steps) + 1):][:1] = []
            steps.insert(self.rng.randrange(len(steps) + 1), "%s:%d" % (net.names[net.s + g], self.rng.randrange(len(net.gates[g][1]))))
            new = a[:4] + [" ".join(steps)]
        else:
            new = a[:4] + [" ".join(a[4].split(" ")[:-1]) or "-"]
        for line in (first, first + 1):
            f = self.lines[REPORT][line].split(",")
            f[2:5] = new[2:5]
            self.lines[REPORT][line] = ",".join(f)
        return True

    def verdict_word(self):
        return self.field(REPORT, 1, ",", [5], lambda word, _: self.rng.choice(list(j.HAS)))

    def verdict(self):
        """Another verdict, with cells, tests and proofs that fit by form."""
        at = self.pick(REPORT, 1)
        if at is None:
            return False
        f = self.lines[REPORT][at].split(",")
        old = f[5]
        new = self.rng.choice([v for v in j.HAS if v != old])
        had = f[6:]
        has = j.HAS[new]
        f[5] = new
        most = max(1, len(self.lines[PROOFS]) - 1)
        f[6] = had[0] if has[0] and had[0] != "-" else "1" if has[0] else "-"
        for place in (1, 2):
            cited = next((c for c in had[1:] if c != "-"), str(self.rng.randint(1, most)))
            f[6 + place] = (had[place] if had[place] != "-" else cited) if has[place] else "-"
        self.lines[REPORT][at] = ",".join(f)
        tests = [line.split(" ") for line in self.lines[TESTS][3:]]
        by_fault = {(t[1], t[2]): t for t in tests}
        net, kept = self.setting.net, []
        for line in self.lines[REPORT][1:]:
            g = line.split(",")
            if g[6] == "-":
                continue
            t = by_fault.get((g[0], g[1]), ["", g[0], g[1], g[5], "0" * net.s, "1" * net.s, "0" * len(net.observed)])
            t[3] = g[5]
            kept.append(t)
        number = 0
        for place, line in enumerate(self.lines[REPORT]):
            g = line.split(",")
            if place and g[6] != "-":
                number += 1
                g[6] = str(number)
                self.lines[REPORT][place] = ",".join(g)
        self.lines[TESTS][3:] = [" ".join([str(n)] + t[1:]) for n, t in enumerate(kept, 1)]
        if self.rng.random() < 0.8:
            self.renumber()
        return True

    def renumber(self):
        """Numbers the proofs that are named in the order of the report, and drops the others."""
        new, proofs = {}, self.lines[PROOFS][1:]
        for place, line in enumerate(self.lines[REPORT]):
            if place == 0:
                continue
            f = line.split(",")
            for cell in (7, 8):
                if f[cell].isdigit() and 1 <= int(f[cell]) <= len(proofs):
                    f[cell] = str(new.setdefault(int(f[cell]), len(new) + 1))
            self.lines[REPORT][place] = ",".join(f)
        self.lines[PROOFS][1:] = [" ".join([str(number)] + proofs[old - 1].split(" ")[1:]) for old, number in sorted(new.items(), key=lambda pair: pair[1])]

    def drop_path(self):
        """The last path left out, or one more at the end."""
        lines = self.lines[REPORT]
        if len(lines) < 3:
            return False
        if self.rng.random() < 0.7:
            del lines[-2:]
        else:
            number = str(len(lines) // 2 + 1)
            lines += [",".join([number] + line.split(",")[1:]) for line in lines[-2:]]
        return True

    # Proofs

    def proof_number(self):
        return self.field(PROOFS, 1, " ", [0, 4, 5, 5, 5], self.beside)

    def proof_word(self):
        swap = {"rise": "fall", "fall": "rise", "robust": "nonrobust", "nonrobust": "robust", "refutes": "spent", "spent": "refutes"}
        return self.field(PROOFS, 1, " ", [1, 2, 3], lambda word, _: swap.get(word))

    def tree(self, change):
        at = self.pick(PROOFS, 1)
        if at is None:
            return False
        split = [n for n in range(1, len(self.lines[PROOFS])) if any(" " + letter in self.lines[PROOFS][n] for letter in j.SPLITS)]
        spent = [n for n in split if " spent " in self.lines[PROOFS][n]]
        if split and self.rng.random() < 0.7:
            at = self.rng.choice(spent if spent and self.rng.random() < 0.7 else split)
        f = self.lines[PROOFS][at].split(" ")
        tree = f[6:]
        if change(tree) is False:
            return False
        self.lines[PROOFS][at] = " ".join(f[:6] + tree)
        return True

    def any_split(self):
        """A split at a source, or, where the version may have it, mostly at any line."""
        net = self.setting.net
        if self.lines[PROOFS][0][-1:] in ("4", "5") and self.rng.random() < 0.7:
            return self.rng.choice("VVHF" if self.setting.mode != "enhanced" else "VVH") + str(self.rng.randrange(len(net.names)))
        return self.rng.choice("VVH") + str(self.rng.randrange(net.s))

    def widen(self):
        """The mode's version of splits at any line."""
        self.lines[PROOFS][0] = "pdfgen proofs " + ("4" if self.setting.mode == "enhanced" else "5")

    def at_any_line(self):
        """That version, and some closed leaves made splits with two mostly closed leaves; so a refutation mostly stays one, within the budget."""
        self.widen()

        def change(tree):
            at = self.rng.randrange(len(tree))
            if tree[at] != "X":
                return False
            tree[at:at + 1] = [self.any_split(), "X", self.rng.choice("XXXXXO")]
            return True
        return any([self.tree(change) for _ in range(self.rng.choice((1, 1, 2, 4)))])

    def node(self):
        def change(tree):
            at = self.rng.randrange(len(tree))
            n, lines = self.setting.net.s, len(self.setting.net.names)
            word = tree[at]
            way = self.rng.random()
            if word[0] in "XO":
                tree[at] = self.rng.choice(("O" if word == "X" else "X", "V%d" % self.rng.randrange(n), word)) if way < 0.9 else "Y"
                return tree[at] != word
            if way < 0.4:
                tree[at] = self.rng.choice([letter for letter in "VHVHF" if letter != word[0]]) + word[1:]
            elif way < 0.9:
                tree[at] = word[0] + str(self.rng.randrange((n if way < 0.65 else lines) + 1))
            else:
                tree[at] = self.rng.choice(("X", "V", "V0" + word[1:], "V-1", "v" + word[1:]))
            return tree[at] != word
        return self.tree(change)

    def end_of_subtree(self, tree, at):
        due = 1
        while due:
            due += 1 if tree[at][0] in j.SPLITS else -1
            at += 1
        return at

    def subtree(self):
        """A subtree made a leaf, a leaf made a split, two halves exchanged, or a half in place of its split."""
        def change(tree):
            at = self.rng.randrange(len(tree))
            end = self.end_of_subtree(tree, at)
            way = self.rng.random()
            if tree[at][0] in "XO":
                leaf = self.rng.choice(("X", "O", tree[at]))
                tree[at:end] = [self.any_split(), leaf, self.rng.choice((tree[at], "X", "O"))]
                return True
            middle = self.end_of_subtree(tree, at + 1)
            if way < 0.4:
                tree[at:end] = [self.rng.choice("XXO")]
            elif way < 0.7:
                tree[at + 1:end] = tree[middle:end] + tree[at + 1:middle]
            else:
                tree[at:end] = tree[at + 1:middle] if self.rng.random() < 0.5 else tree[middle:end]
            return True
        return self.tree(change)

    def spent_move(self):
        """An open leaf made a split with two open halves, and a split with two open halves made open: the number of splits stays."""
        def change(tree):
            opens = [at for at, w in enumerate(tree) if w == "O"]
            pairs = [at for at in range(len(tree) - 2) if tree[at][0] in j.SPLITS and tree[at + 1] in "XO" and tree[at + 2] in "XO"]
            if not opens or not pairs:
                return False
            a, b = self.rng.choice(opens), self.rng.choice(pairs)
            split = [self.any_split(), "O", self.rng.choice("OOX")]
            if b <= a <= b + 2:
                tree[b:b + 3] = split
            elif a < b:
                tree[b:b + 3] = ["O"]
                tree[a:a + 1] = split
            else:
                tree[a:a + 1] = split
                tree[b:b + 3] = ["O"]
            return True
        return self.tree(change)

    def longer(self):
        """The proof for a longer prefix, or under another listed path with this prefix."""
        at = self.pick(PROOFS, 1)
        if at is None:
            return False
        f = self.lines[PROOFS][at].split(" ")
        most = len(self.setting.first[int(f[4]) - 1][2])
        if self.rng.random() < 0.5:
            if int(f[5]) >= most:
                return False
            f[5] = str(self.rng.randint(int(f[5]) + 1, most))
        else:
            path, count = self.setting.first[int(f[4]) - 1], int(f[5])
            others = [n for n, other in enumerate(self.setting.first, 1) if j.same_prefix(path, other, count) and str(n) != f[4]]
            if not others:
                return False
            f[4] = str(self.rng.choice(others))
        self.lines[PROOFS][at] = " ".join(f)
        return True

    def version(self):
        self.lines[PROOFS][0] = "pdfgen proofs " + self.rng.choice(("1", "2", "3", "4", "4", "5", "5", "6", "03", ""))
        return True

    def version_and_flaw(self):
        return self.version() and self.any_line()

    def version_and_subtree(self):
        return self.at_any_line() and self.subtree()

    def version_and_spent_move(self):
        self.widen()
        return self.spent_move()

    def one_more_proof(self):
        """A proof doubled at the end, or the last one left out."""
        lines = self.lines[PROOFS]
        if len(lines) < 2:
            return False
        if self.rng.random() < 0.5:
            del lines[-1]
        else:
            lines.append(" ".join([str(len(lines))] + self.rng.choice(lines[1:]).split(" ")[1:]))
        return True

    def new_proof(self):
        """A line of the report names a proof of its own, a copy of the one that it named, and all are numbered anew."""
        at = self.pick(REPORT, 1)
        if at is None:
            return False
        f = self.lines[REPORT][at].split(",")
        cells = [c for c in (7, 8) if f[c].isdigit()]
        if not cells:
            return False
        cell = self.rng.choice(cells)
        proof = self.lines[PROOFS][int(f[cell])].split(" ")
        if self.rng.random() < 0.5:
            proof[4], proof[5] = f[0], str(len([] if f[4] == "-" else f[4].split(" ")))
        self.lines[PROOFS].append(" ".join([str(len(self.lines[PROOFS]))] + proof[1:]))
        f[cell] = str(len(self.lines[PROOFS]) - 1)
        self.lines[REPORT][at] = ",".join(f)
        self.renumber()
        return True

    def swapped_proofs(self):
        """Two proofs in each other's places, with or without their numbers."""
        lines = self.lines[PROOFS]
        if len(lines) < 3:
            return False
        a, b = self.rng.sample(range(1, len(lines)), 2)
        lines[a], lines[b] = lines[b], lines[a]
        if self.rng.random() < 0.8:
            for at in (a, b):
                lines[at] = " ".join([str(at)] + lines[at].split(" ")[1:])
        return True

    # All files

    def any_line(self):
        which = self.rng.choice((TESTS, REPORT, PROOFS))
        lines = self.lines[which]
        at = self.rng.randrange(len(lines))
        way = self.rng.random()
        if way < 0.3:
            del lines[at]
        elif way < 0.5:
            lines.insert(at, lines[at])
        elif way < 0.6:
            lines.insert(at, "")
        elif at + 1 < len(lines):
            lines[at], lines[at + 1] = lines[at + 1], lines[at]
        else:
            return False
        return True

    def byte(self):
        which = self.rng.choice((TESTS, REPORT, PROOFS))
        text = self.texts()[which]
        at = self.rng.randrange(len(text))
        way = self.rng.random()
        if way < 0.5:
            text = text[:at] + bytes([self.rng.choice(b"01 XOVH-,:\n\r9a#\xc3\"")]) + text[at + 1:]
        elif way < 0.65:
            text = text[:at] + text[at + 1:]
        elif way < 0.8:
            text = text[:at] + text[at:at + 1] + text[at:]
        else:
            text = text[:at]
        self.raw[which] = text
        return True

    def words(self):
        """Other words of the call: another budget or number of paths."""
        if self.rng.random() < 0.6:
            self.budget = max(1, min(1_000_000, self.budget + self.rng.choice((-2, -1, 1, 2, 50))))
        else:
            self.paths = max(1, self.paths + self.rng.choice((-1, 1, -3)))
        return True

    def scan(self):
        lines = self.lines[SCAN]
        if self.setting.mode != "skewed":
            return False
        way = self.rng.random()
        if way < 0.3 and len(lines) > 1:
            a, b = self.rng.sample(range(len(lines)), 2)
            lines[a], lines[b] = lines[b], lines[a]
        elif way < 0.45 and lines:
            del lines[self.rng.randrange(len(lines))]
        elif way < 0.6:
            lines.insert(self.rng.randrange(len(lines) + 1), "")
        elif way < 0.75 and lines:
            lines.insert(self.rng.randrange(len(lines) + 1), self.rng.choice(lines))
        elif way < 0.85:
            lines.insert(self.rng.randrange(len(lines) + 1), self.rng.choice(("nobody", " q0", "q0 ", "q0\r", "i0", "g0")))
        else:
            text = self.texts()[SCAN]
            if not text:
                return False
            self.raw[SCAN] = text[:self.rng.randrange(len(text))]
        return True


WAYS = ("v1", "v2", "expected", "test_word", "test_number", "pair", "pair", "report_cell", "report_cells_of_proofs", "length", "path", "verdict_word", "verdict",
        "verdict", "drop_path", "proof_number", "proof_word", "node", "node", "subtree", "subtree", "spent_move", "longer", "version", "version_and_flaw",
        "at_any_line", "at_any_line", "version_and_subtree", "version_and_spent_move", "one_more_proof", "new_proof", "swapped_proofs", "any_line", "byte", "byte", "words", "scan")

OF_TREES = ("node", "subtree", "spent_move", "spent_move", "proof_number", "proof_word", "longer", "at_any_line",
            "version_and_spent_move")


def due_of(setting, spoiler, texts, memo):
    """Status, out and err that check has to give."""
    if setting.mode == "skewed":
        try:
            setting.set_scan(texts[SCAN])
        except r.ScanRefused as e:
            return 10, "", "scan: %s\n" % e
    if spoiler.paths != setting.paths:
        setting.first = r.first_paths(setting.net, setting.delays, spoiler.paths)
    setting.budget, setting.paths = spoiler.budget, spoiler.paths
    said = j.check(setting, *texts[:3], memo)
    return (0, "good\n", "") if said == "good" else (1, "", said + "\n")


def one(program, knows, mode, seed, each, tally):
    case = circuits.make(seed, mode, most_paths=60, whole=0.4)
    bad = 0
    with tempfile.TemporaryDirectory() as folder:
        files = calling.Folder(program, folder, case)
        ended = files.call("gen")
        if ended[0] != 0 or files.call("check") != (0, "good\n", ""):
            print(mode, seed, "gen or check doesn't end with 0", ended)
            files.keep("%s-%d" % (mode, seed), "gen or check")
            return 1
        good = files.texts()
        if len(good[PROOFS]) > LONG:
            tally["too long"] += 1
            return 0
        universe = r.Universe(j.Setting(case).net, j.Setting(case).links)
        rng, memo, tried = random.Random(seed), {}, 0
        for _ in range(each * 5):
            if tried >= each:
                break
            setting = j.Setting(case, knows=knows)
            spoiler = Spoiler(rng, setting, universe, good, case.scan)
            of_trees = any(" spent " in line for line in spoiler.lines[PROOFS]) and rng.random() < 0.4
            ways = [rng.choice(OF_TREES if of_trees else WAYS) for _ in range(rng.choice((1, 1, 1, 1, 2)))]
            try:
                if not all([getattr(spoiler, way)() for way in ways]):
                    continue
            except (IndexError, ValueError, KeyError):        # a second way on a line that the first one broke
                if len(ways) == 1:
                    raise
                continue
            texts = spoiler.texts()
            if texts == [*good, case.scan] and (spoiler.paths, spoiler.budget) == (case.paths, case.budget):
                continue
            tried += 1
            for name, text in zip(("tests", "report", "proofs", "scan"), texts):
                files.at[name].write_bytes(text)
            due = due_of(setting, spoiler, texts, memo)
            is_ = files.call("check", paths=spoiler.paths, budget=spoiler.budget)
            tally[re.sub(r"\d+|missing .*", "N", (due[2] or due[1]).strip())] += 1
            tally["all"] += 1
            if is_ != due:
                bad += 1
                print(mode, seed, ways, "check says", is_, "for", due, "paths", spoiler.paths, "budget", spoiler.budget, flush=True)
                files.keep("%s-%d-spoil-%d" % (mode, seed, tried), "%s\n%s for %s\npaths %d budget %d" % (ways, is_, due, spoiler.paths, spoiler.budget))
    return bad


def main():
    program, mode, first, count = sys.argv[1], sys.argv[2], int(sys.argv[3]), int(sys.argv[4])
    each = int(sys.argv[5]) if len(sys.argv) > 5 else 20
    modes = calling.modes_of(program)
    if mode not in modes:
        print("%s has no mode %s" % (program, mode))
        return 2
    knows = len(modes) > 1
    tally, bad = collections.Counter(), 0
    for seed in range(first, first + count):
        bad += one(program, knows, mode, seed, each, tally)
    for said, times in tally.most_common():
        print("%7d  %s" % (times, said))
    print("%s from %d: bad %d of %d" % (mode, first, bad, tally["all"]))
    return 1 if bad else 0


if __name__ == "__main__":
    sys.exit(main())
