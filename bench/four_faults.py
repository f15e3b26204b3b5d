"""A netlist of two paths and four faults, with the three files of its run, a delay file of two delays for each pin and a tester's log, written
down by hand; the same with a flip-flop, in mode broadside, and with a scan chain of two, in mode skewed; and calls on them. For the scripts
beside it."""

NET = "INPUT(a)\nOUTPUT(y)\nn = BUFF(a)\ny = AND(a, n)\n"
DELAYS = "gate,pin,delay\n"
TESTS = "pdfgen tests 1\nsources a\nobserved y\n1 1 rise robust 0 1 1\n2 2 rise robust 0 1 1\n"
REPORT = (
    "path,direction,length,source,steps,verdict,test,robust_proof,nonrobust_proof\n"
    "1,rise,2,a,n:0 y:1,robust,1,-,-\n"
    "1,fall,2,a,n:0 y:1,untestable,-,-,1\n"
    "2,rise,1,a,y:0,robust,2,-,-\n"
    "2,fall,1,a,y:0,untestable,-,-,2\n"
)
PROOFS = "pdfgen proofs 1\n1 refutes nonrobust fall 1 2 X\n2 refutes nonrobust fall 2 1 X\n"
# The version that `gen` writes; check judges both.
GEN_VERSION = 2
GEN_PROOFS = PROOFS.replace("proofs 1", f"proofs {GEN_VERSION}", 1)
SUMMARY = "paths 2 robust 2 nonrobust 0 untestable 2 aborted 0\n"
# A rise and a fall delay for each pin, and a tester's log of the tests.
TWO_DELAYS = "gate,pin,rise,fall\nn,0,5,2\n"
LOG = "test,time,result\n1,7,pass\n2,3,pass\n1,2,fail\n"
# Either test serves both rises, so one of them is kept.
KEPT = "kept 1 of 2\n"
KEPT_FILES = [TESTS[:TESTS.index("1 1")] + f"1 {path} rise robust 0 1 1\n" for path in (1, 2)]
# What rfreplay prints at time 5, and bounds.
LATE = "1 0 differs late\n2 0 differs met\n"
BOUNDS = "1 rise 3\n1 fall -\n2 rise 3\n2 fall -\n"
# A flip-flop that reads its own output, and its run in mode broadside.
LINKED_NET = "INPUT(a)\nOUTPUT(d)\nq = DFF(d)\nd = AND(a, q)\n"
LINKED_TESTS = "pdfgen tests 1\nsources a q\nobserved d\n1 1 fall robust 11 01 0\n2 2 fall nonrobust 01 10 0\n"
LINKED_REPORT = (
    "path,direction,length,source,steps,verdict,test,robust_proof,nonrobust_proof\n"
    "1,rise,1,a,d:0,untestable,-,-,1\n"
    "1,fall,1,a,d:0,robust,1,-,-\n"
    "2,rise,1,q,d:1,untestable,-,-,2\n"
    "2,fall,1,q,d:1,nonrobust,2,3,-\n"
)
LINKED_PROOFS = "pdfgen proofs 3\n1 refutes nonrobust rise 1 1 X\n2 refutes nonrobust rise 2 0 X\n3 refutes robust fall 2 1 X\n"
LINKED_SUMMARY = "paths 2 robust 1 nonrobust 1 untestable 2 aborted 0\n"
# A scan chain of two flip-flops, which take the conjunction of both, their run in mode skewed, and what scan prints of its tests.
SCANNED_NET = "OUTPUT(d)\nq1 = DFF(d)\nq2 = DFF(d)\nd = AND(q1, q2)\n"
SCAN = "q1\nq2\n"
SCANNED_TESTS = ("pdfgen tests 1\nsources q1 q2\nobserved d\n"
                 "1 1 fall robust 11 01 0\n2 2 rise robust 10 11 1\n3 2 fall nonrobust 01 10 0\n")
SCANNED_REPORT = (
    "path,direction,length,source,steps,verdict,test,robust_proof,nonrobust_proof\n"
    "1,rise,1,q1,d:0,untestable,-,-,1\n"
    "1,fall,1,q1,d:0,robust,1,-,-\n"
    "2,rise,1,q2,d:1,robust,2,-,-\n"
    "2,fall,1,q2,d:1,nonrobust,3,2,-\n"
)
SCANNED_PROOFS = "pdfgen proofs 3\n1 refutes nonrobust rise 1 1 X\n2 refutes robust fall 2 1 X\n"
SCANNED_SUMMARY = "paths 2 robust 2 nonrobust 1 untestable 1 aborted 0\n"
STRINGS = "1 110\n2 011\n3 101\n"
# Longer than each of the outputs, so that it shows where a file was not cut.
OLD = "0" * 1000

OUTPUTS = (("tests", TESTS), ("report", REPORT), ("proofs", PROOFS), ("kept", OLD))
INPUTS = (("net", NET), ("delays", DELAYS), ("two_delays", TWO_DELAYS), ("log", LOG), ("linked_net", LINKED_NET), ("linked_tests", LINKED_TESTS),
          ("linked_report", LINKED_REPORT), ("linked_proofs", LINKED_PROOFS), ("scanned_net", SCANNED_NET), ("scan", SCAN),
          ("scanned_tests", SCANNED_TESTS), ("scanned_report", SCANNED_REPORT), ("scanned_proofs", SCANNED_PROOFS))
# Files that are refused, each for a reason whose line names something.
REFUSED = (
    ("other_net", NET.replace("BUFF(a)", "BUFF(b)")),
    ("other_delays", DELAYS + "z,0,1\n"),
    ("other_tests", TESTS.replace("robust 0", "robust 2")),
    ("other_proofs", PROOFS.replace("1 X", "1 V0 X O")),
    ("other_two_delays", TWO_DELAYS + "n,0,1,x\n"),
    ("other_report", REPORT.replace("n:0 y:1", "n:0 y:0")),
    ("other_bits", TESTS.replace("0 1 1\n2", "0 1 0\n2")),
    ("other_log", LOG + "3,1,pass\n"),
    ("other_scan", "q1\n"),
    ("other_pair", SCANNED_TESTS.replace("11 01 0", "11 00 0")),
)

FILES = ["net", "delays", "tests", "report", "proofs"]
GEN_FILES = [TESTS, REPORT, GEN_PROOFS]
LINKED_GEN = ["gen", "linked_net", *FILES[1:], "--mode", "broadside"]
LINKED_CHECK = ["check", "linked_net", "delays", "linked_tests", "linked_report", "linked_proofs"]
SKEWED = ["--mode", "skewed", "--scan"]
SCANNED_GEN = ["gen", "scanned_net", *FILES[1:], *SKEWED, "scan"]
SCANNED_CHECK = ["check", "scanned_net", "delays", "scanned_tests", "scanned_report", "scanned_proofs", *SKEWED]
# What is called, the words, and the status.
CALLS = [
    ("gen", ["gen", *FILES], 0),
    ("check", ["check", *FILES], 0),
    ("gen, mode broadside", LINKED_GEN, 0),
    ("check, mode broadside", [*LINKED_CHECK, "--mode=broadside"], 0),
    ("gen, mode skewed", SCANNED_GEN, 0),
    ("check, mode skewed", [*SCANNED_CHECK, "scan"], 0),
    ("scan", ["scan", "scanned_net", "scan", "scanned_tests"], 0),
    ("replay", ["replay", "net", "delays", "tests", "1"], 0),
    ("make", ["make", "2"], 0),
    ("rfreplay", ["rfreplay", "net", "two_delays", "tests", "report", "5"], 0),
    ("compact", ["compact", "net", "tests", "report", "kept"], 0),
    ("bounds", ["bounds", "net", "tests", "report", "log"], 0),
    ("check, a line malformed", ["check", "net", "delays", "other_tests", "report", "proofs"], 1),
    ("check, a proof bad", ["check", "net", "delays", "tests", "report", "other_proofs"], 1),
    ("check, proofs of another mode", LINKED_CHECK, 1),
    ("rfreplay, a line malformed", ["rfreplay", "net", "two_delays", "other_tests", "report", "5"], 1),
    ("compact, a path wrong", ["compact", "net", "tests", "other_report", "kept"], 1),
    ("bounds, bits wrong", ["bounds", "net", "other_bits", "report", "log"], 1),
    ("scan, a line malformed", ["scan", "scanned_net", "scan", "tests"], 1),
    ("no words", [], 2),
    ("an option twice", ["gen", *FILES, "--paths=5", "--paths", "6"], 2),
    ("gen, a netlist refused", ["gen", "other_net", *FILES[1:]], 3),
    ("gen, delays refused", ["gen", "net", "other_delays", *FILES[2:]], 4),
    ("rfreplay, delays refused", ["rfreplay", "net", "other_two_delays", "tests", "report", "5"], 4),
    ("gen, DELAYS absent", ["gen", "net", "absent", *FILES[2:]], 5),
    ("bounds, LOG absent", ["bounds", "net", "tests", "report", "absent"], 5),
    ("gen, REPORT in no folder", ["gen", "net", "delays", "tests", "absent/report", "proofs"], 6),
    ("compact, OUT in no folder", ["compact", "net", "tests", "report", "absent/kept"], 6),
    ("gen, texts too long", ["gen", "long_name", "delays", *FILES[2:], "--paths", "10000", "--budget", "1"], 8),
    ("gen, a scan file refused", [*SCANNED_GEN[:-1], "other_scan"], 10),
    ("check, a scan file refused", [*SCANNED_CHECK, "other_scan"], 10),
    ("scan, a pair that no shift launches", ["scan", "scanned_net", "scan", "other_pair"], 11),
    ("bounds, a log refused", ["bounds", "net", "tests", "report", "other_log"], 12),
]


def long_way():
    """A row of buffers of so many lines, and names so long, that 10,000 paths are too long a text."""
    names = ["n" * 200 + f"{at:02}" for at in range(40)]
    gates = "".join(f"{name} = BUFF({before})\n" for before, name in zip(names, names[1:]))
    return f"INPUT({names[0]})\nOUTPUT({names[-1]})\n{gates}y = AND({names[0]}, {names[0]})\nOUTPUT(y)\n"


def before(words):
    """What the outputs hold before a call with these words: old texts where it is to write them."""
    return [OLD] * len(OUTPUTS) if words[:1] == ["gen"] else [text for _, text in OUTPUTS]


def prepare(folder, words):
    """Puts the files into a folder as they stand before a call with these words."""
    for name, text in (*INPUTS, *REFUSED, ("long_name", long_way())):
        (folder / name).write_text(text)
    for (name, _), text in zip(OUTPUTS, before(words)):
        (folder / name).write_text(text)


def outputs_in(folder):
    """What the three outputs of gen and the one of compact hold."""
    return [(folder / name).read_text() for name, _ in OUTPUTS]


def is_as_written_down(words, out, files):
    """Whether a call with memory leaves what a person wrote down: the run of gen, a test that compact keeps; for the others the files as
    before, and what rfreplay, bounds and scan print."""
    *others, kept = files
    if words == ["gen", *FILES]:
        return out == SUMMARY and files == [*GEN_FILES, OLD]
    if words == LINKED_GEN:
        return out == LINKED_SUMMARY and files == [LINKED_TESTS, LINKED_REPORT, LINKED_PROOFS, OLD]
    if words == SCANNED_GEN:
        return out == SCANNED_SUMMARY and files == [SCANNED_TESTS, SCANNED_REPORT, SCANNED_PROOFS, OLD]
    if out and words[0] == "compact":
        return out == KEPT and others == before(words)[:-1] and kept in KEPT_FILES
    printed = {"rfreplay": LATE, "bounds": BOUNDS, "scan": STRINGS}.get(words[0] if words else None)
    return words[:1] == ["gen"] or (files == before(words) and (not out or printed in (None, out)))


def stand_in_turn(found, whole, before):
    """Whether these are whole files, then at most one front of its text, then files as they were before."""
    begun = next((at for at, text in enumerate(found) if text != whole[at]), len(found))
    behind = begun + 1
    if found[begun:] == before[begun:]:
        return True
    return found[behind:] == before[behind:] and found[begun] is not None and whole[begun].startswith(found[begun])
