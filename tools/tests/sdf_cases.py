"""Small SDF files for one netlist, with the delays that they tell of its pins, worked out by hand: test_sdf.py asks pdfgen-sdf for these, and
where OpenSTA reads such a file, test_sdf_judge.py asks it for the same. Refused files stand in REFUSED, with whether OpenSTA refuses them, too."""
from __future__ import annotations

from typing import Dict, NamedTuple, Optional, Tuple

# a and b come in; f takes n NAND b at the rising edge of clk; z is the exclusive or of f and b, w (inside of core) the AND of z and n.
# up[0] shows z by a wire of its own, up[1] shows w.
NET = """INPUT(a)
INPUT(b)
OUTPUT(up[0]%output)
OUTPUT(up[1]%output)
n = NOT(a)
m = NAND(n, b)
q = DFF(q%setup)
q%setup = BUFF(m)
q%clock_to_q = BUFF(q)
z = XOR(q%clock_to_q, b)
w = AND(z, n)
up[0]%output = BUFF(z)
up[1]%output = BUFF(w)
"""
MAP = """pdfgen map 2
what,name,line,value
clock,clk,,rising
held,rst,,1
input,a,a,
input,b,b,
output,up[0],up[0]%output,
output,up[1],up[1]%output,
flip_flop,f,q,
gate,u1,n,A
gate,u2,m,A B
gate,u3,z,A B
gate,core.u4,w,A B
setup,f,q%setup,D
clock_to_q,f,q%clock_to_q,C
output_wire,up[0],up[0]%output,
output_wire,up[1],up[1]%output,
bus,up,,0:1
"""
# The same for OpenSTA. DXOR is an XOR whose delays have conditions.
VERILOG = """module inside (z, n, w); input z, n; output w; AND u4 (.A(z), .B(n), .Y(w)); endmodule
module top (a, b, clk, rst, up); input a, b, clk, rst; output [0:1] up; wire n, m, q;
NOT u1 (.A(a), .Y(n)); NAND u2 (.A(n), .B(b), .Y(m)); DFF f (.D(m), .C(clk), .R(rst), .Q(q));
DXOR u3 (.A(q), .B(b), .Y(up[0])); inside core (.z(up[0]), .n(n), .w(up[1])); endmodule
"""
KINDS = {"": "top", "core": "inside", "u1": "NOT", "u2": "NAND", "u3": "DXOR", "core/u4": "AND", "core.u4": "AND", "f": "DFF"}  # of each instance
PINS = {  # where OpenSTA has the delays of a pin of NET: from which pin to which, and from which the wire to it comes
    "n,0": ("u1/A", "u1/Y", "a"), "m,0": ("u2/A", "u2/Y", "u1/Y"), "m,1": ("u2/B", "u2/Y", "b"), "q%setup,0": ("f/C", "f/D", "u2/Y"),
    "q%clock_to_q,0": ("f/C", "f/Q", ""), "z,0": ("u3/A", "u3/Y", "f/Q"), "z,1": ("u3/B", "u3/Y", "b"),
    "w,0": ("core/u4/A", "core/u4/Y", "u3/Y"), "w,1": ("core/u4/B", "core/u4/Y", "u1/Y"), "up[0]%output,0": ("", "up[0]", "u3/Y"),
    "up[1]%output,0": ("", "up[1]", "core/u4/Y")}

Told = Dict[str, Tuple[Optional[int], Optional[int]]]  # for a pin of NET its delays in picoseconds; None where an edge isn't told
UNTOLD: Told = {"up[0]%output,0": (0, 0), "up[1]%output,0": (0, 0)}  # pins that carry a wire alone: without one their delay is 0


class Case(NamedTuple):
    """What a file tells: text stands behind its header. ignored: how the counts of what was ignored are printed. judged: whether OpenSTA
    says the same."""
    text: str
    told: Told
    ignored: str = ""
    corner: str = "max"
    header: str = "(DIVIDER /) (TIMESCALE 1ps)"
    judged: bool = True


class Refusal(NamedTuple):
    """How a file is refused, and whether OpenSTA refuses or warns of it, too."""
    text: str
    line: str
    judged: bool = True
    header: str = "(DIVIDER /) (TIMESCALE 1ps)"


def cell(instance: str, *entries: str, word: str = "ABSOLUTE", kind: str = "") -> str:
    """A CELL with these delays, of the kind that it has in VERILOG if no other is told."""
    return f'(CELL (CELLTYPE "{kind or KINDS.get(instance, "any")}") (INSTANCE {instance}) (DELAY ({word} {" ".join(entries)})))\n'


def checks(*entries: str) -> str:
    """The timing checks of f."""
    return f'(CELL (CELLTYPE "DFF") (INSTANCE f) (TIMINGCHECK {" ".join(entries)}))\n'


def file(case_text: str, header: str) -> str:
    return f'(DELAYFILE (SDFVERSION "3.0") {header}\n{case_text})\n'


CASES: Dict[str, Case] = {
    # values and corners
    "greatest of three": Case(cell("u1", "(IOPATH A Y (1:2:4) (3:5:8))"), {"n,0": (8, 4)}),
    "least of three": Case(cell("u1", "(IOPATH A Y (1:2:4) (3:5:8))"), {"n,0": (3, 1)}, corner="min"),
    "middle of three": Case(cell("u1", "(IOPATH A Y (1:2:4) (3:5:8))"), {"n,0": (5, 2)}, corner="typ", judged=False),
    "two of three": Case(cell("u1", "(IOPATH A Y (1::4) (3::3))"), {"n,0": (3, 4)}),
    "one for both": Case(cell("u2", "(IOPATH A Y (7))"), {"m,0": (7, 7)}),
    "blanks inside": Case(cell("u1", "( IOPATH A Y ( 1 : 2 : 4 )( 8 )\n)"), {"n,0": (8, 4)}),
    "spellings of numbers": Case(cell("u1", "(IOPATH A Y (1.5e1) (.5E+1))") + cell("u2", "(IOPATH A Y (+3.0) (400e-2))"),
                                 {"n,0": (5, 15), "m,0": (4, 3)}, judged=False),
    "rounded up": Case(cell("u1", "(IOPATH A Y (1.00000000000000000001) (0.1))"), {"n,0": (1, 2)}, judged=False),
    "three values": Case(cell("u2", "(IOPATH A Y (3) (4) (9))"), {"m,0": (4, 3)}, "ignored 1 (values for z 1)"),
    "six values": Case(cell("u2", "(IOPATH A Y (3) (4) (9) (9) (9) (9))"), {"m,0": (4, 3)}, "ignored 4 (values for z 4)"),
    "twelve values": Case(cell("u2", "(IOPATH A Y (3) (4) " + "(9) " * 10 + ")"), {"m,0": (4, 3)}, "ignored 10 (values for z 10)", judged=False),
    "limits of pulses": Case(cell("u2", "(IOPATH A Y ((3) (1)) ((4) (1) (2)))"), {"m,0": (4, 3)}, "ignored 2 (limits of pulses 2)", judged=False),
    "retained": Case(cell("u2", "(IOPATH A Y (RETAIN (1) (2)) (3) (4))"), {"m,0": (4, 3)}, "ignored 1 (RETAIN 1)", judged=False),
    # which transitions
    "a fall alone": Case(cell("u2", "(IOPATH A Y () (2))"), {"m,0": (2, None)}),
    "a rise alone": Case(cell("core/u4", "(IOPATH A Y (3) ())"), {"w,0": (3, None)}),
    "nothing": Case(cell("u2", "(IOPATH A Y ())") + cell("u1", "(IOPATH A Y (1))"), {"n,0": (1, 1)}),
    "one edge of a pin": Case(cell("u2", "(IOPATH (posedge A) Y (5) (6))"), {"m,0": (6, None)}),
    "both edges of a pin": Case(cell("u2", "(IOPATH (posedge B) Y (7) (8)) (IOPATH (negedge B) Y (3) (4))"), {"m,1": (8, 3)}),
    "edges as numbers": Case(cell("u2", "(IOPATH (01 B) Y (7) (8)) (IOPATH (10 B) Y (3) (4))"), {"m,1": (8, 3)}, judged=False),
    "a gate that doesn't invert": Case(cell("core/u4", "(IOPATH A Y (3) (4)) (IOPATH B Y (5) (6))"), {"w,0": (3, 4), "w,1": (5, 6)}),
    "exclusive or": Case(cell("u3", "(IOPATH A Y (3) (4)) (IOPATH B Y (6) (5))"), {"z,0": (4, 4), "z,1": (6, 6)}),
    "edges of an exclusive or": Case(cell("u3", "(IOPATH (posedge A) Y (3) (4)) (IOPATH (negedge A) Y (5) (6))"), {"z,0": (4, 6)}),
    "exclusive or, a fall alone": Case(cell("u3", "(IOPATH A Y () (4))") + cell("u1", "(IOPATH A Y (1))"), {"n,0": (1, 1)}),
    # which entry counts
    "the last counts": Case(cell("u2", "(IOPATH A Y (9) (8))", "(IOPATH A Y (2) (1))"), {"m,0": (1, 2)}),
    "the last counts in another cell": Case(cell("u2", "(IOPATH A Y (9) (8))") + cell("u2", "(IOPATH A Y (2) ())"), {"m,0": (8, 2)}),
    "added": Case(cell("u2", "(IOPATH A Y (2) (5))") + cell("u2", "(IOPATH A Y (1) (-2))", word="INCREMENT"), {"m,0": (3, 3)}),
    "added to an edge": Case(cell("u3", "(IOPATH A Y (2) (5))") + cell("u3", "(IOPATH (negedge A) Y (8))", word="INCREMENT"),
                             {"z,0": (5, 13)}),
    "an edge, then both": Case(cell("u2", "(IOPATH (posedge A) Y (9))", "(IOPATH A Y (2) (1))"), {"m,0": (1, 2)}),
    # conditions
    "conditions of an exclusive or": Case(cell("u3", "(COND !B (IOPATH A Y (1) (2)))", "(COND B (IOPATH A Y (3) (4)))"), {"z,0": (4, 3)}),
    "conditions in words": Case(cell("u3", '(COND "low" B==1\'b0 (IOPATH A Y (1) (2)))', "(COND (B === 1'b1) && 1 (IOPATH A Y (3) (4)))"),
                                {"z,0": (4, 3)}, judged=False),
    "what no condition covers": Case(cell("u3", "(COND !B (IOPATH A Y (1) (2)))", "(CONDELSE (IOPATH A Y (7) (6)))"), {"z,0": (6, 7)}),
    "CONDELSE covers the rest alone": Case(cell("u3", "(COND !B (IOPATH A Y (9) (8)))", "(CONDELSE (IOPATH A Y (3) (4)))"), {"z,0": (9, 8)}),
    "CONDELSE behind one without a condition": Case(cell("u3", "(IOPATH A Y (9))", "(COND !B (IOPATH A Y (1) (2)))", "(CONDELSE (IOPATH A Y (3) (4)))"),
                                                    {"z,0": (4, 3)}, judged=False),
    "no entry for the other value": Case(cell("u3", "(COND !B (IOPATH A Y (1) (2)))") + cell("u1", "(IOPATH A Y (1))"), {"n,0": (1, 1)}),
    "a condition that a gate needs": Case(cell("core/u4", "(COND B (IOPATH A Y (1) (2)))", "(COND !B (IOPATH A Y (8) (9)))"),
                                          {"w,0": (1, 2)}, judged=False),
    "a condition on the pin that changes": Case(cell("u1", "(COND A (IOPATH A Y (1) (2)))", "(COND !A (IOPATH A Y (8) (9)))"),
                                               {"n,0": (2, 8)}, judged=False),  # it has its new value
    "one without a condition replaces": Case(cell("u3", "(COND B (IOPATH A Y (9) (9)))", "(IOPATH A Y (3) (4))"), {"z,0": (4, 4)}),
    "a condition behind one without": Case(cell("u3", "(IOPATH A Y (3) (4))", "(COND B (IOPATH A Y (9) (1)))"), {"z,0": (3, 9)}, judged=False),
    "added to all": Case(cell("u3", "(COND !B (IOPATH A Y (1) (2)))", "(COND B (IOPATH A Y (3) (4)))") +
                         cell("u3", "(IOPATH A Y (10))", word="INCREMENT"), {"z,0": (14, 13)}),
    # wires
    "a wire to a gate": Case(cell("", "(INTERCONNECT a u1/A (2) (3))") + cell("u1", "(IOPATH A Y (10))"), {"n,0": (12, 13)}),
    "a wire's last entry": Case(cell("", "(INTERCONNECT a u1/A (9) (9))", "(PORT u1/A (2) (3))") + cell("u1", "(IOPATH A Y (10))"), {"n,0": (12, 13)}),
    "a port inside of its cell": Case(cell("u1", "(PORT A (2) (3))", "(IOPATH A Y (10))"), {"n,0": (12, 13)}),
    "a wire to D": Case(cell("", "(INTERCONNECT u2/Y f/D (2) (3))") + checks("(SETUP D (posedge C) (10))"), {"q%setup,0": (12, 13)}),
    "wires to ports of a range": Case(cell("", "(INTERCONNECT u3/Y up[0] (2) (3))", "(INTERCONNECT core/u4/Y up[1] (5) (4))")
                                      + cell("u1", "(IOPATH A Y (1))"), {"n,0": (1, 1), "up[0]%output,0": (2, 3), "up[1]%output,0": (5, 4)}),
    "wires of 0 to the clock": Case(cell("", "(INTERCONNECT clk f/C (0) (0.00))", "(PORT f/C (0:0:0))") + cell("u1", "(IOPATH A Y (1))"), {"n,0": (1, 1)}),
    "wires to resets": Case(cell("", "(INTERCONNECT rst f/R (9))") + cell("u1", "(IOPATH A Y (1))"), {"n,0": (1, 1)}, "ignored 1 (resets 1)"),
    "a wire with one edge": Case(cell("", "(INTERCONNECT a u1/A () (3))") + cell("u1", "(IOPATH A Y (10))"), {"n,0": (None, 13)}),
    "a wire added to": Case(cell("", "(INTERCONNECT a u1/A (2) (3))") + cell("", "(PORT u1/A (1))", word="INCREMENT") +
                            cell("u1", "(IOPATH A Y (10))"), {"n,0": (13, 14)}),
    "wires inside of an instance": Case(cell("core", "(PORT u4/A (2))") + cell("core/u4", "(IOPATH A Y (10))"), {"w,0": (12, 12)}),
    # flip-flops
    "clock to Q": Case(cell("f", "(IOPATH (posedge C) Q (8) (9))"), {"q%clock_to_q,0": (8, 9)}),
    "clock to Q without an edge": Case(cell("f", "(IOPATH C Q (8) (9))"), {"q%clock_to_q,0": (8, 9)}),
    "clock to Q by a condition": Case(cell("f", "(COND R (IOPATH (posedge C) Q (8) (9)))", "(CONDELSE (IOPATH (posedge C) Q (1) (10)))"),
                                      {"q%clock_to_q,0": (8, 10)}, judged=False),
    "a reset's time": Case(cell("f", "(IOPATH R Q (1) (2))", "(IOPATH (posedge C) Q (8) (9))"), {"q%clock_to_q,0": (8, 9)}, "ignored 1 (resets 1)"),
    "setup": Case(checks("(SETUP D (posedge C) (4))"), {"q%setup,0": (4, 4)}),
    "setup of each edge": Case(checks("(SETUPHOLD (posedge D) (posedge C) (4) (-1))", "(SETUP (negedge D) C (7:8:9))"), {"q%setup,0": (4, 9)}),
    "the last setup counts": Case(checks("(SETUP D (posedge C) (9))", "(SETUPHOLD D (posedge C) (4) (1))"), {"q%setup,0": (4, 4)}),
    "setup under conditions": Case(checks("(SETUP (COND R D) (posedge C) (4))", "(SETUPHOLD D (COND !R (posedge C)) (3) (1))",
                                          "(SETUPHOLD (negedge D) (posedge C) (6) (1) (SCOND R) (CCOND \"c\" R == 1))"),
                                   {"q%setup,0": (4, 6)}, judged=False),
    "setup below 0": Case(checks("(SETUPHOLD D (posedge C) (-4) (5))"), {"q%setup,0": (0, 0)}, "ignored 1 (setup times below 0 1)", judged=False),
    "other checks": Case(checks("(SETUP D (posedge C) (4))", "(HOLD D (posedge C) (1))", "(WIDTH (posedge C) (2))", "(PERIOD C (3))",
                                "(RECOVERY (posedge R) (posedge C) (1))", "(REMOVAL R C (1))", "(SKEW C C (1))", "(NOCHANGE D C (1) (1))",
                                "(RECREM R C (1) (1) (SCOND D))", "(BIDIRECTSKEW C C (1) (1))"), {"q%setup,0": (4, 4)},
                         "ignored 9 (BIDIRECTSKEW 1, HOLD 1, NOCHANGE 1, PERIOD 1, RECOVERY 1, RECREM 1, REMOVAL 1, SKEW 1, WIDTH 1)", judged=False),
    # the file
    "10 picoseconds": Case(cell("u1", "(IOPATH A Y (1) (2))"), {"n,0": (20, 10)}, header="(DIVIDER /) (TIMESCALE 10ps)"),
    "100 picoseconds": Case(cell("u1", "(IOPATH A Y (1) (2))"), {"n,0": (200, 100)}, header="(DIVIDER /) (TIMESCALE 100.0 ps)"),
    "100 femtoseconds": Case(cell("u1", "(IOPATH A Y (10) (21))"), {"n,0": (3, 1)}, header="(DIVIDER /) (TIMESCALE 100 fs)", judged=False),
    "nanoseconds": Case(cell("u1", "(IOPATH A Y (0.004) (0.02))"), {"n,0": (20, 4)}, header="(DIVIDER /) (TIMESCALE 1ns)"),
    "nanoseconds, untold": Case(cell("u1", "(IOPATH A Y (0.004) (0.02))"), {"n,0": (20, 4)}, header="(DIVIDER /)"),
    "10 nanoseconds": Case(cell("u1", "(IOPATH A Y (0.004) (0.02))"), {"n,0": (200, 40)}, header="(DIVIDER /) (TIMESCALE 10 ns)"),
    "microseconds": Case(cell("u1", "(IOPATH A Y (0.000004) (0.00002))"), {"n,0": (20, 4)}, header="(DIVIDER /) (TIMESCALE 1.0us)"),
    "milliseconds": Case(cell("u1", "(IOPATH A Y (4e-9) (2e-8))"), {"n,0": (20, 4)}, header="(TIMESCALE 1ms) (DIVIDER /)", judged=False),
    "points between names": Case(cell("core.u4", "(IOPATH A Y (3) (4))") + cell("", "(INTERCONNECT u3.Y core.u4.A (1))"), {"w,0": (4, 5)},
                                 header="(DIVIDER .) (TIMESCALE 1ps)"),
    "a header in full": Case(cell("u1", "(IOPATH A Y (1))"), {"n,0": (1, 1)}, header=(
        '(DESIGN "top") (DATE "a (day)") (VENDOR "v") (PROGRAM "p \\" q") (VERSION "1 // 2") (DIVIDER /) (VOLTAGE 1.0:1.1:1.2) (PROCESS "slow")\n'
        "(TEMPERATURE 25) (TIMESCALE 1 ps)"), judged=False),
    "comments": Case("/* (CELL\n // */" + cell("u1", "(IOPATH A Y // (9)\n (1))"), {"n,0": (1, 1)}),
    "small letters": Case(cell("u1", "(iopath A Y (1))").replace("CELLTYPE", "celltype"), {"n,0": (1, 1)}, judged=False),
    "backslashes": Case(cell("\\u\\1", "(IOPATH \\A Y (1) (2))") + cell("", "(PORT core\\.u4/A (3))") + cell("core\\.u4", "(IOPATH A Y (1))"),
                        {"n,0": (2, 1), "w,0": (4, 4)}, judged=False),
    "a type of yosys": Case(cell("u1", "(IOPATH A Y (1))", kind="$_NOT_"), {"n,0": (1, 1)}, judged=False),
    "pulses": Case('(CELL (CELLTYPE "any") (INSTANCE u1) (DELAY (PATHPULSE A Y (1) (2)) (PATHPULSEPERCENT (50)) (ABSOLUTE (IOPATH A Y (1)))))\n',
                   {"n,0": (1, 1)}, "ignored 2 (PATHPULSE 1, PATHPULSEPERCENT 1)", judged=False),
    "what a designer asks for": Case(cell("u1", "(IOPATH A Y (1))") + (
        '(CELL (CELLTYPE "top") (INSTANCE) (TIMINGENV (PATHCONSTRAINT (NAME "p") a u1/A u1/Y (1) (2)) (PERIODCONSTRAINT clk (10) (EXCEPTION (INSTANCE f)))\n'
        "(SUM (a u1/A) (u1/Y u2/A) (1)) (DIFF (a u1/A) (b u2/B) (1) (2)) (SKEWCONSTRAINT (posedge clk) (1)) (ARRIVAL (posedge clk) a (1) (2) (3) (4))\n"
        "(DEPARTURE up[0] (1) (2) (3) (4)) (SLACK u1/A (1) (2) (3) (4) 5) (WAVEFORM clk 10 (posedge 0) (negedge 5))))\n"), {"n,0": (1, 1)},
        "ignored 9 (ARRIVAL 1, DEPARTURE 1, DIFF 1, PATHCONSTRAINT 1, PERIODCONSTRAINT 1, SKEWCONSTRAINT 1, SLACK 1, SUM 1, WAVEFORM 1)", judged=False),
}

GRAMMAR: Dict[str, Refusal] = {
    "a blank for a colon": Refusal(cell("u1", "(IOPATH A Y (1 2 3))"), "SDF line 2: (1 2 3): not a value"),
    "two of three": Refusal(cell("u1", "(IOPATH A Y (1:2))"), "SDF line 2: (1:2): not a value"),
    "colons alone": Refusal(cell("u1", "(IOPATH A Y (::))"), "SDF line 2: (::): a triple without numbers"),
    "no number": Refusal(cell("u1", "(IOPATH A Y (1x))"), "SDF line 2: (1x): not a value"),
    "no value": Refusal(cell("u1", "(IOPATH A Y)"), "SDF line 2: ): not a value"),
    "thirteen values": Refusal(cell("u1", "(IOPATH A Y " + "(1) " * 13 + ")"), "SDF line 2: (: not )", judged=False),
    "no output": Refusal(cell("u1", "(IOPATH A (1))"), "SDF line 2: A: not an input and an output"),
    "a bare number": Refusal(cell("u1", "(IOPATH A Y 1)"), "SDF line 2: 1: not a value"),
    "ABSOLUTE misspelled": Refusal(cell("u1", "(IOPATH A Y (1))", word="ABSOLUT"),
                             "SDF line 2: ABSOLUT: not ABSOLUTE or INCREMENT or PATHPULSE or PATHPULSEPERCENT"),
    "DELAY misspelled": Refusal(cell("u1", "(IOPATH A Y (1))").replace("DELAY", "DELY"),
                             "SDF line 2: DELY: not DELAY or TIMINGCHECK or TIMINGENV or LABEL"),
    "CELL misspelled": Refusal(cell("u1", "(IOPATH A Y (1))") + cell("u2", "(IOPATH A Y (1))").replace("(CELL ", "(CELLL "),
                             "SDF line 3: CELLL: not CELL"),
    "IOPATH misspelled": Refusal(cell("u1", "(IOPAHT A Y (1))"),
                             "SDF line 2: IOPAHT: not IOPATH or INTERCONNECT or PORT or COND or CONDELSE or NETDELAY or DEVICE"),
    "SETUP misspelled": Refusal(checks("(SETPU D C (1))"), "SDF line 2: SETPU: not SETUP or SETUPHOLD or HOLD or RECOVERY or REMOVAL or RECREM or SKEW or "
                                "BIDIRECTSKEW or WIDTH or PERIOD or NOCHANGE"),
    "TIMESCALE misspelled": Refusal(cell("u1", "(IOPATH A Y (1))"),
                             "SDF line 1: TIMESKALE: not SDFVERSION or DESIGN or DATE or VENDOR or PROGRAM or VERSION or "
                                    "PROCESS or DIVIDER or VOLTAGE or TEMPERATURE or TIMESCALE or CELL", header="(DIVIDER /) (TIMESKALE 1ps)"),
    "a name of two words": Refusal(cell("u 1", "(IOPATH A Y (1))"), "SDF line 2: (: not (INSTANCE NAME)"),
    "all cells of a type": Refusal(cell("*", "(IOPATH A Y (1))"), "SDF line 2: (INSTANCE *) is not read: name each cell", judged=False),
    "no type": Refusal("(CELL (INSTANCE u1))\n", 'SDF line 2: (: not (CELLTYPE "..")'),
    "an edge from z": Refusal(cell("u1", "(IOPATH (0z A) Y (1))"), "SDF line 2: edge 0z: no line of a netlist has z", judged=False),
    "no edge": Refusal(cell("u1", "(IOPATH (sideways A) Y (1))"), "SDF line 2: sideways: not an edge"),
    "an edge without a pin": Refusal(cell("u1", "(IOPATH (posedge) Y (1))"), "SDF line 2: (: not an input and an output"),
    "a net's delay": Refusal(cell("", "(NETDELAY n (1))"), "SDF line 2: NETDELAY is not read", judged=False),
    "a device's delay": Refusal(cell("u1", "(DEVICE Y (1))"), "SDF line 2: DEVICE is not read", judged=False),
    "labels": Refusal('(CELL (CELLTYPE "x") (INSTANCE u1) (LABEL (ABSOLUTE (p (1)))))\n', "SDF line 2: LABEL is not read"),
    "an unfinished condition": Refusal(cell("u3", "(COND B== (IOPATH A Y (1)))"), "SDF line 2: A: not ) of a condition", judged=False),
    "no condition": Refusal(cell("u3", "(COND (IOPATH A Y (1)))"), "SDF line 2: A: not ) of a condition", judged=False),
    "a constant too wide": Refusal(cell("u3", "(COND B==1'b2 (IOPATH A Y (1)))"), "SDF line 2: 1'b2: not a constant", judged=False),
    "a sum in a condition": Refusal(cell("u3", "(COND A+B (IOPATH A Y (1)))"), "SDF line 2: +B: not IOPATH", judged=False),
    "a deep condition": Refusal(cell("u3", "(COND " + "(" * 200 + "B" + ")" * 200 + " (IOPATH A Y (1)))"),
                             "SDF line 2: (: not a condition", judged=False),
    "a parenthesis too many": Refusal(cell("u1", "(IOPATH A Y (1))") + ")", "SDF line 3: ): not the end of the file"),
    "a parenthesis too few": Refusal(cell("u1", "(IOPATH A Y (1))")[:-2], "SDF line 2: the end: not CELL"),
    "a comment without an end": Refusal("/* " + cell("u1", "(IOPATH A Y (1))"), "SDF line 2: a comment without an end"),
    "a line behind comments": Refusal("/* 2\n3 */ // 3\n" + cell("u1", "(IOPAT A Y (1))"),
                                      "SDF line 4: IOPAT: not IOPATH or INTERCONNECT or PORT or COND or CONDELSE or NETDELAY or DEVICE"),
    "a string without an end": Refusal('(CELL (CELLTYPE "x) (INSTANCE u1))\n', 'SDF line 2: (: not (CELLTYPE "..")'),
    "another divider in a name": Refusal(cell("core.u4", "(IOPATH A Y (1))"), "SDF line 2: (: not (INSTANCE NAME)", judged=False),
    "no cell": Refusal("", "SDF line 2: no CELL"),
    "a divider of two marks": Refusal(cell("u1", "(IOPATH A Y (1))"),
                             "SDF line 1: \\/\\/: not what stands in DIVIDER", header="(DIVIDER \\/\\/)", judged=False),
    "a unit of 2": Refusal(cell("u1", "(IOPATH A Y (1))"), "SDF line 1: 2ns: not what stands in TIMESCALE", header="(DIVIDER /) (TIMESCALE 2ns)", judged=False),
    "a unit of minutes": Refusal(cell("u1", "(IOPATH A Y (1))"),
                             "SDF line 1: 1min: not what stands in TIMESCALE", header="(DIVIDER /) (TIMESCALE 1min)"),
    "a header's word twice": Refusal(cell("u1", "(IOPATH A Y (1))"),
                             "SDF line 1: a second TIMESCALE", header="(TIMESCALE 1ns) (TIMESCALE 1ps)", judged=False),
    "a header behind cells": Refusal(cell("u1", "(IOPATH A Y (1))") + "(TIMESCALE 1ps)\n",
                             "SDF line 3: TIMESCALE: not CELL", header="(DIVIDER /)", judged=False),
    "a constraint without values": Refusal('(CELL (CELLTYPE "top") (INSTANCE) (TIMINGENV (SLACK a (1))))\n',
                             "SDF line 2: a: not what stands in SLACK"),
    "a value in TIMINGENV": Refusal('(CELL (CELLTYPE "top") (INSTANCE) (TIMINGENV (SLAKC a (1))))\n',
                                    "SDF line 2: SLAKC: not PATHCONSTRAINT or PERIODCONSTRAINT or SUM or DIFF or SKEWCONSTRAINT or ARRIVAL or DEPARTURE or SLACK or WAVEFORM"),
}

DESIGN: Dict[str, Refusal] = {
    "a cell that isn't there": Refusal(cell("u9", "(IOPATH A Y (1))"), "SDF line 2: cell u9: none of MAP"),
    "the top by its name": Refusal(cell("top", "(PORT u1/A (1))"), "SDF line 2: cell top: none of MAP"),
    "an input that isn't there": Refusal(cell("u1", "(IOPATH A1 Y (1))"), "SDF line 2: cell u1: MAP has no pin A1"),
    "an output that isn't there": Refusal(cell("u1", "(IOPATH A Q (1))"), "SDF line 2: cell u1: MAP has no output Q"),
    "a path of no cell": Refusal(cell("", "(IOPATH A Y (1))"), "SDF line 2: cell -: an IOPATH of no cell", judged=False),
    "a path of an instance": Refusal(cell("core", "(IOPATH z w (1))"), "SDF line 2: cell core: an IOPATH of no cell", judged=False),
    "another kind": Refusal(cell("u1", "(IOPATH A Y (1))", kind="$_BUF_"),
                             "SDF line 2: cell u1: it is of type $_BUF_, and of kind NOT in NET", judged=False),
    "a path from D": Refusal(cell("f", "(IOPATH D Q (1))"), "SDF line 2: cell f: MAP has no path from D"),
    "the other edge of the clock": Refusal(cell("f", "(IOPATH (negedge C) Q (1))"),
                                           "SDF line 2: cell f: (negedge C), and the flip-flop takes its data at the rising edge", judged=False),
    "setup before the other edge": Refusal(checks("(SETUP D (negedge C) (1))"),
                                           "SDF line 2: cell f: (negedge C), and the flip-flop takes its data at the rising edge", judged=False),
    "setup of the clock": Refusal(checks("(SETUP C (posedge D) (1))"), "SDF line 2: cell f: MAP has no setup time of C before D", judged=False),
    "setup of a gate": Refusal('(CELL (CELLTYPE "x") (INSTANCE u1) (TIMINGCHECK (SETUP A (posedge Y) (1))))\n',
                               "SDF line 2: cell u1: a setup time of no flip-flop", judged=False),
    "below 0": Refusal(cell("u1", "(IOPATH A Y (-1))"), "SDF line 2: cell u1: a negative delay", judged=False),
    "a wire below 0": Refusal(cell("", "(INTERCONNECT a u1/A (-1))"), "SDF line 2: cell -: a negative delay", judged=False),
    "below 0 by an addition": Refusal(cell("u1", "(IOPATH A Y (1))") + cell("u1", "(IOPATH A Y (-2))", word="INCREMENT"),
                                      "SDF line 3: cell u1: a negative delay", judged=False),
    "an addition to nothing": Refusal(cell("u1", "(IOPATH A Y (1))", word="INCREMENT"),
                             "SDF line 2: cell u1: INCREMENT where no delay stands before it",
                                      judged=False),
    "a wire's addition to nothing": Refusal(cell("", "(PORT u1/A (1))", word="INCREMENT"),
                             "SDF line 2: cell -: INCREMENT where no delay stands before it",
                                            judged=False),
    "a corner that isn't told": Refusal(cell("u1", "(IOPATH A Y (1::))"), "SDF line 2: cell u1: no max value in (1::)", judged=False),
    "corners that descend": Refusal(cell("u1", "(IOPATH A Y (3:2:1))"), "SDF line 2: cell u1: (3:2:1) descends from min to max", judged=False),
    "two corners that descend": Refusal(cell("u1", "(IOPATH A Y (2::1))"), "SDF line 2: cell u1: (2::1) descends from min to max", judged=False),
    "another driver": Refusal(cell("", "(INTERCONNECT b u1/A (1))"), "SDF line 2: cell -: b doesn't drive u1/A"),
    "another gate as the driver": Refusal(cell("", "(INTERCONNECT u2/Y core/u4/A (1))"), "SDF line 2: cell -: u2/Y doesn't drive core.u4/A"),
    "no driver": Refusal(cell("", "(INTERCONNECT u9/Y u1/A (1))"), "SDF line 2: cell -: MAP has no driver u9/Y"),
    "an input as the driver": Refusal(cell("", "(INTERCONNECT u1/A u1/A (1))"), "SDF line 2: cell -: MAP has no driver u1/A"),
    "no such end of a wire": Refusal(cell("", "(INTERCONNECT u1/Y u2/C (1))"), "SDF line 2: cell -: MAP has no pin u2/C"),
    "no such cell at the end": Refusal(cell("", "(INTERCONNECT u1/Y u9/A (1))"), "SDF line 2: cell -: MAP has no pin u9/A"),
    "no such output port": Refusal(cell("", "(INTERCONNECT u3/Y up[2] (1))"), "SDF line 2: cell -: MAP has no output port up[2]"),
    "another port of the range": Refusal(cell("", "(INTERCONNECT u3/Y up[1] (1))"), "SDF line 2: cell -: u3/Y doesn't drive up[1]"),
    "all ports of a range": Refusal(cell("", "(INTERCONNECT u3/Y up[0:1] (1))"), "SDF line 2: cell -: MAP has no output port up[0:1]"),
    "a wire inside of a gate": Refusal(cell("u2", "(INTERCONNECT A B (1))"), "SDF line 2: cell u2: an INTERCONNECT inside of it"),
    "a wire of the clock": Refusal(cell("", "(INTERCONNECT clk f/C (1:2:3))"),
                                   "SDF line 2: cell -: a wire of the clock to f/C of 3: NET has no clock (--leave-out clock-wires)", judged=False),
    "the clock driven by another port": Refusal(cell("", "(INTERCONNECT a f/C (0))"), "SDF line 2: cell -: a doesn't drive f/C"),
    "a condition on another port": Refusal(cell("u3", "(COND S (IOPATH A Y (1)))"),
                             "SDF line 2: cell u3: a condition reads S, which MAP doesn't have",
                                           judged=False),
    "too long": Refusal(cell("u1", "(IOPATH A Y (1000000.5))"), "SDF: pin 0 of n: 1000001 units, over 1000000 (--unit)", judged=False),
    "no delay": Refusal(cell("u1", "(PORT A (1))"), "SDF: no delay of any pin", judged=False),
}
