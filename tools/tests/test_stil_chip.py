"""What pdfgen-stil makes of a chip's pins and chains: names, held pins, scan ports, inversions, flip-flops on no chain, cycles before the
first load, and masks. Played on chips that the tests tell by hand."""
from __future__ import annotations

import pathlib
from typing import List

from support import lines
from stil_support import Launch, StilTest, chip
from pdfgen_tools.cli.stil import main
from pdfgen_tools.stil.reading import program_of

BROADSIDE = ("--mode", "broadside", "--time", "50")
SKEWED = ("--mode", "skewed", "--time", "50")
MAP_HEAD = lines("pdfgen map 2", "what,name,line,value")
CHIP = "no tests of their paths with this chip's held pins, inversions and flip-flops on no chain"
NEEDS_OTHERS = CHIP + " (--leave-out)"
SHOWS_NOTHING = "their paths end where nothing is compared (--leave-out)"


class Names(StilTest):
    def test_ports_called_as_groups_are(self) -> None:
        net = lines("INPUT(inputs)", "OUTPUT(outputs)", "held = DFF(outputs)", "outputs = AND(inputs, held)")
        rows = MAP_HEAD + lines("clock,scan_ins,,rising", "held,held,,1", "input,inputs,inputs,", "output,outputs,outputs,", "flip_flop,f,held,")
        report = lines("1,rise,1,inputs,outputs:0,untestable,-,-,1", "1,fall,1,inputs,outputs:0,robust,1,-,-")
        files = self.files(net, "held\n", lines("1 1 fall robust 11 01 0"), report)
        self.call(main, *files, *BROADSIDE, "--map", self.write("map", rows), "--unmasked")
        program = program_of(self.read("stil"))
        self.assertEqual([(group.name, group.members) for group in program.groups],
                         [("inputs_2", ("inputs",)), ("outputs_2", ("outputs",)), ("held_2", ("held",)), ("scan_enables", ("scan_enable",)),
                          ("scan_ins_2", ("scan_in1",)), ("scan_outs", ("scan_out1",))])
        player = self.played(chip(self.circuit(files), ["held"], clock="scan_ins", pins=["held"]), 2)
        self.assertEqual(self.launches(player), [Launch("11", "01", 50, ())])

    def test_names_that_agree_in_the_design_are_refused(self) -> None:
        net = lines("INPUT(aA)", "INPUT(a%41)", "OUTPUT(y)", "q = DFF(y)", "y = AND(aA, a%41, q)")
        report = lines("1,rise,1,aA,y:0,untestable,-,-,1", "1,fall,1,aA,y:0,robust,1,-,-")
        files = self.files(net, "q\n", lines("1 1 fall robust 111 011 0"), report)
        rows = MAP_HEAD + lines("clock,clock,,rising", "input,aA,aA,", "input,a%41,a%41,", "output,y,y,", "flip_flop,f,q,")
        self.refuse(main, "input aA: input aA has this name, too", *files, *BROADSIDE, "--map", self.write("map", rows))
        self.call(main, *files, *BROADSIDE)  # without MAP names are those of NET
        self.played(chip(self.circuit(files), ["q"]), 2)

    def test_cells_whose_names_agree_keep_those_of_net(self) -> None:
        net = lines("INPUT(a)", "OUTPUT(y)", "qA = DFF(y)", "q%41 = DFF(y)", "r%20 = DFF(y)", "y = AND(a, qA, q%41, r%20)")
        report = lines("1,rise,1,a,y:0,untestable,-,-,1", "1,fall,1,a,y:0,robust,1,-,-")
        files = self.files(net, "qA\nq%41\nr%20\n", lines("1 1 fall robust 1111 0111 0"), report)
        rows = MAP_HEAD + lines("clock,clock,,rising", "input,a,a,", "output,y,y,")
        self.call(main, *files, *BROADSIDE, "--map", self.write("map", rows))
        self.assertEqual([cell.name for cell in program_of(self.read("stil")).chains[0].cells], ["qA", "q%41", "r "])

    def test_quotes_in_names_are_refused_at_pins_alone(self) -> None:
        for name, shown in (("a'", "a'"), ("a%22", 'a"'), ("a%0A", "a\\n")):
            net = lines(f"INPUT({name})", "OUTPUT(y)", "q' = DFF(y)", f"y = AND({name}, q')")
            report = lines(f"1,rise,1,{name},y:0,untestable,-,-,1", f"1,fall,1,{name},y:0,robust,1,-,-")
            files = self.files(net, "q'\n", lines("1 1 fall robust 11 01 0"), report)
            rows = MAP_HEAD + lines("clock,clock,,rising", f"input,{name},{name},", "output,y,y,", "flip_flop,f,q',")
            self.refuse(main, f"input {shown}: a name with a quote or a control character, or an empty one, has no place in STIL", *files, *BROADSIDE,
                        "--map", self.write("map", rows))
            self.write("map", rows.replace(f"input,{name}", "input,b[1]%20{;}"))
            self.call(main, *files, *BROADSIDE, "--map", self.path("map"))
            self.played(chip(self.circuit(files), ["q'"], inputs={"b[1] {;}": name}), 2)
            pathlib.Path(self.path("stil")).unlink()

    def test_two_pins_of_one_name_are_refused(self) -> None:
        files = self.skewed()
        for line, words in (("scan input d: output d has this name, too", ("--scan-in", "d")), ("held pin clock: the clock has this name, too", ("--hold", "clock=1")),
                            ("--hold scan_enable: a scan port", ("--hold", "scan_enable=1")), ("held pin d: output d has this name, too", ("--hold", "d=1")),
                            ("--hold h: held at 0 as well", ("--hold", "h=0", "--hold", "h=1")), ("scan output clock: the clock has this name, too",
                                                                                              ("--scan-out", "clock")),
                            ("--scan-in: 1 chains have 2 ports, or two have the same", ("--scan-in", "a", "--scan-in", "b")),
                            ("--inverted: no flip-flop d in NET", ("--inverted", "d")), ("--inverted-out: no scan output d", ("--inverted-out", "d"))):
            self.refuse(main, line, *files, *SKEWED, *words)


class HeldPins(StilTest):
    def in_reset(self) -> List[str]:
        """NET of a chip whose reset goes to a synchronizer that was cut away: nothing reads rst_n."""
        net = lines("INPUT(rst_n)", "INPUT(a)", "OUTPUT(d)", "q = DFF(d)", "d = AND(a, q)")
        report = lines("1,rise,1,a,d:0,untestable,-,-,1", "1,fall,1,a,d:0,robust,1,-,-")
        return self.files(net, "q\n", lines("1 1 fall robust 011 001 0"), report)

    def test_an_input_that_nothing_reads_has_to_be_held(self) -> None:
        files = self.in_reset()
        self.refuse(main, "NET: nothing reads the inputs rst_n: no test says what such a one has to be, and it may be a reset of what was cut away "
                    "(--hold PIN=VALUE)", *files, *BROADSIDE)
        self.call(main, *files, *BROADSIDE, "--hold", "rst_n=1")
        good = chip(self.circuit(files), ["q"], resets={"rst_n": 0})
        self.assertEqual(self.launches(self.played(good, 2)), [Launch("111", "101", 50, ())])

    def test_pins_that_net_does_not_have_are_held(self) -> None:
        files = self.broadside()
        self.call(main, *files, *BROADSIDE, "--hold", "test=0", "--hold", "x=y=1")
        text = self.read("stil")
        self.assertIn("held = '\"test\" + \"x=y\"';", text)
        self.assertEqual(text.count("held=01;"), 3)  # in load_unload and in each test's first vector
        self.played(chip(self.circuit(files), ["q"], pins=["test", "x=y"], resets={"test": 1, "x=y": 0}), 4)

    def test_a_held_input_of_net(self) -> None:
        files = self.broadside()
        self.refuse(main, f"tests 1 2: {NEEDS_OTHERS}", *files, *BROADSIDE, "--hold", "a=0")
        self.refuse(main, f"tests 1 2: {NEEDS_OTHERS}", *files, *BROADSIDE, "--hold", "a=1")
        net = lines("INPUT(a)", "INPUT(t)", "OUTPUT(y)", "OUTPUT(z)", "q = DFF(y)", "y = BUFF(a)", "z = AND(t, q)")
        report = lines("1,rise,1,a,y:0,robust,1,-,-", "1,fall,1,a,y:0,untestable,-,-,1", "2,rise,1,q,z:1,robust,2,-,-", "2,fall,1,q,z:1,untestable,-,-,1")
        files = self.files(net, "q\n", lines("1 1 rise robust 010 110 10", "2 2 rise robust 110 111 11"), report)
        self.refuse(main, f"tests 2: {NEEDS_OTHERS}", *files, *BROADSIDE, "--hold", "t=0")
        self.assertEqual(self.call(main, *files, *BROADSIDE, "--hold", "t=0", "--leave-out", "--unmasked"),
                         "tests 1 chains 1 cells 1\nleft out 2: " + CHIP + "\n")
        self.assertIn("outputs=HL;", self.read("stil"))
        player = self.played(chip(self.circuit(files), ["q"]), 3)
        self.assertEqual(self.launches(player), [Launch("000", "100", 50, ())])

    def test_load_unload_gives_every_pin_a_value(self) -> None:
        files = self.broadside()
        self.call(main, *files, *BROADSIDE, "--hold", "test=1")
        program = program_of(self.read("stil"))
        first = program.procedures["load_unload"][1]
        self.assertEqual(first, (dict(clock="0", inputs="0", outputs="X", held="1", scan_enables="1", scan_ins="0", scan_outs="X"),))


class ScanPorts(StilTest):
    def test_names_of_scan_ports_and_enables(self) -> None:
        files = self.skewed()
        self.call(main, *files, *SKEWED, "--scan-enable", "se_n=0", "--scan-enable", "se=1", "--scan-in", "si", "--scan-out", "so")
        player = self.played(chip(self.circuit(files), ["q1 q2"], enables={"se_n": 0, "se": 1}, scan_ins=["si"], scan_outs=["so"]), 9)
        self.assertEqual([launch.before for launch in self.launches(player)], ["11", "10", "01"])

    def shared(self) -> List[str]:
        """The input a is the scan input, too, and the output y the scan output."""
        net = lines("INPUT(a)", "OUTPUT(y)", "p = DFF(y)", "q = DFF(p)", "y = AND(a, q)")
        report = lines("1,rise,1,a,y:0,robust,1,-,-", "1,fall,1,a,y:0,robust,2,-,-")
        return self.files(net, "p\nq\n", lines("1 1 rise robust 011 101 10", "2 1 fall robust 111 011 01"), report)

    def test_a_port_shared_by_scan_and_function(self) -> None:
        files = self.shared()
        self.call(main, *files, *BROADSIDE, "--scan-in", "a", "--scan-out", "y", "--unmasked")
        self.assertEqual(self.read("stil").count('"a" In { ScanIn; }'), 1)
        good = chip(self.circuit(files), ["p q"], scan_ins=["a"], scan_outs=["y"])
        self.assertEqual(self.launches(self.played(good, 6)), [Launch("011", "101", 50, ()), Launch("111", "011", 50, ())])

    def test_a_shared_port_launches_by_a_shift(self) -> None:
        files = self.shared()
        self.write("tests", lines("pdfgen tests 1", "sources a p q", "observed y p", "1 1 rise robust 011 101 10", "2 1 fall robust 111 001 00"))
        reason = "a scan input, shared with an input, has to have another value at the launch than under the first vector (--leave-out)"
        self.refuse(main, f"tests 2: {reason}", *files, *SKEWED, "--scan-in", "a")
        self.call(main, *files, *SKEWED, "--scan-in", "a", "--leave-out")
        good = chip(self.circuit(files), ["p q"], scan_ins=["a"])
        self.assertEqual(self.launches(self.played(good, 2)), [Launch("011", "101", 50, ())])

    def test_inversions_along_a_chain(self) -> None:
        net = lines("INPUT(a)", "OUTPUT(y)", "p = DFF(y)", "q = DFF(p)", "r = DFF(q)", "y = AND(a, r)")
        report = lines("1,rise,1,a,y:0,robust,1,-,-", "1,fall,1,a,y:0,robust,2,-,-")
        files = self.files(net, "p\nq\n\nr\n", lines("1 1 rise robust 0011 1001 100", "2 1 fall robust 1111 0111 011"), report)
        self.call(main, *files, *BROADSIDE, "--inverted", "q", "--inverted-out", "scan_out1", "--inverted", "r", "--unmasked")
        text = self.read("stil")
        self.assertIn('ScanCells "p" ! "q" !;', text)
        self.assertIn('ScanCells ! "r";', text)
        self.assertIn('"scan_in1"=01; "scan_in2"=00;', text)  # of test 2, which has 1 everywhere
        good = chip(self.circuit(files), ["p ! q !", "! r"])
        self.assertEqual(self.launches(self.played(good, 2 * 4)), [Launch("0011", "1001", 50, ()), Launch("1111", "0111", 50, ())])

    def test_an_inversion_breaks_links_of_mode_skewed(self) -> None:
        files = self.skewed()
        self.refuse(main, f"tests 1 2 3: {NEEDS_OTHERS}", *files, *SKEWED, "--inverted", "q2")
        self.call(main, *files, *SKEWED, "--inverted", "q1", "--inverted-out", "scan_out1")
        player = self.played(chip(self.circuit(files), ["! q1 q2 !"]), 9)
        self.assertEqual([launch.after for launch in self.launches(player)], ["01", "11", "10"])


class Unscanned(StilTest):
    def unscanned(self) -> List[str]:
        """u is on no chain. The path from a, rising, needs only its second value, which b gives; falling it needs u steady, and so does u's own."""
        net = lines("INPUT(a)", "INPUT(b)", "OUTPUT(y)", "u = DFF(b)", "q = DFF(y)", "y = AND(a, u)")
        report = lines("1,rise,1,a,y:0,robust,1,-,-", "1,fall,1,a,y:0,robust,2,-,-", "2,rise,1,u,y:1,robust,3,-,-", "2,fall,1,u,y:1,untestable,-,-,1")
        tests = lines("1 1 rise robust 0100 1110 11", "2 1 fall robust 1110 0111 01", "3 2 rise robust 1100 1110 11")
        return self.files(net, "q\n", tests, report)

    def test_tests_that_need_one_are_refused_by_number(self) -> None:
        files = self.unscanned()
        self.refuse(main, "SCAN: missing u", *files, *BROADSIDE)
        self.refuse(main, f"tests 2 3: {NEEDS_OTHERS}", *files, *BROADSIDE, "--unscanned", "u")
        said = self.call(main, *files, *BROADSIDE, "--unscanned", "u", "--leave-out", "--unmasked")
        self.assertEqual(said, f"tests 1 chains 1 cells 1\nleft out 2 3: {CHIP}\n")
        text = self.read("stil")
        self.assertEqual(self.launches(self.played(chip(self.circuit(files), ["q"]), 2)), [Launch("0100", "1110", 50, ())])
        self.write("scan", "q\n\nu\n")
        self.call(main, *files, *BROADSIDE, "--unscanned", "u", "--leave-out", "--unmasked")
        self.assertEqual(self.read("stil"), text)
        self.write("scan", "q\nu\n")
        self.refuse_again("SCAN: u stands in a chain, and is called unscanned", *files, *BROADSIDE, "--unscanned", "u")

    def test_no_chain_at_all(self) -> None:
        files = self.unscanned()
        self.refuse(main, "NET: no flip-flop on a chain, so nothing to load", *files, *BROADSIDE, "--unscanned", "u", "--unscanned", "q")

    def refuse_again(self, line: str, *words: str) -> None:
        """The same as refuse, where STIL stands already."""
        before = self.read("stil")
        self.refuse(main, line, *words)
        self.assertEqual(self.read("stil"), before)


class MasksAndCycles(StilTest):
    def test_outputs_are_masked(self) -> None:
        net = lines("INPUT(a)", "OUTPUT(y)", "OUTPUT(d)", "q = DFF(d)", "y = BUFF(a)", "d = NOT(a)")
        report = lines("1,rise,1,a,y:0,robust,1,-,-", "1,fall,1,a,y:0,untestable,-,-,1", "2,rise,1,a,d:0,robust,2,-,-", "2,fall,1,a,d:0,untestable,-,-,1")
        files = self.files(net, "q\n", lines("1 1 rise robust 00 11 10", "2 2 rise robust 00 11 10"), report)
        self.refuse(main, f"tests 1: {SHOWS_NOTHING}", *files, *BROADSIDE, "--mask-outputs")
        self.assertEqual(self.call(main, *files, *BROADSIDE, "--mask-outputs", "--leave-out"),
                         "tests 1 chains 1 cells 1\nleft out 1: their paths end where nothing is compared\n")
        self.assertIn('"test 2": Call', self.read("stil"))
        self.played(chip(self.circuit(files), ["q"]), 1)

    def test_cycles_before_the_first_load(self) -> None:
        files = self.broadside()
        rows = MAP_HEAD + lines("clock,ck,,rising", "held,r,,1", "held,m%20,,0", "input,a,a,", "output,d,d,", "settled,s1,,1", "settled,s2,,1")
        words = [*files, *BROADSIDE, "--slow", "1000", "--map", self.write("map", rows), "--setup", self.write("setup", "2 r=0 ck=P\nm%20=1 a=1\nr=1 ck=P\n")]
        self.call(main, *words)
        good = chip(self.circuit(files), ["q"], clock="ck", pins=["r", "m "], resets={"r": 0})
        player = self.played(good, 4)
        self.assertEqual([edge.at for edge in player.edges[:5]], [500, 1500, 3500, 4500, 5500])  # two settle the flip-flops that MAP calls settled
        text = self.read("stil")
        for held in ("held=00; inputs=0", "held=01; inputs=1", "held=11; inputs=1", "held=10; inputs=1", "held=10; inputs=0"):
            self.assertIn(held.split(" ")[0], text)
            text = text[text.index(held.split(" ")[0]):]
        for line, setup in (("SETUP line 1: q=1 is neither an input pin and its value nor ck=P", "q=1\n"), ("SETUP: its last line has no end", "r=1"),
                            ("SETUP line 2: 2 is neither an input pin and its value nor ck=P", "r=1\nr=0 2\n"),
                            ("SETUP line 1: r=0 is neither an input pin and its value nor ck=P", "r=1 r=0\n"),
                            ("SETUP line 1:  is neither an input pin and its value nor ck=P", "\n"), ("SETUP: more than 1000000 cycles", "1000001 r=0\n")):
            self.write("setup", setup)
            self.refuse(main, line, *words)
