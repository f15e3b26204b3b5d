"""When a tester does what, by the waveform tables of what pdfgen-stil writes: played event by event, and times worked out by hand."""
from __future__ import annotations

from typing import List, Tuple

from support import lines
from stil_support import Launch, StilTest, chip
from pdfgen_tools.cli.stil import main
from pdfgen_tools.errors import Refused
from pdfgen_tools.stil.cycles import Waves, cycles_of
from pdfgen_tools.stil.playing import Player
from pdfgen_tools.stil.reading import program_of

MAP = lines("pdfgen map 2", "what,name,line,value", "clock,ck,,falling", "held,h,,1", "input,a,a,", "input,b,b,", "output,y,y,", "output,z,z,",
            "flip_flop,p,p,", "flip_flop,q,q,")
NET = lines("INPUT(a)", "INPUT(b)", "OUTPUT(y)", "OUTPUT(z)", "p = DFF(y)", "q = DFF(z)", "y = AND(a, q)", "z = OR(b, p)")
WORDS = ("--mode", "broadside", "--unmasked", "--time", "7", "--unit", "10", "--slow", "1000")


class Timing(StilTest):
    def times(self) -> List[str]:
        """Two inputs and two flip-flops: a rises to y, and b falls to z. What outputs have under the first vector, before the sample and after
        it differs each time, so that a strobe at another time sees another value."""
        report = lines("1,rise,1,a,y:0,robust,1,-,-", "1,fall,1,a,y:0,untestable,-,-,1", "2,rise,1,b,z:0,untestable,-,-,2", "2,fall,1,b,z:0,robust,2,-,-")
        return self.files(NET, "p\nq\n", lines("1 1 rise robust 0011 1001 10", "2 2 fall robust 0100 1001 10"), report)

    def moments(self, first: int, last: int) -> List[Tuple[int, str, str]]:
        """What happens in the cycles from one number to another, but for what is driven or not compared as before."""
        program = program_of(self.read("stil"))
        waves = Waves(program)
        return [(moment.at, moment.pin, moment.does) for cycle in cycles_of(program) if first <= cycle.number <= last for moment in waves.moments(cycle)]

    def test_times_of_a_rising_clock(self) -> None:
        files = self.times()
        self.call(main, *files, *WORDS)
        player = self.played(chip(self.circuit(files), ["p q"]), 2 * 4)
        self.assertEqual(self.launches(player), [Launch("0011", "1001", 70, ()), Launch("0100", "1001", 70, ())])
        self.assertEqual([(strobe.since, strobe.pin) for strobe in self.strobes_at_speed(player)], [(70, "y"), (70, "z")] * 2)
        launches = [edge for edge in player.edges if edge.table == "at_speed"][::2]
        self.assertEqual([edge.at for edge in launches], [4035, 4035 + 4140])  # 4 slow cycles and 2 at speed a test
        self.assertEqual([edge.changed.count(0) for edge in launches], [1, 2])  # a, then a and b, change with the edge

    def test_a_falling_clock_is_turned(self) -> None:
        files = self.times()
        self.call(main, *files, *WORDS, "--map", self.write("map", MAP))
        self.played(chip(self.circuit(files), ["p q"], clock="ck", rising=False, pins=["h"]), 2 * 4)
        pulse = [(does, at) for at, pin, does in self.moments(4, 4) if pin == "ck"]
        self.assertEqual(pulse, [("U", 4000), ("D", 4035), ("U", 4052)])
        rising = Player(program_of(self.read("stil")), chip(self.circuit(files), ["p q"], clock="ck", pins=["h"])).play()
        self.assertTrue(all(edge.at % 1000 != 500 for edge in rising.edges))  # a chip of the other edge takes bits at other times

    def test_all_that_happens_at_speed(self) -> None:
        self.call(main, *self.times(), *WORDS, "--strobe", "20")
        self.assertEqual(self.moments(4, 5), sorted([
            (4000, "clock", "D"), (4035, "clock", "U"), (4052, "clock", "D"), (4000, "scan_enable", "D"), (4000, "scan_in1", "D"),
            (4035, "a", "U"), (4035, "b", "D"), (4000, "y", "X"), (4000, "z", "X"), (4000, "scan_out1", "X")]) + sorted([
                (4070, "clock", "D"), (4105, "clock", "U"), (4122, "clock", "D"), (4070, "scan_enable", "D"), (4070, "scan_in1", "D"),
                (4105, "a", "U"), (4105, "b", "D"), (4070, "y", "X"), (4085, "y", "H"), (4070, "z", "X"), (4085, "z", "L"), (4070, "scan_out1", "X")]))

    def test_all_that_happens_in_a_slow_shift(self) -> None:
        self.call(main, *self.times(), *WORDS)
        self.assertEqual(self.moments(8, 8), sorted([
            (6140, "clock", "D"), (6640, "clock", "U"), (6890, "clock", "D"), (6140, "scan_enable", "U"), (6140, "scan_in1", "D"), (6140, "a", "D"),
            (6140, "b", "D"), (6140, "y", "X"), (6140, "z", "X"), (6140, "scan_out1", "X"), (6540, "scan_out1", "H")]))

    def test_a_strobe_before_the_edge(self) -> None:
        files = self.times()
        self.call(main, *files, *WORDS, "--strobe", "20")
        player = self.played(chip(self.circuit(files), ["p q"]), 2 * 4)
        self.assertEqual([strobe.since for strobe in self.strobes_at_speed(player)], [50] * 4)

    def test_the_last_shift_launches(self) -> None:
        files = self.skewed()
        self.call(main, *files, "--mode", "skewed", "--time", "50", "--slow", "1000")
        player = self.played(chip(self.circuit(files), ["q1 q2"]), 3 * 3)
        self.assertEqual([launch.time for launch in self.launches(player)], [50] * 3)
        enables = [(at, does) for at, pin, does in self.moments(3, 6) if pin == "scan_enable"]
        self.assertEqual(enables, [(3000, "U"), (4000, "U"), (4050, "D"), (4100, "U")])  # it falls between launch, at 4025, and sample, at 4075

    def notices(self, old: str, new: str) -> bool:
        """Whether the tests above would notice that a file has something else: some bit is wrong, or some launch isn't as it has to be."""
        files = self.times()
        self.call(main, *files, *WORDS)
        text = self.read("stil")
        self.assertIn(old, text)
        player = Player(program_of(text.replace(old, new)), chip(self.circuit(files), ["p q"])).play()
        is_right = all(strobe.is_right for strobe in player.strobes) and not player.floating
        return not (is_right and self.launches(player) == [Launch("0011", "1001", 70, ()), Launch("0100", "1001", 70, ())])

    def test_the_player_notices_other_times(self) -> None:
        for old, new in (("'35ps' L", "'36ps' L"), ("'35ps' H", "'60ps' H"), ("0 { '35ps' D; }", "0 { '0ps' D; }"), ("1 { '35ps' U; }", "1 { '0ps' U; }"),
                         ("1 { '35ps' U; }", "1 { '36ps' U; }"), ("Period '70ps'", "Period '71ps'"), ("'400ps' H", "'600ps' H"),
                         ("'0ps' D; '35ps' U; '52ps' D;", "'0ps' U; '35ps' D; '52ps' U;"), ("'0ps' D; '500ps' U; '750ps' D;", "'0ps' U; '500ps' D; '750ps' U;"),
                         ("scan_enables=1", "scan_enables=0"), ("W at_speed;", "W slow;"), (" inputs=10;", ""), ('"scan_in1"=#;', '"scan_in1"=0;')):
            try:
                self.assertTrue(self.notices(old, new), (old, new))
            except Refused:
                pass  # a file that can't be played is noticed, too
