"""pdfgen-waves: waves beside docs/model.md read for one time after the other, and the VCD of them read back."""
from __future__ import annotations

import functools
import random
import re
from typing import Callable, Dict, List, Tuple

from support import EXAMPLES, REPORT_HEADER, ToolTest, hazard_files, lines
from pdfgen_tools.bench import Circuit
from pdfgen_tools.cli.waves import main
from pdfgen_tools.delays import Delays, PinDelay, delays_of
from pdfgen_tools.waves import Wave, shown, waves_of
from test_bench import random_circuit, value_by_words


def value_at(circuit: Circuit, delays: Delays, first: str, second: str) -> Callable[[int, int], int]:
    """The value of a line at a time, by the definition: what pins show is told by the window between their two delays."""
    @functools.lru_cache(maxsize=None)
    def value(line: int, time: int) -> int:
        if line < circuit.source_count:
            return int((first if time < 0 else second)[line])
        kind, pins = circuit.gates[line - circuit.source_count]
        seen = []
        for pin, read in enumerate(pins):
            rise, fall = delays.of_gate[line - circuit.source_count][pin]
            window = [value(read, at) for at in range(time - max(rise, fall), time - min(rise, fall) + 1)]
            seen.append(min(window) if rise >= fall else max(window))
        found = value_by_words(kind, seen)
        assert found is not None
        return found

    return value


def random_delays(circuit: Circuit, chance: random.Random, are_two: bool) -> Delays:
    pins = []
    for gate in circuit.gates:
        rises = [chance.randint(0, 4) for _ in gate.pins]
        pins.append([PinDelay(rise, chance.randint(0, 4) if are_two else rise) for rise in rises])
    return Delays(pins, are_two)


def read_vcd(text: str) -> Tuple[Dict[str, str], Dict[str, List[Tuple[int, int]]]]:
    """The code of each SCOPE.NAME, and the values of each code with the times from which it has them."""
    names, values, scope, time = {}, {}, "", 0  # type: Tuple[Dict[str, str], Dict[str, List[Tuple[int, int]]], str, int]
    for line in text.split("\n"):
        var, entered = re.fullmatch(r"\$var wire 1 (\S+) (\S+) \$end", line), re.fullmatch(r"\$scope module (\S+) \$end", line)
        if entered:
            scope = entered[1]
        elif var:
            names[f"{scope}.{var[2]}"] = var[1]
        elif line.startswith("#"):
            assert int(line[1:]) >= time
            time = int(line[1:])
        elif line[:1] in ("0", "1"):
            values.setdefault(line[1:], []).append((time, int(line[0])))
    return names, values


class Waves(ToolTest):
    def test_pins_swallow_short_pulses(self) -> None:
        line = Wave(0, [3, 5, 10, 18])  # the figure of docs/model.md, moved
        self.assertEqual(shown(line, PinDelay(3, 0)), Wave(0, [13, 18]))
        self.assertEqual(shown(line, PinDelay(0, 3)), Wave(0, [3, 8, 10, 21]))
        self.assertEqual(shown(Wave(1, [3, 5]), PinDelay(0, 2)), Wave(1, []))
        self.assertEqual(shown(Wave(1, [3, 5]), PinDelay(0, 1)), Wave(1, [4, 5]))
        self.assertEqual(shown(Wave(1, [3, 5]), PinDelay(2, 2)), Wave(1, [5, 7]))

    def test_200_pairs_at_each_time(self) -> None:
        chance = random.Random(8)
        for number in range(200):
            circuit = random_circuit(chance, 6)
            delays = random_delays(circuit, chance, number % 2 == 1)
            first, second = ("".join(chance.choice("01") for _ in range(6)) for _ in range(2))
            waves, value = waves_of(circuit, delays, first, second), value_at(circuit, delays, first, second)
            for line in circuit.observed:
                self.assertEqual([waves[line].at(time) for time in range(-1, 16)], [value(line, time) for time in range(-1, 16)])

    def test_what_is_written(self) -> None:
        net, tests, report = hazard_files(self)  # y = AND(a, m), m = NOT(a): a falls, y by the slow pin 0 at 5, by m not before
        told = self.call(main, net, str(EXAMPLES / "hazard.csv"), tests, report, self.path("vcd"), "--test", "1", "--time", "30", "--unit", "10")
        self.assertEqual(told, "1 0 same\n")
        names, values = read_vcd(self.read("vcd"))
        self.assertEqual(set(names), {"marks.launch", "marks.sample", "path.a", "path.y", "side_inputs.m"})
        self.assertEqual(values[names["path.a"]], [(0, 1), (30, 0)])  # three units stand before the launch
        self.assertEqual(values[names["side_inputs.m"]], [(0, 0), (40, 1)])
        self.assertEqual(values[names["path.y"]], [(0, 0), (50, 1), (80, 0)])
        self.assertEqual(values[names["marks.launch"]], [(0, 0), (30, 1)])
        self.assertEqual(values[names["marks.sample"]], [(0, 0), (330, 1)])
        self.assertTrue(self.read("vcd").endswith("\n#360\n"))
        self.assertIn("$comment test 1: path 1, fall, nonrobust, from a to y $end\n", self.read("vcd"))

    def test_what_replays_print(self) -> None:
        net, tests, report = hazard_files(self)
        words = [net, str(EXAMPLES / "hazard.csv"), tests, report, self.path("vcd"), "--time", "3", "--test"]
        self.assertEqual([self.call(main, *words, number) for number in "12"], ["1 1 differs\n", "2 0 same\n"])
        two = self.write("two", lines("gate,pin,rise,fall", "*,*,1,1", "y,0,5,4"))
        words[1] = two
        self.assertEqual([self.call(main, *words, number) for number in "12"], ["1 1 differs none\n", "2 0 same none\n"])

    def test_late_and_met(self) -> None:
        net = self.write("net", lines("INPUT($a)", "OUTPUT(y)", "n = NOT($a)", "y = BUFF(n)", "z = NOT(y)"))
        report = self.write("report", lines(REPORT_HEADER, "1,rise,9,$a,n:0 y:0,robust,1,-,-", "1,fall,9,$a,n:0 y:0,robust,2,-,-"))
        tests = self.write("tests", lines("pdfgen tests 1", "sources $a", "observed y", "1 1 rise robust 0 1 0", "2 1 fall robust 1 0 1"))
        delays = self.write("delays", lines("gate,pin,rise,fall", "n,0,3,2", "y,0,5,4"))  # $a rises, n falls: 3 + 4; else 2 + 5
        words = [net, delays, tests, report, self.path("vcd"), "--test", "1", "--all", "--time"]
        self.assertEqual([self.call(main, *words, time) for time in ("6", "7")], ["1 1 differs late\n", "1 0 same met\n"])
        names, _ = read_vcd(self.read("vcd"))
        self.assertEqual(set(names), {"marks.launch", "marks.sample", "path.\\$a", "path.n", "path.y", "others.z"})

    def test_what_cannot_be_shown_is_refused(self) -> None:
        net, tests, report = hazard_files(self)
        words = [net, str(EXAMPLES / "hazard.csv"), tests, report, self.path("vcd")]
        self.refuse(main, "TESTS has no test 3", *words, "--test", "3", "--time", "3")
        self.refuse(main, "words: --time is 0 to 9999999999", *words, "--test", "1", "--time", "-1", status=2)
        self.refuse(main, "words: --unit is 1 to 1000000", *words, "--test", "1", "--time", "1", "--unit", "0", status=2)
        words[3] = self.write("one", lines(REPORT_HEADER, "1,rise,5,a,y:0,untestable,-,-,1", "1,fall,5,a,y:0,nonrobust,1,2,-"))
        self.refuse(main, "test 2: REPORT lists no path 2", *words, "--test", "2", "--time", "3")

    def test_lines_that_change_too_often_are_refused(self) -> None:
        stages = [f"x{number} = XOR(x{number - 1}, d{number})\nd{number} = BUFF(x{number - 1})" for number in range(1, 19)]
        net = self.write("net", lines("INPUT(x0)", "OUTPUT(x18)", *stages))
        steps = " ".join(f"x{number}:0" for number in range(1, 19))
        report = self.write("report", lines(REPORT_HEADER, f"1,rise,1,x0,{steps},robust,1,-,-", f"1,fall,1,x0,{steps},untestable,-,-,1"))
        tests = self.write("tests", lines("pdfgen tests 1", "sources x0", "observed x18", "1 1 rise robust 0 1 0"))
        delays = self.write("delays", lines("gate,pin,delay", "*,*,0", *(f"d{number},0,{2 ** number}" for number in range(1, 19))))
        self.refuse(main, "line x17 changes too often", net, delays, tests, report, self.path("vcd"), "--test", "1", "--time", "3")


class DelayFiles(ToolTest):
    def test_rows_override_earlier_ones(self) -> None:
        circuit = random_circuit(random.Random(9), 3)
        names = circuit.names[circuit.source_count:]
        text = f'\xef\xbb\xbfgate,pin,delay\r\n\r\n * ,*,010\r"{names[0]}" , 0,25\n*,1,7'
        found = delays_of(text, circuit)
        for name, pins in zip(names, found.of_gate):
            wanted = [10] * len(pins)
            wanted[0] = 25 if name == names[0] else 10
            wanted[1:2] = [7] * len(wanted[1:2])
            self.assertEqual([delay.rise for delay in pins], wanted)
        self.assertFalse(found.are_two)
        self.assertEqual(delays_of("gate,pin,rise,fall", circuit).of_gate[0][0], PinDelay(1, 1))

    def test_other_rows_are_refused(self) -> None:
        files = hazard_files(self)
        head = "DELAYS row 1: neither gate,pin,delay nor gate,pin,rise,fall"
        for reason, text in ((head, ""), (head, "gate,pin\n"), ("DELAYS row 2: not 3 fields", "gate,pin,delay\ny,0,1,2\n"),
                             ("DELAYS row 2: unknown gate", "gate,pin,delay\na,0,1\n"), ("DELAYS row 2: bad pin", "gate,pin,delay\ny,2,1\n"),
                             ("DELAYS row 2: bad pin", "gate,pin,delay\n*,1024,1\n"), ("DELAYS row 2: bad number", "gate,pin,delay\ny,0,1000001\n"),
                             ("DELAYS row 2: bad number", "gate,pin,delay\ny,0,-1\n"), ("DELAYS row 2: bad number", "gate,pin,rise,fall\ny,0,1,\n"),
                             ("DELAYS row 3: unknown gate", "gate,pin,delay\n*,*,1\nz,0,1\n")):
            words = [files[0], self.write("delays", text), *files[1:], self.path("vcd"), "--test", "1", "--time", "1"]
            self.refuse(main, reason, *words)
