"""MAP and its one spelling."""
from __future__ import annotations

import unittest

from support import lines
from pdfgen_tools.bench import circuit_of
from pdfgen_tools.errors import Refused
from pdfgen_tools.names import Cell, Clock, Held, Port, fit, map_of, text_of

GOOD = lines("pdfgen map 2", "what,name,line,value", "clock,ck,,falling", "held,r,,1", "constant,z,,0", "settled,s,,1", "input,a,a,",
             "output,y,y%output,", "flip_flop,f,q,", "gate,g,y,A B", "setup,f,q%setup,D", "clock_to_q,f,q%clock_to_q,C", "still,h,,A",
             "output_wire,y,y%output,", "bus,a,,7:0", "bus,b,,-1:2", "alias,w,y,")


class Maps(unittest.TestCase):
    def test_each_kind_of_row(self) -> None:
        found = map_of(GOOD)
        self.assertEqual(text_of(found), GOOD)
        self.assertEqual((found.clocks, found.held, found.constants), ([Clock("ck", "falling")], [Held("r", 1)], [Held("z", 0)]))
        self.assertEqual((found.settled, found.flip_flops, found.outputs), ([Held("s", 1)], [Port("f", "q")], [Port("y", "y%output")]))
        self.assertEqual((found.gates, found.stills), ([Cell("g", "y", ("A", "B"))], [Cell("h", "", ("A",))]))

    def test_other_texts_are_refused(self) -> None:
        for reason, old, new in (
                ("MAP line 1: not pdfgen map 2", "map 2", "map 1"), ("MAP line 2: not what,name,line,value", "what,", "what;"),
                ("MAP: its last line has no end", "alias,w,y,\n", "alias,w,y,"), ("MAP line 3: not four fields", "ck,,falling", "ck,falling"),
                ("MAP line 4: unknown hold", "held", "hold"), ("MAP line 4: no row of held", "r,,1", "r,,2"),
                ("MAP line 4: no row of held", "r,,1", "r,x,1"), ("MAP line 3: no row of clock", "falling", "sideways"),
                ("MAP line 7: no row of input", "a,a,", "a,,"), ("MAP line 7: no row of input", "input,a,a,", "input,,a,"),
                ("MAP line 7: no row of input", "a,a,", "a,a,x"), ("MAP line 10: no row of gate", "A B", "A  B"),
                ("MAP line 10: no row of gate", "g,y,A", "g h,y,A"), ("MAP line 17: twice h", "alias,w,y,", "still,h,,B"), ("MAP line 10: twice f", "gate,g", "gate,f")):
            with self.subTest(new), self.assertRaises(Refused) as raised:
                map_of(GOOD.replace(old, new, 1))
            self.assertEqual(str(raised.exception), reason)

    def test_a_map_of_another_netlist_is_refused(self) -> None:
        good = lines("pdfgen map 2", "what,name,line,value", "input,a,a,", "input,b,b,", "output,y,y,", "flip_flop,f,q,", "gate,g,y,A B", "alias,w,y,")
        circuit = circuit_of(lines("INPUT(a)", "INPUT(b)", "OUTPUT(y)", "q = DFF(b)", "y = AND(a, q)"))
        fit(map_of(good), circuit)
        for what, old, new in (
                ("its inputs aren't those of NET", "input,b,b,\n", ""), ("its inputs aren't those of NET", "input,b,b,", "input,b,a,"),
                ("its outputs aren't those of NET", "output,y,y,", "output,y,q,"), ("its flip-flops aren't those of NET", "f,q,", "f,p,"),
                ("its gates aren't those of NET", "gate,g,y,A B\n", ""), ("g has other pins in NET", "A B", "A"),
                ("its aliases aren't those of NET", "alias,w,y,", "alias,w,x,")):
            with self.subTest(new), self.assertRaises(Refused) as raised:
                fit(map_of(good.replace(old, new, 1)), circuit)
            self.assertEqual(str(raised.exception), f"MAP: {what}")
