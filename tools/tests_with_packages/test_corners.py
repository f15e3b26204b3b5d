"""examples/corners.mk says which netlist is missing."""
from __future__ import annotations

import subprocess

from packages import EXAMPLES, ToolTest


class Corners(ToolTest):
    def test_a_missing_netlist_has_its_line(self) -> None:
        (self.folder / "delays").mkdir()
        (self.folder / "delays" / "chip.slow.csv").write_text("gate,pin,delay\n")
        ended = subprocess.run(["make", "-k", "-f", str(EXAMPLES / "corners.mk")], cwd=self.folder, capture_output=True, text=True)
        self.assertEqual(ended.returncode, 2)
        self.assertIn("corners.mk: no netlist nets/chip.bench, of which delays/ has a file (delays/NAME.CORNER.csv is of nets/NAME.bench)\n", ended.stderr)
        self.assertNotIn("No rule", ended.stderr)
