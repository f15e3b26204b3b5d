"""mypy --strict of Debian finds nothing."""
from __future__ import annotations

from packages import TOOLS, ToolTest, printed


class Types(ToolTest):
    def test_strict(self) -> None:
        self.assertRegex(printed(["/usr/bin/mypy", "--cache-dir", str(self.folder)], TOOLS), r"\ASuccess: no issues found in [0-9]+ source files\n\Z")
