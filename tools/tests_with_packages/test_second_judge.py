"""pdfgen-check-tests beside `pdfgen check`."""
from __future__ import annotations

import os
import pathlib
import subprocess
import sys

from packages import PROGRAM, ToolTest

COMPARE = pathlib.Path(__file__).resolve().parent / "compare_with_check"


class SecondJudge(ToolTest):
    def test_both_judges_agree(self) -> None:
        words = [sys.executable, str(COMPARE), "--program", PROGRAM, "--cases", "200"]
        ended = subprocess.run(words, capture_output=True, text=True, env={**os.environ, "TMPDIR": str(self.folder)})
        self.assertEqual((ended.returncode, ended.stderr), (0, ""), ended.stdout)
        self.assertEqual(list(self.folder.iterdir()), [])

    def test_without_the_program(self) -> None:
        ended = subprocess.run([sys.executable, str(COMPARE), "--program", "/none"], capture_output=True, text=True)
        self.assertEqual((ended.returncode, ended.stderr), (1, "compare_with_check: [Errno 2] No such file or directory: '/none'\n"))
