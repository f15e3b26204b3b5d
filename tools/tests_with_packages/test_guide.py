"""The guide's part 'From a chip to a tester': every line of it is run, and prints what the guide shows."""
from __future__ import annotations

import os
import pathlib
import re
import shutil
import subprocess
import sys
from typing import Dict, Iterator, Tuple

from packages import EXAMPLES, PROGRAM, ROOT, TOOLS, ToolTest


def calls(text: str) -> Iterator[Tuple[str, str]]:
    """The calls of the guide's blocks, each with the lines that it prints."""
    for block in re.findall(r"```\n(\$ .*?)```", text, re.DOTALL):
        for call in re.split(r"^\$ ", block, flags=re.MULTILINE)[1:]:
            words, _, printed = call.partition("\n")
            while printed.startswith("> "):
                more, _, printed = printed[2:].partition("\n")
                words += "\n" + more
            yield words, printed


def with_this_python() -> Dict[str, str]:
    """An environment in which the tools run under the Python of this test, which may be the one that has matplotlib."""
    return {**os.environ, "PATH": f"{pathlib.Path(sys.executable).parent}{os.pathsep}{os.environ['PATH']}"}


class Guide(ToolTest):
    def test_every_line(self) -> None:
        for name in ("bin", "nets", "delays"):
            (self.folder / name).mkdir()
        (self.folder / "examples").symlink_to(EXAMPLES)
        (self.folder / "tools").symlink_to(TOOLS)
        (self.folder / "bin" / "pdfgen").symlink_to(PROGRAM)
        for name in ("counter", "hazard"):
            shutil.copy(EXAMPLES / f"{name}.bench", self.folder / "nets")
            shutil.copy(EXAMPLES / "unit.csv", self.folder / "delays" / f"{name}.slow.csv")
        self.write("machines", ":\n")
        guide = (ROOT / "docs" / "guide.md").read_text()
        for words, printed in calls(guide[guide.index("## From a chip to a tester"):]):
            with self.subTest(words):
                if "parallel" in words:
                    if not shutil.which("parallel"):
                        continue
                    shutil.rmtree(self.folder / "runs")  # else all stand already
                ended = subprocess.run(["bash", "-c", words], cwd=self.folder, capture_output=True, text=True, env=with_this_python())
                self.assertEqual((ended.returncode, ended.stderr), (0, ""))
                if printed:
                    self.assertEqual(ended.stdout, printed)
        self.assertTrue((self.folder / "runs" / "hazard.slow.done").exists())
