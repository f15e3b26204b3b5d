"""How calls end: outputs whole or untouched, a line and a status; by the thin scripts, as processes of their own."""
from __future__ import annotations

import errno
import os
import pathlib
import resource
import subprocess
import sys
import unittest
from typing import Any, Tuple
from unittest import mock

from support import TOOLS, ToolTest, called, hazard_files
from pdfgen_tools.cli.check_tests import main
from pdfgen_tools.errors import Files, Refused, WriteFault, run

SCRIPTS = sorted(path.name for path in TOOLS.glob("pdfgen-*"))


def ended(*words: str, **more: Any) -> Tuple[int, str]:
    """How a thin script ended, and what it said on err."""
    buffered = {name: value for name, value in os.environ.items() if name != "PYTHONUNBUFFERED"}  # what is printed stays till the end
    done = subprocess.run([sys.executable, str(TOOLS / words[0]), *words[1:]], stderr=subprocess.PIPE, text=True, env=buffered, **more)
    return done.returncode, done.stderr


class Calls(ToolTest):
    def test_each_script_says_what_it_does(self) -> None:
        for script in SCRIPTS:
            with self.subTest(script):
                done = subprocess.run([sys.executable, str(TOOLS / script), "--help"], capture_output=True, text=True, cwd=self.folder)
                self.assertEqual((done.returncode, done.stderr), (0, ""))
                self.assertIn(f"\n    {script} ", done.stdout)
                status, line = ended(script, "--none", cwd=self.folder)
                self.assertEqual(status, 2)
                self.assertRegex(line, rf"\A{script}: words: [^\n]+\n\Z")

    def test_a_full_disk_and_a_closed_pipe_at_out(self) -> None:
        words = ["pdfgen-check-tests", *hazard_files(self)]
        with open("/dev/full", "w") as full:
            self.assertEqual(ended(*words, stdout=full), (6, "pdfgen-check-tests: out: No space left on device\n"))
        reader, writer = os.pipe()
        os.close(reader)
        with open(writer, "w") as closed:
            self.assertEqual(ended(*words, stdout=closed), (6, "pdfgen-check-tests: out: Broken pipe\n"))

    def test_a_file_that_cannot_be_read(self) -> None:
        net, tests, report = hazard_files(self)
        for name, reason in ((self.path("none"), "No such file or directory"), (str(self.folder), "Is a directory")):
            self.refuse(main, f"{name}: {reason}", net, name, report, status=5)

    def test_want_of_memory_and_an_interrupt_are_a_line(self) -> None:
        for fault, line, status in ((MemoryError(), "want of memory", 7), (KeyboardInterrupt(), "interrupted", 130)):
            with mock.patch("pdfgen_tools.cli.check_tests.circuit_of", side_effect=fault):
                self.refuse(main, line, *hazard_files(self), status=status)


class Outputs(ToolTest):
    def test_all_outputs_or_none(self) -> None:
        one, two = self.write("one", "old"), self.path("two")
        Files().write((one, "new"), (two, "newer"))
        self.assertEqual((self.read("one"), self.read("two")), ("new", "newer"))
        for call in ("os.fsync", "os.replace"):
            for failing in (1, 2):
                faults = [None] * (failing - 1) + [OSError(errno.ENOSPC, "No space left on device")]
                real = os.fsync if call == "os.fsync" else os.replace
                with self.subTest(call, failing=failing), mock.patch(call, side_effect=steps(faults, real)), self.assertRaises(WriteFault):
                    Files().write((one, "third"), (two, "third"))
                self.assertEqual((self.read("one"), self.read("two")), ("new", "newer"))
                self.assertEqual(len(list(self.folder.iterdir())), 2)

    def test_a_file_that_grows_too_large(self) -> None:
        script = "import sys; sys.path.insert(0, sys.argv[1]); from pdfgen_tools.errors import Files, run; " \
                 "sys.exit(run('tool', lambda words, files: files.write((sys.argv[2], 'x' * 100000)), []))"
        self.write("out", "old")
        done = subprocess.run([sys.executable, "-c", script, str(TOOLS / "src"), self.path("out")], stderr=subprocess.PIPE, text=True,
                              preexec_fn=lambda: resource.setrlimit(resource.RLIMIT_FSIZE, (5000, 5000)))
        self.assertEqual((done.returncode, done.stderr), (6, f"tool: {self.path('out')}: File too large\n"))
        self.assertEqual((self.read("out"), len(list(self.folder.iterdir()))), ("old", 1))

    def test_what_is_no_file_is_written_at_once(self) -> None:
        Files().write(("/dev/null", "x"), ("/dev/null", "y"))
        with self.assertRaisesRegex(WriteFault, "/dev/full: No space left on device"):
            Files().write(("/dev/full", "x"))
        with self.assertRaisesRegex(WriteFault, "Is a directory"):
            Files().write((str(self.folder), "x"))

    def test_links_and_access_stay(self) -> None:
        place = pathlib.Path(self.write("place", "old"))
        place.chmod(0o640)
        (self.folder / "link").symlink_to("place")
        Files().write((self.path("link"), "new"))
        self.assertEqual((place.read_text(), place.stat().st_mode & 0o777, (self.folder / "link").is_symlink()), ("new", 0o640, True))
        mask = os.umask(0o027)
        try:
            Files().write((self.path("fresh"), "new"))
        finally:
            os.umask(mask)
        self.assertEqual((self.folder / "fresh").stat().st_mode & 0o777, 0o640)

    def test_no_output_is_another_file_of_the_call(self) -> None:
        self.write("in", "old")
        (self.folder / "link").symlink_to("in")
        os.link(self.folder / "in", self.folder / "hard")
        for name in ("in", "link", "hard", "./in", "../" + self.folder.name + "/in"):
            files = Files()
            files.read(self.path("in"))
            with self.subTest(name), self.assertRaisesRegex(Refused, "would overwrite another file of this call"):
                files.write((self.path(name), "new"))
        with self.assertRaises(Refused):
            Files().write((self.path("new"), "x"), (self.path("./new"), "y"))
        self.assertEqual(self.read("in"), "old")

    def test_control_bytes_of_a_line_are_spelled(self) -> None:
        def work(words: Any, files: Files) -> None:
            raise Refused("a\nb\r\x1b")

        self.assertEqual(called(lambda words: run("tool", work, words), []), (1, "", "tool: a\\nb\\r\\x1b\n"))


def steps(faults: "list[OSError | None]", real: Any) -> Any:
    """The real function, but a call of it fails where a fault stands in its turn."""
    left = list(faults)

    def replaced(*words: Any) -> Any:
        fault = left.pop(0) if left else None
        if fault is not None:
            raise fault
        return real(*words)

    return replaced


if __name__ == "__main__":
    unittest.main()
