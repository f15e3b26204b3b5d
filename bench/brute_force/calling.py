"""Calls of the program, for differ.py and spoil.py."""
import pathlib
import shutil
import subprocess

SECONDS = 60
FILES = ("net", "delays", "scan", "tests", "report", "proofs")


def modes_of(program):
    """The modes that the program has; enhanced alone where it has no option --mode."""
    found = ["enhanced"]
    for mode in ("broadside", "skewed"):
        said = subprocess.run([program, "gen", "--mode", mode], capture_output=True).stderr
        if b"words: count" in said or b"words: scan" in said:
            found.append(mode)
    return found


def knows_scan(program):
    """Whether the program has the command scan."""
    return b"words: count" in subprocess.run([program, "scan"], capture_output=True).stderr


class Folder:
    """The files of one case, and calls on them."""

    def __init__(self, program, folder, case):
        self.program, self.case = program, case
        self.at = {name: pathlib.Path(folder) / name for name in FILES}
        for name, text in (("net", case.net), ("delays", case.delays), ("scan", case.scan)):
            self.at[name].write_bytes(text)

    def words(self, command, mode, paths=None, budget=None):
        words = [self.program, command, *(str(self.at[n]) for n in ("net", "delays", "tests", "report", "proofs"))]
        words += ["--paths", str(paths or self.case.paths), "--budget", str(budget or self.case.budget)]
        if mode != "enhanced":
            words += ["--mode", mode]
        if mode == "skewed":
            words += ["--scan", str(self.at["scan"])]
        return words

    def call(self, command, mode=None, **more):
        try:
            ended = subprocess.run(self.words(command, mode or self.case.mode, **more), capture_output=True, timeout=SECONDS)
        except subprocess.TimeoutExpired:
            return None, "", "over %d seconds" % SECONDS
        return ended.returncode, ended.stdout.decode("latin-1"), ended.stderr.decode("latin-1")

    def scan(self):
        ended = subprocess.run([self.program, "scan", *(str(self.at[n]) for n in ("net", "scan", "tests"))], capture_output=True, timeout=120)
        return ended.returncode, ended.stdout.decode("latin-1"), ended.stderr.decode("latin-1")

    def texts(self):
        return [self.at[name].read_bytes() for name in FILES[3:]]

    def keep(self, label, said):
        """Keeps the files of a case that failed."""
        kept = pathlib.Path(__file__).resolve().parent / "failed" / label
        kept.mkdir(parents=True, exist_ok=True)
        for name in FILES:
            if self.at[name].exists():
                shutil.copy(self.at[name], kept / name)
        (kept / "said").write_text(said + "\n" + " ".join(self.words("gen", self.case.mode)) + "\n")
