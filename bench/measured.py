"""Runs a program and tells how it ended, what it said, and what it took. For the scripts beside it."""
import ctypes
import os
import subprocess
import tempfile

PR_SET_CHILD_SUBREAPER = 36


class Run:
    """How a run ended: its status (None where a signal ended it), err, processor seconds, and its peak memory in KB."""

    def __init__(self, status, err, seconds, kilobytes):
        self.status = status
        self.err = err
        self.seconds = seconds
        self.kilobytes = kilobytes


def be_the_one_who_waits():
    """Makes this process wait for the orphans of its children. Called once, before the first run."""
    if ctypes.CDLL(None, use_errno=True).prctl(PR_SET_CHILD_SUBREAPER, 1, 0, 0, 0) != 0:
        raise OSError(ctypes.get_errno(), "prctl")


# Gives a program $0 processor seconds, after which a signal ends it, and four times as many of the clock, and $1 KB of address space.
LIMITED = 'ulimit -t "$0"; ulimit -v "$1"; most=$(($0 * 4)); shift; exec timeout "$most" "$@"'


def run(words, most_seconds=None, most_kilobytes=None):
    """Runs the program words[0] with the other words, again where the shell that starts it has waited for it. It may take so much, if that
    is told."""
    if most_seconds is not None:
        words = ["sh", "-c", LIMITED, str(most_seconds), str(most_kilobytes or "unlimited"), *words]
    while True:
        try:
            return run_once(words)
        except ChildProcessError:
            continue


def run_once(words):
    """Runs the program once. A shell starts it and ends at once, since the peak of a process that Python itself starts is at
    least Python's own. A run that ends before the shell does may be the shell's to wait for."""
    with tempfile.TemporaryFile() as err:
        shell = subprocess.run(
            ["sh", "-c", '"$@" >/dev/null & echo $!', "sh", *words],
            stdin=subprocess.DEVNULL, stdout=subprocess.PIPE, stderr=err, check=True)
        _, ended, took = os.wait4(int(shell.stdout), 0)
        err.seek(0)
        said = err.read().decode("utf-8", "replace")
    status = os.WEXITSTATUS(ended) if os.WIFEXITED(ended) else None
    return Run(status, said, took.ru_utime + took.ru_stime, took.ru_maxrss)
