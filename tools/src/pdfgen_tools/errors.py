"""What a call of a tool reads and writes, and how it ends where that can't be done: one line on err, and a status.

Texts are read byte for byte (latin-1), since a netlist's comments may hold any bytes. Outputs appear whole or not at all: all of them are
written beside their places first, and only then moved there."""
from __future__ import annotations

import argparse
import contextlib
import os
import stat
import sys
import tempfile
from typing import Callable, Iterator, List, NoReturn, Optional, Sequence, Tuple

REFUSED, WRONG_WORDS, UNREADABLE, UNWRITABLE, NO_MEMORY, INTERRUPTED = 1, 2, 5, 6, 7, 130  # statuses; 5 to 7 are those of pdfgen


class Failed(Exception):
    """A call that can't go on. Its text is the line that the tool prints on err."""
    status = REFUSED


class Refused(Failed):
    """Bad input. Its text begins with the role of the file, as `NET line 3: no statement`."""


class WrongWords(Failed):
    """Words that the tool doesn't take."""
    status = WRONG_WORDS


class ReadFault(Failed):
    """A file that can't be read."""
    status = UNREADABLE


class WriteFault(Failed):
    """A file, or the standard output, that can't be written."""
    status = UNWRITABLE


class Words(argparse.ArgumentParser):
    """A parser of a tool's words: it refuses them by WrongWords, takes no shortened options, and --help prints the tool's text as it stands."""

    def __init__(self, tool: str, text: Optional[str]) -> None:
        super().__init__(prog=tool, description=text, formatter_class=argparse.RawDescriptionHelpFormatter, allow_abbrev=False)

    def files(self, *roles: str) -> None:
        """Adds words that are names of files, by their roles, as NET."""
        for role in roles:
            self.add_argument(role.lower(), metavar=role)

    def error(self, message: str) -> NoReturn:
        raise WrongWords(f"words: {message}")


class Files:
    """The files of one call. What was read is remembered, so that no output overwrites it."""

    def __init__(self) -> None:
        self.names_read: List[str] = []

    def read(self, name: str) -> str:
        """The text of a file, its ends of lines as they stand. ReadFault where the system refuses it."""
        self.names_read.append(name)
        try:
            with open(name, encoding="latin-1", newline="") as file:
                return file.read()
        except (OSError, ValueError) as fault:
            raise ReadFault(f"{name}: {reason_of(fault)}")

    def write(self, *outputs: Tuple[str, str]) -> None:
        """Makes each text the content of its file, all of them or none: pairs of a name and a text, called once, when all is read.

        Refused where an output is another file of this call; WriteFault where the system refuses it: then each file is as it was."""
        self.refuse_overwriting([name for name, _ in outputs])
        self.put([(name, text.encode("latin-1")) for name, text in outputs])

    def write_bytes(self, name: str, content: bytes) -> None:
        """The same of one output that is no text."""
        self.refuse_overwriting([name])
        self.put([(name, content)])

    def refuse_overwriting(self, outputs: Sequence[str]) -> None:
        """Refuses an output that is another file of this call, by whatever name."""
        for at, name in enumerate(outputs):
            if any(is_same(name, other) for other in [*self.names_read, *outputs[:at]]):
                raise Refused(f"{name}: would overwrite another file of this call")

    @staticmethod
    def put(outputs: Sequence[Tuple[str, bytes]]) -> None:
        """Writes all outputs beside their places, then moves them there, the last one first; what was moved goes back where a later one fails."""
        with contextlib.ExitStack() as undone:
            moves = [(name, part) for name, part in ((name, written(name, content, undone)) for name, content in outputs) if part]
            for name, part in reversed(moves):
                move(name, part, undone)
            undone.pop_all()
            for name, part in moves:
                remove(part + ".before")


def written(name: str, content: bytes, undone: contextlib.ExitStack) -> Optional[str]:
    """Writes a content beside a file, and answers under which name. What is no file, as /dev/null or a pipe, gets it at once."""
    place = os.path.realpath(name)
    try:
        if os.path.lexists(place) and not os.path.isfile(place):
            with open(place, "wb") as file:
                file.write(content)
            return None
        handle, part = tempfile.mkstemp(prefix=".pdfgen-", dir=os.path.dirname(place))
        undone.callback(remove, part)
        with open(handle, "wb") as file:
            file.write(content)
            file.flush()
            os.fsync(file.fileno())
        os.chmod(part, mode_of(place))
        return part
    except (OSError, ValueError) as fault:
        raise WriteFault(f"{name}: {reason_of(fault)}")


def move(name: str, part: str, undone: contextlib.ExitStack) -> None:
    """Moves a written part to its place, and notes how the place becomes what it was."""
    place, before = os.path.realpath(name), part + ".before"
    try:
        if os.path.lexists(place):
            undone.callback(remove, before)  # a link to what still stands there isn't moved
            os.link(place, before)
            undone.callback(os.replace, before, place)
        else:
            undone.callback(remove, place)
        os.replace(part, place)
    except OSError as fault:
        raise WriteFault(f"{name}: {reason_of(fault)}")


def mode_of(place: str) -> int:
    """The access that a file has, or that a new one gets."""
    if os.path.exists(place):
        return stat.S_IMODE(os.stat(place).st_mode)
    mask = os.umask(0)
    os.umask(mask)
    return 0o666 & ~mask


def remove(name: str) -> None:
    with contextlib.suppress(FileNotFoundError):
        os.unlink(name)


def is_same(name: str, other: str) -> bool:
    """Whether two names are of one file, there or not. What is no file, as /dev/null, may be written twice."""
    if os.path.exists(name) and os.path.exists(other):
        return os.path.isfile(name) and os.path.samefile(name, other)
    return os.path.realpath(name) == os.path.realpath(other)


def reason_of(fault: Exception) -> str:
    """Why the system refused a file, in its words."""
    return (fault.strerror if isinstance(fault, OSError) else None) or str(fault)


def one_line(text: str) -> str:
    """The text with each byte that is not to be printed as it is spelled in Python, such as \\r."""
    return "".join(letter if letter.isprintable() else repr(letter)[1:-1] for letter in text)


def run(tool: str, work: Callable[[Sequence[str], Files], None], words: Optional[Sequence[str]]) -> int:
    """Does a tool's work with these words (those of the command line if None), and answers its status.

    What goes wrong is told in one line on err. Nothing but --help ends the process."""
    try:
        with flushed_out():
            work(sys.argv[1:] if words is None else words, Files())
        return 0
    except Failed as failed:
        return told(tool, str(failed), failed.status)
    except MemoryError:
        return told(tool, "want of memory", NO_MEMORY)
    except KeyboardInterrupt:
        return told(tool, "interrupted", INTERRUPTED)


@contextlib.contextmanager
def flushed_out() -> Iterator[None]:
    """Whatever is printed inside reaches the standard output, or it is a WriteFault."""
    try:
        yield
        sys.stdout.flush()
    except OSError as fault:
        with contextlib.suppress(OSError, ValueError):  # what is buffered can't be written, also not when the process ends
            os.dup2(os.open(os.devnull, os.O_WRONLY), sys.stdout.fileno())
        raise WriteFault(f"out: {reason_of(fault)}")


def told(tool: str, line: str, status: int) -> int:
    """Prints the line on err."""
    with contextlib.suppress(OSError):
        print(one_line(f"{tool}: {line}"), file=sys.stderr)
    return status


def warn(tool: str, line: str) -> None:
    """Prints a line on err that changes no status."""
    told(tool, f"warning: {line}", 0)
