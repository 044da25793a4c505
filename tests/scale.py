"""What the tests at scale share: the bench tool called in this process, and what the oracle says of a dump."""

import contextlib
import io
import os
import sys
from collections import namedtuple

sys.dont_write_bytecode = True
HERE = os.path.dirname(os.path.abspath(__file__))
ROOT = os.path.dirname(HERE)
for place in (ROOT, os.path.join(ROOT, "oracle"), HERE):
    if place not in sys.path:
        sys.path.insert(0, place)

from clib import VARIABLE, library_path  # noqa: E402
from support import PROGRAM, oracle_listing  # noqa: E402, F401

Ended = namedtuple("Ended", "status stdout stderr")


class Text(io.TextIOWrapper):
    """A standard output that is kept: `buffer` takes bytes, as the real one's does."""

    def __init__(self):
        super().__init__(io.BytesIO(), encoding="utf-8", errors="surrogateescape")

    def bytes(self):
        self.flush()
        return self.buffer.getvalue()


def tool(*words):
    """The bench tool's main, called here: starting a process for each of thousands of dumps would take longer."""
    from benchtool.cli import main
    os.environ[VARIABLE] = library_path()
    out, err = Text(), Text()
    with contextlib.redirect_stdout(out), contextlib.redirect_stderr(err):
        status = main([str(word) for word in words])
    return Ended(status, out.bytes(), err.bytes())


def tool_on(data, command, *options):
    """The tool on a file of these bytes, in memory and without a name that could be left behind."""
    with open(os.memfd_create("dump"), "wb", buffering=0) as file:
        assert file.write(data) == len(data)
        return tool(command, "/proc/self/fd/%d" % file.fileno(), *options)


def memory_directory():
    """For files that need no disk."""
    return "/dev/shm" if os.access("/dev/shm", os.W_OK) else None


def status_of(text):
    """The exit status that goes with a listing: its grade, or 2 for a refusal."""
    first = text.split(b"\n", 1)[0].split(b" ")
    return 2 if first[0] == b"refused" else int(first[-1])
