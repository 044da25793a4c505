"""Runs the listing program on input and output that end, fail or pause.

    python3 oracle/ubilist.py build/ubilist

Where its input can be read, the program must print the oracle's listing of
it, however it came; where not, nothing at all. Where its output fails, what
it printed is the listing's beginning. Of a failure it says one line on
standard error, which names the program and the error, and else none. Its
exit status tells nothing, but a signal must not have ended it.

Calls that fail on demand come from `faults.c`, by the C compiler; without
one they are skipped, and a line says so. At the first difference the exit
status is 1.
"""

import errno
import os
import resource
import shutil
import subprocess
import sys
import tempfile
import time
from collections import namedtuple

# The modules beside this one are read only: leave no cache among them.
sys.dont_write_bytecode = True
HERE = os.path.dirname(os.path.abspath(__file__))
sys.path.insert(0, HERE)

from compare import SECONDS, shown  # noqa: E402
from images import BLANK, Flash  # noqa: E402
from listing import MOST_INPUT, SLIP_SIZE, listing  # noqa: E402
from samples import bench_dump, small_dump  # noqa: E402

SKIPPED = "skipped: calls that fail on demand, as there is no C compiler"
COMPILERS = ("cc", "gcc", "clang")

# What the program printed, what it said, and how it ended.
Outcome = namedtuple("Outcome", "output errors status")

# One run: what was tried, what came, the output it must be, and the errno of
# the line it must say; SAYS_NOTHING for none, ANY where there is no errno.
Trial = namedtuple("Trial", "what outcome output error")

SAYS_NOTHING, ANY = 0, -1

# Bytes of a listing, fewer than it has.
LIMIT = 33


# -------------------------------------------------------------------- dumps

def full_dump():
    """As much as the program holds: 37 PEBs of 1,660 bytes, which attach."""
    flash = Flash(1660, 4, 4)
    log = flash.volume(b"log", reserved=30)
    blocks = flash.with_tables([log], *[
        flash.dynamic(0, leb, 3 + leb, b"reading %d" % leb)
        for leb in range(30)])
    blocks += [flash.free(), flash.free(), flash.free(), BLANK, BLANK]
    return flash.slip + flash.image(blocks)


def dumps():
    """Name and bytes. One byte more than the program holds is refusal 3."""
    bench, full = bench_dump(), full_dump()
    assert len(full) == MOST_INPUT
    assert listing(full).startswith(b"attached 37 ")
    assert listing(full + b"\xff") == b"refused 3 at 0\n"
    some = [(name, bench[:size]) for name, size in (
        ("nothing", 0), ("1 byte", 1), ("19 bytes", SLIP_SIZE - 1),
        ("a slip", SLIP_SIZE), ("all but one byte", len(bench) - 1))]
    return some + [
        ("01's bench", bench), ("the sample", small_dump()),
        ("a byte less than is held", full[:-1]),
        ("as much as is held", full),
        ("a byte more than is held", full + b"\xff"),
        ("much more than is held", full + b"\xff" * 200000)]


def even_dump():
    """14 PEBs of 1,024 bytes, of which the first 8 would attach too."""
    flash = Flash(1024, 1, 1)
    blocks = flash.with_tables([flash.volume(b"log", reserved=6)], *[
        flash.dynamic(0, leb, 3 + leb) for leb in range(6)])
    dump = flash.slip + flash.image(blocks + [flash.free()] * 6)
    for count, size in ((8, SLIP_SIZE + 8 * 1024), (14, len(dump))):
        first = listing(dump[:size]).splitlines()[0]
        assert first.startswith(b"attached %d " % count)
        assert first.endswith(b" grade 0")
    return dump


# ------------------------------------------------------------------ running

def run(command, data=None, stdin=None, stdout=subprocess.PIPE, faults=None,
        **more):
    """The outcome, given bytes through a pipe or a file as standard input."""
    process = subprocess.Popen(
        command, stdin=subprocess.PIPE if stdin is None else stdin,
        stdout=stdout, stderr=subprocess.PIPE,
        env=dict(os.environ, **(faults or {})), **more)
    try:
        # Input that the program does not read is no error.
        output, errors = process.communicate(data, timeout=SECONDS)
    except subprocess.TimeoutExpired:
        process.kill()
        output, errors = process.communicate()
        return Outcome(output or b"", errors,
                       "none after %d seconds" % SECONDS)
    return Outcome(output or b"", errors, process.returncode)


def run_on_file(program, data):
    with tempfile.TemporaryFile() as held:
        held.write(data)
        held.seek(0)
        return run([program], stdin=held)


def run_in_pieces(program, data, size):
    """Through a pipe, most pieces most likely read before the next."""
    process = subprocess.Popen([program], stdin=subprocess.PIPE,
                               stdout=subprocess.PIPE, stderr=subprocess.PIPE)
    try:
        for at in range(0, len(data), size):
            process.stdin.write(data[at:at + size])
            process.stdin.flush()
            time.sleep(0.0005)
    except BrokenPipeError:
        pass
    output, errors = process.communicate(timeout=SECONDS)
    return Outcome(output, errors, process.returncode)


def run_without_waiting(program, data, ended):
    """From a non-blocking pipe that holds these bytes. Unless it has ended,
    its other end stays open: there may be more to come."""
    ours, theirs = os.pipe()[::-1]
    os.set_blocking(theirs, False)
    os.write(ours, data)
    if ended:
        os.close(ours)
    try:
        return run([program], stdin=theirs)
    finally:
        os.close(theirs)
        if not ended:
            os.close(ours)


def run_unread(program, data):
    """With a pipe as standard output whose other end is closed."""
    theirs, ours = os.pipe()
    os.close(theirs)
    try:
        return run([program], data, stdout=ours, restore_signals=False)
    finally:
        os.close(ours)


def run_limited(program, data):
    """With a file as standard output that must not grow beyond LIMIT."""
    def limit():
        resource.setrlimit(resource.RLIMIT_FSIZE, (LIMIT, LIMIT))

    with tempfile.TemporaryFile() as taken:
        outcome = run([program], data, stdout=taken, restore_signals=False,
                      preexec_fn=limit)
        taken.seek(0)
        return outcome._replace(output=taken.read())


def run_by_shell(program, redirection, data=None):
    """With a descriptor closed or made unfit, as the shell does it."""
    return run(["/bin/sh", "-c", 'exec "$0" ' + redirection, program], data)


# ------------------------------------------------------------------- trials

def listed(what, data, outcome):
    """Nothing failed."""
    return Trial(what, outcome, listing(data), SAYS_NOTHING)


def whole_inputs(program):
    for name, data in dumps():
        yield listed(name + ", from a file", data,
                     run_on_file(program, data))
        yield listed(name + ", from a pipe", data, run([program], data))
    for name, data, size in (
            ("the sample", small_dump(), 11),
            ("as much as is held", full_dump(), 509),
            ("a byte more than is held", full_dump() + b"\xff", 1021)):
        yield listed("%s, in pieces of %d bytes" % (name, size), data,
                     run_in_pieces(program, data, size))
    for name, data in dumps():
        if len(data) <= MOST_INPUT + 1:
            yield listed(name + ", from a non-blocking pipe that has ended",
                         data, run_without_waiting(program, data, True))


def failed_inputs(program):
    yield Trial("standard input closed", run_by_shell(program, "<&-"), b"",
                errno.EBADF)
    yield Trial("standard input open for writing only",
                run_by_shell(program, "0>/dev/null"), b"", errno.EBADF)
    directory = os.open(HERE, os.O_RDONLY)
    try:
        yield Trial("a directory as standard input",
                    run([program], stdin=directory), b"", errno.EISDIR)
    finally:
        os.close(directory)
    even = even_dump()
    for name, data in (("at once", b""), ("after the slip", even[:SLIP_SIZE]),
                       ("after 8 blocks", even[:SLIP_SIZE + 8 * 1024]),
                       ("after all 14 blocks", even),
                       ("after as much as is held", full_dump())):
        yield Trial("a non-blocking pipe that runs dry " + name,
                    run_without_waiting(program, data, False), b"",
                    errno.EAGAIN)


def failed_outputs(program):
    data = small_dump()
    with open("/dev/full", "wb") as full:
        yield Trial("a full device as standard output",
                    run([program], data, stdout=full), b"", errno.ENOSPC)
    # Python ignores the signals of these two, and so does then the program.
    yield Trial("a pipe that nobody reads as standard output",
                run_unread(program, data), b"", errno.EPIPE)
    yield Trial("a file that must not grow beyond %d bytes" % LIMIT,
                run_limited(program, data), listing(data)[:LIMIT],
                errno.EFBIG)
    yield Trial("standard output closed",
                run_by_shell(program, ">&-", data), b"", errno.EBADF)
    yield Trial("standard output open for reading only",
                run_by_shell(program, "1</dev/null", data), b"", errno.EBADF)


def calls_on_demand(program, library):
    """What `faults.c` does to the calls."""
    def given(data, **settings):
        faults = {name: str(value) for name, value in settings.items()}
        return run([program], data,
                   faults=dict(faults, LD_PRELOAD=library))

    small, even, full = small_dump(), even_dump(), full_dump()
    for name, data in dumps():
        for settings in (
                {"READ_MOST": 1}, {"READ_MOST": 1, "READ_AGAIN": 2},
                {"READ_AGAIN": 2}, {"READ_MOST": 997, "READ_AGAIN": 3},
                {"WRITE_MOST": 1}, {"WRITE_AGAIN": 2},
                {"WRITE_MOST": 7, "WRITE_AGAIN": 3}):
            yield listed("%s, with %s" % (name, settings), data,
                         given(data, **settings))
    # Four calls bring the slip and 8 blocks of 14.
    yield Trial("an error after 8 blocks",
                given(even, READ_MOST=(SLIP_SIZE + 8 * 1024) // 4, READ_FAIL=5,
                      READ_ERROR=errno.EIO), b"", errno.EIO)
    # The last of these calls meets the end, or the byte beyond what is held.
    for data, calls in ((even, (1, 2, 9, 15, 16)), (full, (1, 60, 61)),
                        (full + b"\xff", (1, 60, 61))):
        for call in calls:
            yield Trial(
                "an error in call %d of `read`, of %d bytes" % (
                    call, len(data)),
                given(data, READ_MOST=1024, READ_FAIL=call,
                      READ_ERROR=errno.EIO), b"", errno.EIO)
        yield listed(
            "no call of `read` after the last, of %d bytes" % len(data), data,
            given(data, READ_MOST=1024, READ_FAIL=calls[-1] + 1,
                  READ_ERROR=errno.EIO))
    yield Trial("interruptions without end, of `read`",
                given(small, READ_AGAIN=1), b"", errno.EINTR)
    yield Trial("interruptions without end, of `write`",
                given(small, WRITE_AGAIN=1), b"", errno.EINTR)
    for error in (errno.ENOSPC, errno.EIO, errno.EAGAIN, 0):
        yield Trial("errno %d in the third call of `write`" % error,
                    given(small, WRITE_MOST=10, WRITE_FAIL=3,
                          WRITE_ERROR=error),
                    listing(small)[:20], error or ANY)


def made_library(directory):
    """`faults.c` as a library to be loaded first; None without a compiler."""
    compilers = [found for found in map(shutil.which, COMPILERS) if found]
    if not compilers:
        return None
    library = os.path.join(directory, "faults.so")
    made = subprocess.run(
        [compilers[0], "-O1", "-fPIC", "-shared", "-o", library,
         os.path.join(HERE, "faults.c")],
        stdout=subprocess.PIPE, stderr=subprocess.STDOUT)
    if made.returncode != 0:
        sys.exit("%s makes no library of faults.c:\n%s" % (
            compilers[0], made.stdout.decode("utf-8", "replace")))
    return library


def trials(program, library):
    yield from whole_inputs(program)
    yield from failed_inputs(program)
    yield from failed_outputs(program)
    if library is not None:
        yield from calls_on_demand(program, library)


# ------------------------------------------------------------------ judging

def says(errors, error):
    """Whether standard error is what it has to be."""
    if error == SAYS_NOTHING:
        return errors == b""
    one_line = errors.endswith(b"\n") and errors.count(b"\n") == 1
    named = b"" if error == ANY else os.strerror(error).encode("ascii")
    return (one_line and errors.startswith(b"ubilist: ")
            and errors.endswith(named + b"\n"))


def passes(trial):
    outcome = trial.outcome
    if (isinstance(outcome.status, int) and outcome.status >= 0
            and outcome.output == trial.output
            and says(outcome.errors, trial.error)):
        return True
    print("a difference: %s: exit status %s" % (trial.what, outcome.status))
    print("it has to print\n%sthe program prints\n%sand says\n%s" % (
        shown(trial.output), shown(outcome.output), shown(outcome.errors)),
        end="")
    if trial.error != SAYS_NOTHING:
        print("where one line has to name it and the error%s" % (
            "" if trial.error == ANY else ": " + os.strerror(trial.error)))
    return False


def main(arguments):
    if len(arguments) != 1:
        print(__doc__.strip(), file=sys.stderr)
        return 2
    count = 0
    with tempfile.TemporaryDirectory() as directory:
        library = made_library(directory)
        if library is None:
            print(SKIPPED)
        for trial in trials(os.path.abspath(arguments[0]), library):
            if not passes(trial):
                return 1
            count += 1
    print("ran %s %d times, 0 differences" % (arguments[0], count))
    return 0


if __name__ == "__main__":
    sys.exit(main(sys.argv[1:]))
