"""`ubibench list` against `ubilist` on every stored dump: same bytes, and the exit status that goes with them.

    python3 tests/scale_tool.py [UBILIST] [--processes 300] [--jobs 2]

The stored dumps are the inputs of crates/test_listing, test_attach, test_mover and ubilist, and samples/. Each goes to
`ubilist` on standard input and to the tool as a file with its slip in front; and once more as the image alone with the
slip's numbers on the command line, where they can be read. The tool is called in this process, but for some hundreds
of dumps as a program of its own. A dump above `ubilist`'s 60 KiB is its refusal 3: of such a one the tool's listing is
held against the oracle's. At a difference the dump is kept in a file that the message names, and the exit status is 1.
"""

import argparse
import os
import subprocess
import sys
from collections import Counter
from multiprocessing import Pool

import scale
from clib import VARIABLE, library_path
from scale import PROGRAM, ROOT, Ended

import listing
import samples
import ubi
from frames import Fields, attach_parts, listing_parts
from programs import keep

SECONDS = 60
BATCH = 50
PLACE = "build/ubilist"
TOO_LONG = b"refused 3 at 0\n"
# A run over fewer dumps than there are has lost some.
LEAST_DUMPS = 3000


# ------------------------------------------------------------ the stored dumps

def payloads(program):
    with open(os.path.join(ROOT, "crates", program, "stdin"), "rb") as file:
        fields = Fields(file.read())
    found = [fields.bytes(fields.number(2)) for _ in range(fields.number(4))]
    assert fields.at_end()
    return found


def stored_dumps():
    """Name and bytes, slip in front, each once."""
    found = {}
    for number, payload in enumerate(payloads("test_listing")):
        held, more, _ = listing_parts(payload)
        # Of more input no byte counts but that it is there.
        found.setdefault(held + bytes(more), "test_listing %d" % number)
    for program in ("test_attach", "test_mover"):
        for number, payload in enumerate(payloads(program)):
            slip, _, image = attach_parts(Fields(payload))
            found.setdefault(slip + image, "%s %d" % (program, number))
    for path, front in (("crates/ubilist/stdin", b""), ("samples/small.dump", b""),
                        ("samples/chip.dump", samples.CHIP.slip)):
        with open(os.path.join(ROOT, path), "rb") as file:
            found.setdefault(front + file.read(), path)
    return [(name, data) for data, name in found.items()]


# ------------------------------------------------------------------- comparing

def run_ubilist(program, data):
    done = subprocess.run([program], input=data, stdout=subprocess.PIPE, timeout=SECONDS)
    if done.returncode < 0:
        raise AssertionError("ubilist ended by signal %d" % -done.returncode)
    return done.stdout


def run_tool(data, options, as_process):
    if not as_process:
        return scale.tool_on(data, "list", *options)
    command = [sys.executable, "-B", PROGRAM, "list", "-"] + [str(word) for word in options]
    done = subprocess.run(command, input=data, stdout=subprocess.PIPE, stderr=subprocess.PIPE, timeout=SECONDS)
    return Ended(done.returncode, done.stdout, done.stderr)


def ways(data):
    """The bytes of a file with the options for it."""
    yield data, ["--slip"]
    try:
        peb_size, unit, sub_unit = ubi.read_slip(data[:listing.SLIP_SIZE])
    except ubi.Refused:
        return
    yield data[listing.SLIP_SIZE:], ["--peb-size", peb_size, "--unit", unit, "--sub-unit", sub_unit]


def compare(program, name, data, as_process, counts):
    """None, or what differs."""
    wanted = run_ubilist(program, data)
    counts["dumps"] += 1
    if len(data) > listing.MOST_INPUT and wanted == TOO_LONG:
        counts["above 60 KiB: against the oracle"] += 1
        wanted = scale.oracle_listing(data[:listing.SLIP_SIZE], data[listing.SLIP_SIZE:])
    status = scale.status_of(wanted)
    counts["exit status %d" % status] += 1
    counts["as processes"] += as_process
    for content, options in ways(data):
        found = run_tool(content, options, as_process)
        counts["listings compared"] += 1
        if (found.stdout, found.status) != (wanted, status):
            kept = keep(data, "scale-tool-", ".dump")
            return "%s, %s: the tool ends with %s and prints\n%sinstead of %d and\n%sthe dump with its slip is in %s" \
                % (name, options, found.status, shown(found.stdout), status, shown(wanted), kept)
    return None


def shown(text):
    return "".join("    %s\n" % line for line in text.decode("ascii", "backslashreplace").splitlines()[:12])


def run_batch(job):
    program, batch = job
    counts = Counter()
    for name, data, as_process in batch:
        different = compare(program, name, data, as_process, counts)
        if different:
            return counts, different
    return counts, None


def find_ubilist(given):
    path = given or os.path.join(ROOT, PLACE)
    if os.access(path, os.X_OK):
        return os.path.abspath(path)
    raise SystemExit("ubilist is not built: looked for it at " + path)


def main(arguments):
    parser = argparse.ArgumentParser(description="The bench tool against ubilist on every stored dump.")
    parser.add_argument("ubilist", nargs="?", help="the listing program (%s)" % PLACE)
    parser.add_argument("--processes", type=int, default=300, help="dumps for which the tool is a process (300)")
    parser.add_argument("--jobs", type=int, default=2, help="processes that compare (2)")
    chosen = parser.parse_args(arguments)
    os.environ[VARIABLE] = library_path()
    program = find_ubilist(chosen.ubilist)
    dumps = stored_dumps()
    apart = max(1, len(dumps) // max(1, chosen.processes))
    marked = [(name, data, chosen.processes > 0 and number % apart == 0)
              for number, (name, data) in enumerate(dumps)]
    jobs = [(program, marked[at:at + BATCH]) for at in range(0, len(marked), BATCH)]
    counts = Counter()
    with Pool(chosen.jobs) as pool:
        for found, different in pool.imap_unordered(run_batch, jobs):
            counts.update(found)
            if different:
                print("a difference: " + different)
                return 1
    for name in sorted(counts):
        print("%7d %s" % (counts[name], name))
    if counts["dumps"] < LEAST_DUMPS or any(not counts["exit status %d" % status] for status in range(3)):
        print("scale_tool: too few dumps, or an exit status that none has")
        return 1
    print("scale_tool: %d dumps, 0 differences" % counts["dumps"])
    return 0


if __name__ == "__main__":
    sys.exit(main(sys.argv[1:]))
