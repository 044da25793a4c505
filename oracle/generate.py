"""Writes the stored inputs and expected outputs of the test programs, the
listing program's example and the sample dump.

    python3 oracle/generate.py           write them
    python3 oracle/generate.py --check   compare them, and write nothing
"""

import os
import sys

# The modules beside this one are read only: leave no cache among them.
sys.dont_write_bytecode = True
HERE = os.path.dirname(os.path.abspath(__file__))
sys.path.insert(0, HERE)

import attach  # noqa: E402
import builder  # noqa: E402
import listing  # noqa: E402
import mover  # noqa: E402
import samples  # noqa: E402
import ubi  # noqa: E402
from cases import together  # noqa: E402
from cases_attach import attach_cases  # noqa: E402
from cases_builder import builder_cases  # noqa: E402
from cases_crc import crc_cases  # noqa: E402
from cases_header import header_cases  # noqa: E402
from cases_listing import listing_cases  # noqa: E402
from cases_mover import mover_cases  # noqa: E402
from cases_slip import slip_cases  # noqa: E402
from cases_table import table_cases  # noqa: E402

ROOT = os.path.dirname(HERE)


def media_cases():
    """Those of the media format's parts."""
    return together([("crc", crc_cases()), ("slip", slip_cases()),
                     ("header", header_cases()), ("table", table_cases())])


# For each test program: its cases, the bytes its input stays below, and how
# many cases there are of each kind of answer; an answer of test_attach,
# test_listing or test_builder is of several kinds, and of test_mover each
# operation is counted. The numbers stand here so that a generator that loses a case does
# not go unseen; who adds cases counts them again.
PROGRAMS = (
    ("test_media", media_cases, 4000000, {
        "crc bytes": 937,
        "crc empty": 38,
        "slip good": 564,
        "slip refused 1": 595,
        "slip refused 2": 945,
        "header op 1 good": 151,
        "header op 1 lost": 436,
        "header op 1 newer": 77,
        "header op 1 refused 4": 67,
        "header op 2 bad": 1438,
        "header op 2 good": 394,
        "header op 2 newer": 117,
        "header op 2 refused 4": 71,
        "header op 3 refused 19": 148,
        "header op 3 refused 4": 50,
        "header op 3 written": 97,
        "header op 4 refused 19": 1195,
        "header op 4 refused 4": 44,
        "header op 4 written": 366,
        "table op 1 bad": 818,
        "table op 1 empty": 9,
        "table op 1 good": 298,
        "table op 1 refused 4": 35,
        "table op 2 taken 0 mark 0": 137,
        "table op 2 taken 0 mark 1": 228,
        "table op 2 taken 0 mark 2": 183,
        "table op 2 taken 1 mark 1": 197,
        "table op 2 taken 2 mark 1": 353,
        "table op 3 refused 4": 29,
        "table op 3 written": 69,
    }),
    ("test_attach", attach_cases, 3000000, {
        "attached": 1524,
        "class 0": 378,
        "class 1": 1524,
        "class 2": 433,
        "class 3": 785,
        "class 4": 367,
        "class 5": 253,
        "class 6": 91,
        "copies 0": 494,
        "copies 1": 971,
        "copies 2": 59,
        "grade 0": 281,
        "grade 1": 1243,
        "readonly 0": 1483,
        "readonly 1": 41,
        "state 0": 1524,
        "state 1": 962,
        "state 2": 108,
        "state 3": 136,
        "table 0": 1479,
        "table 1": 45,
        "refused 1": 54,
        "refused 2": 40,
        "refused 3": 66,
        "refused 4": 84,
        "refused 5": 180,
        "refused 5 above 0": 156,
        "refused 6": 132,
        "refused 6 above 0": 98,
        "refused 7": 130,
        "refused 7 above 0": 130,
        "refused 8": 55,
        "refused 8 above 0": 46,
        "refused 9": 119,
        "refused 9 above 0": 119,
        "refused 10": 38,
        "refused 11": 124,
        "refused 12": 123,
        "refused 12 above 0": 101,
    }),
    ("test_listing", listing_cases, 3000000, {
        "attached": 384,
        "class 0": 87,
        "class 1": 384,
        "class 2": 76,
        "class 3": 263,
        "class 4": 55,
        "class 5": 73,
        "class 6": 33,
        "copies 0": 245,
        "copies 1": 125,
        "copies 2": 14,
        "counter lost": 335,
        "grade 0": 129,
        "grade 1": 255,
        "more input": 74,
        "no buffer": 12,
        "readonly 0": 366,
        "readonly 1": 18,
        "refused 1": 129,
        "refused 10": 17,
        "refused 11": 21,
        "refused 12": 30,
        "refused 12 above 0": 27,
        "refused 2": 73,
        "refused 3": 88,
        "refused 5": 26,
        "refused 5 above 0": 23,
        "refused 6": 20,
        "refused 6 above 0": 17,
        "refused 7": 24,
        "refused 7 above 0": 24,
        "refused 8": 12,
        "refused 8 above 0": 10,
        "refused 9": 18,
        "refused 9 above 0": 18,
        "state 1": 324,
        "state 2": 29,
        "state 3": 29,
        "table 0": 371,
        "table 1": 13,
        "text just fits": 79,
        "text too long": 152,
    }),
    ("test_mover", mover_cases, 3000000, {
        "attach attached": 1026,
        "attach refused 11": 16,
        "attach refused 12": 1,
        "attach refused 4": 2,
        "attach refused 7": 1,
        "attach refused 9": 2,
        "begin planned": 892,
        "begin refused 1": 4,
        "begin refused 10": 2,
        "begin refused 11": 9,
        "begin refused 12": 5,
        "begin refused 13": 63,
        "begin refused 14": 89,
        "begin refused 15": 27,
        "begin refused 16": 167,
        "begin refused 17": 55,
        "begin refused 2": 4,
        "begin refused 3": 10,
        "begin refused 4": 8,
        "begin refused 5": 4,
        "begin refused 6": 2,
        "begin refused 7": 5,
        "begin refused 8": 2,
        "begin refused 9": 2,
        "cut": 393,
        "finish done": 36,
        "finish refused 18": 15,
        "peb absent leb absent": 88,
        "peb absent leb given": 19,
        "peb given leb absent": 71,
        "peb given leb given": 20,
        "run done": 740,
        "run on": 418,
        "run refused 18": 720,
    }),
    ("test_builder", builder_cases, 4000000, {
        "all PEBs reserved": 294,
        "all records": 63,
        "built": 1377,
        "dynamic": 785,
        "dynamic above one LEB": 337,
        "dynamic empty": 113,
        "dynamic full": 126,
        "dynamic padded": 218,
        "no volume": 86,
        "refused 1": 684,
        "refused 2": 191,
        "refused 20": 623,
        "refused 21": 261,
        "refused 3": 166,
        "static": 712,
        "static above one LEB": 334,
        "static empty": 93,
        "static full": 124,
        "static padded": 215,
        "volumes": 1291,
    }),
)


# Lines of an answer, and the bytes all of them stay below.
LINES_OF_ANSWER = {"test_attach": 4}
STDOUT_LIMIT = 2000000


def self_check(name, cases, limit, expected):
    """Nothing lost: sizes, the lines of a case, and every kind of answer."""
    stdin, stdout = cases.stdin(), cases.stdout()
    assert len(stdin) < limit, "%s: %d bytes" % (name, len(stdin))
    assert len(stdout) < STDOUT_LIMIT, "%s: %d bytes" % (name, len(stdout))
    assert len(cases.payloads) == len(unframe(stdin))
    kinds = cases.kinds()
    if name == "test_listing":
        # As many lines as the text has, and then one of its own.
        assert stdout.count(b"\nend\n") == len(cases.payloads)
    elif name == "test_mover":
        # The image's checksum once for each operation.
        assert stdout.count(b"image ") == sum(kinds.values())
    elif name == "test_builder":
        # Two lines of a case, and four more of an image built.
        assert stdout.count(b"\n") == (
            2 * len(cases.payloads) + 4 * kinds["built"])
    else:
        lines = LINES_OF_ANSWER.get(name, 1)
        assert stdout.count(b"\n") == lines * len(cases.payloads)
    assert b" \n" not in stdout and b"  " not in stdout
    for kind in sorted(set(kinds) | set(expected)):
        found, wanted = kinds.get(kind, 0), expected.get(kind, 0)
        assert found == wanted and found > 0, (
            "%s: %d cases of kind '%s', not %d" % (name, found, kind, wanted))


def unframe(stdin):
    """The payloads again, read as a test program would."""
    payloads = []
    at = 4
    for _ in range(ubi.number_at(stdin, 0, 4)):
        length = ubi.number_at(stdin, at, 2)
        payloads.append(stdin[at + 2:at + 2 + length])
        at += 2 + length
    assert at == len(stdin)
    return payloads


def generate():
    """Path and content of each file, checked."""
    ubi.self_test()
    attach.self_test()
    listing.self_test()
    mover.self_test()
    builder.self_test()
    samples.self_test()
    files = samples.sample_files()
    for name, make_cases, limit, expected in PROGRAMS:
        cases = make_cases()
        self_check(name, cases, limit, expected)
        directory = os.path.join("crates", name)
        files.append((os.path.join(directory, "stdin"), cases.stdin()))
        files.append((os.path.join(directory, "stdout"), cases.stdout()))
    return files


def write(files):
    for path, content in files:
        full = os.path.join(ROOT, path)
        os.makedirs(os.path.dirname(full), exist_ok=True)
        with open(full, "wb") as out:
            out.write(content)
    print("oracle: %d files written" % len(files))


def check(files):
    """The number of stored files that differ from what would be written."""
    differing = 0
    for path, content in files:
        try:
            with open(os.path.join(ROOT, path), "rb") as stored_file:
                stored = stored_file.read()
        except FileNotFoundError:
            stored = None
        if stored != content:
            differing += 1
            print("oracle: %s %s" % (
                path, "is missing" if stored is None else "differs"))
    if differing == 0:
        print("oracle: %d files as generated" % len(files))
    return differing


def main(arguments):
    if arguments == ["--check"]:
        return 1 if check(generate()) else 0
    if arguments:
        print(__doc__.strip(), file=sys.stderr)
        return 2
    write(generate())
    return 0


if __name__ == "__main__":
    sys.exit(main(sys.argv[1:]))
