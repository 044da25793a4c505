"""The command line: what each command takes, and the exit status."""

import argparse
import os
import sys

from benchtool import numbers
from benchtool.trouble import NAME, Refused, Trouble, put, say

GRADE_0, GRADE_1, REFUSED, TROUBLE = range(4)
INTERRUPTED = 130
HELP_WIDTH = 78

STATUSES = """\
exit status:
  0  attached with grade 0 (list, show, report), or done (probe, move, diff, build)
  1  attached with grade 1
  2  refused: `refused N at P` is on standard output
  3  input or usage error, in the system's words on standard error

Numbers are written 131072, 128k or 0x20000. A DUMP of - is standard input."""

EXAMPLES = """\
examples:
  ubibench probe chip.bin
  ubibench list chip.bin --peb-size 128k --unit 2048 --sub-unit 512 --blocks 1024
  ubibench list chip.bin --peb-size 128k --unit 2048 --json | python3 -m json.tool
  ubibench show raw.bin --peb-size 128k --unit 2048 --oob 64
  ubibench report chip.bin --peb-size 128k --unit 2048 --blocks 1024 -o unit.html
  ubibench move chip.bin --peb-size 128k --unit 2048 --volume 0 --leb 3 --to 17 -o moved.bin
  ubibench diff chip.bin moved.bin --peb-size 128k --unit 2048
  ubibench build chip.ini --peb-size 128k --unit 2048 --blocks 1024 -o chip.bin

"""

MOVE_EXAMPLES = """\
examples:
  ubibench move chip.bin --peb-size 128k --unit 2k --volume 0 --leb 3 --to 17 -o moved.bin
  ubibench move chip.bin --peb-size 128k --unit 2k --volume 0 --leb 3 --to 17 --in-place
  ubibench move chip.bin --peb-size 128k --unit 2k --volume 0 --leb 3 --to 17 -o cut.bin --stop-after 4:100

The last one is a drill: power is lost 100 bytes into the fifth step.

"""

BUILD_EXAMPLES = """\
example of a CONFIG, with a section for each volume:
  [boot]
  mode=ubi
  vol_id=0               ; 0, 1, 2, .. without a gap
  vol_name=boot
  vol_type=static        ; without this line, dynamic
  image=boot.bin         ; the content; without this line, none
  [files]
  mode=ubi
  vol_id=1
  vol_name=files
  image=files.ubifs
  vol_size=40MiB         ; without this line, the size of the image
  vol_alignment=1        ; this is the default
  vol_flags=autoresize   ; or skip-check, for a static volume

examples:
  ubibench build chip.ini --peb-size 128k --unit 2k --sub-unit 512 --blocks 1024 -o chip.bin
  ubibench build chip.ini --peb-size 64k --unit 1 --blocks 128 -o nor.bin --image-seq 0x1234

"""


class Parser(argparse.ArgumentParser):
    """A usage error is exit status 3, not argparse's 2, which is a refusal here."""

    def error(self, message):
        self.print_usage(sys.stderr)
        say(message)
        raise SystemExit(TROUBLE)


def help_form(prog):
    """With a width given: argparse else asks the terminal's at every argument, and loads much for it, help or not."""
    return argparse.RawDescriptionHelpFormatter(prog, width=HELP_WIDTH)


def number(word):
    try:
        return numbers.parse(word)
    except ValueError as error:
        raise argparse.ArgumentTypeError(str(error))


def stop(word):
    try:
        return numbers.parse_stop(word)
    except ValueError as error:
        raise argparse.ArgumentTypeError("%s (STEP or STEP:BYTES)" % error)


# ---------------------------------------------------------------- arguments

def add_geometry(parser):
    group = add_numbers(parser)
    group.add_argument("--slip", action="store_true",
                       help="the dump has its slip in front, as ubilist reads it: take the numbers from there")
    group.add_argument("--blocks", type=number, metavar="N",
                       help="erase blocks of the chip; compared with what is there")


def add_numbers(parser, wanted=False):
    group = parser.add_argument_group("the chip, from its data sheet")
    group.add_argument("--peb-size", type=number, metavar="N", required=wanted, help="bytes of an erase block")
    group.add_argument("--unit", type=number, metavar="N", required=wanted, help="bytes of a page")
    group.add_argument("--sub-unit", type=number, metavar="N",
                       help="bytes of the smallest piece of a page that can be written (the unit)")
    return group


def add_spare(parser):
    parser.add_argument("--oob", type=number, default=0, metavar="N",
                        help="leave out N spare bytes after each page (unit) of the dump")


def add_command(commands, name, run, summary, examples=None):
    parser = commands.add_parser(name, help=summary, description=summary[0].upper() + summary[1:] + ".",
                                 epilog=(examples or "") + STATUSES,
                                 formatter_class=help_form)
    parser.set_defaults(run=run)
    return parser


def with_dump(parser):
    parser.add_argument("dump", metavar="DUMP", help="the blocks in order, from the first to the last")
    return parser


def make_parser():
    parser = Parser(prog=NAME, description="The bench tool for dumps of UBI chips.",
                    epilog=EXAMPLES + STATUSES + "\n`ubibench COMMAND --help` says more.",
                    formatter_class=help_form)
    parser.add_argument("--version", action="store_true", help="say the version of program and library")
    commands = parser.add_subparsers(metavar="COMMAND", dest="command")
    add_list(commands)
    add_probe(commands)
    add_show(commands)
    add_report(commands)
    add_move(commands)
    add_diff(commands)
    add_build(commands)
    return parser


def add_list(commands):
    parser = with_dump(add_command(commands, "list", run_list, "list what stands in every block"))
    add_geometry(parser)
    add_spare(parser)
    parser.add_argument("--json", action="store_true", help="everything as JSON, names of volumes among it")


def add_probe(commands):
    parser = with_dump(add_command(commands, "probe", run_probe, "propose geometries by the headers in the dump"))
    parser.add_argument("--unit", type=number, metavar="N", help="bytes of a page, for --oob (tried out)")
    add_spare(parser)
    parser.add_argument("--json", action="store_true", help="the proposals as JSON")


def add_show(commands):
    parser = with_dump(add_command(commands, "show", run_show, "show the chip at a glance"))
    add_geometry(parser)
    add_spare(parser)


def add_report(commands):
    parser = with_dump(add_command(commands, "report", run_report, "write a page to file with the unit"))
    add_geometry(parser)
    add_spare(parser)
    parser.add_argument("-o", "--output", required=True, metavar="PAGE.html", help="the page, for a browser")
    parser.add_argument("--title", metavar="TEXT", help="what stands above the page (the dump's name)")


def add_move(commands):
    parser = with_dump(add_command(commands, "move", run_move, "move one logical block to a free block",
                                   MOVE_EXAMPLES))
    add_geometry(parser)
    what = parser.add_argument_group("the move")
    what.add_argument("--volume", type=number, required=True, metavar="V", help="the volume's number")
    what.add_argument("--leb", type=number, required=True, metavar="L", help="the part of the volume")
    what.add_argument("--to", type=number, required=True, metavar="PEB", help="the free block to move it to")
    where = parser.add_mutually_exclusive_group(required=True)
    where.add_argument("-o", "--output", metavar="OUT", help="the moved chip, a copy")
    where.add_argument("--in-place", action="store_true", help="write to the dump itself, each step synced")
    parser.add_argument("--stop-after", type=stop, metavar="STEP[:BYTES]",
                        help="drill: stop after so many steps, and so many bytes of the next one")


def add_diff(commands):
    parser = add_command(commands, "diff", run_diff, "say which blocks changed class, counter, place or content")
    parser.add_argument("dump", metavar="A", help="the earlier dump")
    parser.add_argument("other", metavar="B", help="the later dump")
    add_geometry(parser)
    add_spare(parser)


def add_build(commands):
    parser = add_command(commands, "build", run_build, "build a chip's image from a list of volumes",
                         BUILD_EXAMPLES)
    parser.add_argument("config", metavar="CONFIG", help="the volumes, as ubinize takes them")
    group = add_numbers(parser, wanted=True)
    group.add_argument("--blocks", type=number, metavar="N", required=True,
                       help="erase blocks of the chip; the image has as many")
    parser.add_argument("-o", "--output", required=True, metavar="IMAGE", help="the whole chip")
    parser.add_argument("--image-seq", type=number, default=0, metavar="N",
                        help="the image sequence in the header of every block (0, which names no image)")
    parser.set_defaults(slip=False)


# ------------------------------------------------- commands, loaded on demand

def run_list(arguments):
    from benchtool import listing
    return listing.run(arguments)


def run_probe(arguments):
    from benchtool import probe
    return probe.run(arguments)


def run_show(arguments):
    from benchtool import show
    return show.run(arguments)


def run_report(arguments):
    from benchtool import report
    return report.run(arguments)


def run_move(arguments):
    from benchtool import move
    return move.run(arguments)


def run_diff(arguments):
    from benchtool import diff
    return diff.run(arguments)


def run_build(arguments):
    from benchtool import build
    return build.run(arguments)


def run_version():
    from benchtool import library
    put("%s %s\n" % (NAME, library.load().version()))
    return GRADE_0


# --------------------------------------------------------------------- main

def main(words):
    status = answer(words)
    leave_quietly()
    return status


def answer(words):
    try:
        parser = make_parser()
        arguments = parser.parse_args(words)
        if arguments.version:
            return run_version()
        if arguments.command is None:
            parser.error("a command is wanted: list, probe, show, report, move, diff or build")
        return arguments.run(arguments)
    except Refused as refused:
        return refuse(refused)
    except Trouble as trouble:
        say(str(trouble))
        return TROUBLE
    except SystemExit as ended:
        return ended.code or GRADE_0
    except KeyboardInterrupt:
        return INTERRUPTED
    except MemoryError:
        say("not enough memory")
        return TROUBLE
    except Exception:
        # Python's own status for it is 1, which is a grade here.
        import traceback
        traceback.print_exc()
        say("this is a fault of the program, please report it")
        return TROUBLE


def refuse(refused):
    from benchtool import words
    try:
        put(refused.line + "\n")
    except Trouble as trouble:
        say(str(trouble))
        return TROUBLE
    say(words.refusal_words(refused))
    return REFUSED


def leave_quietly():
    """What could not be written has been said; Python would say it again at the end."""
    try:
        sys.stdout.flush()
    except (OSError, ValueError, AttributeError):
        os.dup2(os.open(os.devnull, os.O_WRONLY), 1)
