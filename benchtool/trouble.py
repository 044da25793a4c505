"""What goes wrong outside a dump, and what is said on standard error."""

import sys

NAME = "ubibench"


class Trouble(Exception):
    """An error of input or usage: its words go to standard error, and the exit status is 3."""


class Refused(Exception):
    """The library refused: `line` is `refused N at P`, as the library writes it."""

    def __init__(self, number, place, line):
        super().__init__(line)
        self.number = number
        self.place = place
        self.line = line


def of_system(name, error):
    """The system's words for an OSError, after the name of what it concerns."""
    return Trouble("%s: %s" % (name, error.strerror or error))


def say(text):
    """A line on standard error. Where even that fails there is nobody to tell."""
    try:
        print("%s: %s" % (NAME, text), file=sys.stderr, flush=True)
    except (OSError, ValueError, AttributeError):
        pass


def warn(text):
    say("warning: " + text)


def put(data):
    """Bytes or text to standard output, at once, so that a failure is met here and not at the end."""
    if isinstance(data, str):
        data = data.encode("utf-8", "surrogateescape")
    try:
        sys.stdout.buffer.write(data)
        sys.stdout.buffer.flush()
    except AttributeError:
        raise Trouble("standard output: closed")
    except OSError as error:
        raise of_system("standard output", error)
