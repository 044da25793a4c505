"""Progress on standard error, of whatever takes over a second."""

import sys
import threading

from benchtool.trouble import say

SILENT_SECONDS = 1.0
TERMINAL_SECONDS = 0.25
LINE_SECONDS = 10.0


class Progress:
    """`with Progress("reading x", total) as progress: progress.at(n)`. Without a total only the seconds are told.

    A thread does the telling, so that one long call of the library is told of, too.
    """

    def __init__(self, what, total=None):
        self.what = what
        self.total = total
        self.done = 0
        self.ended = threading.Event()
        self.told = False
        self.thread = None

    def __enter__(self):
        self.thread = threading.Thread(target=self.tell, daemon=True)
        self.thread.start()
        return self

    def __exit__(self, *unused):
        self.ended.set()
        self.thread.join()
        if self.told and is_terminal():
            sys.stderr.write("\r\x1b[K")
            sys.stderr.flush()

    def at(self, done):
        self.done = done

    def tell(self):
        pause, seconds = SILENT_SECONDS, 0.0
        while not self.ended.wait(pause):
            seconds += pause
            self.told = True
            if not is_terminal():
                say(self.text(seconds))
                pause = LINE_SECONDS
                continue
            sys.stderr.write("\r\x1b[K" + self.text(seconds))
            sys.stderr.flush()
            pause = TERMINAL_SECONDS

    def text(self, seconds):
        if not self.total:
            return "%s, %d s" % (self.what, seconds)
        return "%s, %d %%" % (self.what, 100 * self.done // self.total)


def is_terminal():
    return sys.stderr is not None and sys.stderr.isatty()
