"""Files written whole or not at all."""

import errno
import os
import tempfile

from benchtool.dump import STANDARD_INPUT
from benchtool.progress import Progress
from benchtool.trouble import Trouble, of_system


def refuse_output(path, output, instead=""):
    """What is read is never written over; and what is no plain file is not replaced by one."""
    try:
        if path != STANDARD_INPUT and os.path.exists(output) and os.path.samefile(path, output):
            raise Trouble("%s and %s are the same file%s" % (path, output, instead))
        if os.path.exists(output) and not os.path.isfile(output):
            raise Trouble("%s: %s" % (output, os.strerror(errno.EEXIST)) + ", and it is no plain file")
    except OSError as error:
        raise of_system(error.filename or path, error)


def write_whole(output, parts):
    """Under another name beside it first, synced, and renamed when it is whole."""
    directory = os.path.dirname(os.path.abspath(output))
    temporary = None
    try:
        with tempfile.NamedTemporaryFile(dir=directory, prefix=".ubibench-", delete=False) as file:
            temporary = file.name
            with Progress("writing " + output):
                write_parts(file, parts)
        os.replace(temporary, output)
        temporary = None
        sync_directory(directory)
    except OSError as error:
        raise of_system(output, error)
    finally:
        if temporary is not None:
            os.unlink(temporary)


def write_parts(file, parts):
    for part in parts:
        file.write(part)
    file.flush()
    # A temporary file is its owner's alone; this one is to be like any other.
    os.fchmod(file.fileno(), 0o666 & ~current_umask())
    os.fsync(file.fileno())


def current_umask():
    mask = os.umask(0)
    os.umask(mask)
    return mask


def sync_directory(directory):
    handle = os.open(directory, os.O_RDONLY)
    try:
        os.fsync(handle)
    finally:
        os.close(handle)
