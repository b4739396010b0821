"""What the desk's commands share as programs: where the import tool is, and what its exit status has to be; signals
that end them, on whose way out what is unfinished is removed; the new name of a file on the disk; and standard output
and error as the caller has left them."""

import errno
import io
import os
import shutil
import signal
import sys

ENDING = (signal.SIGINT, signal.SIGTERM, signal.SIGHUP)

# What a disk says that cannot be asked for a folder.
NOT_ASKED = (errno.EINVAL, errno.ENOTSUP, errno.EACCES)


def is_program(path):
    return os.path.isfile(path) and os.access(path, os.X_OK)


def import_tool():
    """The import tool: that of YB_IMPORT, whatever is there; the one beside this program, or on the path; or None."""
    if os.environ.get('YB_IMPORT'):
        return os.environ['YB_IMPORT']
    for path in (os.path.realpath(sys.argv[0]), os.path.abspath(sys.argv[0])):
        beside = os.path.join(os.path.dirname(path), 'import')
        if is_program(beside):
            return beside
    return shutil.which('import')


def ended_as(status, returncode):
    """Whether the import tool ended with the exit status of what its object says of a stick. With any other one, or
    by a signal, something went wrong, whatever it says."""
    return (status, returncode) in (('complete', 0), ('refused', 1))


def sync_folder(folder):
    """Brings a new name in a folder to the disk, where the disk can be asked for that. A name that it does not confirm
    is an OSError."""
    try:
        handle = os.open(folder or '.', os.O_RDONLY | os.O_DIRECTORY)
        try:
            os.fsync(handle)
        finally:
            os.close(handle)
    except OSError as why:
        if why.errno not in NOT_ASKED:
            raise


class Ended(BaseException):
    """One of them came."""

    def __init__(self, number):
        super().__init__(number)
        self.number = number


class Waiting:
    """While it is held a signal waits. It is set without a call, before which one could come through."""
    held = False
    number = None


def come(number, _frame):
    if Waiting.held:
        Waiting.number = number
        return
    for ending in ENDING:
        signal.signal(ending, signal.SIG_IGN)
    raise Ended(number)


def watch():
    """Signals that are ignored from the start, as under nohup, stay so."""
    for number in ENDING:
        if signal.getsignal(number) != signal.SIG_IGN:
            signal.signal(number, come)


def release():
    """Lets the signal through that has waited."""
    Waiting.held = False
    if Waiting.number is not None:
        come(Waiting.number, None)


def die(number):
    """Ends the program by the signal itself, so that who called it sees that."""
    signal.signal(number, signal.SIG_DFL)
    os.kill(os.getpid(), number)


class Closed(io.TextIOBase):
    """A stream that the caller has closed: writing says so."""

    def write(self, _):
        raise OSError(errno.EBADF, os.strerror(errno.EBADF))


def streams():
    """Characters that a stream cannot write are escaped. The number of a closed one is taken, lest a file gets it."""
    while (number := os.open(os.devnull, os.O_RDWR)) <= 2:
        pass
    os.close(number)
    sys.stdout = sys.stdout or Closed()
    sys.stderr = sys.stderr or open(os.devnull, 'w', encoding='utf-8')
    for stream in (sys.stdout, sys.stderr):
        if isinstance(stream, io.TextIOWrapper):
            stream.reconfigure(errors='backslashreplace')


def run(work):
    """Does the work, which gives the exit status; a signal that ends it ends the program."""
    try:
        watch()
        streams()
        status = work()
        # Behind this there is nothing left to be ended.
        Waiting.held = True
        return status
    except Ended as ended:
        die(ended.number)
