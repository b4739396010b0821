"""The page's file, which appears whole or not at all."""
import os
import stat
import tempfile

from program import Waiting, release, sync_folder

from .faults import Failed


def path_of(out, stick):
    """Where the page goes: to a plain file, or where there is none; never over the stick."""
    path = os.path.realpath(out)
    try:
        if not stat.S_ISREG(os.stat(path).st_mode):
            raise Failed('cannot be written: it is no plain file')
        if os.path.exists(stick) and os.path.samefile(path, stick):
            raise Failed('cannot be written: it is the stick')
    except FileNotFoundError:
        pass
    except OSError as fault:
        raise Failed(f'cannot be written: {fault.strerror}') from fault
    return path


def usual_mode():
    """The rights of a new file."""
    mask = os.umask(0)
    os.umask(mask)
    return 0o666 & ~mask


def write(path, page):
    """Write the page beside its place and move it there."""
    beside = None
    try:
        # A signal waits while there is a file that has no name here yet, or has it no more.
        Waiting.held = True
        handle, beside = tempfile.mkstemp(prefix='.season-page-unfinished-', dir=os.path.dirname(path))
        with open(handle, 'wb') as file:
            release()
            file.write(page)
            file.flush()
            os.fsync(handle)
        os.chmod(beside, usual_mode())
        Waiting.held = True
        os.replace(beside, path)
        beside = None
    except OSError as fault:
        raise Failed(f'cannot be written: {fault.strerror}') from fault
    finally:
        Waiting.held = True
        if beside is not None:
            os.unlink(beside)
        release()
    try:
        sync_folder(os.path.dirname(path))
    except OSError as fault:
        raise Failed('written, but the disk did not confirm its name; call again: ' + fault.strerror) from fault
