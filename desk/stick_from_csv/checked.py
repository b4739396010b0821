"""The stick as a file: written beside its place, brought to the disk, checked by import, and only then named."""

import contextlib
import errno
import json
import os
import stat
import subprocess

from program import Waiting, ended_as, import_tool, is_program, release, sync_folder

from .words import Failed, plain

UNFINISHED = '.stick-from-csv-unfinished-'
# The most bytes of a file that the library's calls take whole (rule Q26).
LARGEST_WHOLE = 2_097_152

# What to do where a stick cannot be written.
NO_PERMISSION = 'there is no permission to write in its folder; give OUT.stick a name in another folder'
NO_ROOM = 'there is no room left; make room, or give OUT.stick a name on another disk'
ADVICE = {
    errno.ENOENT: 'there is no such folder; make it, or give OUT.stick a name in one that is there',
    errno.EACCES: NO_PERMISSION, errno.EPERM: NO_PERMISSION, errno.ENOSPC: NO_ROOM, errno.EDQUOT: NO_ROOM,
    errno.EROFS: 'the disk can only be read; give OUT.stick a name on another disk',
}


def find_import():
    tool = import_tool()
    if tool is None:
        raise Failed('the command import, which checks the stick, is neither beside this program nor on the path; build '
                     'it with tools/build.sh, or name it in YB_IMPORT')
    if not is_program(tool):
        raise Failed(f'YB_IMPORT is {plain(tool)}, and there is no program there')
    return tool


def target_of(name, inputs):
    """The file that is to be written, behind links. What may not be replaced is a wrong call, as it is for import."""
    why = no_target(name, inputs)
    if why:
        raise Failed(f'{plain(name)}: cannot be written: {why}')
    return os.path.realpath(name)


def no_target(name, inputs):
    """Why there can be no stick under a name, or None."""
    if name == '-':
        return 'a stick is written to a file; give OUT.stick its name'
    if not name:
        return 'it is no name; give OUT.stick the name of a file'
    try:
        there = os.stat(name)
    except OSError:
        if os.path.islink(name):
            return 'it is a link to a file that is not there; give OUT.stick another name'
        return 'it is the name of a folder; give the name of a file in it' if name.endswith('/') else None
    if stat.S_ISDIR(there.st_mode):
        return 'it is a folder; give the name of a file in it'
    for word, path in inputs:
        if is_same(there, lambda path=path: os.stat(path)):
            return f'it is {word} itself; give OUT.stick another name'
    if not stat.S_ISREG(there.st_mode):
        return 'it is a device or a pipe, and cannot be replaced whole; give OUT.stick the name of a file'
    if any(is_same(there, lambda lines=lines: os.fstat(lines)) for lines in (1, 2)):
        return 'it is the file that the lines go to; give OUT.stick another name'
    return None if os.access(name, os.W_OK) else 'it is protected against writing; give OUT.stick another name'


def is_same(there, ask):
    try:
        return os.path.samestat(there, ask())
    except OSError:
        return False


def write_checked(target, data, verify):
    """Writes the stick whole or not at all; gives what verify says of it before it has its name."""
    beside = os.path.join(os.path.dirname(target), UNFINISHED + os.urandom(8).hex())
    try:
        write_beside(beside, target, data)
        answer = verify(beside)
        Waiting.held = True
        os.replace(beside, target)
    except OSError as why:
        Waiting.held = True
        advice = ADVICE.get(why.errno, f'{why.strerror or why}; give OUT.stick another name')
        raise Failed(f'{plain(target)}: cannot be written: {advice}') from None
    finally:
        Waiting.held = True
        with contextlib.suppress(OSError):
            os.unlink(beside)
        release()
    try:
        sync_folder(os.path.dirname(target))
    except OSError as why:
        raise Failed(f'{plain(target)}: written, but the disk did not confirm its name; call again: {why.strerror}') \
            from None
    return answer


def write_beside(beside, target, data):
    handle = os.open(beside, os.O_WRONLY | os.O_CREAT | os.O_EXCL | os.O_CLOEXEC, 0o666)
    with os.fdopen(handle, 'wb') as out:
        # A stick that is replaced keeps its permissions.
        with contextlib.suppress(FileNotFoundError):
            os.fchmod(handle, stat.S_IMODE(os.stat(target).st_mode))
        out.write(data)
        out.flush()
        os.fsync(handle)


def check(tool, path, data, steps):
    """What import says of a stick; one that it refuses, or counts otherwise, is a fault of this program."""
    try:
        done = subprocess.run([tool, 'check', '--json', '--', path], stdin=subprocess.DEVNULL, capture_output=True,
                              check=False)
    except OSError as why:
        raise Failed(f'{plain(tool)}: cannot be run: {why.strerror or why}') from None
    answer = answer_in(done.stdout)
    if answer is None or not ended_as(answer['status'], done.returncode):
        said = plain(done.stderr.decode('utf-8', 'replace').strip())[-300:]
        raise Failed(f'{plain(tool)}: gives no answer about the stick, status {done.returncode}'
                     f'{": " if said else ""}{said}; is it the import tool?')
    if answer['status'] == 'refused':
        raise Failed('a fault of this program, not of the log or the site file: import refuses the stick that it made. '
                     f'Refused {answer.get("number")} ({answer.get("words")}) at byte {answer.get("place")} after '
                     f'{answer.get("steps")} steps: {answer.get("what")}')
    # Of a stick that is too long for the library's calls import does not count the missing readings.
    missing = sum(1 for step in steps if step.reading is None) if len(data) <= LARGEST_WHOLE else None
    for key, made in (('bytes', len(data)), ('steps', len(steps)), ('missing_steps', missing)):
        if answer.get(key) != made:
            raise Failed(f'a fault of this program: it made a stick with {key} {made}, and import finds '
                         f'{answer.get(key)}')
    return answer


def answer_in(output):
    """The object on the one line of an answer, or None."""
    try:
        answer = json.loads(output.decode('utf-8'))
    except ValueError:
        return None
    return answer if isinstance(answer, dict) and 'status' in answer else None
