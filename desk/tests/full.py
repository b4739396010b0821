"""Places that take no byte, for what a command says and for what it writes: a device that is full, a pipe that nobody
reads, a small disk without room; and a limit on the size of files, which stands for the disk where there is none."""

import os
import subprocess

# What the desk's commands say of something that is there and good. None of it may be said of anything else.
PRAISE = (': complete', '"complete"', 'the season of', 'is written whole')


def small_disk(test):
    """A disk of 64 KiB without any room, in the test's folder; None where none can be mounted. The test's last act is
    to take it away."""
    folder = test.path('disk')
    os.makedirs(folder, exist_ok=True)
    done = subprocess.run(['mount', '-t', 'tmpfs', '-o', 'size=64k', 'none', folder], capture_output=True, check=False)
    if done.returncode != 0:
        print(f'NOT RUN: {test.id()}: no small disk can be mounted here; a limit on the size of files ran in its place',
              flush=True)
        return None
    test.addCleanup(subprocess.run, ['umount', folder], check=True)
    with open(os.path.join(folder, 'old'), 'wb') as old:
        old.write(b'old')
    fill(os.path.join(folder, 'fill'))
    return folder


def fill(name):
    handle = os.open(name, os.O_WRONLY | os.O_CREAT)
    try:
        while os.write(handle, bytes(4096)):
            pass
    except OSError:
        pass
    finally:
        os.close(handle)


def deaf_pipe():
    """The writing end of a pipe whose reader has gone."""
    reader, writer = os.pipe()
    os.close(reader)
    return writer


def into(place, words, **options):
    """Calls a command with its standard output there; gives its status, what came through and what it said besides."""
    came = b''
    if place == 'full':
        with open('/dev/full', 'wb') as full:
            done = subprocess.run(words, stdout=full, stderr=subprocess.PIPE, check=False, **options)
    elif place == 'deaf':
        writer = deaf_pipe()
        done = subprocess.run(words, stdout=writer, stderr=subprocess.PIPE, check=False, **options)
        os.close(writer)
    else:
        with open(place, 'wb') as lines:
            done = subprocess.run(words, stdout=lines, stderr=subprocess.PIPE, check=False, **options)
        with open(place, 'rb') as lines:
            came = lines.read()
    return done.returncode, came.decode('utf-8'), done.stderr.decode('utf-8')


def limited(words, **options):
    """Calls a command that may write no byte into a file."""
    return subprocess.run(['bash', '-c', 'ulimit -f 0; trap "" XFSZ; exec "$@"', 'bash', *words],
                          stdout=subprocess.PIPE, stderr=subprocess.PIPE, check=False, **options)
