"""season-page STICK OUT.html: make the page of a stick's season."""
import sys

if sys.version_info < (3, 11):
    sys.exit('season-page: needs Python 3.11 or newer, and this is ' + sys.version.split()[0])

import os
import shutil
import tempfile

import program

from . import output, page, season
from .faults import Failed, Refused
from .library import Library
from .tool import Tool, copy_stick, version_of
from .words import batteries, grouped, many, name_shown

USAGE = 'usage: season-page STICK OUT.html'

HELP = f'''{USAGE}

Makes OUT.html of the season of STICK, a run file as it is on a stick: its figures, and over time the measure and the
target, the fleet's store, each battery, the inverters and the losses; beside them the sweep of import peak. It is one
file, which needs no network: open it in a browser, or print it. Every number in it comes from the import tool:
docs/PAGE.md says which from where.

A page that is there is replaced. OUT.html appears whole or not at all; if the command is killed (kill -9, a power cut)
a file whose name begins with .season-page-unfinished may be left beside it; delete it.

The import tool is the one that YB_IMPORT names, else the one beside this command, else the one on the path. The chart
library is that of Debian's package libjs-dygraphs, or in the folder that YB_DYGRAPHS names.

Exit status: 0 the page is made; 1 the stick is refused; 2 a wrong call, or something cannot be read, written or found.'''


def words_of(arguments):
    """The two words of a call. -- ends the options."""
    end = arguments.index('--') if '--' in arguments else len(arguments)
    options = [word for word in arguments[:end] if word.startswith('-')]
    words = [word for word in arguments[:end] if not word.startswith('-')] + arguments[end + 1:]
    if options:
        raise Failed(f'there is no option {shown(options[0])}; a file of that name comes behind --\n{USAGE}')
    if len(words) != 2:
        raise Failed(f'the names of a stick and of the page are needed\n{USAGE}')
    return words


def shown(name):
    return name_shown(os.fsencode(name))


def about(name, fault):
    """A fault, with the name of what it is about before it."""
    return type(fault)(f'{shown(name)}: {fault}')


def made(command, stick, library):
    """The season of a stick, and its page."""
    version = version_of(command)
    folder = None
    try:
        # A signal waits while there is a folder that has no name here yet.
        program.Waiting.held = True
        folder = tempfile.mkdtemp(prefix='season-page-')
        program.release()
        told, peak = asked(Tool(command, os.path.join(folder, 'stick')), stick)
    finally:
        program.Waiting.held = True
        if folder is not None:
            shutil.rmtree(folder, ignore_errors=True)
        program.release()
    return told, page.page(shown(os.path.basename(stick)), told, peak, library, version)


def asked(tool, stick):
    """What the import tool says of the stick: its season, and the sweep."""
    try:
        copy_stick(stick, tool.stick)
        tool.check()
        return season.read(tool), tool.peak()
    except (Failed, Refused) as fault:
        raise about(stick, fault) from fault


def make(stick, out):
    try:
        path = output.path_of(out, stick)
    except Failed as fault:
        raise about(out, fault) from fault
    command = program.import_tool()
    if command is None:
        raise Failed('the import tool is not found; YB_IMPORT names it, or it stands beside this command as import')
    try:
        told, whole = made(command, stick, Library(os.environ))
    except KeyError as fault:
        raise Failed(f'the import tool {command} does not tell {fault}: it is of another version') from fault
    try:
        output.write(path, whole)
    except Failed as fault:
        raise about(out, fault) from fault
    say(f'{shown(out)}: the season of {shown(stick)}, {many(told.steps, "step")}, {batteries(len(told.batteries))}, '
        f'{grouped(len(whole))} bytes', f'; {shown(out)} is written whole')


def say(line, then=''):
    """Says a line; where it cannot be written that is told, and what is there all the same."""
    try:
        print(line, flush=True)
    except OSError as fault:
        # What could not be written is not tried once more at the end.
        sys.stdout = None
        raise Failed(f'the line cannot be written: {fault.strerror}{then}') from fault


def call(arguments):
    """What the command does; gives its exit status."""
    try:
        if arguments in (['--help'], ['-h'], ['help']):
            say(HELP)
        else:
            make(*words_of(arguments))
        return 0
    except Refused as fault:
        print(f'{fault}\nseason-page: the stick is refused: no page is made', file=sys.stderr)
        return 1
    except (Failed, OSError) as fault:
        print(f'season-page: {fault}', file=sys.stderr)
        return 2


def main():
    """The one-file command begins here."""
    sys.exit(program.run(lambda: call(sys.argv[1:])))


if __name__ == '__main__':
    main()
