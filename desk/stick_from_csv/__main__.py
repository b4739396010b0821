"""The command: stick-from-csv METER.csv SITE.toml OUT.stick."""

import sys

if sys.version_info < (3, 11):
    sys.exit('stick-from-csv: needs Python 3.11 or newer, and this is ' + sys.version.split()[0])

import os
import traceback

import program

from . import checked, layout, table
from . import site as site_file
from .clock import SECOND
from .log import read_log
from .report import report
from .words import Failed, Refused, commas, in_lines, plain, wrapped

USAGE = 'usage: stick-from-csv METER.csv SITE.toml OUT.stick'
HELP = f'''{USAGE}

Makes a stick of a meter's log. METER.csv has a header row, a time column and three columns of powers
or currents; it may have columns of weather and of a voltage. SITE.toml says which columns these are,
and has the fleet, the settings, the inverters and the function, in kWh, kW and per cent; docs/DESK.md
has all its keys, and examples/log/ has a log and a site file.

A row that is not there, and a row with an empty cell, is a missing reading. OUT.stick is checked by
import check and is written whole or not at all. What was read, what is missing and what was left out
is said at the end.

Exit status: 0 OUT.stick is written; 1 the log or the site file is refused; 2 a wrong call, a file that
cannot be read or written, or no import tool.
'''


def words_of(arguments):
    """The three names of a call, or None where help is asked for."""
    names = []
    for at, word in enumerate(arguments):
        if word == '--':
            names += arguments[at + 1:]
            break
        if word in ('--help', '-h', 'help') and len(arguments) == 1:
            return None
        if word.startswith('-') and word != '-':
            raise Failed(f'{plain(word)}: there is no such option; a file of such a name comes behind --\n{USAGE}')
        names.append(word)
    if len(names) != 3:
        raise Failed(f'three names are needed, and {len(names)} {"is" if len(names) == 1 else "are"} there\n{USAGE}')
    return names


def read_file(name, most, then):
    """All bytes of a file; one that has more than the most is refused, by its size or when so much was read."""
    try:
        with open(name, 'rb') as file:
            data = file.read(most + 1) if os.fstat(file.fileno()).st_size <= most else None
    except OSError as why:
        raise Failed(f'{plain(name)}: cannot be read: {why.strerror or why}') from None
    except MemoryError:
        raise Failed(f'{plain(name)}: cannot be read: there is no memory for it') from None
    if data is None or len(data) > most:
        raise Refused(name, f'It has more than {commas(most)} bytes. {then}')
    return data


def make(names):
    """Makes the stick; gives the lines that are said of it."""
    log_name, site_name, stick_name = names
    tool = checked.find_import()
    target = checked.target_of(stick_name, (('METER.csv', log_name), ('SITE.toml', site_name)))
    log_data = read_file(log_name, table.MOST_BYTES, 'Export a part of it.')
    site_data = read_file(site_name, site_file.MOST_BYTES, f'No site file has. {site_file.SWAPPED}')
    if site_file.is_site(log_data) and not site_file.is_site(site_data):
        raise Failed(f'{plain(log_name)} is a site file, and that comes second: the two are swapped\n{USAGE}')
    site = site_file.read_site(site_name, site_data)
    log = read_log(table.open_table(log_name, log_data, site.log), site.log)
    data = layout.stick(site, log.step // SECOND, log.steps)

    def verify(path):
        # What is said is made before the stick has its name: nothing can fail behind that.
        return list(report(site, log, names, checked.check(tool, path, data, log.steps), data))
    return checked.write_checked(target, data, verify)


def say(lines, then):
    """Says what there is to say; what cannot be said is a failure, and then it is told that the stick is there."""
    try:
        for line in lines:
            print(line)
        sys.stdout.flush()
        return 0
    except OSError as why:
        # Python would try once more when it ends.
        os.dup2(os.open(os.devnull, os.O_WRONLY), 1)
        print(f'stick-from-csv: what is to be said cannot be written: {why.strerror}{then}', file=sys.stderr)
        return 2


def called():
    """Does what is asked for; gives the exit status."""
    try:
        names = words_of(sys.argv[1:])
        lines = [HELP.rstrip('\n')] if names is None else make(names)
    except Refused as refused:
        print(f'stick-from-csv: {plain(refused.name)}: refused', file=sys.stderr)
        for sentence in (*refused.sentences, 'Nothing was written.'):
            print(wrapped(sentence), file=sys.stderr)
        return 1
    except Failed as failed:
        print(f'stick-from-csv: {in_lines(str(failed))}', file=sys.stderr)
        return 2
    except Exception:
        traceback.print_exc()
        print('stick-from-csv: a fault of this program, not of the log or the site file', file=sys.stderr)
        return 2
    return say(lines, '' if names is None else f'; {plain(names[2])} is written whole')


def main():
    sys.exit(program.run(called))


if __name__ == '__main__':
    main()
