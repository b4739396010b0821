"""Asking the import tool. Every number of the page comes from here."""
import json
import subprocess
import textwrap
from contextlib import contextmanager

from program import ended_as

from .faults import Failed, Refused

# No complete stick has more bytes: of a longer file so many tell what is wrong with it.
MOST_BYTES = 4 * 1024 * 1024

# The refusal of peak for a stick that is longer than the library takes at once.
TOO_LONG = 12


def version_of(command):
    """What the tool says of itself. Other programs are called import too."""
    try:
        done = subprocess.run([command, '--version'], stdin=subprocess.DEVNULL, capture_output=True, timeout=60,
                              check=False)
    except (OSError, subprocess.TimeoutExpired) as fault:
        raise Failed(f'the import tool {command} cannot be run: {fault}') from fault
    words = done.stdout.decode('utf-8', 'replace').strip()
    if done.returncode != 0 or not words.startswith('import of Yesbrulka'):
        raise Failed(f'{command} is another program than the import tool; YB_IMPORT names the right one')
    return words


class Tool:
    """The import tool over one stick, whose bytes stand in a file of a plain name."""

    def __init__(self, command, stick):
        self.command, self.stick = command, stick

    def object(self, command):
        """What a command says of the stick with --json."""
        done = subprocess.run([self.command, command, '--json', self.stick], stdin=subprocess.DEVNULL,
                              capture_output=True, check=False)
        try:
            told = json.loads(done.stdout)
        except ValueError as fault:
            raise Failed(f'import {command} --json gives no object: {errors(done.stderr)}') from fault
        if told.get('status') == 'failed':
            raise Failed(f'import {command}: {told.get("what")}')
        if not ended_as(told.get('status'), done.returncode):
            raise Failed(f'import {command}: it ended with status {done.returncode}: {errors(done.stderr)}')
        return told

    def check(self):
        """Raises Refused, in the words of the import tool, unless the stick is complete."""
        told = self.object('check')
        if told['status'] == 'refused':
            raise Refused(f'refused {told["number"]} ({told["words"]}) at byte {told["place"]} after '
                          f'{told["steps"]} steps\n{below(told["what"] + " " + told["advice"])}')

    def summary(self):
        return self.object('summary')

    def peak(self):
        """The sweep, or None for a stick that is too long for one."""
        told = self.object('peak')
        if told['status'] == 'refused' and told['number'] == TOO_LONG:
            return None
        return told

    @contextmanager
    def table(self):
        """The lines of the table, heading first. The result goes from one command to the other, and to no file."""
        run = subprocess.Popen([self.command, 'run', self.stick, '-'], stdin=subprocess.DEVNULL,
                               stdout=subprocess.PIPE, stderr=subprocess.PIPE)
        table = subprocess.Popen([self.command, 'table', '--csv', self.stick, '-'], stdin=run.stdout,
                                 stdout=subprocess.PIPE, stderr=subprocess.PIPE, text=True, encoding='ascii')
        run.stdout.close()
        with run, table:
            try:
                yield table.stdout
            except Failed:
                # Where the tool failed, its own words say more. A signal that ended it is of no account: it comes where
                # nobody reads on.
                ended(run, table, lambda status: status > 0)
                raise
            ended(run, table, lambda status: status != 0)


def ended(run, table, is_bad):
    table.stdout.close()
    told = table.stderr.read().strip()
    if is_bad(table.wait()) or is_bad(run.wait()):
        raise Failed(f'import table: {told or "it failed"}')


def errors(words):
    return words.decode('utf-8', 'replace').strip() or 'nothing was said'


def below(sentences):
    """Sentences below a file's line, as the import tool has them."""
    return textwrap.fill(sentences, 100, initial_indent='    ', subsequent_indent='    ', break_long_words=False,
                         break_on_hyphens=False)


def copy_stick(name, to):
    """The stick's bytes as they are now, so that every question is about the same ones."""
    try:
        with open(name, 'rb') as stick:
            data = stick.read(MOST_BYTES)
    except OSError as fault:
        raise Failed(f'cannot be read: {fault.strerror}') from fault
    with open(to, 'wb') as copy:
        copy.write(data)
