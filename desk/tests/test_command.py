"""The command as it is built: calls, exit statuses, where it writes and where not, signals, and an import that errs."""

import glob
import json
import os
import signal
import stat
import subprocess
import sys
import time
import unittest
import zipfile

from sticks import COMMAND, IMPORT, ROOT, ROWS, SITE, Desk, call

USAGE = 'usage: stick-from-csv METER.csv SITE.toml OUT.stick'


class Command(Desk):
    call = staticmethod(call)

    def setUp(self):
        super().setUp()
        self.write('log.csv', ROWS)
        self.write('site.toml', SITE)

    def run_in(self, *words, **options):
        """Calls the command in the test's folder."""
        self.called = call(COMMAND, *words, cwd=self.folder, **options)
        return self.called

    def failed(self, said, *words, **options):
        """A wrong call or a file that cannot be had: status 2, a line that says so, and nothing is left behind."""
        before = sorted(os.listdir(self.folder))
        self.run_in(*words, **options)
        self.assertEqual((self.called.status, self.called.output), (2, ''), self.called.words())
        self.assertTrue(self.called.error.startswith('stick-from-csv: '), self.called.error)
        self.assertIn(said, self.called.error)
        self.assertEqual(sorted(os.listdir(self.folder)), before)

    def program(self, name, text):
        path = self.write(name, text)
        os.chmod(path, 0o755)
        return path


class Calls(Command):
    def test_it_is_what_the_sources_are(self):
        with zipfile.ZipFile(COMMAND) as archive:
            built = {os.path.basename(name): archive.read(name) for name in archive.namelist()
                     if name.startswith('stick_from_csv/') and name.endswith('.py')}
        sources = {}
        for path in glob.glob(os.path.join(ROOT, 'desk', 'stick_from_csv', '*.py')):
            with open(path, 'rb') as file:
                sources[os.path.basename(path)] = file.read()
        self.assertEqual(built, sources)

    def test_the_report(self):
        self.run_in('log.csv', 'site.toml', 'out.stick')
        self.assertEqual((self.called.status, self.called.error), (0, ''))
        self.assertEqual(self.called.output, '''site.toml: 1 unit, 0 inverters
    Edition 1. Mode 1 (PeakShave), target 30.000 kW, band 2.000 kW.
    Not in it, and so taken: weight = 1 for the unit; priority = "watts" for the unit;
    var_request_kvar = 0 for the unit.
log.csv: 2 rows
    Read as UTF-8, semicolons between the cells, decimal commas, times as YYYY-MM-DD HH:MM in
    Europe/Berlin. A step has 15 minutes, as the first rows are apart.
    Time from "time"; powers in kW from "L1", "L2" and "L3".
    No reading is missing in 2 steps.
out.stick: complete, 2 steps
    From 2025-06-01 00:00 CEST to 2025-06-01 00:15 CEST, which is step 1; 137 bytes.
    Smallest measure 0.750 kW at step 0, the 1st: row 2 of the log, 2025-06-01 00:00 CEST.
    Largest measure 15.500 kW at step 1, the 2nd: row 3 of the log, 2025-06-01 00:15 CEST.
''')
        answer = json.loads(call(IMPORT, 'check', '--json', self.path('out.stick')).output)
        self.assertEqual((answer['least_W'], answer['most_W'], answer['bytes']), (750, 15_500, 137))

    def test_wrong_calls(self):
        for words in ((), ('log.csv',), ('log.csv', 'site.toml'), ('log.csv', 'site.toml', 'a', 'b')):
            self.failed(f'three names are needed, and {len(words)} {"is" if len(words) == 1 else "are"} '
                        f'there\n{USAGE}\n', *words)
        self.failed(f'--json: there is no such option; a file of such a name comes behind --\n{USAGE}', '--json', 'a',
                    'b', 'c')
        self.failed('log2.csv: cannot be read: No such file or directory', 'log2.csv', 'site.toml', 'out.stick')
        self.failed('.: cannot be read: Is a directory', '.', 'site.toml', 'out.stick')
        self.failed(': cannot be read: ', '', 'site.toml', 'out.stick')
        self.failed(f'site.toml is a site file, and that comes second: the two are swapped\n{USAGE}', 'site.toml',
                    'log.csv', 'out.stick')

    def test_help(self):
        for word in ('--help', '-h', 'help'):
            self.run_in(word)
            self.assertEqual((self.called.status, self.called.error), (0, ''))
            self.assertTrue(self.called.output.startswith(USAGE + '\n'))

    def test_names_like_options(self):
        os.rename(self.path('log.csv'), self.path('--log.csv'))
        self.run_in('--', '--log.csv', 'site.toml', '-out.stick')
        self.assertEqual(self.called.status, 0, self.called.words())
        self.assertTrue(self.bytes_of('-out.stick'))

    def test_names_of_any_bytes(self):
        name = os.fsdecode(b'l\xff<b>"\n\x1b[2J.csv')
        os.rename(self.path('log.csv'), self.path(name))
        self.run_in(name, 'site.toml', os.fsdecode(b'o\xfe.stick'))
        self.assertEqual(self.called.status, 0, self.called.words())
        self.assertNotIn('\x1b', self.called.output)
        self.assertTrue(self.bytes_of(os.fsdecode(b'o\xfe.stick')))

    def test_a_log_through_a_pipe(self):
        os.mkfifo(self.path('pipe'))
        with subprocess.Popen(['sh', '-c', 'cat log.csv >pipe'], cwd=self.folder):
            self.run_in('pipe', 'site.toml', 'out.stick')
        self.assertEqual(self.called.status, 0, self.called.words())

    def test_a_terminal_of_few_letters(self):
        self.write('log.csv', ROWS.replace('L1', 'Wärme'))
        self.write('site.toml', SITE.replace('L1', 'Wärme'))
        self.run_in('log.csv', 'site.toml', 'out.stick', env={**os.environ, 'PYTHONIOENCODING': 'ascii'})
        self.assertEqual(self.called.status, 0)
        self.says('"W\\xe4rme"')

    def test_what_is_said_cannot_be_written(self):
        with open('/dev/full', 'wb') as full:
            done = subprocess.run([COMMAND, 'log.csv', 'site.toml', 'out.stick'], stdout=full, stderr=subprocess.PIPE,
                                  cwd=self.folder, check=False)
        self.assertEqual((done.returncode, done.stderr),
                         (2, b'stick-from-csv: what is to be said cannot be written: No space left on device; out.stick is '
                             b'written whole\n'))
        self.assertEqual(len(self.bytes_of('out.stick')), 137)

    def test_streams_that_are_closed(self):
        """What is to be said cannot be, and no file takes the number of a closed one."""
        done = subprocess.run(['sh', '-c', 'exec "$@" >&-', 'sh', COMMAND, 'log.csv', 'site.toml', 'out.stick'],
                              cwd=self.folder, check=False, capture_output=True)
        self.assertEqual((done.returncode, done.stderr),
                         (2, b'stick-from-csv: what is to be said cannot be written: Bad file descriptor; out.stick is '
                             b'written whole\n'))
        self.assertEqual(len(self.bytes_of('out.stick')), 137)
        os.unlink(self.path('out.stick'))
        done = subprocess.run(['sh', '-c', 'exec "$@" <&- >&- 2>&-', 'sh', COMMAND, 'log.csv', 'site.toml',
                               'out.stick'], cwd=self.folder, check=False)
        self.assertEqual((done.returncode, len(self.bytes_of('out.stick'))), (2, 137))


class Targets(Command):
    def test_what_may_not_be_replaced(self):
        os.symlink('log.csv', self.path('link'))
        os.symlink('nowhere', self.path('dangling'))
        os.link(self.path('site.toml'), self.path('hard'))
        os.mkfifo(self.path('pipe'))
        os.mkdir(self.path('folder'))
        for name, said in (('log.csv', 'it is METER.csv itself'), ('./link', 'it is METER.csv itself'),
                           ('site.toml', 'it is SITE.toml itself'),
                           ('hard', 'it is SITE.toml itself'), ('dangling', 'it is a link to a file that is not there'),
                           ('pipe', 'it is a device or a pipe'), ('/dev/null', 'it is a device or a pipe'),
                           ('folder', 'it is a folder'),
                           ('new/', 'it is the name of a folder'), ('-', 'a stick is written to a file'),
                           ('', 'it is no name'),
                           ('none/out.stick', 'there is no such folder; make it'),
                           ('log.csv/out.stick', 'Not a directory')):
            with self.subTest(name=name):
                self.failed(f': cannot be written: {said}', 'log.csv', 'site.toml', name)
        self.assertEqual((self.bytes_of('log.csv'), self.bytes_of('site.toml')), (ROWS.encode(), SITE.encode()))

    def test_the_file_that_the_lines_go_to(self):
        with open(self.path('out.stick'), 'wb') as out:
            done = subprocess.run([COMMAND, 'log.csv', 'site.toml', 'out.stick'], stdout=out, stderr=subprocess.PIPE,
                                  cwd=self.folder, check=False)
        self.assertEqual(done.returncode, 2)
        self.assertIn(b'it is the file that the lines go to', done.stderr)

    def test_replacing(self):
        """A link is followed, a file that is replaced keeps its permissions, and a refused log leaves it as it was."""
        self.write('old.stick', b'old')
        os.chmod(self.path('old.stick'), 0o640)
        os.symlink('old.stick', self.path('out.stick'))
        self.write('bad.csv', ROWS.replace('6,5', 'x'))
        self.assertEqual(self.run_in('bad.csv', 'site.toml', 'out.stick').status, 1)
        self.assertEqual(self.bytes_of('old.stick'), b'old')
        self.assertEqual(self.run_in('log.csv', 'site.toml', 'out.stick').status, 0)
        self.assertTrue(os.path.islink(self.path('out.stick')))
        self.assertEqual(stat.S_IMODE(os.stat(self.path('old.stick')).st_mode), 0o640)
        self.assertEqual(len(self.bytes_of('old.stick')), 137)

    def test_permissions_of_a_new_one(self):
        self.run_in('log.csv', 'site.toml', 'out.stick', umask=0o027)
        self.assertEqual(stat.S_IMODE(os.stat(self.path('out.stick')).st_mode), 0o640)

    def test_no_room(self):
        """On a full disk nothing of the stick is left, and one that was there stays."""
        self.write('out.stick', b'old')
        limited = f'ulimit -f 0; trap "" XFSZ; exec {COMMAND} log.csv site.toml out.stick'
        self.called = call('bash', '-c', limited, cwd=self.folder)
        self.assertEqual(self.called.status, 2, self.called.words())
        self.assertIn('out.stick: cannot be written: File too large', self.called.error)
        self.assertEqual(self.bytes_of('out.stick'), b'old')
        self.assertEqual(sorted(os.listdir(self.folder)), ['log.csv', 'out.stick', 'site.toml'])

    def test_protected(self):
        """A folder and a file that may not be written; root may write all, so that another user calls the command."""
        os.mkdir(self.path('closed'))
        self.write('closed.stick', b'old')
        for name, mode in (('.', 0o755), ('log.csv', 0o644), ('site.toml', 0o644), ('closed', 0o555),
                           ('closed.stick', 0o444)):
            os.chmod(self.path(name), mode)
        with open(COMMAND, 'rb') as command:
            self.program('command', command.read())
        other = {'user': 65534, 'group': 65534, 'extra_groups': []} if os.geteuid() == 0 else {}
        try:
            if call(self.path('command'), '--help', cwd=self.folder, **other).status != 0:
                self.skipTest('this is root, and no other user can call the program here')
        except OSError as why:
            self.skipTest(f'this is root, and cannot be another user: {why}')
        for name, said in (('closed/out.stick', 'there is no permission to write in its folder; give OUT.stick a name '
                                                'in another folder'),
                           ('closed.stick', 'it is protected against writing; give OUT.stick another name')):
            done = call(self.path('command'), 'log.csv', 'site.toml', name, cwd=self.folder,
                        env={**os.environ, 'YB_IMPORT': '/bin/true'}, **other)
            self.assertEqual(done.status, 2)
            self.assertTrue(done.error.endswith(f'{name}: cannot be written: {said}\n'), done.error)
        self.assertEqual((os.listdir(self.path('closed')), self.bytes_of('closed.stick')), ([], b'old'))


class Importer(Command):
    """The import tool: where it is found, and what is said of one that errs."""

    def test_where_it_is_found(self):
        """Beside the command, behind a link to it too; else on the path; YB_IMPORT comes before both."""
        os.mkdir(self.path('bin'))
        os.mkdir(self.path('alone'))
        os.symlink(sys.executable, self.path('bin/python3'))
        with open(COMMAND, 'rb') as command:
            alone = self.program('alone/command', command.read())
        bare = {'PATH': self.path('bin')}
        words = ('log.csv', 'site.toml', 'out.stick')
        without = call(alone, *words, cwd=self.folder, env=bare)
        self.assertEqual((without.status, without.output), (2, ''))
        self.assertIn('the command import, which checks the stick, is neither beside this program nor on the path; '
                      'build it with tools/build.sh, or name it in YB_IMPORT', without.error)
        # Scripts stand for import, which on some machines is itself a script that looks for a program beside it.
        self.program('bin/import', f'#!/bin/sh\necho path >>{self.folder}/asked\nexec {IMPORT} "$@"\n')
        tool = self.program('tool', f'#!/bin/sh\necho named >>{self.folder}/asked\nexec {IMPORT} "$@"\n')
        path = {**os.environ, 'PATH': f'{self.path("bin")}:{os.environ["PATH"]}'}
        os.symlink(COMMAND, self.path('bin/linked'))
        for command, env in ((alone, path), (self.path('bin/linked'), path), (COMMAND, path),
                             (COMMAND, {**path, 'YB_IMPORT': tool})):
            self.assertEqual(call(command, *words, cwd=self.folder, env=env).status, 0)
        self.assertEqual(self.bytes_of('asked'), b'path\nnamed\n')

    def with_import(self, said, script):
        tool = self.program('tool', '#!/bin/sh\n' + script)
        self.write('out.stick', b'old')
        self.failed(said, 'log.csv', 'site.toml', 'out.stick', env={**os.environ, 'YB_IMPORT': tool})
        self.assertEqual(self.bytes_of('out.stick'), b'old')

    def test_one_that_refuses(self):
        """A refusal is a fault of this program, and is told with the refusal's own words."""
        self.with_import('a fault of this program, not of the log or the site file: import refuses the stick that it '
                         'made. Refused 5 (value out of range) at byte 61 after 0 steps: The stored energy of unit 1, '
                         'the 2nd unit, is 360,000,001 J; it may be 0 to its rated energy, which is 360,000,000 J.',
                         f'exec {IMPORT} check --json {ROOT}/examples/refused-05-value-out-of-range.stick')

    def test_one_that_counts_otherwise(self):
        self.with_import('a fault of this program: it made a stick with bytes 137, and import finds 9119',
                         f'exec {IMPORT} check --json {ROOT}/examples/harvest.stick')
        counted = '{"status": "complete", "bytes": 137, "steps": 2'
        self.with_import('it made a stick with missing_steps 0, and import finds None', f"echo '{counted}}}'")
        self.with_import('it made a stick with missing_steps 0, and import finds 1',
                         f"echo '{counted}, \"missing_steps\": 1}}'")

    def test_one_that_is_another_program(self):
        self.with_import("tool: gives no answer about the stick, status 1: import: unable to open X server `'; is it "
                         "the import tool?",
                         'echo "import: unable to open X server \\`\'" >&2; exit 1')
        for script in ('exit 0', 'echo "[]"', 'echo "{}"', "printf '\\377'", 'echo \'{"status": "failed"}\'',
                       'kill -9 $$'):
            with self.subTest(script=script):
                self.with_import('gives no answer about the stick, status', script)
        self.failed('there is no program there', 'log.csv', 'site.toml', 'out.stick',
                    env={**os.environ, 'YB_IMPORT': '/nowhere'})
        self.write('plain', 'no program')
        os.chmod(self.path('plain'), 0o755)
        self.failed('plain: cannot be run: Exec format error', 'log.csv', 'site.toml', 'out.stick',
                    env={**os.environ, 'YB_IMPORT': self.path('plain')})


class Signals(Command):
    def test_a_signal_leaves_nothing(self):
        """While the stick is checked it lies beside its place; a signal then removes it and ends the program."""
        tool = self.program('tool', f'#!/bin/sh\ntouch {self.folder}/checking\nsleep 60\n')
        self.write('out.stick', b'old')
        for number in (signal.SIGTERM, signal.SIGINT, signal.SIGHUP):
            with self.subTest(number=number):
                # Whoever runs the tests may have the signal ignored, as nohup does; the command is to have it as usual.
                process = subprocess.Popen([COMMAND, 'log.csv', 'site.toml', 'out.stick'], cwd=self.folder,
                                           stderr=subprocess.PIPE, env={**os.environ, 'YB_IMPORT': tool},
                                           preexec_fn=lambda: signal.signal(number, signal.SIG_DFL))
                self.wait_for(lambda: os.path.exists(self.path('checking')))
                self.assertEqual(len(glob.glob(self.path('.stick-from-csv-unfinished-*'))), 1)
                process.send_signal(number)
                self.assertEqual(process.communicate(timeout=30), (None, b''))
                self.assertEqual(process.returncode, -number)
                os.unlink(self.path('checking'))
                self.assertEqual(sorted(os.listdir(self.folder)), ['log.csv', 'out.stick', 'site.toml', 'tool'])
                self.assertEqual(self.bytes_of('out.stick'), b'old')

    def wait_for(self, there):
        until = time.monotonic() + 30
        while not there():
            self.assertLess(time.monotonic(), until)
            time.sleep(0.01)

    def test_an_ignored_signal_stays_so(self):
        tool = self.program('tool', f'#!/bin/sh\ntouch {self.folder}/checking\nsleep 1\nexec {IMPORT} "$@"\n')
        process = subprocess.Popen(['sh', '-c', f'trap "" HUP; exec {COMMAND} log.csv site.toml out.stick'],
                                   cwd=self.folder, stdout=subprocess.DEVNULL, env={**os.environ, 'YB_IMPORT': tool})
        self.wait_for(lambda: os.path.exists(self.path('checking')))
        process.send_signal(signal.SIGHUP)
        self.assertEqual(process.wait(timeout=30), 0)
        self.assertEqual(len(self.bytes_of('out.stick')), 137)


if __name__ == '__main__':
    unittest.main()
