"""stick-from-csv says that a stick is complete when that is so: it is in its place, and import has checked it. Where
the stick or the lines cannot be written, where import does not end as it says, and for logs that are refused."""

import errno
import os
import stat
import unittest
from unittest import mock

from full import PRAISE, into, limited, small_disk
from sticks import COMMAND, IMPORT, ROWS, SITE, Desk, call

# More than 65,536 bytes of readings: import takes the stick in several chunks.
MANY = 'time;L1;L2;L3\n' + ''.join(
    f'2025-06-{1 + row // 96:02d} {row // 4 % 24:02d}:{row % 4 * 15:02d};{row % 40};2;3\n' for row in range(2880))
WORDS = ('log.csv', 'site.toml', 'out.stick')


class Writes(Desk):
    def setUp(self):
        super().setUp()
        self.write('site.toml', SITE)

    def unpraised(self, *said):
        for words in PRAISE:
            self.assertNotIn(words, ''.join(said))

    def due(self, log):
        """The stick of a log, which is made elsewhere."""
        self.write('log.csv', log)
        self.assertEqual(call(COMMAND, 'log.csv', 'site.toml', 'due.stick', cwd=self.folder).status, 0)
        return self.bytes_of('due.stick')

    def places(self):
        """Each place that takes no line, and what the system says of it."""
        yield from (('full', 'No space left on device'), ('deaf', 'Broken pipe'))
        disk = small_disk(self)
        if disk:
            yield os.path.join(disk, 'lines'), 'No space left on device'

    def test_the_lines_cannot_be_written(self):
        """The stick is there whole, and that is told; nothing else is."""
        for place, why in self.places():
            for log in (ROWS, MANY):
                with self.subTest(place=place, bytes=len(log)):
                    due = self.due(log)
                    self.write('out.stick', b'old')
                    status, came, said = into(place, [COMMAND, *WORDS], cwd=self.folder)
                    self.assertEqual((status, came, said), (
                        2, '', f'stick-from-csv: what is to be said cannot be written: {why}; out.stick is written '
                               'whole\n'))
                    self.assertEqual(self.bytes_of('out.stick'), due)

    def test_a_refused_log(self):
        """What is refused is said on standard error, and nothing is praised."""
        for place, _ in self.places():
            for log in (ROWS.replace('6,5', 'x'), MANY[:-4], MANY.replace(';39;', ';;x;')):
                with self.subTest(place=place, bytes=len(log)):
                    self.write('log.csv', log)
                    self.write('out.stick', b'old')
                    status, came, said = into(place, [COMMAND, *WORDS], cwd=self.folder)
                    self.assertEqual((status, came), (1, ''))
                    self.assertIn('Nothing was written.', said)
                    self.unpraised(said)
                    self.assertEqual(self.bytes_of('out.stick'), b'old')

    def test_the_stick_cannot_be_written(self):
        """On a full disk, and in a folder that is not there, nothing is said but that."""
        disk = small_disk(self)
        for log in (ROWS, MANY):
            self.write('log.csv', log)
            with self.subTest(bytes=len(log)):
                if disk:
                    done = call(COMMAND, 'log.csv', 'site.toml', 'disk/old', cwd=self.folder)
                    self.assertEqual((done.status, done.output), (2, ''))
                    self.assertIn('disk/old: cannot be written: there is no room left', done.error)
                    self.assertEqual((self.bytes_of('disk/old'), sorted(os.listdir(disk))), (b'old', ['fill', 'old']))
                    self.unpraised(done.error)
                done = call(COMMAND, 'log.csv', 'site.toml', '/no/such/OUT', cwd=self.folder)
                self.assertEqual((done.status, done.output), (2, ''))
                self.assertIn('/no/such/OUT: cannot be written: there is no such folder', done.error)
                self.unpraised(done.error)
                self.write('out.stick', b'old')
                done = limited([COMMAND, *WORDS], cwd=self.folder)
                self.assertEqual((done.returncode, done.stdout), (2, b''))
                self.assertIn(b'out.stick: cannot be written: File too large', done.stderr)
                self.assertEqual(self.bytes_of('out.stick'), b'old')

    def test_the_disk_does_not_confirm_the_name(self):
        """A stick whose name may be lost with the power is not said to be complete."""
        def fsync(handle):
            if stat.S_ISDIR(os.fstat(handle).st_mode):
                raise OSError(why, os.strerror(why))
        for why, status in ((errno.EIO, 2), (errno.EINVAL, 0), (errno.ENOTSUP, 0)):
            with self.subTest(why=why), mock.patch('os.fsync', fsync):
                self.called = self.make()
                self.assertEqual(self.called.status, status)
                if status == 0:
                    self.says('out.stick: complete, 2 steps')
                    continue
                self.assertEqual(self.called.output, '')
                self.says('out.stick: written, but the disk did not confirm its name; call again: Input/output error')
                self.unpraised(self.called.error)

    def test_an_import_that_does_not_end_as_it_says(self):
        """An object that says complete, of a tool that then fails, is no answer."""
        self.write('log.csv', ROWS)
        for ends in ('exit 2', 'exit 1', 'kill -9 $$'):
            with self.subTest(ends=ends):
                tool = self.write('tool', f'#!/bin/sh\n{IMPORT} "$@"\n{ends}\n')
                os.chmod(tool, 0o755)
                self.write('out.stick', b'old')
                done = call(COMMAND, *WORDS, cwd=self.folder, env={**os.environ, 'YB_IMPORT': tool})
                self.assertEqual((done.status, done.output), (2, ''))
                self.assertIn('gives no answer about the stick, status', done.error)
                self.unpraised(done.error)
                self.assertEqual(self.bytes_of('out.stick'), b'old')


if __name__ == '__main__':
    unittest.main()
