"""season-page says that there is a page when it is in its place. Where the page or the line cannot be written, where
the import tool does not end as it says, and for sticks that are refused or cut."""

import errno
import os
import stat
import unittest
from unittest import mock

from full import PRAISE, into, limited, small_disk
from page_sticks import COMMAND, EXAMPLES, IMPORT, Case, call, powers
from season_page.faults import Failed
from season_page.output import write

MILL = os.path.join(EXAMPLES, 'mill.stick')
WRECK = os.path.join(EXAMPLES, 'refused-06-three-faults.stick')


class Writes(Case):
    def setUp(self):
        super().setUp()
        # More than 65,536 bytes: import takes it in several chunks.
        many = powers(*(step % 40 for step in range(5000)))
        self.assertGreater(len(many), 65536)
        self.whole = (MILL, self.write('many.stick', many))
        self.bad = (WRECK, self.write('cut.stick', many[:100000]), self.write('spoiled.stick', many[:-1] + b'\0'))
        self.bare = {**os.environ, **self.environ}

    def unpraised(self, *said):
        for words in PRAISE:
            self.assertNotIn(words, ''.join(said))

    def bytes_of(self, name):
        with open(self.path(name), 'rb') as file:
            return file.read()

    def places(self):
        """Each place that takes no line, and what the system says of it."""
        yield from (('full', 'No space left on device'), ('deaf', 'Broken pipe'))
        disk = small_disk(self)
        if disk:
            yield os.path.join(disk, 'lines'), 'No space left on device'

    def test_the_line_cannot_be_written(self):
        """The page is there whole, and that is told; nothing else is."""
        for place, why in self.places():
            for stick in self.whole:
                with self.subTest(place=place, stick=stick):
                    self.make(stick, 'due.html')
                    out = self.write('page.html', b'old')
                    status, came, said = into(place, [COMMAND, stick, out], env=self.bare)
                    self.assertEqual((status, came, said), (
                        2, '', f'season-page: the line cannot be written: {why}; {out} is written whole\n'))
                    self.assertEqual(self.bytes_of('page.html'), self.bytes_of('due.html'))

    def test_a_refused_stick(self):
        for place, _ in self.places():
            for stick in self.bad:
                with self.subTest(place=place, stick=stick):
                    out = self.write('page.html', b'old')
                    status, came, said = into(place, [COMMAND, stick, out], env=self.bare)
                    self.assertEqual((status, came), (1, ''))
                    self.assertTrue(said.endswith('season-page: the stick is refused: no page is made\n'), said)
                    self.unpraised(said)
                    self.assertEqual(self.bytes_of('page.html'), b'old')

    def test_the_page_cannot_be_written(self):
        disk = small_disk(self)
        for stick in self.whole:
            with self.subTest(stick=stick):
                if disk:
                    status, output, said = call(stick, os.path.join(disk, 'old'), environ=self.environ)
                    self.assertEqual((status, output), (2, ''))
                    self.assertIn('disk/old: cannot be written: No space left on device', said)
                    self.unpraised(said)
                    self.assertEqual((self.bytes_of('disk/old'), sorted(os.listdir(disk))), (b'old', ['fill', 'old']))
                status, output, said = call(stick, '/no/such/page.html', environ=self.environ)
                self.assertEqual((status, output), (2, ''))
                self.unpraised(said)
        out = self.write('page.html', b'old')
        done = limited([COMMAND, MILL, out], env=self.bare)
        self.assertEqual((done.returncode, done.stdout, self.bytes_of('page.html')), (2, b'', b'old'))
        self.unpraised(done.stderr.decode('utf-8'))
        self.assertNotIn(b'Traceback', done.stderr)

    def test_the_disk_does_not_confirm_the_name(self):
        """A page whose name may be lost with the power is not said to be there."""
        def fsync(handle):
            handle = handle if isinstance(handle, int) else handle.fileno()
            if stat.S_ISDIR(os.fstat(handle).st_mode):
                raise OSError(why, os.strerror(why))
        for why in (errno.EIO, errno.EINVAL, errno.ENOTSUP):
            with self.subTest(why=why), mock.patch('os.fsync', fsync):
                if why != errno.EIO:
                    write(self.path('page.html'), b'page')
                    continue
                with self.assertRaisesRegex(Failed, '^written, but the disk did not confirm its name; call again: '
                                                    'Input/output error$'):
                    write(self.path('page.html'), b'page')
            self.assertEqual(self.bytes_of('page.html'), b'page')

    def test_an_import_that_does_not_end_as_it_says(self):
        """What a tool says that then fails, or is killed, makes no page."""
        for command in ('check', 'summary', 'peak', 'table', 'run'):
            for ends in ('exit 2', 'kill -9 $$'):
                with self.subTest(command=command, ends=ends):
                    tool = self.write('tool', f'#!/bin/sh\n[ "$1" = {command} ] || exec {IMPORT} "$@"\n{IMPORT} "$@"\n'
                                              f'{ends}\n'.encode())
                    os.chmod(tool, 0o755)
                    out = self.write('page.html', b'old')
                    status, output, said = call(MILL, out, environ={**self.environ, 'YB_IMPORT': tool})
                    self.assertEqual((status, output), (2, ''), said)
                    self.unpraised(said)
                    self.assertEqual(self.bytes_of('page.html'), b'old')


if __name__ == '__main__':
    unittest.main()
