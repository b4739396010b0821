"""The command season-page as people call it, over good sticks and hostile ones."""
import json
import os
import re
import signal
import stat
import subprocess
import time
import unittest

from page_sticks import (COMMAND, COMPLETE, EXAMPLES, IMPORT, REFUSED, Case, Reader, call, long_stick, number, powers,
                         told, words_of, year)
from season_page.page import as_data, fill

MILL = os.path.join(EXAMPLES, 'mill.stick')


class Pages(Case):
    def test_every_example_makes_a_page(self):
        self.assertGreaterEqual(len(COMPLETE), 7)
        for example in COMPLETE:
            with self.subTest(example=example):
                out = self.path(example + '.html')
                status, output, errors = call(os.path.join(EXAMPLES, example), out, environ=self.environ)
                self.assertEqual((status, errors), (0, ''))
                steps = told('check', os.path.join(EXAMPLES, example))['steps']
                self.assertRegex(output, rf'^.*: the season of .*{example}, {steps:,} steps, \d+ batter(y|ies), '
                                         rf'{os.path.getsize(out):,} bytes\n$')

    def test_the_same_stick_makes_the_same_page(self):
        """From any folder, under any path, at any time."""
        first = self.make(MILL)
        os.mkdir(self.path('sub'))
        with open(MILL, 'rb') as file:
            self.write('sub/mill.stick', file.read())
        status, _, _ = call('mill.stick', '../other.html', environ={**self.environ, 'TZ': 'Asia/Tokyo', 'LANG': 'C'},
                            cwd=self.path('sub'))
        self.assertEqual(status, 0)
        with open(self.path('other.html'), encoding='utf-8', newline='') as file:
            self.assertEqual(file.read(), first)

    def test_a_page_is_one_file_that_fetches_nothing(self):
        page = self.make(os.path.join(EXAMPLES, 'roof.stick'))
        reader = Reader(page)
        for _, attributes in reader.elements:
            self.assertFalse({'src', 'href', 'srcset', 'action', 'style', 'data'} & set(attributes), attributes)
            self.assertFalse([name for name in attributes if name.startswith('on')])
        self.assertNotIn('sourceMappingURL', page)
        self.assertNotIn('url(', page)
        self.assertNotIn('@import', page)

    def test_the_policy_lets_only_the_page_s_own_programs_run(self):
        reader = Reader(self.make(MILL))
        policy = next(meta['content'] for meta in reader.all('meta')
                      if meta.get('http-equiv') == 'Content-Security-Policy')
        parts = dict(part.strip().split(' ', 1) for part in policy.split(';'))
        self.assertEqual(parts['default-src'], "'none'")
        programs = [text for text, script in zip(reader.texts['script'], reader.all('script')) if not script]
        self.assertEqual(parts['script-src'].split(), [number(text) for text in programs])
        self.assertEqual(parts['style-src'].split(), [number(text) for text in reader.texts['style']])
        self.assertEqual((len(programs), len(reader.all('script')), len(reader.all('style'))), (2, 3, 1))

    def test_the_library_and_its_licence_are_in_the_page(self):
        reader = Reader(self.make(MILL))
        self.assertEqual(reader.texts['script'][1], 'var Dygraph = {};\n\n')
        self.assertEqual(reader.texts['pre'], ['Copyright (c) <somebody> & others'])

    def test_a_stick_that_is_too_long_for_figures(self):
        reader = Reader(self.make(self.write('long.stick', long_stick())))
        self.assertIn('no figures of a stick of more than 2,097,152 bytes', reader.texts['main'][0])
        self.assertIsNone(reader.season()['sweep'])
        self.assertEqual(reader.texts['dl'] if 'dl' in reader.texts else [], [])


class Refusals(Case):
    def test_a_refused_stick_makes_no_page_and_is_said(self):
        self.assertGreaterEqual(len(REFUSED), 20)
        for example in REFUSED:
            with self.subTest(example=example):
                path, out = os.path.join(EXAMPLES, example), self.path('page.html')
                status, output, errors = call(path, out, environ=self.environ)
                said = words_of('check', path)
                self.assertEqual((status, output), (1, ''))
                self.assertEqual(errors, said + 'season-page: the stick is refused: no page is made\n')
                self.assertEqual(sorted(os.listdir(self.folder)), ['library'])

    def test_a_page_that_was_there_stays(self):
        out = self.write('page.html', b'an older page')
        status, _, _ = call(os.path.join(EXAMPLES, REFUSED[0]), out, environ=self.environ)
        self.assertEqual(status, 1)
        with open(out, 'rb') as file:
            self.assertEqual(file.read(), b'an older page')

    def test_no_stick_at_all(self):
        for name, data in (('empty', b''), ('text', b'time;L1;L2;L3\n'), ('zeros', bytes(5000000))):
            with self.subTest(name=name):
                status, _, errors = call(self.write(name, data), self.path('page.html'), environ=self.environ)
                self.assertEqual(status, 1)
                self.assertIn(': refused ', errors)
                self.assertFalse(os.path.exists(self.path('page.html')))

    def test_a_stick_without_end(self):
        status, _, errors = call('/dev/zero', self.path('page.html'), environ=self.environ)
        self.assertEqual((status, errors.split('\n')[0]),
                         (1, '/dev/zero: refused 2 (unknown tag) at byte 0 after 0 steps'))

    def test_bytes_behind_a_long_stick(self):
        """A fault far behind is found where the import tool finds it."""
        path = self.write('long.stick', long_stick() + bytes(3000000))
        status, _, errors = call(path, self.path('page.html'), environ=self.environ)
        refusal = told('check', path)
        self.assertEqual((status, refusal['number']), (1, 9))
        self.assertIn('refused 9 (bytes after the end) at byte '
                      f'{refusal["place"]} after {refusal["steps"]} steps', errors)


class Names(Case):
    HOSTILE = [b'</script><script>alert(1)</script>', b'"><img src=x onerror=alert(1)>', b"' onmouseover='alert(1)",
               b'a\nb', b'\xff\xfe', '\u2028\u202e.stick'.encode(), b'<!--', b'-->', b'{{data}}', b'\\u003cb\\u003e',
               b'&lt;b&gt;', b'-x', b'--json', b'12', b'a b', b'$(id)', b';id', b'%s%n', b'*']

    def test_names_do_not_become_part_of_the_page_s_code(self):
        plain = Reader(self.make(MILL))
        with open(MILL, 'rb') as file:
            data = file.read()
        # What is in a page besides its text and the text of its title does not go by the name.
        for name in self.HOSTILE:
            with self.subTest(name=name):
                if b'/' in name:
                    name = name.replace(b'/', '\u2044'.encode())
                path = os.path.join(os.fsencode(self.folder), name)
                with open(path, 'wb') as file:
                    file.write(data)
                reader = Reader(self.make(path))
                self.assertEqual(reader.elements, plain.elements)
                self.assertEqual(reader.texts['script'], plain.texts['script'])
                self.assertEqual(reader.texts['style'], plain.texts['style'])
                shown = reader.texts['h1'][0].removeprefix('The season of ')
                self.assertTrue(shown.isprintable())
                self.assertEqual(reader.texts['title'], [f'The season of {shown}'])
                os.unlink(path)

    def test_texts_do_not_become_part_of_the_data_s_element(self):
        """Of what the page's program is given none is a text of others today; it would be safe all the same."""
        for text in ('</script><script>alert(1)</script>', '<!--<script>', ']]>', '&amp;', '\u2028\u2029', '\ud800', '\0'):
            data = as_data({'text': text})
            self.assertTrue(data.isascii())
            self.assertFalse(set('<>&') & set(data))
            self.assertEqual(json.loads(data), {'text': text})

    def test_a_template_is_filled_once(self):
        self.assertEqual(fill('{{a}} {{b}}', {'a': '{{b}} $1 \\1', 'b': '{{a}}'}), '{{b}} $1 \\1 {{a}}')

    def test_a_closing_script_in_the_path(self):
        """A folder can have the slash that a name cannot."""
        folder = os.path.join(os.fsencode(self.folder), b'<script>alert(1)<')
        os.mkdir(folder)
        path = os.path.join(folder, b'script>.stick')
        with open(MILL, 'rb') as file, open(path, 'wb') as copy:
            copy.write(file.read())
        page = self.make(path)
        self.assertEqual(Reader(page).elements, Reader(self.make(MILL)).elements)
        self.assertEqual(page.count('<script'), 3)

    def test_the_page_itself_may_have_any_name(self):
        for name in self.HOSTILE:
            if b'/' in name:
                continue
            out = os.path.join(os.fsencode(self.folder), name)
            status, output, errors = call('--', MILL, out, environ=self.environ)
            self.assertEqual((status, errors, output.count('\n')), (0, '', 1), name)
            self.assertTrue(os.path.getsize(out) > 50000)
            os.unlink(out)

    def test_names_behind_two_dashes(self):
        with open(MILL, 'rb') as file:
            self.write('-mill.stick', file.read())
        status, _, errors = call('-mill.stick', 'out.html', environ=self.environ, cwd=self.folder)
        self.assertEqual((status, 'there is no option -mill.stick' in errors), (2, True))
        status, _, errors = call('--', '-mill.stick', '-out.html', environ=self.environ, cwd=self.folder)
        self.assertEqual((status, errors), (0, ''))
        self.assertTrue(os.path.exists(self.path('-out.html')))


class Output(Case):
    def fails(self, out, why, name=MILL):
        status, output, errors = call(name, out, environ=self.environ)
        self.assertEqual((status, output), (2, ''))
        self.assertIn(why, errors)
        self.assertTrue(errors.startswith('season-page: '))
        self.assertEqual(errors.count('\n'), 1)

    def through(self, shell):
        """The command as a shell calls it."""
        return subprocess.run(['sh', '-c', shell, 'sh', COMMAND, MILL, self.path('page.html')], capture_output=True,
                              check=False, env={**os.environ, **self.environ}, encoding='utf-8')

    def test_the_line_cannot_be_written(self):
        """The page is made all the same, and the exit status says that something is wrong."""
        done = self.through('exec "$@" >/dev/full')
        self.assertEqual((done.returncode, done.stderr),
                         (2, 'season-page: the line cannot be written: No space left on device; '
                             f'{self.path("page.html")} is written whole\n'))
        self.assertTrue(os.path.exists(self.path('page.html')))
        done = self.through('exec "$@" >&-')
        self.assertEqual((done.returncode, done.stderr),
                         (2, 'season-page: the line cannot be written: Bad file descriptor; '
                             f'{self.path("page.html")} is written whole\n'))
        # Nobody hears why, and nothing else takes the place of what is closed.
        done = self.through('exec "$1" "$2.none" "$3" <&- >&- 2>&-')
        self.assertEqual((done.returncode, done.stdout, done.stderr), (2, '', ''))

    def test_what_cannot_be_written(self):
        self.fails(self.folder, 'it is no plain file')
        self.fails('/dev/full', 'it is no plain file')
        self.fails(self.path('none/page.html'), 'No such file or directory')
        self.fails(os.path.join(MILL, 'page.html'), 'Not a directory')
        self.fails(self.path('x' * 300), 'File name too long')
        self.assertEqual(os.listdir(self.folder), ['library'])

    def test_the_stick_is_not_written_over(self):
        with open(MILL, 'rb') as file:
            data = file.read()
        name = self.write('mill.stick', data)
        os.symlink(name, self.path('link.html'))
        os.link(name, self.path('hard.html'))
        for out in (name, self.path('link.html'), self.path('hard.html')):
            self.fails(out, 'it is the stick', name)
        with open(name, 'rb') as file:
            self.assertEqual(file.read(), data)

    def test_a_link_is_followed(self):
        os.symlink(self.path('real.html'), self.path('link.html'))
        self.make(MILL, 'link.html')
        self.assertTrue(os.path.islink(self.path('link.html')))
        self.assertGreater(os.path.getsize(self.path('real.html')), 50000)

    def test_a_full_disk(self):
        """A page that cannot be written whole is not there, and the older one stays."""
        self.write('page.html', b'an older page')
        done = self.through('ulimit -f 20; trap "" XFSZ; exec "$@"')
        self.assertEqual((done.returncode, done.stderr.count('cannot be written')), (2, 1), done.stderr)
        self.assertEqual(sorted(os.listdir(self.folder)), ['library', 'page.html'])
        with open(self.path('page.html'), 'rb') as file:
            self.assertEqual(file.read(), b'an older page')

    def test_the_rights_of_a_page_are_usual(self):
        self.assertEqual(self.through('umask 027; exec "$@"').returncode, 0)
        self.assertEqual(stat.S_IMODE(os.stat(self.path('page.html')).st_mode), 0o640)

    def test_one_that_is_stopped_leaves_nothing(self):
        name = self.write('year.stick', year())
        for number_of in (signal.SIGINT, signal.SIGTERM, signal.SIGHUP):
            with self.subTest(signal=number_of):
                temporary = self.path('temporary')
                os.makedirs(temporary, exist_ok=True)
                environ = {**os.environ, **self.environ, 'TMPDIR': temporary}
                # Whoever runs the tests may have the signal ignored, as nohup does; the command is to have it as usual.
                running = subprocess.Popen([COMMAND, name, self.path('page.html')], stdout=subprocess.PIPE,
                                           stderr=subprocess.PIPE, env=environ,
                                           preexec_fn=lambda: signal.signal(number_of, signal.SIG_DFL))
                until = time.monotonic() + 60
                # Its own folder, not the file by which Python tries whether it may write there.
                while not any(one.startswith('season-page-') for one in os.listdir(temporary)) \
                        and time.monotonic() < until:
                    time.sleep(0.01)
                running.send_signal(number_of)
                output, errors = running.communicate(timeout=60)
                self.assertEqual((running.returncode, output, errors), (-number_of, b'', b''))
                self.assertEqual(os.listdir(temporary), [])
                self.assertEqual(sorted(os.listdir(self.folder)), ['library', 'temporary', 'year.stick'])


class Calls(Case):
    def test_wrong_calls(self):
        for words in ([], [MILL], [MILL, 'a', 'b'], ['-', self.path('page.html')], [MILL, '-'], ['--json', MILL, 'x'],
                      ['--', '--', MILL]):
            with self.subTest(words=words):
                status, output, errors = call(*words, environ=self.environ, cwd=self.folder)
                self.assertEqual((status, output), (2, ''))
                if words != ['--', '--', MILL]:
                    self.assertIn('usage: season-page STICK OUT.html', errors)
        self.assertEqual(os.listdir(self.folder), ['library'])

    def test_help(self):
        for word in ('--help', '-h', 'help'):
            status, output, errors = call(word)
            self.assertEqual((status, errors), (0, ''))
            self.assertIn('usage: season-page STICK OUT.html', output)
            self.assertLessEqual(max(map(len, output.splitlines())), 120)

    def test_a_stick_that_cannot_be_read(self):
        for name, why in ((self.path('none'), 'No such file or directory'), (self.folder, 'Is a directory')):
            status, _, errors = call(name, self.path('page.html'), environ=self.environ)
            self.assertEqual((status, errors), (2, f'season-page: {name}: cannot be read: {why}\n'))

    def test_no_chart_library(self):
        os.unlink(self.path('library/dygraph.min.js'))
        status, _, errors = call(MILL, self.path('page.html'), environ=self.environ)
        self.assertEqual(status, 2)
        self.assertIn('apt-get install libjs-dygraphs', errors)
        self.assertFalse(os.path.exists(self.path('page.html')))

    def test_a_library_that_cannot_stand_in_a_page(self):
        for text in (b'x = "</script>"', b'<!-- x', b'"\0"'):
            self.write('library/dygraph.min.js', text)
            status, _, errors = call(MILL, self.path('page.html'), environ=self.environ)
            self.assertEqual((status, errors), (2, 'season-page: the chart library cannot stand in a page\n'))

    def test_lines_end_as_the_browser_takes_them(self):
        self.write('library/dygraph.min.js', b'var a = 1;\r\nvar b = 2;\rvar c;')
        page = self.make(MILL)
        self.assertNotIn('\r', page)
        self.assertIn(f'script-src {number("var a = 1;" + chr(10) + "var b = 2;" + chr(10) + "var c;")}',
                      next(meta['content'] for meta in Reader(page).all('meta') if 'http-equiv' in meta))

    def test_the_import_tool_that_is_named(self):
        status, _, errors = call(MILL, self.path('page.html'), environ={**self.environ, 'YB_IMPORT': self.path('none')})
        self.assertEqual(status, 2)
        self.assertIn(f'the import tool {self.path("none")} cannot be run', errors)
        status, _, errors = call(MILL, self.path('page.html'), environ={**self.environ, 'YB_IMPORT': '/bin/echo'})
        self.assertEqual((status, errors), (2, 'season-page: /bin/echo is another program than the import tool; '
                                               'YB_IMPORT names the right one\n'))
        os.symlink(IMPORT, self.path('tool'))
        status, _, errors = call(MILL, self.path('page.html'), environ={**self.environ, 'YB_IMPORT': self.path('tool')})
        self.assertEqual((status, errors), (0, ''))

    def test_an_older_import_tool(self):
        """One that does not tell a number which the page needs yet."""
        older = self.write('older', b'#!/bin/sh\nif [ "$1" = summary ]; then "$TOOL" "$@" | sed s/rated_J/rated/\n'
                                    b'else exec "$TOOL" "$@"; fi\n')
        os.chmod(older, 0o755)
        status, output, errors = call(MILL, self.path('page.html'),
                                      environ={**self.environ, 'YB_IMPORT': older, 'TOOL': IMPORT})
        self.assertEqual((status, output), (2, ''))
        self.assertEqual(errors, f"season-page: the import tool {older} does not tell 'rated_J': it is of another "
                                 'version\n')
        self.assertFalse(os.path.exists(self.path('page.html')))

    def alone(self, path):
        """The command in a folder where no import tool is beside it."""
        os.makedirs(self.path('alone'), exist_ok=True)
        with open(COMMAND, 'rb') as file:
            self.write('alone/season-page', file.read())
        return subprocess.run(['python3', self.path('alone/season-page'), MILL, self.path('page.html')], check=False,
                              capture_output=True, encoding='utf-8', env={**os.environ, **self.environ, 'PATH': path})

    def test_the_import_tool_on_the_path(self):
        python = os.environ['PATH']
        done = self.alone(f'{os.path.dirname(IMPORT)}:{python}')
        self.assertEqual((done.returncode, done.stderr), (0, ''))

    def test_another_program_called_import(self):
        """Such as one that takes pictures of screens."""
        os.mkdir(self.path('bin'))
        with open(self.path('bin/import'), 'w', encoding='ascii') as file:
            file.write('#!/bin/sh\necho "Version: a program of pictures"\n')
        os.chmod(self.path('bin/import'), 0o755)
        done = self.alone(f'{self.path("bin")}:{os.environ["PATH"]}')
        self.assertEqual(done.returncode, 2)
        self.assertIn('is another program than the import tool', done.stderr)

    def test_a_tool_that_breaks_off(self):
        """A tool whose table fails halfway makes no page."""
        failed = 'echo "{\\"status\\": \\"failed\\", \\"what\\": \\"so it is\\"}"; exit 2'
        for says, breaks, why in (('table', 'head -n 40; exit 2', 'import table: it failed'),
                                  ('table', 'cat; exit 1', 'import table: it failed'),
                                  ('table', 'head -n 40; echo no more >&2; exit 1', 'import table: no more'),
                                  ('table', 'head -n 40', 'is not one of this season'),
                                  ('summary', 'echo "{"', 'import summary --json gives no object'),
                                  ('summary', 'sed s/rated_J/rated/', 'does not tell \'rated_J\''),
                                  ('summary', 'sed \'s/"outside_steps": 34/"outside_steps": 35/\'',
                                   'gives 34 for outside_steps, its summary 35'),
                                  ('peak', failed, 'import peak: so it is'),
                                  ('check', failed, 'import check: so it is')):
            with self.subTest(command=says, breaks=breaks):
                with open(self.path('tool'), 'w', encoding='ascii') as file:
                    file.write(f'#!/bin/sh\n[ "$1" = {says} ] || exec {IMPORT} "$@"\n'
                               f'{IMPORT} "$@" | {{ {breaks}; }}\n')
                os.chmod(self.path('tool'), 0o755)
                environ = {**self.environ, 'YB_IMPORT': self.path('tool')}
                status, output, errors = call(MILL, self.path('page.html'), environ=environ)
                self.assertEqual((status, output), (2, ''), errors)
                self.assertIn(why, errors)
                self.assertNotIn('Traceback', errors)
                self.assertFalse(os.path.exists(self.path('page.html')))

    def test_one_battery_and_one_step_in_words(self):
        name = self.write('one.stick', powers(2.5))
        status, output, _ = call(name, self.path('page.html'), environ=self.environ)
        self.assertEqual(status, 0)
        self.assertIn('1 step, 1 battery, ', output)


if __name__ == '__main__':
    unittest.main()
