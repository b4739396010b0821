"""The times of a log: their forms, gaps, double rows, order, the grid of the steps, zones, and clocks that jump."""

import unittest

from sticks import LOG, SETTINGS, SITE, UNIT, Desk, decoded


def log(*times, header='time;L1;L2;L3'):
    """A log with a row for each time; the first phase counts the rows, so that a reading shows its row."""
    return header + '\n' + ''.join(f'{time};{row};1;1\n' for row, time in enumerate(times, 2))


def clock(day, *times):
    return [f'{day} {time}' for time in times]


def with_keys(*lines):
    return LOG + '\n'.join(lines) + '\n' + SETTINGS + UNIT


def without_zone(site):
    return ''.join(line for line in site.splitlines(True) if not line.startswith('zone'))


def zoned(zone, *lines):
    return with_keys(*lines).replace('"Europe/Berlin"', f'"{zone}"')


class Times(Desk):
    def rows(self, text, site=SITE):
        """The row of each step, None where its reading is missing."""
        return [None if three is None else int(three[0]) for three in self.readings(text, site)]


class Forms(Times):
    def test_forms(self):
        for first, second in (('2025-06-01 00:00', '2025-06-01 00:15'), ('2025-06-01T00:00:00', '2025-06-01T00:15:00'),
                              ('2025-06-01 00:00:00.000', '2025-06-01 00:15:00.000000000'),
                              ('01.06.2025 00:00', '01.06.2025 00:15'),
                              ('1.6.2025 0:00', '1.6.2025 0:15:00'), ('2025/06/01 00:00', '2025/06/01 00:15'),
                              ('01.06.2025, 00:00', '01.06.2025, 00:15'), ('2025-05-31 23:45', '2025-05-31 24:00'),
                              ('31.05.2025 23:45', '31.05.2025 24:00:00')):
            with self.subTest(first=first):
                self.assertEqual(self.rows(log(first, second)), [2, 3])

    def test_offsets(self):
        for first, second in (('2025-06-01T00:00Z', '2025-06-01T00:15Z'),
                              ('2025-06-01 00:00+02:00', '2025-06-01 00:15 +0200'),
                              ('2025-06-01 00:00-05', '2025-06-01 03:15-02'),
                              ('01.06.2025 00:00 +02:00', '01.06.2025 00:15 +02:00')):
            with self.subTest(first=first):
                site = without_zone(SITE)
                self.assertEqual(self.rows(log(first, second), site), [2, 3])
                self.says('with their own offsets. A step has 15 minutes')

    def test_a_format(self):
        for form, first, second in (('%d/%m/%Y %H:%M', '01/06/2025 00:00', '01/06/2025 00:15'),
                                    ('%m/%d/%Y %I:%M %p', '06/01/2025 12:00 AM', '06/01/2025 12:15 AM'),
                                    ('%d.%m.%y %H:%M', '01.06.25 00:00', '01.06.25 00:15'),
                                    ('%Y%m%d%H%M%z', '202506010000+0200', '202506010015+0200')):
            with self.subTest(form=form):
                self.assertEqual(self.rows(log(first, second), with_keys(f'format = "{form}"')), [2, 3])
                self.says(f'times as format "{form}" says')
        self.refused('Row 3, time "x": it is not as format in [log] says, "%d/%m/%Y %H:%M".',
                     log('01/06/2025 00:00', 'x'),
                     with_keys('format = "%d/%m/%Y %H:%M"'))
        for form in ('%H:%M', '%', '%Q', 'x', '%d.%m. %H:%M'):
            self.site_refused(f'log: format "{form}" is none by which a day can be read',
                              with_keys(f'format = "{form}"'))

    def test_two_columns(self):
        text = log('01.06.2025;00:00', '01.06.2025;00:15', header='date;time;L1;L2;L3')
        self.assertEqual(self.rows(text, SITE.replace('"time"', '["date", "time"]')), [2, 3])
        self.says('Time from "date" and "time"')

    def test_times_that_are_none(self):
        for time, said in (('10/06/2025 00:00', 'day and month could be meant either way round; say it in [log], as in '
                                                'format = '
                            '"%d/%m/%Y %H:%M" for the day first.'), ('45809.25', 'a spreadsheet keeps times as such '
                                                                                 'numbers'),
                           ('yesterday', 'it is no time as YYYY-MM-DD HH:MM or DD.MM.YYYY HH:MM'),
                           ('2025-06-01', 'it is no time'),
                           ('2025-06-31 00:00', 'there is no such day or time.'),
                           ('2025-06-01 25:00', 'there is no such day or time.'),
                           ('2025-06-01 24:01', 'there is no such'), ('2025-13-01 00:00', 'there is no such'),
                           ('2025-06-01 00:60', 'there is no such'),
                           ('0001-01-01 00:00', 'its year is outside 1900 to 2999.'),
                           ('9999-12-31 24:00', 'there is no such'),
                           ('9999-12-31 23:00', 'its year is'),
                           ('2025-06-01 00:00+24:00', 'its offset is a day or more.'),
                           ('٢٠٢٥-06-01 00:00', 'it is no time')):
            with self.subTest(time=time):
                self.refused(f'Row 2, time "{time}": {said}', log(time))
        self.refused('Row 3, time "01.06.2025 00:15": it is not like the times before it, YYYY-MM-DD HH:MM.',
                     log('2025-06-01 00:00', '01.06.2025 00:15'))
        self.refused('Row 3 has no time.', log('2025-06-01 00:00', ''))
        self.refused('Row 3, time "2025-06-01 00:15", has no offset, and the rows before it have one.',
                     log('2025-06-01 00:00Z', '2025-06-01 00:15'))
        self.refused('Row 3, time "2025-06-01 00:15Z", has an offset, and the rows before it have none.',
                     log('2025-06-01 00:00', '2025-06-01 00:15Z'))

    def test_zones(self):
        two = log('2025-06-01 00:00', '2025-06-01 00:15')
        for zone, name in (('UTC', 'UTC'), ('+05:30', '+05:30'), ('UTC-03:00', '-03:00'), ('Asia/Kolkata', 'IST'),
                           ('-0300', '-03:00')):
            with self.subTest(zone=zone):
                self.assertEqual(self.rows(two, zoned(zone)), [2, 3])
                self.says(f'From 2025-06-01 00:00 {name} to 2025-06-01 00:15 {name}, which is step 1')
        self.refused('Its times have no offset, and so need a zone. Say in [log] zone = "Europe/Berlin", or the name '
                     'of another one; for a clock that is never put on or back zone = "+01:00".', two,
                     without_zone(SITE))
        for zone, said in (('Europe/Berln', 'there is no such zone; is Europe/Berlin meant?'),
                           ('../../etc/passwd', 'there is no such zone'),
                           ('/etc/passwd', 'there is no such zone'), ('Europe', 'there is no such zone'),
                           ('+25:00', 'its offset is a day')):
            with self.subTest(zone=zone):
                self.site_refused(f'log: zone "{zone}": {said}', zoned(zone))


class Grid(Times):
    def test_gaps(self):
        text = log(*clock('2025-06-01', '00:00', '00:15', '00:45', '02:00', '02:15'))
        self.assertEqual(self.rows(text), [2, 3, None, 4, None, None, None, None, 5, 6])
        self.says('Missing: 5 readings of 10: 5 in 2 gaps of the times, 0 in rows with an empty cell.',
                  'Gaps: step 2, 2025-06-01 00:30 CEST; steps 4 to 7, 2025-06-01 01:00 CEST to 2025-06-01 01:45 CEST.')
        self.assertEqual(self.answer['missing_steps'], 5)
        times = [f'2025-06-01 {hour:02d}:{minute}' for hour in range(1, 9) for minute in ('00', '15', '45')]
        self.rows(log('2025-06-01 00:30', '2025-06-01 00:45', *times))
        self.says('8 in 8 gaps of the times', 'Gaps: step 4, ', 'step 20, 2025-06-01 05:30 CEST. And 3 gaps more.')

    def test_no_gap(self):
        self.rows(log(*clock('2025-06-01', '00:00', '00:15')))
        self.says('No reading is missing in 2 steps.')

    def test_double_rows(self):
        self.refused('Row 4 has the time of row 3, "2025-06-01 00:15": each time may stand there once.',
                     log(*clock('2025-06-01', '00:00', '00:15', '00:15', '00:30')))
        # Also where the first of the two lies further back, however it is written.
        self.refused('Row 6 has the time of row 3, "2025-06-01 0:15"',
                     log(*clock('2025-06-01', '00:00', '00:15', '00:30', '00:45', '0:15')))
        many = [f'2025-06-{day:02d} {hour:02d}:00' for day in range(1, 11) for hour in range(24)]
        self.refused('Row 202 has the time of row 201', log(*many[:200], many[199], *many[200:]))

    def test_rows_out_of_order(self):
        self.refused('Row 4, "2025-06-01 00:10", is out of order: row 3 before it is of "2025-06-01 00:15".',
                     log(*clock('2025-06-01', '00:00', '00:15', '00:10')))
        self.refused('Row 3, "2025-06-01 00:15", is out of order: row 2 before it is of "2025-06-01 00:30". If the '
                     'newest row comes first in all of the log, sort it by time.',
                     log(*clock('2025-06-01', '00:30', '00:15', '00:00')))
        # A row that is left out is held to the order too.
        self.refused('is out of order', log('2025-06-01 00:00', '2025-06-01 00:15', '2025-05-01 00:00'),
                     with_keys('from = 2025-06-01'))

    def test_the_length_of_a_step(self):
        for times, seconds, words in ((('00:00', '01:00', '02:00'), 3600, '60 minutes'),
                                      (('00:00:00', '00:00:10'), 10, '10 seconds'),
                                      (('00:00', '00:45', '01:00', '01:15', '01:45'), 900, '15 minutes')):
            with self.subTest(times=times):
                self.assertEqual(decoded(self.made(log(*clock('2025-06-01', *times))))['seconds'], seconds)
                self.says(f'A step has {words}, as the first rows are apart.')
        self.assertEqual(self.rows(log(*clock('2025-06-01', '00:00', '01:00')), with_keys('step_minutes = 30')),
                         [2, None, 3])
        self.says('A step has 30 minutes.')
        self.assertEqual(self.rows(log('2025-06-01 00:00'), with_keys('step_seconds = 1')), [2])
        self.says('out.stick: complete, 1 steps')
        self.refused('It has one row, which does not show how long a step is. Say it in [log], as in step_minutes = '
                     '15.',
                     log('2025-06-01 00:00'))
        self.refused('Most of its first rows are 0.5 s apart, and a step has 1 to 86,400 whole seconds.',
                     log(*clock('2025-06-01', '00:00:00', '00:00:00.5', '00:00:01')))
        self.refused('Most of its first rows are 172,800 s apart', log('2025-06-01 00:00', '2025-06-03 00:00'))

    def test_rows_beside_the_grid(self):
        self.refused('Row 4, "2025-06-01 00:47", is 120 s behind a step: there is one every 900 seconds, as the first '
                     'rows are apart, from 2025-06-01 00:15 CEST on.',
                     log(*clock('2025-06-01', '00:15', '00:30', '00:47', '01:00', '01:15')))
        self.refused('is 1,799 s behind a step: there is one every 1,800 seconds, from 2025-06-01 00:00 CEST on.',
                     log(*clock('2025-06-01', '00:00', '00:29:59')), with_keys('step_minutes = 30'))

    def test_a_tolerance(self):
        keys = ('step_minutes = 15', 'tolerance_seconds = 5')
        text = log(*clock('2025-06-01', '00:00:03', '00:14:57', '00:30:05', '01:00:01'))
        self.assertEqual(self.rows(text, with_keys(*keys)), [2, 3, 4, None, 5])
        # The first row is a little off as any other may be: the grid is the clock's.
        self.says('From 2025-06-01 00:00 CEST to 2025-06-01 01:00 CEST, which is step 4')
        self.refused('Row 4, "2025-06-01 00:30:06", is 6 s behind a step', text.replace('30:05', '30:06'),
                     with_keys(*keys))
        # Where the clock's own grid is not near, it begins with the first row.
        self.assertEqual(self.rows(log(*clock('2025-06-01', '00:07', '00:22:04', '00:36:56')), with_keys(*keys)),
                         [2, 3, 4])
        self.refused('Rows 3 and 4 are both of step 1, 2025-06-01 00:15 CEST, with tolerance_seconds as it is.',
                     log(*clock('2025-06-01', '00:00', '00:14:58', '00:15:02')), with_keys(*keys))
        # By a zone whose offset is no whole number of steps, too.
        self.assertEqual(self.rows(log(*clock('2025-06-01', '10:00:02', '11:00:01')),
                                   zoned('Asia/Kolkata', 'step_minutes = 60',
                                   'tolerance_seconds = 2')), [2, 3])
        self.says('From 2025-06-01 10:00 IST')
        self.site_refused('log: with tolerance_seconds the step must be said', with_keys('tolerance_seconds = 5'))
        self.site_refused('log: tolerance_seconds must be below half the step, which is 10 seconds.',
                          with_keys('tolerance_seconds = 5', 'step_seconds = 10'))

    def test_too_many_steps(self):
        self.refused('Row 4, "2205-06-01 00:00", would be step 6,311,328, and a stick holds at most 65,535 steps, '
                     'counted from 0. The row before it, row 3, is step 1, 2025-06-01 00:15 CEST. If that time is '
                     'wrong, correct it.',
                     log('2025-06-01 00:00', '2025-06-01 00:15', '2205-06-01 00:00'))
        self.assertEqual(len(self.readings(log('2025-06-01 00:00', '2025-06-01 18:12:14'),
                                           with_keys('step_seconds = 1'))), 65_535)
        self.refused('would be step 65,535,', log('2025-06-01 00:00', '2025-06-01 18:12:15'),
                     with_keys('step_seconds = 1'))


class Parts(Times):
    """A part of a log, by from and to."""
    TEXT = log(*(f'2025-06-0{day} {hour:02d}:00' for day in (1, 2, 3) for hour in range(24)))

    def test_days_and_times(self):
        for keys, first, last in ((('from = 2025-06-02',), 26, 73), (('to = 2025-06-02',), 2, 49),
                                  (('from = 2025-06-02', 'to = 2025-06-02'), 26, 49),
                                  (('from = 2025-06-01T05:00:00', 'to = 2025-06-01T07:00:00'), 7, 9),
                                  (('from = 2025-06-01T04:00:00Z',), 8, 73),
                                  (('from = 2025-06-01 00:30:00', 'to = 2025-06-01 02:30:00+02:00'), 3, 4)):
            with self.subTest(keys=keys):
                rows = self.rows(self.TEXT, with_keys('step_minutes = 60', *keys))
                self.assertEqual((rows[0], rows[-1], len(rows)), (first, last, last - first + 1))
        self.says('Left out: 1 row before from and 69 rows after to.')

    def test_what_is_left_out_is_not_looked_at(self):
        text = self.TEXT.replace(';3;1;1', ';x;1;1')
        self.assertEqual(self.rows(text, with_keys('from = 2025-06-03'))[0], 50)
        self.says('Left out: 48 rows before from.')
        self.refused('Row 3, column "L1": "x" is no number', text)

    def test_nothing_is_left(self):
        self.refused('None of its 72 rows is between from and to of [log]: they are of 2025-06-01 00:00 CEST to '
                     '2025-06-03 23:00 CEST.',
                     self.TEXT, with_keys('from = 2026-01-01'))
        self.site_refused('log: from is later than to, so that no row would be left.',
                          with_keys('from = 2026-01-01', 'to = 2025-01-01'))

    def test_what_cannot_be_meant(self):
        for text, said in (('"2025-06-01"', 'from is "2025-06-01"; it must be a day or a time of the years 1900 to '
                                            '2999, without quotes'),
                           ('07:00:00', 'from is the time 07:00:00; it must be a day'),
                           ('0001-01-01', 'it must be a day'), ('5', 'it must be a day')):
            with self.subTest(text=text):
                self.site_refused('log: ' + said if said.startswith('from') else said, with_keys(f'from = {text}'))
        self.site_refused('log: from has no offset, and there is no zone; add one of them',
                          without_zone(with_keys('from = 2025-06-01')))
        self.rows(self.TEXT, with_keys('to = 2999-12-31'))

    def test_with_a_tolerance(self):
        """A row that is a little before its step belongs to it, and to what is taken."""
        text = log(*clock('2025-06-01', '23:44:58', '23:59:58'), *clock('2025-06-02', '00:15:01'))
        self.assertEqual(self.rows(text, with_keys('from = 2025-06-02', 'step_minutes = 15', 'tolerance_seconds = 5')),
                         [3, 4])


class Jumps(Times):
    """Clocks that are put on in spring and back in autumn."""
    AUTUMN = clock('2025-10-26', '01:30', '01:45', '02:00', '02:15', '02:30', '02:45', '02:00', '02:15', '02:30',
                   '02:45', '03:00', '03:15')
    PUT_BACK = 'Clock: on 2025-10-26 it was put back from 03:00 to 02:00. The time between them comes twice: '

    def test_spring(self):
        self.assertEqual(self.rows(log(*clock('2025-03-30', '01:30', '01:45', '03:00', '03:15'))), [2, 3, 4, 5])
        self.says('Clock: on 2025-03-30 it was put on from 02:00 to 03:00. There is no time between them, and nothing '
                  'is missing for it.',
                  'No reading is missing in 4 steps.', 'From 2025-03-30 01:30 CET to 2025-03-30 03:15 CEST')
        self.refused('Row 3, time "2025-03-30 02:00": in Europe/Berlin there was no such time, since the clock was put '
                     'on. If the meter does not do that, say its offset, as in zone = "+01:00".',
                     log(*clock('2025-03-30', '01:45', '02:00')))

    def test_autumn(self):
        self.assertEqual(self.rows(log(*self.AUTUMN)), list(range(2, 14)))
        self.says(self.PUT_BACK + '4 of 4 rows the first time, 4 of 4 rows the second.',
                  'No reading is missing in 12 steps.',
                  'From 2025-10-26 01:30 CEST to 2025-10-26 03:15 CET, which is step 11')

    def test_autumn_by_the_hour(self):
        self.assertEqual(self.rows(log(*clock('2025-10-26', '00:00', '01:00', '02:00', '02:00', '03:00'))),
                         [2, 3, 4, 5, 6])
        self.says(self.PUT_BACK + '1 of 1 row the first time, 1 of 1 row the second.')
        self.assertEqual(self.rows(log(*clock('2025-10-26', '00:00', '01:00', '02:00', '03:00'))), [2, 3, 4, None, 5])
        self.says(self.PUT_BACK + '1 of 1 row the first time, 0 of 1 row the second.',
                  'Gap: step 3, 2025-10-26 02:00 CET.')
        self.refused('Row 6 has the time of row 5, "2025-10-26 02:00"',
                     log(*clock('2025-10-26', '00:00', '01:00', '02:00', '02:00', '02:00')))

    def test_gaps_in_the_time_that_comes_twice(self):
        some = [time for row, time in enumerate(self.AUTUMN) if row not in (4, 7)]
        self.assertEqual(self.rows(log(*some)), [2, 3, 4, 5, None, 6, 7, None, 8, 9, 10, 11])
        self.says(self.PUT_BACK + '3 of 4 rows the first time, 3 of 4 rows the second.',
                  'Gaps: step 4, 2025-10-26 02:30 CEST; step 7, 2025-10-26 02:15 CET.')
        once = self.AUTUMN[:6] + self.AUTUMN[10:]
        self.assertEqual(self.rows(log(*once)), [2, 3, 4, 5, 6, 7, None, None, None, None, 8, 9])
        self.says(self.PUT_BACK + '4 of 4 rows the first time, 0 of 4 rows the second.')

    def test_double_rows_in_the_time_that_comes_twice(self):
        """A row that stands there twice is no row of the second time, when a step is shorter than what comes twice."""
        for row in (2, 3, 5, 6, 7, 9):
            text = log(*self.AUTUMN[:row + 1], *self.AUTUMN[row:])
            with self.subTest(row=row):
                self.refused(f'Row {row + 3} has the time of row {row + 2}, "{self.AUTUMN[row]}"', text)
        once = self.AUTUMN[:4] + self.AUTUMN[3:6] + self.AUTUMN[10:]
        self.refused('Row 6 has the time of row 5, "2025-10-26 02:15"', log(*once))
        ordered = [time for time in self.AUTUMN[2:6] for _ in range(2)]
        self.refused('Row 5 has the time of row 4, "2025-10-26 02:15": each time may stand there once. Delete one of '
                     'the two rows, or export the log again. Where the clock is put back, the rows must stand as they '
                     'were read: all of the first time, then all of the second.', log(*ordered))

    def test_offsets_have_neither(self):
        autumn = [f'{time}{"+02:00" if row < 6 else "+01:00"}' for row, time in enumerate(self.AUTUMN)]
        self.assertEqual(self.rows(log(*autumn)), list(range(2, 14)))
        self.assertNotIn('Clock', self.called.output)
        self.assertEqual(self.rows(log(*clock('2025-03-30', '01:45+01:00', '03:00+02:00'))), [2, 3])
        self.assertNotIn('Clock', self.called.output)

    def test_a_clock_that_is_never_put_back(self):
        self.assertEqual(self.rows(log(*clock('2025-10-26', '01:45', '02:00', '02:15')), zoned('+01:00')), [2, 3, 4])
        self.assertEqual(self.rows(log(*clock('2025-03-30', '01:45', '02:00', '02:15')), zoned('+01:00')), [2, 3, 4])
        self.assertNotIn('Clock', self.called.output)

    def test_other_zones(self):
        """Half an hour at Lord Howe; midnight in Cuba; a whole year has both jumps."""
        self.assertEqual(self.rows(log(*clock('2025-04-06', '01:00', '01:15', '01:30', '01:45', '01:30', '01:45',
                                              '02:00')),
                                   zoned('Australia/Lord_Howe')), [2, 3, 4, 5, 6, 7, 8])
        self.says('Clock: on 2025-04-06 it was put back from 02:00 to 01:30. The time between them comes twice: 2 of 2 '
                  'rows the first time, 2 of 2 rows the second.')
        self.assertEqual(self.rows(log('2025-03-08 22:00', '2025-03-08 23:00', '2025-03-09 01:00'),
                                   zoned('America/Havana')), [2, 3, 4])
        self.says('Clock: on 2025-03-09 it was put on from 00:00 to 01:00.')
        self.rows(log('2025-01-01 00:00', '2026-01-01 00:00'), with_keys('step_minutes = 60'))
        self.says('put on from 02:00 to 03:00', 'put back from 03:00 to 02:00', '0 of 1 row the first time')

    def test_bounds_in_the_time_that_comes_twice(self):
        self.assertEqual(self.rows(log(*self.AUTUMN),
                                   with_keys('from = 2025-10-26T02:00:00', 'to = 2025-10-26T02:45:00')),
                         list(range(4, 12)))
        self.assertEqual(self.rows(log(*self.AUTUMN), with_keys('from = 2025-10-26T02:00:00+01:00')),
                         list(range(8, 14)))


if __name__ == '__main__':
    unittest.main()
