"""Numbers, exactly; days and weeks; frames."""
import datetime

from desk import days, exact, frames, text
from desk.errors import Refused
from . import Case


class Exact(Case):
    def test_thresholds(self):
        for typed, pair in (('3/5', (3, 5)), (' 6 / 10 ', (6, 10)), ('0.6', (3, 5)), ('0.60', (3, 5)), ('.5', (1, 2)), ('1', (1, 1)),
                            ('0.617', (617, 1000)), ('0/5', (0, 5)), ('2/1', (2, 1))):
            with self.subTest(typed):
                self.assertEqual(exact.threshold(typed), pair)

    def test_no_thresholds(self):
        for typed in ('', 'x', '-1', '1e-1', '3/', '/5', '3/5/7', '0,6', '٣/٥', '0.6\t/', '9' * 5000):
            with self.subTest(typed[:9]), self.assertRaisesRegex(Refused, 'is no fraction'):
                exact.threshold(typed)
        for typed in ('1/70000', '0.1234567'):
            with self.subTest(typed), self.assertRaisesRegex(Refused, 'number 5'):
                exact.threshold(typed)

    def test_readings(self):
        for typed, value in (('1.25', 125), ('1.2', 120), ('0', 0), ('0.00', 0), ('.5', 50), ('007', 700), ('655.34', 65534), ('', None), ('  ', None)):
            with self.subTest(typed):
                self.assertEqual(exact.hundredths(typed), value)

    def test_no_readings(self):
        for typed, words in (('1.255', 'two decimals'), ('1.250', 'two decimals'), ('1.25' + '0' * 40 + '1', 'two decimals'), ('-1', 'no number'),
                             ('1,25', 'no number'), ('nan', 'no number'), ('1.', 'no number'), ('.', 'no number'), ('1e1', 'no number'),
                             ('٣', 'no number'), ('655.35', 'above'), ('1000', 'above'), ('9' * 5000, 'above')):
            with self.subTest(typed[:9]), self.assertRaisesRegex(ValueError, words):
                exact.hundredths(typed)

    def test_means(self):
        # 45 and 46 hundredths have the mean 45.5, which is rounded up; 3 readings that sum to 100 have 33 and a third
        for total, count, mean in ((91, 2, '0.46'), (45, 1, '0.45'), (0, 3, '0.00'), (100, 3, '0.33'), (200, 3, '0.67'), (12345, 1, '123.45'), (0, 0, None)):
            with self.subTest(total=total, count=count):
                self.assertEqual(exact.mean(total, count), mean)

    def test_similarities(self):
        # LANE (6 features) and LANES (7) share 4; 4/√42 is 0.6172.., between 0.617 and 0.618
        for measure, fraction, decimal in ((1, '8/13', '0.615'), (2, '4/9', '0.444'), (3, '4/√42', '0.617'), (4, '4/6', '0.666')):
            with self.subTest(measure):
                alike = exact.Similarity(measure, 4, 6, 7)
                self.assertEqual((alike.fraction, alike.decimal), (fraction, decimal))
        whole = exact.Similarity(3, 6, 4, 9)
        self.assertEqual((whole.fraction, whole.decimal, whole.key), ('6/6', '1.000', 1))

    def test_days(self):
        self.assertEqual(days.DAY_0.weekday(), 0)
        self.assertEqual((days.day_of('1970-01-05'), days.day_of('2149-06-10'), days.monday(1)), (0, 65535, datetime.date(1970, 1, 12)))
        for typed, words in (('1970-01-04', 'is not from 1970-01-05 to 2149-06-10'), ('2149-06-11', 'is not from'), ('2026-02-30', 'is no date'),
                             ('20260302', 'is no date'), ('2026-W10-1', 'is no date'), ('2/3/2026', 'is no date'), ('', 'is no date')):
            with self.subTest(typed), self.assertRaisesRegex(ValueError, words):
                days.day_of(typed)

    def test_frames(self):
        self.assertEqual(frames.name(10, b'LANE'), '4E000A044C414E45\n')
        self.assertEqual(frames.query(1, 8, 13, 15, b'LANE'), '51010008000D0000000F044C414E45\n')
        self.assertEqual(frames.log(7, 45, b'LANE'), '4C0007002D044C414E45\n')
        self.assertEqual(frames.log(7, None, b''), '4C0007FFFF00\n')
        self.assertEqual(frames.read('50000A0001000000870003'), ('50', (10, 1, 135, 3)))

    def test_no_frames(self):
        for line in ('', '50', '50000a0001000000870003', '50000A00010000008700031', '4E000A044C414E45', '5000 A0001000000870003', '5000+A0001000000870003'):
            with self.subTest(line):
                self.assertIsNone(frames.read(line))

    def test_what_cannot_be_seen_is_spelled_out(self):
        for given, seen in (('a\tb', 'a\\tb'), ('\x1b[2J', '\\x1b[2J'), ('Café', 'Café'), ('a\u202eb', 'a\\u202eb'), ('a\udcff', 'a\\udcff')):
            with self.subTest(seen):
                self.assertEqual(text.shown(given), seen)
