"""`import`, as people run it: what each line comes to, the table, and the files."""
import os
import pty
import re

from . import Case

HEAD = 'id,name,week,mean,readings\r\n'


class Import(Case):
    def setUp(self):
        super().setUp()
        self.put('pools.csv', 'id,name\n20,HARBOUR BATHS\n21,HARBOUR LIDO\n22,HILL POOL\n')

    def imported(self, log, *words):
        self.put('log.csv', log)
        out, said, status = self.desk('import', '--register', 'pools.csv', '--log', 'log.csv', *words)
        self.assertEqual((said, status), ('', 0))
        return out

    def test_the_swimmers_case(self):
        """A week of good readings, in which one line's search is refused and one reading is missing. The mean is that of the good readings: 1.50, 1.60
        and 1.70 come to 1.60. A 0 for either of the others would have made it 1.20 or less, and the plant room would have added chlorine."""
        out = self.imported('reading,name,date\n1.50,HARBOUR BATHS,2026-03-02\n1.60,HARBOUR BATHES,2026-03-03\n,HARBOUR BATHS,2026-03-04\n'
                            '1.40,HARBOUR\tBATHS,2026-03-05\n1.70,HARBOUR BATHS,2026-03-08\n', '--table', 'sheet.csv', '--sheet', 'sheet.html')
        self.assertEqual(out, '5 lines: 4 belong (1 without a reading), 0 unresolved, 0 ambiguous, 1 refused.\nWritten: sheet.html, sheet.csv.\n')
        self.assertEqual(self.get('sheet.csv'), HEAD + '20,HARBOUR BATHS,2026-03-02,1.60,3\r\n21,HARBOUR LIDO,2026-03-02,no reading,0\r\n'
                         '22,HILL POOL,2026-03-02,no reading,0\r\n')
        page = self.get('sheet.html')
        self.assertIn('<td class="n">1.60</td><td class="n">3</td>', page)
        # the refused line, with its line in the file, its reading, what was typed, and why
        self.assertIn('<tr><td class="line n" data-is="line">5</td><td class="date" data-is="date">2026-03-05</td><td class="mg n" data-is="reading">1.40</td>'
                      '<td class="typed" data-is="typed">HARBOUR\\tBATHS</td><td class="more" data-is="why">name or query holds a control character', page)

    def test_a_reading_of_0_is_one(self):
        # a week with a 0, one without a reading, one without a line, and one whose mean, 30.5 hundredths, is rounded up
        self.imported('date,reading,name\n2026-03-02,0,HILL POOL\n2026-03-09,,HILL POOL\n2026-03-23,0.30,HILL POOL\n2026-03-24,0.31,HILL POOL\n', '--table', 'sheet.csv')
        self.assertEqual([line for line in self.get('sheet.csv').splitlines() if line.startswith('22')], [
            '22,HILL POOL,2026-03-02,0.00,1', '22,HILL POOL,2026-03-09,no reading,0', '22,HILL POOL,2026-03-16,no reading,0', '22,HILL POOL,2026-03-23,0.31,2'])

    def test_weeks_begin_on_monday(self):
        self.imported('date,reading,name\n2026-03-01,1,HILL POOL\n2026-03-02,2,HILL POOL\n2026-03-08,4,HILL POOL\n2026-03-09,5,HILL POOL\n', '--table', 'sheet.csv')
        self.assertEqual([line.split(',', 2)[2] for line in self.get('sheet.csv').splitlines() if line.startswith('22')],
                         ['2026-02-23,1.00,1', '2026-03-02,3.00,2', '2026-03-09,5.00,1'])

    def test_lines_for_a_person(self):
        out = self.imported('date,reading,name\n2026-03-02,1,SPORTS HALL\n2026-03-02,1,HARBOUR\n2026-03-02,1,\n2026-03-02,1,' + 'A' * 201 + '\n', '--threshold', '1/2')
        # HARBOUR (9 features) shares 7 with HARBOUR BATHS (15) and with HARBOUR LIDO (14): 14/24 and 14/23
        self.assertEqual(out, '4 lines: 0 belong, 1 unresolved, 1 ambiguous, 2 refused.\n'
                         'log.csv, line 2: unresolved: no registered name is like "SPORTS HALL".\n'
                         'log.csv, line 3: ambiguous: "HARBOUR" is like HARBOUR BATHS (20), HARBOUR LIDO (21).\n'
                         'log.csv, line 4: refused: "": name or query is empty (number 1): type a name.\n'
                         'log.csv, line 5: refused: "' + 'A' * 201 + '": name or query is longer than 200 bytes (number 2): shorten it; '
                         'a letter with an accent takes two bytes or more.\nNothing is written: give --sheet FILE or --table FILE.\n')

    def test_an_allowance(self):
        out = self.imported('date,reading,name\n2026-03-02,1,HILL POOL\n', '--allowance', '0')
        self.assertIn('1 line: 0 belong, 0 unresolved, 0 ambiguous, 1 refused.\nlog.csv, line 2: refused: "HILL POOL": the search needs more touches', out)

    def test_a_bad_threshold(self):
        for log in ('date,reading,name\n2026-03-02,1,HILL POOL\n', 'date,reading,name\n'):
            with self.subTest(log[18:]):
                self.put('log.csv', log)
                self.refused(2, ('threshold 2/1', '(number 5)'), 'import', '--register', 'pools.csv', '--log', 'log.csv', '--threshold', '2/1', '--sheet', 'sheet.html')
                self.assertNotIn('sheet.html', os.listdir(self.room))

    def test_a_bad_register(self):
        self.put('pools.csv', 'id,name\n1,A\n1,B\n')
        self.put('log.csv', 'date,reading,name\n')
        self.put('sheet.html', 'as it was')
        self.refused(2, 'pools.csv, line 3', 'import', '--register', 'pools.csv', '--log', 'log.csv', '--sheet', 'sheet.html')
        self.assertEqual(self.get('sheet.html'), 'as it was')

    def test_no_lines(self):
        self.assertEqual(self.imported('date,reading,name\n', '--sheet', 'sheet.html', '--table', 'sheet.csv').splitlines()[0],
                         '0 lines: 0 belong, 0 unresolved, 0 ambiguous, 0 refused.')
        self.assertEqual(self.get('sheet.csv'), HEAD)

    def test_more_lines_than_one_import_takes(self):
        # 2,050 lines are three parts. Line by line 0.01, 0.02, 0.03, 0.01 ..: 684 + 2·683 + 3·683 = 4,099 hundredths by 2,050 readings come to 2
        readings = ''.join(f'2026-03-02,0.0{k % 3 + 1},HILL POOL\n' for k in range(2050))
        self.assertEqual(self.imported('date,reading,name\n' + readings, '--table', 'sheet.csv').splitlines()[0],
                         '2,050 lines: 2,050 belong, 0 unresolved, 0 ambiguous, 0 refused.')
        self.assertIn('22,HILL POOL,2026-03-02,0.02,2050\r\n', self.get('sheet.csv'))

    def test_lines_of_later_parts(self):
        # the 1,024th and the 1,025th line, of which the last begins the second part, keep their places in the file
        out = self.imported('date,reading,name\n' + '2026-03-02,1,HILL POOL\n' * 1023 + '2026-03-02,1,ZZ\n2026-03-02,1,YY\n')
        self.assertEqual(re.findall(r'line (\d+): unresolved.*"(\w+)"', out), [('1025', 'ZZ'), ('1026', 'YY')])

    def test_progress_on_a_terminal(self):
        self.put('log.csv', 'date,reading,name\n' + '2026-03-02,1,HILL POOL\n' * 1500)
        ours, theirs = pty.openpty()
        self.addCleanup(os.close, ours)
        pid = os.fork()
        if not pid:
            os.chdir(self.room)
            os.dup2(theirs, 2)
            os.dup2(os.open(os.devnull, os.O_WRONLY), 1)
            os.execv(os.path.join(os.path.dirname(os.path.dirname(os.path.dirname(os.path.realpath(__file__)))), 'rushgirdle'),
                     ['rushgirdle', 'import', '--register', 'pools.csv', '--log', 'log.csv'])
        os.close(theirs)
        _, status = os.waitpid(pid, 0)
        shown = os.read(ours, 4096).decode()
        self.assertEqual(status, 0)
        self.assertEqual(re.findall(r'\[(#*)(\.*)\] ([\d,]+) of ([\d,]+) lines', shown),
                         [('', '.' * 40, '0', '1,500'), ('#' * 27, '.' * 13, '1,024', '1,500'), ('#' * 40, '', '1,500', '1,500')])

    def test_a_date_far_away(self):
        # a year mistyped: the weeks between are said once in the sheet, and are not in the table
        self.imported('date,reading,name\n2026-03-02,1,HILL POOL\n2062-03-06,1,HILL POOL\n', '--sheet', 'sheet.html', '--table', 'sheet.csv')
        self.assertEqual([line for line in self.get('sheet.csv').splitlines() if line.startswith('22')], ['22,HILL POOL,2026-03-02,1.00,1', '22,HILL POOL,2062-03-06,1.00,1'])
        page = self.get('sheet.html')
        self.assertIn('The log has no line from 2026-03-09 to 2062-03-05, 1,878 weeks: is a date mistyped?', page)
        self.assertIn('<td class="date">2026-03-09 to 2062-03-05</td><td class="none">no reading</td><td class="n">0</td>', page)


class Files(Case):
    def setUp(self):
        super().setUp()
        self.put('pools.csv', 'id,name\n22,HILL POOL\n')
        self.put('log.csv', 'date,reading,name\n2026-03-02,1,HILL POOL\n')
        self.command = ('import', '--register', 'pools.csv', '--log', 'log.csv')

    def tearDown(self):
        self.assertEqual([name for name in os.listdir(self.room) if name.startswith('.')], [], 'nothing is left beside')

    def test_places_that_cannot_be_written(self):
        os.mkdir(self.path('folder'))
        os.mkfifo(self.path('pipe'))
        for words, said in ((('--sheet', 'absent/sheet.html'), 'absent/sheet.html cannot be written, and is as it was: No such file or directory'),
                            (('--sheet', 'folder'), 'folder is no file'), (('--table', 'pipe'), 'pipe is no file'),
                            (('--sheet', 'log.csv'), 'log.csv is read, so it is not written over'), (('--table', './pools.csv'), './pools.csv is read'),
                            (('--sheet', 'a.html', '--table', './a.html'), 'would be written twice')):
            with self.subTest(said):
                self.refused(2, said, *self.command, *words)
        self.assertEqual(sorted(os.listdir(self.room)), ['folder', 'log.csv', 'pipe', 'pools.csv'])

    def test_the_second_cannot_be_written(self):
        self.put('sheet.html', 'as it was')
        self.refused(2, 'absent/sheet.csv cannot be written', *self.command, '--sheet', 'sheet.html', '--table', 'absent/sheet.csv')
        self.assertEqual(self.get('sheet.html'), 'as it was')

    def test_a_link_and_its_permissions_stay(self):
        self.put('there.html', 'old')
        os.chmod(self.path('there.html'), 0o640)
        os.symlink('there.html', self.path('sheet.html'))
        self.assertEqual(self.desk(*self.command, '--sheet', 'sheet.html')[2], 0)
        self.assertTrue(os.path.islink(self.path('sheet.html')) and self.get('there.html').startswith('<!DOCTYPE html>'))
        self.assertEqual(os.stat(self.path('there.html')).st_mode & 0o777, 0o640)
