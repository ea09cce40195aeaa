"""Registers and logs as spreadsheets write them: taken exactly, or refused with the file's name, the line and a sentence."""
from . import Case


class Registers(Case):
    def test_taken(self):
        for name, text in (('a BOM and CRLF', '\ufeffid,name\r\n10,LANE\r\n'), ('other columns, another order', 'Town , NAME ,id\nX,LANE,10\n'),
                           ('empty lines', '\n\nid,name\n\n10,LANE\n,\n\n'), ('quotes and commas', 'id,name\n11,"LANE, the ""old"" one"\n10,"LANE"\n'),
                           ('blanks around', 'id,name\n 10 ,  LANE  \n'), ('no last line feed', 'id,name\n10,LANE'), ('lines that end in CR', 'id,name\r10,LANE\r'),
                           ('an id with zeros before it', 'id,name\n00010,LANE\n')):
            with self.subTest(name):
                out, said, status = self.desk('find', '--register', self.put('pools.csv', text), 'LANE', '--threshold', '1')
                self.assertEqual((said, status), ('', 0))
                self.assertEqual(out.splitlines()[1:], ['10  LANE       12/12    1.000       6      6  only just'])

    def test_names_as_they_stand(self):
        self.put('pools.csv', 'id,name\n7,"St. Mary\'s, ""Old"" Pool"\n8,Café\n')
        for typed, line in (('St. Mary\'s, "Old" Pool', ' 7  St. Mary\'s, "Old" Pool'), ('Café', ' 8  Café')):
            with self.subTest(typed):
                out, _, status = self.desk('find', '--register', 'pools.csv', typed, '--threshold', '1')
                self.assertEqual(status, 0)
                self.assertTrue(out.splitlines()[1].startswith(line), out)

    def test_refused(self):
        for name, text, words in (
                ('empty', '', 'is empty'), ('no header', '10,LANE\n', 'line 1: there is no column "id"'),
                ('semicolons', 'id;name\n10;LANE\n', 'with commas between them'),
                ('two columns of a name', 'id,name,name\n1,A,B\n', 'more than one column "name"'), ('no id', 'id,name\nx,LANE\n', 'line 2: the id "x"'),
                ('a blank id', 'id,name\n,LANE\n', 'line 2: the id ""'), ('an id below 0', 'id,name\n-1,LANE\n', 'line 2: the id "-1"'),
                ('a large id', 'id,name\n65536,LANE\n', 'line 2: the id "65536"'), ('a very long id', 'id,name\n' + '9' * 5000 + ',LANE\n', 'line 2: the id'),
                ('an id twice', 'id,name\n1,A\n2,B\n1,C\n', 'line 4: the id 1 stands in line 2'),
                ('a name too long', 'id,name\n2,B\n1,' + 'A' * 201 + '\n', 'line 3: name or query is longer than 200 bytes (number 2)'),
                ('a name too long for a frame', 'id,name\n1,' + 'A' * 256 + '\n', 'line 2: the name has 256 bytes'),
                ('no name', 'id,name\n1,\n', 'line 2: name or query is empty (number 1)'), ('a tab', 'id,name\n1,A\tB\n', 'line 2: name or query holds a control'),
                ('a line feed in a name', 'id,name\n3,C\n\n1,"A\nB"\n2,C\n', 'line 4: name or query holds a control character'),
                ('after a line feed in a cell', 'id,note,name\n1,"two\nlines",A\n2,,\n', 'line 4: name or query is empty'),
                ('a cell too few', 'id,name\n1,A\n2\n', 'line 3: there are 1 cells'), ('an open quote', 'id,name\n1,"A\n', 'no CSV'),
                ('text after a quote', 'id,name\n1,"A"B\n', 'line 2: this is no CSV'),
                ('257 names', 'id,name\n' + ''.join(f'{n},A\n' for n in range(257)), 'line 258: a register has more than 256 names'),
                ('many long names', 'id,name\n' + ''.join(f'{n},{"A" * 255}\n' for n in range(3000)), 'line 2: name or query is longer'),
                ('Latin 1', b'id,name\n1,caf\xe9\n', 'not UTF-8'), ('a 0 byte', 'id,name\n1,A\0B\n', 'holds a 0 byte')):
            with self.subTest(name):
                self.refused(2, ('bad.csv', words), 'find', '--register', self.put('bad.csv', text), 'LANE')
        self.refused(2, 'absent.csv cannot be read: No such file', 'find', '--register', 'absent.csv', 'LANE')
        self.refused(2, '. cannot be read: Is a directory', 'find', '--register', '.', 'LANE')


class Logs(Case):
    def setUp(self):
        super().setUp()
        self.put('pools.csv', 'id,name\n20,HARBOUR BATHS\n')

    def test_taken(self):
        for name, text in (('any order of columns, and others', 'who,reading,name,Date\nAnn,1.5,HARBOUR BATHS,2026-03-02\n'),
                           ('a BOM, CRLF, empty lines', '\ufeffdate,reading,name\r\n\r\n2026-03-02,1.50,HARBOUR BATHS\r\n,,\r\n')):
            with self.subTest(name):
                out, said, status = self.desk('import', '--register', 'pools.csv', '--log', self.put('log.csv', text), '--table', 'out.csv')
                self.assertEqual((out, said, status), ('1 line: 1 belong, 0 unresolved, 0 ambiguous, 0 refused.\nWritten: out.csv.\n', '', 0))
                self.assertEqual(self.get('out.csv'), 'id,name,week,mean,readings\r\n20,HARBOUR BATHS,2026-03-02,1.50,1\r\n')

    def test_refused(self):
        for name, text, words in (
                ('a third decimal', 'date,reading,name\n2026-03-02,1.5,A\n2026-03-02,1.505,A\n', 'line 3: the reading "1.505" has more than two decimals'),
                ('a comma', 'date,reading,name\n2026-03-02,"1,5",A\n', 'line 2: the reading "1,5" is no number'),
                ('no such day', 'date,reading,name\n2026-02-30,1,A\n', 'line 2: the date "2026-02-30" is no date'),
                ('too early', 'date,reading,name\n1970-01-04,1,A\n', 'line 2: the date "1970-01-04" is not from 1970-01-05 to 2149-06-10'),
                ('too late', 'date,reading,name\n2149-06-11,1,A\n', 'line 2'), ('another form', 'date,reading,name\n2/3/2026,1,A\n', 'line 2'),
                ('no date', 'date,reading,name\n,1,A\n', 'line 2: the date ""'),
                ('a name too long', 'date,reading,name\n2026-03-02,1,' + 'A' * 256 + '\n', 'line 2: the name has 256 bytes'),
                ('no column', 'date,value,name\n', 'line 1: there is no column "reading"'), ('empty', '', 'is empty')):
            with self.subTest(name):
                self.put('sheet.html', 'as it was')
                self.refused(2, ('bad.csv', words), 'import', '--register', 'pools.csv', '--log', self.put('bad.csv', text), '--sheet', 'sheet.html', '--table', 'new.csv')
                self.assertEqual(self.get('sheet.html'), 'as it was')
                with self.assertRaises(FileNotFoundError):
                    self.get('new.csv')
