"""Programs that do not answer as they have to: status 3, a sentence, nothing printed and nothing written."""
import os

from . import Case

# each reads its input first, as ours do
TAKES = 'cat >/dev/null\n'
GOOD = 'echo 4F020000\necho 5A00010000\n'


class Lookup(Case):
    def test_what_is_no_answer(self):
        self.put('pools.csv', 'id,name\n10,LANE\n')
        self.program('importer', TAKES + GOOD)
        for name, text in (
                ('no end', 'echo 52000A060604\n'), ('nothing', ''), ('half a line', 'printf 4500'), ('a last line without its feed', 'echo 4500000000000000010001\nprintf 580B00000000'),
                ('an unknown line', 'echo 52000A060604\necho hello\n'), ('a line of another program', 'echo 4F010014\n'),
                ('one answer too few', 'echo 4500000000000000010001\n'), ('one too many', 'echo 4500000000000000010001\necho 580700000000\necho 580B00000000\n'),
                ('a row too few', 'echo 4500010000000F0008000D\necho 580B00000000\n'), ('a row too many', 'echo 52000A060604\necho 4500000000000F0008000D\necho 580B00000000\n'),
                ('a refusal after a row', 'echo 52000A060604\necho 580700000000\necho 580B00000000\n'), ('rows after the end', 'echo 4500000000000000010001\necho 580B00000000\necho 52000A060604\n'),
                ('another refusal of the last line', 'echo 4500000000000000010001\necho 580700000000\n'),
                ('a name of no register', 'echo 52000B060604\necho 4500010000000600030005\necho 580B00000000\n'),
                ('more shared than there is', 'echo 52000A070604\necho 4500010000000600030005\necho 580B00000000\n'),
                ('more needed than is shared', 'echo 52000A040605\necho 4500010000000600030005\necho 580B00000000\n'),
                ('a least count of 0', 'echo 52000A060600\necho 4500010000000600030005\necho 580B00000000\n'),
                ('a row without a least count', 'echo 52000A0606\necho 4500010000000600030005\necho 580B00000000\n'),
                ('a size of 0', 'echo 52000A000000\necho 4500010000000600030005\necho 580B00000000\n'),
                ('a whole answer and half a line', 'echo 4500000000000000010001\necho 580B00000000\nprintf 52\n'),
                ('a whole answer and a status', 'echo 4500000000000000010001\necho 580B00000000\nexit 1\n')):
            with self.subTest(name):
                self.program('lookup', TAKES + text)
                self.refused(3, 'nothing of', 'find', '--register', 'pools.csv', 'LANE')
        self.program('lookup', TAKES + 'echo 4500000000000000010001\necho 580B00000000\nkill -9 $$\n')
        self.refused(3, 'lookup was ended by signal 9', 'find', '--register', 'pools.csv', 'LANE')

    def test_the_same_without_a_fault(self):
        self.put('pools.csv', 'id,name\n10,LANE\n')
        self.program('importer', TAKES + GOOD)
        self.program('lookup', TAKES + 'echo 52000A060604\necho 4500010000000600030005\necho 580B00000000\n')
        self.assertEqual(self.desk('find', '--register', 'pools.csv', 'LANE')[1:], ('', 0))

    def test_what_it_says_is_passed_on(self):
        self.put('pools.csv', 'id,name\n10,LANE\n')
        self.program('importer', TAKES + GOOD)
        self.program('lookup', TAKES + 'echo "lookup: its check failed, so it is not run" >&2\nexit 2\n')
        self.assertEqual(self.desk('find', '--register', 'pools.csv', 'LANE'),
                         ('', 'lookup: its check failed, so it is not run\nrushgirdle: lookup ended with status 2, and nothing of its output is used.\n', 3))

    def test_no_program(self):
        self.put('pools.csv', 'id,name\n10,LANE\n')
        self.program('other', '')
        self.refused(3, 'importer cannot be run: No such file or directory', 'find', '--register', 'pools.csv', 'LANE')


class Importer(Case):
    def setUp(self):
        super().setUp()
        self.put('pools.csv', 'id,name\n20,HARBOUR BATHS\n')
        self.put('log.csv', 'date,reading,name\n' + '2026-03-02,1,HARBOUR BATHS\n' * 2)
        self.put('sheet.html', 'as it was')
        self.command = ('import', '--register', 'pools.csv', '--log', 'log.csv', '--sheet', 'sheet.html', '--table', 'sheet.csv')

    def after_judging(self, text):
        """The first call judges the register, with one line; what comes then is the text's."""
        self.program('importer', f'if [ "$(grep -c ^4C)" = 1 ]; then\n{GOOD}exit\nfi\n{text}')

    def test_what_is_no_answer(self):
        two = 'echo 4F010014\necho 4F010014\n'
        pair = 'echo 50001400000000002D0001\n'
        for name, text in (
                ('no end', two + pair), ('nothing', ''), ('half a line', two + 'printf 5A0002'), ('fewer outcomes than lines', 'echo 4F010014\necho 5A00010000\n'),
                ('more outcomes than lines', two + 'echo 4F010014\necho 5A00030000\n'), ('a wrong count of outcomes', two + 'echo 5A00010000\n'),
                ('a wrong count of pairs', two + pair + 'echo 5A00020002\n'), ('a pair first', pair + two + 'echo 5A00020001\n'),
                ('lines after the end', two + 'echo 5A00020000\n' + pair), ('two ends', two + 'echo 5A00020000\necho 5A00020000\n'),
                ('an unknown line', two + 'echo hello\necho 5A00020000\n'), ('an unknown case', 'echo 4F010014\necho 4F050000\necho 5A00020000\n'),
                ('a whole answer and half a line', two + pair + 'echo 5A00020001\nprintf 5A\n'),
                ('a whole answer and a status', two + pair + 'echo 5A00020001\nexit 1\n'), ('a signal', two + pair + 'echo 5A00020001\nkill -9 $$\n')):
            with self.subTest(name):
                self.after_judging(text)
                self.refused(3, 'nothing of', *self.command)
                self.assertEqual(sorted(os.listdir(self.room)), ['log.csv', 'pools.csv', 'programs', 'sheet.html'])
                self.assertEqual(self.get('sheet.html'), 'as it was')

    def test_the_same_without_a_fault(self):
        self.after_judging('echo 4F010014\necho 4F010014\necho 50001400000000002D0001\necho 5A00020001\n')
        self.assertEqual(self.desk(*self.command)[1:], ('', 0))

    def test_answers_that_cannot_be(self):
        for name, text, words in (('a refusal of the log', 'echo 59030B0001\n', 'refused part 3 with number 11 at line 1'),
                                  ('a pool of no register', 'echo 4F010014\necho 4F010014\necho 50001500000000002D0001\necho 5A00020001\n', 'id 21')):
            with self.subTest(name):
                self.after_judging(text)
                self.refused(3, words, *self.command)
                self.assertEqual(self.get('sheet.html'), 'as it was')

    def test_stops_in_a_later_part(self):
        self.put('log.csv', 'date,reading,name\n' + '2026-03-02,1,HARBOUR BATHS\n' * 1025 + '2026-03-02,1,HARBOUR BATHS\n')
        # the second part has two lines, and its output breaks off
        self.program('importer', f'n=$(grep -c ^4C)\nif [ $n = 1 ]; then\n{GOOD}exit\nfi\nyes 4F010014 | head -n $n\n[ $n = 2 ] || echo 5A04000000\n')
        self.refused(3, 'not whole', *self.command)
        self.assertEqual(self.get('sheet.html'), 'as it was')
