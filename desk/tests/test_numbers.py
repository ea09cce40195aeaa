"""The table of numbers is the rule's."""
import os
import re

from desk.numbers import NUMBERS
from . import Case, ROOT


class Numbers(Case):
    def test_the_rule(self):
        with open(os.path.join(ROOT, 'docs', 'RULE.md'), encoding='utf-8') as file:
            rule = file.read()
        rows = rule[rule.index('## Numbers a caller can get'):rule.index('## Frames')]
        given = {int(number): said for number, said in re.findall(r'^\| (\d+) \| (.*?) \|$', rows, re.M)}
        self.assertGreaterEqual(len(given), 13)
        self.assertEqual(sorted(given), sorted(NUMBERS))
        for number, (said, advice) in NUMBERS.items():
            with self.subTest(number):
                # the rule says what a number means to a person first, and after a semicolon what else it means
                self.assertTrue(given[number] == said or given[number].startswith(said + ';'), (said, given[number]))
                self.assertTrue(advice)

    def test_printed(self):
        out, said, status = self.desk('numbers')
        self.assertEqual((said, status), ('', 0))
        self.assertEqual([line.split()[0] for line in out.splitlines()], ['number'] + [str(number) for number in sorted(NUMBERS)])
        for number, (meaning, advice) in NUMBERS.items():
            with self.subTest(number):
                self.assertTrue(any(line.split()[0] == str(number) and meaning in line and line.endswith(advice) for line in out.splitlines()))
