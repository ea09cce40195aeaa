"""`find`, as people run it."""
from . import Case


class Find(Case):
    def setUp(self):
        super().setUp()
        self.put('pools.csv', 'id,name\r\n10,LANE\r\n12,PLANE\r\n11,LANES\r\n')

    def find(self, *words):
        return self.desk('find', '--register', 'pools.csv', *words)

    def ids(self, *words):
        out, said, status = self.find(*words)
        self.assertEqual((said, status), ('', 0))
        return [line.split()[0] for line in out.splitlines()[1:]]

    def test_table(self):
        # LANE and LANES share 4 of 6 and 7 features, and so do LANE and PLANE: 8/13. With 3 it would be 6/12 and 6/13, so 4 are needed of either size
        self.assertEqual(self.find('LANE', '--threshold', '8/13'), (
            'id  name   similarity  decimal  shared  least\n'
            '10  LANE        12/12    1.000       6      4\n'
            '11  LANES        8/13    0.615       4      4  only just\n'
            '12  PLANE        8/13    0.615       4      4  only just\n', '', 0))

    def test_only_just(self):
        # at 1/2 LANE needs 3 of its own size, 6/12, and 4 of size 7, 8/13: 6/13 is below; at 3/7 it needs 3 of either, 6/12 and 6/13
        for typed, least, marked in (('1/2', ['3', '4', '4'], [False, True, True]), ('3/7', ['3', '3', '3'], [False, False, False])):
            with self.subTest(typed):
                out, said, status = self.find('LANE', '--threshold', typed)
                self.assertEqual((said, status), ('', 0))
                rows = [line.split() for line in out.splitlines()[1:]]
                self.assertEqual([row[5] for row in rows], least)
                self.assertEqual([row[6:] == ['only', 'just'] for row in rows], marked)

    def test_order(self):
        # LANES has 14/14 with itself and 8/13 with LANE; with PLANE it shares 3 features, and 6/14 is below 8/13
        self.assertEqual(self.ids('LANES', '--threshold', '8/13'), ['11', '10'])
        self.assertEqual(self.ids('LANES', '--threshold', '8/13', '--by', 'id'), ['10', '11'])

    def test_thresholds(self):
        for typed, ids in (('8/13', ['10', '11', '12']), ('16/26', ['10', '11', '12']), ('9/13', ['10']), ('0.615', ['10', '11', '12']), ('0.616', ['10']), ('1', ['10'])):
            with self.subTest(typed):
                self.assertEqual(self.ids('LANE', '--threshold', typed), ids)

    def test_measures(self):
        # LANE and LANES, which share 4 of 6 and 7: dice 8/13, jaccard 4/9, cosine 4/√42 (16/42 of the squares), overlap 4/6
        for measure, on, above in (('dice', '8/13', '617/1000'), ('jaccard', '4/9', '445/1000'), ('cosine', '617/1000', '618/1000'), ('overlap', '2/3', '667/1000')):
            with self.subTest(measure):
                self.assertEqual(self.ids('LANE', '--measure', measure, '--threshold', on), ['10', '11', '12'])
                self.assertEqual(self.ids('LANE', '--measure', measure, '--threshold', above), ['10'])

    def test_no_name(self):
        self.assertEqual(self.find('ZZ'), ('No registered name is like "ZZ" by dice at 3/5. The register was searched whole.\n', '', 1))

    def test_small_letters(self):
        self.assertEqual(self.find('lanes'), (
            'No registered name is like "lanes" by dice at 3/5. The register was searched whole.\n'
            'Capital and small letters are different letters. In small letters throughout it would be like LANE (10), LANES (11).\n', '', 1))
        # no list holds a small letter, so that the search itself needs no touch; the hint is no part of what it is allowed
        self.assertEqual(self.find('lanes', '--allowance', '0'), self.find('lanes'))

    def test_an_empty_register(self):
        self.put('none.csv', 'id,name\n')
        out, said, status = self.desk('find', '--register', 'none.csv', 'LANE')
        self.assertEqual((out, said, status), ('No registered name is like "LANE" by dice at 3/5. The register was searched whole.\n', '', 1))

    def test_explained(self):
        out, said, status = self.find('LANE', '--threshold', '8/13', '--explain')
        self.assertEqual((said, status), ('', 0))
        # 15 touches, as docs/RULE.md works them out for this search
        self.assertTrue(out.endswith(
            '\n"LANE" has x = 6 features: its groups of three letters, with two marks before it and two after it.\n'
            'A name with y features, c of them shared, is listed exactly if 2c / (x + y) is at least 8/13.\n'
            '  id 10: y = 6, c = 6 where 4 would do: 12/12\n  id 11: y = 7, c = 4 where 4 would do: 8/13\n  id 12: y = 7, c = 4 where 4 would do: 8/13\n'
            'Decimals are rounded down. The search took 15 touches.\n'), out)

    def test_refusals(self):
        for typed, number in (('', 1), ('A' * 201, 2), ('A' * 256, 2), ('É' * 101, 2), ('A\tB', 12), ('A\x7f', 12)):
            with self.subTest(typed[:9]):
                self.refused(2, f'(number {number}): ', 'find', '--register', 'pools.csv', typed)
        for typed in ('2/1', '0', '0/5', '1/1001'):
            with self.subTest(typed):
                self.refused(2, ('threshold', '(number 5)'), 'find', '--register', 'pools.csv', 'LANE', '--threshold', typed)

    def test_a_name_is_shown_with_nothing_hidden(self):
        said = self.refused(2, '"A\\x1b[2J"', 'find', '--register', 'pools.csv', 'A\x1b[2J')
        self.assertNotIn('\x1b', said)

    def test_bytes_that_are_no_letters(self):
        # a byte that is no UTF-8 is handed over as it is, and nothing is like it
        out, said, status = self.find(b'\xff\xfe')
        self.assertEqual((said, status), ('', 1))

    def test_allowance(self):
        self.refused(2, '(number 7)', 'find', '--register', 'pools.csv', 'LANE', '--threshold', '8/13', '--allowance', '14')
        self.assertEqual(self.ids('LANE', '--threshold', '8/13', '--allowance', '15'), ['10', '11', '12'])
        for typed in ('-1', 'x', '4294967296', '9' * 5000):
            with self.subTest(typed[:9]):
                out, said, status = self.find('LANE', '--allowance', typed)
                self.assertEqual((out, status), ('', 2))
                self.assertIn('is no whole number from 0 to 4294967295', said)

    def test_a_register_too_large_for_one_search(self):
        # 256 names of 23 letters with few features in common: more words than the lookup has room for, so it is searched in parts
        names = [''.join(chr(65 + (n * k * k + n // 7 * k) % 26) for k in range(1, 21)) + f'{n:03d}' for n in range(256)]
        self.put('pools.csv', 'id,name\n' + ''.join(f'{n},{name}\n' for n, name in enumerate(names)))
        for n in (0, 128, 255):
            with self.subTest(n):
                self.assertEqual(self.ids(names[n], '--threshold', '1'), [str(n)])
        self.refused(2, '(number 8)', 'find', '--register', 'pools.csv', names[0], '--threshold', '1', '--allowance', '4000000000')

    def test_nowhere_to_write(self):
        with open('/dev/full', 'w', encoding='ascii') as full:
            _, said, status = self.desk('find', '--register', 'pools.csv', 'LANE', stdout=full)
        self.assertEqual((said, status), ('rushgirdle: standard output cannot be written, so the answer is not all there: No space left on device.\n', 3))

    def test_no_command(self):
        for words in ((), ('find',), ('find', 'LANE'), ('sell',), ('find', '--register', 'pools.csv', '--measure', 'euclid', 'LANE')):
            with self.subTest(words):
                out, said, status = self.desk(*words)
                self.assertEqual((out, status), ('', 2))
                self.assertIn('usage: rushgirdle', said)
