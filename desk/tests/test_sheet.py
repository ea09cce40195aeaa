"""The sheet's text. How it looks is tests/sheet-in-a-browser."""
import re
from html.parser import HTMLParser

from . import Case


class Whole(HTMLParser):
    """Whether every element is closed, and which there are."""

    def __init__(self, text):
        super().__init__()
        self.open, self.met, self.bad = [], [], []
        self.feed(text)
        self.close()

    def handle_starttag(self, tag, attrs):
        self.met.append((tag, dict(attrs)))
        if tag != 'meta':
            self.open.append(tag)

    def handle_startendtag(self, tag, attrs):
        self.met.append((tag, dict(attrs)))

    def handle_endtag(self, tag):
        if not self.open or self.open.pop() != tag:
            self.bad.append(tag)


class Sheet(Case):
    def sheet(self, pools, log, *words):
        self.put('pools.csv', pools)
        self.put('log.csv', log)
        _, said, status = self.desk('import', '--register', 'pools.csv', '--log', 'log.csv', '--sheet', 'sheet.html', *words)
        self.assertEqual((said, status), ('', 0))
        return self.get('sheet.html')

    def test_a_gap_is_a_gap(self):
        page = self.sheet('id,name\n22,HILL POOL\n', 'date,reading,name\n2026-03-02,0,HILL POOL\n2026-03-09,,HILL POOL\n2026-03-23,0.30,HILL POOL\n2026-03-30,0.40,HILL POOL\n')
        rows = re.findall(r'<tr><td class="date">([^<]*)</td><td class="(\w+)">([^<]*)</td><td class="n">(\d+)</td></tr>', page)
        self.assertEqual(rows, [('2026-03-02', 'n', '0.00', '1'), ('2026-03-09', 'none', 'no reading', '0'), ('2026-03-16', 'none', 'no reading', '0'),
                                ('2026-03-23', 'n', '0.30', '1'), ('2026-03-30', 'n', '0.40', '1')])
        plot = page[page.index('<svg'):page.index('</svg>')]
        # three dots, of which the 0 is on the axis; one band of two weeks that says so; and a line through the last two dots alone
        self.assertEqual(re.findall(r'<circle class="dot" cx="([\d.]+)" cy="([\d.]+)"', plot), [('62.6', '86.0'), ('234.2', '27.5'), ('291.4', '8.0')])
        self.assertEqual(re.findall(r'<rect class="gap" x="([\d.]+)" y="8" width="([\d.]+)"', plot), [('91.2', '114.4')])
        self.assertEqual(re.findall(r'<polyline class="mean" points="([^"]*)"', plot), ['234.2,27.5 291.4,8.0'])
        self.assertEqual(re.findall(r'<text class="said"[^>]*>([^<]*)<', plot), ['no reading'])

    def test_without_any_reading(self):
        page = self.sheet('id,name\n22,HILL POOL\n23,ABBEY\n', 'date,reading,name\n2026-03-02,,HILL POOL\n')
        self.assertIn('<td class="none">no reading</td><td class="n">0</td>', page)
        self.assertNotIn('class="dot"', page)
        self.assertIn('ABBEY <span class="pale">(23)</span></h3>\n<p class="warn">no reading: no line of the log belongs to this pool.</p>', page)

    def test_nothing_for_a_person(self):
        page = self.sheet('id,name\n22,HILL POOL\n', 'date,reading,name\n2026-03-02,1,HILL POOL\n')
        self.assertIn('<h2>No line needs a person</h2>\n<p>1 line: 1 belong, 0 unresolved, 0 ambiguous, 0 refused.</p>\n<h2>Pools</h2>', page)

    def test_names_are_escaped(self):
        page = self.sheet('id,name\n1,A & B <POOL>\n2,A & B <POOLS>\n', 'date,reading,name\n2026-03-02,1,A & B <POO\n2026-03-02,1,<script>x</script>\n'
                          '2026-03-02,1,A & B <POOLS>\n2026-03-02,1,"A & ""B"" <POOLS>"\n', '--threshold', '4/5')
        self.assertIn('data-is="like">A &amp; B &lt;POOL&gt; (1), A &amp; B &lt;POOLS&gt; (2)</td>', page)
        self.assertIn('&lt;script&gt;x&lt;/script&gt;', page)
        self.assertNotIn('<script', page)

    def test_stands_alone_and_is_whole(self):
        page = self.sheet('id,name\n1,HARBOUR BATHS\n2,HARBOUR LIDO\n3,HILL\n', 'date,reading,name\n2026-03-02,1,HARBOUR BATHS\n2026-03-09,,HARBOUR LIDO\n2026-03-09,1,HARBOUR\n'
                          '2026-03-09,1,ZZ\n2026-03-09,1,\n', '--threshold', '1/2')
        whole = Whole(page)
        self.assertEqual((whole.open, whole.bad), ([], []))
        self.assertFalse([met for met in whole.met if met[0] in ('script', 'link', 'img', 'iframe') or {'src', 'href'} & set(met[1])])
        self.assertNotIn('http', page)
        self.assertNotIn('url(', page)
        self.assertEqual(whole.met[0][0], 'html')
        # what needs a person comes before the pools
        self.assertLess(page.index('Unresolved'), page.index('<h2>Pools</h2>'))
