"""The sheet in headless Chromium, by its debugging pipe. Run by tests/sheet-in-a-browser."""
import base64
import json
import os
import select
import shutil
import subprocess
import sys
import tempfile

from . import ROOT

PICTURES = os.path.join(ROOT, 'target', 'sheet')
# pixels; A4 is 210 mm with margins of 15 mm on either side, and a CSS millimetre is 96 / 25.4 pixels
PHONE, SCREEN, PAPER = 360, 1024, int(180 * 96 / 25.4)
SECONDS = 60


class Browser:
    """One page, asked by the commands of Chromium's debugging protocol."""

    def __init__(self, path):
        self.profile = tempfile.mkdtemp()
        ours_in, theirs_out = os.pipe()
        theirs_in, ours_out = os.pipe()

        def hand_over():
            # the browser reads commands from 3 and answers on 4; both are first moved out of the way of one another
            for fd, to in ((os.dup(theirs_in), 3), (os.dup(theirs_out), 4)):
                os.dup2(fd, to)

        words = [path, '--headless=new', '--remote-debugging-pipe', '--disable-gpu', '--disable-dev-shm-usage', '--hide-scrollbars', '--no-first-run',
                 f'--user-data-dir={self.profile}'] + (['--no-sandbox'] if os.geteuid() == 0 else []) + ['about:blank']
        self.log = open(os.path.join(PICTURES, 'browser.log'), 'wb')
        self.process = subprocess.Popen(words, stdin=subprocess.DEVNULL, stdout=self.log, stderr=self.log, pass_fds=(3, 4), preexec_fn=hand_over)
        os.close(theirs_in)
        os.close(theirs_out)
        self.input, self.output, self.left, self.number, self.session = ours_out, ours_in, b'', 0, None
        target = self.ask('Target.createTarget', url='about:blank')['targetId']
        self.session = self.ask('Target.attachToTarget', targetId=target, flatten=True)['sessionId']
        self.ask('Page.enable')

    def message(self):
        while b'\0' not in self.left:
            if not select.select([self.output], [], [], SECONDS)[0]:
                raise TimeoutError(f'the browser said nothing for {SECONDS} seconds ({self.log.name} has what it wrote)')
            got = os.read(self.output, 1 << 20)
            if not got:
                raise EOFError(f'the browser ended ({self.log.name} has what it wrote)')
            self.left += got
        text, self.left = self.left.split(b'\0', 1)
        return json.loads(text)

    def ask(self, method, until=None, **parameters):
        """What the command gives; then, where an event is named, waits for that."""
        self.number += 1
        asked = {'id': self.number, 'method': method, 'params': parameters}
        if self.session:
            asked['sessionId'] = self.session
        os.write(self.input, json.dumps(asked).encode() + b'\0')
        answer, met = None, until is None
        while answer is None or not met:
            said = self.message()
            if said.get('id') == self.number:
                if 'error' in said:
                    raise ValueError(f'{method}: {said["error"]["message"]}')
                answer = said['result']
            met = met or said.get('method') == until
        return answer

    def show(self, path, width, media='screen'):
        self.ask('Emulation.setDeviceMetricsOverride', width=width, height=800, deviceScaleFactor=2 if width == PHONE else 1, mobile=width == PHONE)
        self.ask('Emulation.setEmulatedMedia', media=media)
        self.ask('Page.navigate', until='Page.loadEventFired', url=f'file://{path}')

    def value(self, script):
        said = self.ask('Runtime.evaluate', expression=f'JSON.stringify({script})', returnByValue=True)
        if 'exceptionDetails' in said:
            raise ValueError(said['exceptionDetails']['exception']['description'])
        return json.loads(said['result']['value'])

    def picture(self, name, **clip):
        """The whole page, or the part that is asked for."""
        text = self.ask('Page.captureScreenshot', captureBeyondViewport=True, **({'clip': dict(clip, scale=1)} if clip else {}))['data']
        with open(os.path.join(PICTURES, name), 'wb') as file:
            file.write(base64.b64decode(text))

    def paper(self, name):
        text = self.ask('Page.printToPDF', preferCSSPageSize=True, printBackground=True)['data']
        with open(os.path.join(PICTURES, name), 'wb') as file:
            file.write(base64.b64decode(text))

    def end(self):
        self.process.kill()
        self.process.wait()
        self.log.close()
        shutil.rmtree(self.profile, ignore_errors=True)


# what sticks out of the page to the right or left, and text that is cut off or lies over other text of its plot
OVERFLOWS = '''(() => {
    const wide = document.documentElement.clientWidth, out = [];
    if (document.documentElement.scrollWidth > wide) out.push('the page is ' + document.documentElement.scrollWidth + ' wide');
    for (const e of document.body.querySelectorAll('*')) {
        const box = e.getBoundingClientRect();
        if (box.width && (box.right > wide + 0.5 || box.left < -0.5)) out.push(e.tagName + ' ' + e.textContent.slice(0, 30));
    }
    for (const svg of document.querySelectorAll('svg')) {
        const all = svg.getBoundingClientRect(), texts = [...svg.querySelectorAll('text')];
        texts.forEach((text, k) => {
            const box = text.getBoundingClientRect();
            if (box.right > all.right + 1 || box.left < all.left - 1 || box.top < all.top - 1 || box.bottom > all.bottom + 1) out.push('cut off: ' + text.textContent);
            for (const other of texts.slice(0, k)) {
                const b = other.getBoundingClientRect();
                if (box.left < b.right - 1 && b.left < box.right - 1 && box.top < b.bottom - 1 && b.top < box.bottom - 1) out.push('over one another: ' + text.textContent + ', ' + other.textContent);
            }
        });
    }
    return out;
})()'''

# for each pool: its weeks with what the table says, the bands of its plot, whether anything is drawn in a band, and the words in the bands
PLOTS = '''[...document.querySelectorAll('.pool')].map(pool => {
    const drawn = [];
    for (const band of pool.querySelectorAll('.gap')) {
        band.scrollIntoView({block: 'center'});
        const box = band.getBoundingClientRect();
        for (let x = box.left + 0.5; x < box.right; x += 1) for (let y = box.top + 0.5; y < box.bottom; y += 1)
            for (const e of document.elementsFromPoint(x, y)) if (e.matches('.mean, .dot')) drawn.push(e.getAttribute('class'));
    }
    return {
        name: pool.querySelector('h3').firstChild.textContent.trim(),
        weeks: [...pool.querySelectorAll('tbody tr')].map(row => [...row.cells].map(cell => cell.innerText)),
        dots: pool.querySelectorAll('.dot').length,
        bands: pool.querySelectorAll('.gap').length,
        said: [...pool.querySelectorAll('.said')].map(text => text.textContent),
        drawn: drawn.length,
    };
})'''

POOLS = ('id,name\n10,Kingsway Leisure Centre\n11,Kingsway Leisure Pool\n20,Harbour Baths\n31,"St. Mary\'s, Teaching Pool"\n'
         f'40,{"Longname" * 8}\n41,Nobody Writes Here\n')
LOG = ('date,reading,name\n2026-03-02,1.50,Harbour Baths\n2026-03-03,1.70,Harbour Bath\n2026-03-09,,Harbour Baths\n2026-03-23,1.10,Harbour Baths\n'
       '2026-03-30,0,Harbour Baths\n2026-03-02,1.45,Kingsway Leisure\n2026-03-03,1.20,' + 'WWWWWWWW' * 8 + '\n2026-03-04,1.30,\n'
       '2026-03-05,1.00,' + 'Longname' * 31 + '\n' + ''.join(f'2026-{month:02d}-0{day},{month}.{day}5,St. Marys Teaching Pool\n' for month in (3, 4) for day in (2, 9))
       + ''.join(f'2026-0{month}-{day:02d},12.00,{"Longname" * 8}\n' for month in range(3, 9) for day in (2, 9, 16, 23)))

passed = failed = 0


def check(name, held, *facts):
    global passed, failed
    if held:
        passed += 1
    else:
        failed += 1
        print('FAILED:', name, *(str(fact)[:600] for fact in facts), flush=True)


def made(folder, register, log):
    """The sheet of these files."""
    out = os.path.join(folder, 'sheet.html')
    subprocess.run([os.path.join(ROOT, 'rushgirdle'), 'import', '--register', register, '--log', log, '--sheet', out], check=True, stdout=subprocess.DEVNULL)
    return out


def harbour(browser):
    return next(pool for pool in browser.value(PLOTS) if pool['name'] == 'Harbour Baths')


def look(browser, folder):
    for name, text in (('pools.csv', POOLS), ('log.csv', LOG)):
        with open(os.path.join(folder, name), 'w', encoding='utf-8') as file:
            file.write(text)
    sheet = made(folder, os.path.join(folder, 'pools.csv'), os.path.join(folder, 'log.csv'))
    for name, width, media in (('phone', PHONE, 'screen'), ('screen', SCREEN, 'screen'), ('paper', PAPER, 'print')):
        browser.show(sheet, width, media)
        check(f'nothing overflows: {name}', browser.value(OVERFLOWS) == [], browser.value(OVERFLOWS))
        browser.picture(f'{name}.png')
        pools = browser.value(PLOTS)
        check(f'pools with a plot: {name}', [pool['name'] for pool in pools if pool['dots']] == ['Harbour Baths', "St. Mary's, Teaching Pool", 'Longname' * 8],
              [pool['name'] for pool in pools])
        check(f'nothing is drawn where there is no reading: {name}', not any(pool['drawn'] for pool in pools), pools)
        there = harbour(browser)
        # 1.50 and 1.70; a line without a reading; no line; 1.10; a reading of 0; then no line for the rest of the log
        check(f'weeks of one pool: {name}', there['weeks'][:6] == [['2026-03-02', '1.60', '2'], ['2026-03-09', 'no reading', '0'], ['2026-03-16', 'no reading', '0'],
                                                                   ['2026-03-23', '1.10', '1'], ['2026-03-30', '0.00', '1'], ['2026-04-06', 'no reading', '0']], there['weeks'])
        check(f'gaps of one pool: {name}', (there['dots'], there['bands']) == (3, 2), there)
    browser.paper('paper.pdf')

    # what the page would look for is found where it is: a line drawn through the gaps, and a word that is too wide
    with open(sheet, encoding='utf-8') as file:
        text = file.read()
    for name, old, new, held in (
            ('a line through a gap', '</svg>', '<polyline class="mean" points="34,50 320,50"/></svg>', lambda: harbour(browser)['drawn'] > 0),
            ('no bands', 'class="gap"', 'class="mend"', lambda: harbour(browser)['bands'] == 0),
            ('a wide word', '<h2>Pools</h2>', '<h2 style="white-space: pre">Pools' + ' pools' * 20 + '</h2>', lambda: browser.value(OVERFLOWS) != [])):
        spoilt = os.path.join(folder, 'spoilt.html')
        with open(spoilt, 'w', encoding='utf-8') as file:
            file.write(text.replace(old, new))
        browser.show(spoilt, PHONE)
        check(f'a spoilt sheet is seen: {name}', held())

    # the picture of README.md, docs/sheet.png: the sheet down to its third pool
    example = made(folder, os.path.join('examples', 'pools.csv'), os.path.join('examples', 'spring.csv'))
    browser.show(example, 800)
    check('nothing overflows: example', browser.value(OVERFLOWS) == [], browser.value(OVERFLOWS))
    below = browser.value("document.querySelectorAll('.pool')[3].getBoundingClientRect().top")
    browser.picture('example.png', x=0, y=0, width=800, height=below)


def main():
    os.chdir(ROOT)
    os.makedirs(PICTURES, exist_ok=True)
    browser = Browser(sys.argv[1])
    folder = tempfile.mkdtemp()
    try:
        look(browser, folder)
    finally:
        browser.end()
        shutil.rmtree(folder)
    print(f'pictures: {", ".join(os.path.relpath(os.path.join(PICTURES, name), ROOT) for name in sorted(os.listdir(PICTURES)) if name != "browser.log")}')
    print(f'{passed} passed, {failed} failed', flush=True)
    sys.exit(1 if failed else 0)


main()
