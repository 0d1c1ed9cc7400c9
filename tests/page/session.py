"""The page in a browser, and what the parts of the test have in common."""
import hashlib
import json
import pathlib
import sys
import time

from browsers import DriverError

ROOT = pathlib.Path(__file__).resolve().parents[2]
# Once this module is imported, the parts find what other folders have.
sys.path[1:1] = [str(ROOT / folder) for folder in ('bindings/python/src', 'bindings/python/tests', 'tests/reports', 'tests/shared', 'web')]
EXAMPLES = ROOT / 'examples'
SUITE = ROOT / 'out' / 'conformance'
# What most tests open: a small report, and the reports of one county by two vendors.
SMALL = EXAMPLES / 'small-ballot.json'
COUNTY = [EXAMPLES / ('county.vendor-%s.json' % vendor) for vendor in 'ab']


class Session:
    """One browser with the page, opened from the disk. Counts cases."""

    def __init__(self, browser, page, work, zone):
        self.browser = browser
        self.zone = zone
        self.page = page
        self.address = pathlib.Path(page).resolve().as_uri()
        self.work = pathlib.Path(work)
        self.passed = 0
        self.failed = 0

    def said(self, name, why):
        """One case is done; it is right where `why` is empty."""
        if why:
            self.failed += 1
            print('FAILED  %s: %s: %s' % (self.browser.name, name, why), flush=True)
        else:
            self.passed += 1
            print('ok      %s: %s' % (self.browser.name, name), flush=True)

    def equal(self, name, found, wanted):
        """One case: two values are equal."""
        self.said(name, '' if found == wanted else '%r in place of %r' % (found, wanted))

    def has(self, name, text, words):
        """One case: a text has these words."""
        self.said(name, '' if words in text else text or 'no text')

    def becomes(self, name, tell, wanted, seconds=60):
        """One case: what the page tells becomes this value. What a key or a click brings about may come a moment later."""
        end = time.monotonic() + seconds
        found = tell()
        while found != wanted and time.monotonic() < end:
            time.sleep(0.02)
            found = tell()
        self.equal(name, found, wanted)

    def part(self, run):
        """Runs a part of the test. If the browser does not do what it is asked, that is a failure of the part."""
        try:
            run(self)
        except DriverError as error:
            self.said(getattr(run, '__module__', 'a part'), str(error)[:400])

    def fresh(self):
        """The page, opened again."""
        self.browser.resize(1000, 800)
        self.browser.open(self.address)
        self.browser.until('return document.documentElement.dataset.ready')

    def file(self, name, data):
        """A file for the test."""
        path = self.work / name
        path.write_bytes(data if isinstance(data, bytes) else data.encode())
        return path

    def choose(self, side, *paths):
        """Chooses files as a user does in the dialogue of the browser. The old verdict goes, so that nobody takes it for the new one."""
        self.browser.script("document.getElementById('verdict')?.remove()")
        self.browser.one('#input-%d' % side).type('\n'.join(str(path) for path in paths))

    def verdict(self, seconds=60):
        """Waits for the verdict, and returns its heading. Firefox says once in some hundred loads that there is too much recursion, where
        there is none. The page then offers to try again, and so does this, once."""
        found = self.next_verdict(seconds)
        if 'too much recursion' in found:
            print('notice: %s: too much recursion; tried again' % self.browser.name, flush=True)
            self.browser.script("""[...document.querySelectorAll('#verdict button')].at(-1)?.click();
                document.getElementById('verdict')?.remove();""")
            found = self.next_verdict(seconds)
        return found

    def next_verdict(self, seconds):
        """Waits until there is a verdict, and returns its text."""
        self.browser.until("return document.documentElement.dataset.busy === 'no' && document.getElementById('verdict') !== null",
                           seconds=seconds)
        return self.text('#verdict')

    def text(self, selector):
        """The text of the first element; empty if there is none."""
        return self.browser.script('return document.querySelector(arguments[0])?.textContent ?? ""', selector)

    def texts(self, selector):
        """The texts of all these elements."""
        return self.browser.script('return [...document.querySelectorAll(arguments[0])].map((one) => one.textContent)', selector)

    def open_details(self):
        """Opens all that is closed, and waits until the tables of the differences and the ballots are there."""
        for ready in ("document.querySelector('#ballots') === null || document.querySelector('#ballots :is(.style, .none)') !== null",
                      "[...document.querySelectorAll('.differences details')].every((one) => one.querySelector('table, .inside, .note') !== null)",
                      "[...document.querySelectorAll('.style')].every((one) => one.querySelector('.ballot') !== null)"):
            self.browser.script("document.querySelectorAll('details').forEach((one) => { one.open = true; })")
            self.browser.until('return ' + ready)

    def click(self, selector):
        self.browser.one(selector).click()

    def judged(self, *paths):
        """The verdict on files that are chosen on a fresh page."""
        self.fresh()
        for side, path in enumerate(paths):
            self.choose(side, path)
            self.verdict()
        return self.text('#verdict')

    def downloaded(self, name, seconds=60):
        """The bytes of a file that the page saved."""
        path = self.work / 'downloads' / name
        end = time.monotonic() + seconds
        while time.monotonic() < end:
            if path.exists() and path.stat().st_size > 0 and not list(path.parent.glob('*.part')):
                return path.read_bytes()
            time.sleep(0.05)
        return b''


def report_of_units(path, count):
    """An accepted report: that of one unit, with so many more units of some 260 bytes each."""
    report = json.loads((EXAMPLES / 'one-unit.json').read_text(encoding='utf-8'))
    unit = json.dumps(report['GpUnit'][0] | {'@id': 'unit-NUMBER', 'Name': 'Precinct NUMBER'}).replace(
        '"Value": "%s"' % report['GpUnit'][0]['ExternalIdentifier'][0]['Value'], '"Value": "P-NUMBER"')
    report['GpUnit'].append('UNITS')
    text = json.dumps(report).replace('"UNITS"', ',\n'.join(unit.replace('NUMBER', str(number)) for number in range(count)))
    path.write_text(text, encoding='utf-8')
    return path


def sha256(data):
    return hashlib.sha256(data).hexdigest()
