"""Small files that cost much: each leads to a sentence soon, and takes little memory. What is not shown is told, and can be shown."""
import json
import os
import pathlib
import time
from typing import NamedTuple

import answers
from made import candidate_contest, identified, report, style, typed, written
from session import EXAMPLES

MOST_SECONDS = 5
MOST_MEGABYTES = 300
SECONDS_TO_PRINT = 20
# How many ballots are printed.
COUNT = 800
TRIES = 3
# What the browser and the system do beside the pages.
MOST_BESIDE = 0.6
TICKS = os.sysconf('SC_CLK_TCK')
BUSY = "return document.documentElement.dataset.busy === 'no' && document.getElementById('verdict') !== null"


def run(session):
    crowded(session)
    saved(session)
    long_name(session)
    many_differences(session)
    printed(session)
    ended(session)


class Taken(NamedTuple):
    """What a try took. A bound of seconds is one of the clock: how long a person waits, on a machine that has nothing else to do. So where
    nothing but the page worked all the while, the clock alone counts. On a busy machine the clock tells of other work too. There the page may
    be within the bound by what the processors worked for it in place of that, in all the threads of its processes together."""

    worked: float
    clock: float
    is_at_rest: bool
    megabytes: int

    def is_within(self, most_seconds, most_megabytes):
        seconds = self.clock if self.is_at_rest else min(self.clock, self.worked)
        return seconds <= most_seconds and self.megabytes <= most_megabytes


class Cost:
    """Measures from now on: the seconds that processors work for the processes of pages, where the scripts of a page and its workers run,
    and for those that begin later; how much memory the greatest of those that are there takes more; and the clock."""

    def __init__(self, session, earlier=None):
        self.browser = session.browser.process.pid
        self.files = pages_of(self.browser)
        for path in self.files:
            (path / 'clear_refs').write_text('5')
        # What an earlier try has left in a process counts for this one too, since the system need not give it back.
        self.before = {path: kilobytes(path, 'VmRSS') for path in self.files} | (earlier or {})
        self.worked = {path: seconds_of(path) for path in self.files}
        self.idle = idle_seconds()
        self.clock = time.monotonic()

    def taken(self):
        clock = time.monotonic() - self.clock
        idle = idle_seconds() - self.idle
        worked = sum(seconds_of(path) - self.worked.get(path, 0) for path in pages_of(self.browser))
        growth = max(kilobytes(path, 'VmHWM') - before for path, before in self.before.items() if path.exists()) // 1000
        others = os.cpu_count() * clock - idle - worked
        return Taken(round(worked, 2), round(clock, 2), others <= MOST_BESIDE * clock, growth)


def tries_of(session, prepare, act, most_seconds, most_megabytes, most_tries):
    """What each try took, until one is within the bounds."""
    tries, before = [], {}
    while len(tries) < most_tries and not (tries and tries[-1].is_within(most_seconds, most_megabytes)):
        prepare()
        cost = Cost(session, before)
        before = cost.before
        act()
        tries.append(cost.taken())
    return tries


def seconds_of(path):
    """How many seconds the processors have worked for a process, in its own code and in the system's."""
    ticks = (path / 'stat').read_text().rpartition(') ')[2].split()[11:13]
    return sum(map(int, ticks)) / TICKS


def idle_seconds():
    """How many seconds all processors together have had nothing to do."""
    return int(pathlib.Path('/proc/stat').read_text().split(maxsplit=5)[4]) / TICKS


def kilobytes(path, name):
    return next((int(line.split()[1]) for line in (path / 'status').read_text().splitlines() if line.startswith(name + ':')), 0)


def pages_of(pid):
    """The processes of pages of a browser."""
    return [path for path in map(pathlib.Path, tree_of(pid)) if is_page(path)]


def is_page(path):
    words = read(path / 'cmdline')
    return b'--type=renderer' in words or (b'-contentproc' in words and words.rstrip(b'\0').endswith(b'tab'))


def tree_of(pid):
    """A process and all below it."""
    below = [child for path in pathlib.Path(f'/proc/{pid}/task').glob('*') for child in read(path / 'children').decode().split()]
    return [f'/proc/{pid}', *(path for child in below for path in tree_of(child))]


def read(path):
    """The bytes of a file of a process or of a thread; none where it has ended meanwhile."""
    try:
        return path.read_bytes()
    except (FileNotFoundError, ProcessLookupError):
        return b''


def bounded(session, name, act, most_seconds=MOST_SECONDS):
    """One case: what is done takes at most so many seconds and megabytes. A busy machine may need several tries."""
    tries = tries_of(session, session.fresh, act, most_seconds, MOST_MEGABYTES, TRIES)
    print(f'        {session.browser.name}: {name}: {tries}', flush=True)
    session.said(f'bounds: {name}', '' if tries[-1].is_within(most_seconds, MOST_MEGABYTES) else str(tries))


def opened(session, *paths):
    """The first ballot, open."""
    session.choose(0, *paths)
    session.browser.until(BUSY)
    session.browser.until("return document.getElementById('ballots') !== null")
    session.browser.script("document.getElementById('ballots').open = true")
    session.browser.until("return document.querySelector('.style') !== null")
    session.browser.script("document.querySelector('.style').open = true")
    session.browser.until("return document.querySelector('.style .ballot') !== null")


def crowded(session):
    """A style that lists one contest 300 times, and one that lists it 1,000 times: the beginning is shown, and the rest when it is asked for."""
    for times in (300, 1000):
        contest, candidates = candidate_contest('S', 'Sheriff', *(f'N{number}' for number in range(120)))
        one = report([(contest, candidates)], [style('BS-1', [typed('OrderedContest', ContestId='S')] * times)])
        path = written(session, 'crowded.json', one)
        bounded(session, f'one contest {times} times', lambda: opened(session, path))
        nodes = session.browser.script("return document.querySelectorAll('*').length")
        session.said(f'bounds: one contest {times} times, elements', '' if nodes < 10_000 else f'{nodes} elements')
        session.has(f'bounds: one contest {times} times, what is left', session.text('.rest'), answers.say('ballots.left', count=times - 4))
        before = len(session.texts('.ballot .contest'))
        session.browser.script("document.querySelector('.rest button')?.click()")
        session.becomes(f'bounds: one contest {times} times, more of it', lambda: len(session.texts('.ballot .contest')) > before, True)


def saved(session):
    """A list of changes below a name of 190 kB: it is saved, with pointers that are cut."""
    one = json.dumps({'@type': 'ElectionResults.ElectionReport', 'x' * 190_000: {f'n{number}': None for number in range(12_000)}})
    path = session.file('nulls.json', one)
    (session.work / 'downloads' / 'nulls.prepared.changes.json').unlink(missing_ok=True)

    def act():
        session.choose(0, path)
        session.browser.until(BUSY)
        session.click('#prepare-begin-0')
        session.browser.until("return document.querySelector('#prepare-check-0') !== null")
        session.browser.script("[...document.querySelectorAll('.preparing .buttons button')].at(-1).click()")
        session.downloaded('nulls.prepared.changes.json')

    bounded(session, 'a list of changes', act)
    data = session.downloaded('nulls.prepared.changes.json')
    session.said('bounds: the changes are saved', '' if data else 'nothing was saved')
    steps = json.loads(data or '[{"step": "nulls", "count": 0, "changes": []}]')
    nulls = next(step for step in steps if step['step'] == 'nulls')
    session.equal('bounds: the changes are counted', [nulls['count'], len(nulls['changes']) + nulls.get('more', 0)], [12_000, 12_000])


def long_name(session):
    """Names that are written twice below a name of 12 MB."""
    inner = ','.join(f'"n{number}":1,"n{number}":2' for number in range(200))
    text = '{"@type":"ElectionResults.ElectionReport","%s":{%s}}' % ('x' * 12_000_000, inner)
    path = session.file('long-name.json', text)

    def act():
        session.choose(0, path)
        session.browser.until(BUSY)
        session.browser.until("return document.querySelector('.notice') !== null")

    bounded(session, 'names written twice below a long name', act)


def many_differences(session):
    """Two files of 2.7 MB with 200,000 differences: how many there are is told soon, and then there is a list of the first of them. And two of
    20 MB with as many: a sentence says which are not listed."""
    pair = []
    for value in (1, 2):
        one = report([], [style('BS-1', [])])
        del one['Election'][0]['BallotStyle'][0]['OrderedContent']
        one['GpUnit'][0].update({f'c{number}': value for number in range(200_000)})
        pair.append(written(session, f'{value}.json', one))

    def until(selector):
        session.choose(0, *pair)
        session.browser.until('return document.querySelector(arguments[0]) !== null', selector, seconds=120)

    bounded(session, '200,000 differences, until they are counted', lambda: until('#count, #all-differences'))
    session.has('bounds: how many there are', session.text('#count, #all-differences'), '200,000')
    bounded(session, '200,000 differences, until some are listed', lambda: until('#all-differences'))
    listed = [session.text('#all-differences'), len(session.texts('.differences > li'))]
    session.equal('bounds: the list', listed, [answers.say('difference.all', count=200_000), 50])

    def units(prefix):
        return [typed('ReportingUnit', id=f'{prefix}{number}', ExternalIdentifier=identified(f'{prefix}{number}'), Type='precinct') for number in range(100_000)]
    made = {prefix: report([], [style('BS-1', [])]) for prefix in 'ab'}
    for prefix, one in made.items():
        del one['Election'][0]['BallotStyle'][0]['OrderedContent']
        one['GpUnit'] += units(prefix)
    paths = [written(session, f'{prefix}.json', one) for prefix, one in made.items()]
    session.fresh()
    begin = time.monotonic()
    session.choose(0, *paths)
    session.browser.until("return document.querySelector('.others') !== null", seconds=120)
    print(f'        {session.browser.name}: 200,000 differences are listed after {time.monotonic() - begin:.1f} s', flush=True)
    session.equal('bounds: 200,000 differences', session.text('#all-differences'), answers.say('difference.all', count=200_000))
    session.has('bounds: those that are not listed', session.text('.others'), 'This page lists the first')
    for path in paths:
        path.unlink()


def printed(session):
    """Many ballots are printed in parts."""
    contest, candidates = candidate_contest('S', 'Sheriff', *(f'N{number}' for number in range(100)))
    one = report([(contest, candidates)], [style(f'BS-{number:03}', [typed('OrderedContest', ContestId='S')] * 4) for number in range(COUNT)])
    path = written(session, 'county.json', one)

    def act():
        session.judged(path)
        session.browser.script("document.getElementById('ballots').open = true")
        session.browser.until("return document.querySelector('.style') !== null")
        session.browser.script("window.print = () => { window.printed = (window.printed ?? 0) + 1; }")
        session.browser.script("[...document.querySelectorAll('#ballots .controls button')].at(-1).click()")
        session.browser.until('return window.printed === 1')

    bounded(session, 'ballots are printed', act, SECONDS_TO_PRINT)
    first = len(session.texts('.print-pages .ballot-head'))
    session.said('bounds: ballots are printed in parts', '' if 0 < first < COUNT else f'{first} ballots')
    session.equal('bounds: the next ones', session.text('#ballots .controls p:last-child button'), answers.say('ballots.printNext', next=first + 1, all=COUNT))
    session.browser.script("dispatchEvent(new Event('afterprint'))")


# The worker that is asked for a verdict ends, once.
END = """
    const post = Worker.prototype.postMessage;
    Worker.prototype.postMessage = function (message) {
        if (message.kind === 'verdict') {
            Worker.prototype.postMessage = post;
            this.terminate();
            setTimeout(() => this.dispatchEvent(new ErrorEvent('error', {message: 'out of memory'})));
        }
        post.call(this, message);
    };"""


def ended(session):
    """A worker that ends is told, with a way on: the same file is judged again."""
    session.fresh()
    session.browser.script(END)
    session.choose(0, EXAMPLES / 'small-ballot.json')
    session.becomes('bounds: a worker that ends', session.verdict, answers.say('verdict.failed'))
    session.has('bounds: why it ends', session.text('#result-top'), 'out of memory')
    again = "return [...document.querySelectorAll('#result-top button')].find((one) => one.textContent === arguments[0]) ?? null"
    button = session.browser.script(again, answers.say('trouble.again'))
    session.said('bounds: there is a way on', '' if button else 'there is no button')
    if button:
        button.click()
        session.becomes('bounds: the way on', session.verdict, answers.say('verdict.accepted'))
