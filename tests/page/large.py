"""Large files: the page stays alive, tells what it does, and can be stopped; and how fast the answers are."""
import json
import re
import shutil
import subprocess

import answers
from bounds import MOST_MEGABYTES, MOST_SECONDS, Cost
from made import identified, report, style, typed, written
from session import EXAMPLES, ROOT, report_of_units

COUNTY = EXAMPLES / 'county.vendor-a.json'
LONGEST_PAUSE = 1000
TRIES = 3
# A ratio of two times needs more of them where other work disturbs one of both. One that is too high by itself fails all.
TRIES_OF_A_RATIO = 8

# Counts the longest time in milliseconds in which the page did nothing else.
WATCH = """
    let last = performance.now();
    window.longestPause = 0;
    clearInterval(window.watch);
    window.watch = setInterval(() => {
        const now = performance.now();
        window.longestPause = Math.max(window.longestPause, now - last);
        last = now;
    }, 10);"""


def run(session):
    alive(session)
    stages(session)
    verdict_first(session)
    same_pair(session)
    many_differences(session)
    needs(session)
    speed(session)
    no_memory(session)


def alive(session):
    """A file of 25 MB: no long pause, and the right answer. A busy machine can stop the page too, so a pause has to come back."""
    pauses = []
    while len(pauses) < TRIES and (not pauses or pauses[-1] >= LONGEST_PAUSE):
        session.fresh()
        session.browser.script(WATCH)
        session.choose(0, session.large)
        verdict = session.verdict(seconds=200)
        pauses.append(session.browser.script('return window.longestPause'))
    session.equal('25 MB: the verdict', verdict, 'Accepted')
    session.said('25 MB: the page stays alive (%d ms)' % pauses[-1], '' if pauses[-1] < LONGEST_PAUSE else 'pauses of %s ms' % pauses)
    print('        %s: 25 MB in %s ms' % (session.browser.name, milliseconds(session)))


def stages(session):
    """Another file of 25 MB, which is given up: what is done is told, and a button stops it. On a busy machine the verdict can be there before
    the button is pressed, which is then tried again."""
    verdicts = []
    while len(verdicts) < TRIES and 'Cancelled' not in verdicts:
        session.fresh()
        session.choose(0, session.large)
        stage = session.browser.until("""
            return document.getElementById('progress').hidden ? '' : document.getElementById('stage').textContent;""")
        session.click('#cancel')
        verdicts.append(session.verdict())
    session.said('25 MB: the stage', '' if session.large.name in stage or stage == 'Working' else stage)
    session.equal('25 MB: cancelled', verdicts[-1], 'Cancelled')
    session.choose(0, COUNTY)
    session.becomes('a file after that', session.verdict, 'Accepted')


def verdict_first(session):
    """Two files of 25 MB that differ: the verdict is there before the list, and stays when the list is cancelled."""
    other = session.file('large-changed.json', session.large.read_text(encoding='utf-8').replace('Precinct 94999', 'Precinct 9499X'))
    session.fresh()
    session.choose(0, session.large, other)
    session.browser.until("return document.getElementById('verdict') !== null", seconds=200)
    session.equal('25 MB twice: the verdict comes while the page is busy',
                  [session.text('#verdict'), session.browser.script('return document.documentElement.dataset.busy')],
                  ['These two files do not say the same', 'yes'])
    session.has('25 MB twice: the first difference', session.text('.sentence'), 'P-94999')
    print('        %s: the verdict on 25 MB twice in %s ms' % (session.browser.name, milliseconds(session)))
    session.click('#cancel')
    session.becomes('25 MB twice: cancelled', lambda: session.text('#stopped'), 'Cancelled. The verdict stands; what would have followed it is not here.')
    session.equal('25 MB twice: the verdict stays', session.verdict(), 'These two files do not say the same')
    other.unlink()


UNITS_OF_40_MB = 152_000

# How many milliseconds the proved code takes for a comparison in Node, the best of three.
COMPARE = """
    const { load } = await import(process.argv[1] + 'bindings/js/index.mjs');
    const { readFileSync } = await import('node:fs');
    const erd = await load(readFileSync(new URL(process.argv[1] + 'out/portable/erd.wasm')));
    const [left, right] = process.argv.slice(2).map((name) => new Uint8Array(readFileSync(name)));
    const times = [1, 2, 3].map(() => {
        const start = performance.now();
        erd.compare(left, right);
        return performance.now() - start;
    });
    console.log(JSON.stringify(Math.min(...times)));"""


def same_pair(session):
    """Two files of 40 MB that mean the same: the verdict takes at most half as long again as the comparison. Node and Chromium have one
    engine. A busy machine may need several tries."""
    if session.browser.name != 'Chromium' or shutil.which('node') is None:
        return
    path = report_of_units(session.work / 'pair.json', UNITS_OF_40_MB)
    other = session.file('other.json', path.read_bytes().replace(b'"GeneratedDate": "', b'"GeneratedDate": "3'))
    tries = []
    while len(tries) < TRIES_OF_A_RATIO and (not tries or tries[-1][1] > 1.5 * tries[-1][0]):
        ran = subprocess.run(['node', '--input-type=module', '-e', COMPARE, ROOT.as_uri() + '/', path, other], capture_output=True, check=True)
        session.fresh()
        session.choose(0, path, other)
        session.browser.until("return document.getElementById('verdict') !== null", seconds=200)
        tries.append((round(json.loads(ran.stdout)), int(milliseconds(session))))
        session.equal('40 MB twice: the verdict', session.text('#verdict'), 'These two files define the same ballots')
        session.click('#cancel')
    session.said('40 MB twice: the comparison takes %d ms, the page %d ms' % tries[-1], '' if tries[-1][1] <= 1.5 * tries[-1][0] else repr(tries))
    path.unlink()
    other.unlink()


def many_differences(session):
    """10,000 differences: all are counted, some are listed, and the page stays alive."""
    path = report_of_units(session.work / 'units.json', 10_000)
    other = session.file('renamed.json', path.read_text(encoding='utf-8').replace('"Precinct ', '"Ward '))
    pauses = []
    while len(pauses) < TRIES and (not pauses or pauses[-1] >= LONGEST_PAUSE):
        session.fresh()
        session.browser.script(WATCH)
        session.choose(0, path, other)
        session.browser.until("return document.querySelector('.others') !== null && document.documentElement.dataset.busy === 'no'", seconds=200)
        pauses.append(session.browser.script('return window.longestPause'))
    session.equal('10,000 differences: the heading', session.text('#all-differences'), 'All 10,000 differences')
    session.equal('10,000 differences: how many are listed', len(session.texts('.others > .differences > li')), 50)
    session.said('10,000 differences: the page stays alive (%d ms)' % pauses[-1], '' if pauses[-1] < LONGEST_PAUSE else 'pauses of %s ms' % pauses)


NEEDS = "return document.getElementById('needs').hidden ? '' : document.getElementById('needs').textContent"
HEAVY_UNITS = 100_000


def needs(session):
    """Two files of 20 MB with 400,000 differences: what they need is told at once, with a way that takes less and how to stop. Until the list is
    there the page takes no more than that and 300 MB. Files of the usual size need nothing that is told."""
    session.judged(COUNTY, COUNTY)
    session.equal('needs: nothing of small files', session.browser.script(NEEDS), '')
    paths = [heavy(session, value) for value in (1, 2)]
    session.fresh()
    cost = Cost(session)
    session.choose(0, *paths)
    said = session.browser.until(NEEDS)
    told = cost.taken()
    megabytes = 40 * max(path.stat().st_size for path in paths) / 1e6
    size = int(re.search(r'([\d,]+) MB', said)[1].replace(',', ''))
    session.equal('needs: what is told', said, answers.say('progress.needs', size=f'{size:,}', command='erd compare'))
    session.said('needs: how much', '' if megabytes <= size <= megabytes + 10 else f'{size} MB in place of {megabytes}')
    session.said('needs: it is told at once', '' if told.is_within(MOST_SECONDS, size + MOST_MEGABYTES) else repr(told))
    session.browser.until("return document.querySelector('.others') !== null", seconds=200)
    session.equal('needs: the list', session.text('#all-differences'), answers.say('difference.all', count=4 * HEAVY_UNITS))
    taken = cost.taken().megabytes
    session.said('needs: the memory (%d MB told, %d MB taken)' % (size, taken), '' if taken <= size + MOST_MEGABYTES else f'{taken} MB')
    session.click('#cancel')
    session.becomes('needs: it is stopped', lambda: session.text('#stopped'), answers.say('sentence.restCancelled'))
    for path in paths:
        path.unlink()


def heavy(session, value):
    """A report with many units, each with four members of this value."""
    made = report([], [style('BS-1', [])])
    del made['Election'][0]['BallotStyle'][0]['OrderedContent']
    made['GpUnit'] += [typed('ReportingUnit', id=f'a{number}', ExternalIdentifier=identified(f'a{number}'), Type='precinct', a=value, b=value, c=value, d=value)
                       for number in range(HEAVY_UNITS)]
    return written(session, f'heavy-{value}.json', made)


def speed(session):
    """The first answer after the page was opened."""
    session.fresh()
    session.browser.all('#examples button')[0].click()
    session.verdict()
    first = milliseconds(session)
    session.click('#choose-others')
    session.browser.all('#examples button')[0].click()
    session.verdict()
    print('        %s: an example in %s ms, and again in %s ms' % (session.browser.name, first, milliseconds(session)))


def milliseconds(session):
    """How long the last answer took."""
    return session.browser.script('return document.documentElement.dataset.milliseconds')


def no_memory(session):
    """The page with less memory for the proved code: it says so, and the next file is judged."""
    if 'poor' not in session.others:
        return
    session.browser.open(session.others['poor'])
    session.browser.until('return document.documentElement.dataset.ready')
    session.choose(0, session.large)
    session.equal('less memory: the verdict', session.verdict(seconds=200), 'Out of memory')
    session.choose(0, COUNTY)
    session.becomes('less memory: a file after that', session.verdict, 'Accepted')
