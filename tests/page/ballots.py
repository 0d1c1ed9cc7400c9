"""The view of the ballots, against the files themselves: what each ballot has on it, in its order, in each language."""
import base64
import json
import re

from flows import pages_of
from session import EXAMPLES, ROOT

COUNTY = EXAMPLES / 'county.vendor-a.json'
OTHER = EXAMPLES / 'county.vendor-b.json'

# What the view shows of each ballot: its heads, its contests with their selections, all texts one after another.
READ = """
    const texts = (node, selector) => [...node.querySelectorAll(selector)].map((one) => one.textContent);
    return [...document.querySelectorAll('.style')].map((style) => ({
        summary: style.querySelector('summary').textContent,
        items: [...style.querySelectorAll('.header, .contest')].map((item) => [item.className.split(' ')[0], texts(item, ':scope > .line-title > .text'),
            [...item.querySelectorAll(':scope > ol > li')].map((line) => texts(line, '.line-name > .text'))]),
    }));"""


def run(session):
    one_file(session)
    filtered(session)
    spoken(session)
    two_files(session)
    printed(session)


def label(value):
    """The texts of a label, by language."""
    return [value] if isinstance(value, str) else [text['Content'] for text in sorted(value['Text'], key=lambda one: one['Language'])]


class Report:
    """The objects of a report by their `@id`, as the file has them."""

    def __init__(self, path):
        self.report = json.loads(path.read_text(encoding='utf-8'))
        self.election = self.report['Election'][0]
        lists = [self.report.get(name, []) for name in ('GpUnit', 'Party', 'Header')]
        lists += [self.election[name] for name in ('Candidate', 'Contest')] + [one['ContestSelection'] for one in self.election['Contest']]
        self.named = {one['@id']: one for entries in lists for one in entries}

    def names(self, selection):
        """What a selection is called: its candidates, its label, or its parties. Candidates and parties are sets."""
        found = [text for one in selection.get('CandidateIds', []) for text in label(self.named[one]['BallotName'])]
        found += label(selection['Selection']) if 'Selection' in selection else []
        return sorted(found + [text for one in selection.get('PartyIds', []) for text in label(self.named[one]['Name'])])

    def tops(self):
        """The candidates at the top of a ticket."""
        return {text for one in self.election['Candidate'] if one.get('IsTopTicket') for text in label(one['BallotName'])}

    def items(self, content):
        """The headers and contests of a ballot, with the names of the selections."""
        found = []
        for entry in content:
            if 'HeaderId' in entry:
                found += [['header', label(self.named[entry['HeaderId']]['Name']), []], *self.items(entry.get('OrderedContent', []))]
            else:
                contest = self.named[entry['ContestId']]
                lines = [self.names(self.named[one]) for one in entry.get('OrderedContestSelectionIds', [])]
                found.append(['contest', label(contest.get('BallotTitle', contest['Name'])), lines])
        return found

    def ballots(self):
        """Each ballot by the code of its style."""
        return {style['ExternalIdentifier'][0]['Value']: self.items(style['OrderedContent']) for style in self.election['BallotStyle']}


def one_file(session):
    """Each ballot of a file has what the file says, in its order."""
    session.judged(COUNTY)
    session.open_details()
    report = Report(COUNTY)
    wanted = report.ballots()
    shown = session.browser.script(READ)
    session.equal('ballots: how many', len(shown), len(wanted))
    for ballot in shown:
        code = re.search(r'BS-\d+', ballot['summary'])[0]
        lines = [[kind, texts, [sorted(names) for names in selections] if wanted_item[2] else []]
                 for (kind, texts, selections), wanted_item in zip(ballot['items'], wanted[code])]
        session.equal('ballots: what is on %s' % code, lines, wanted[code])
        session.equal('ballots: how much is on %s' % code, len(ballot['items']), len(wanted[code]))
    tickets = [names for ballot in shown for _, _, selections in ballot['items'] for names in selections if len(names) > 1 and report.tops() & set(names)]
    session.equal('ballots: the top of a ticket comes first', [names for names in tickets if names[0] not in report.tops()], [])
    unlisted = sum(count_unlisted(style['OrderedContent'], report) for style in report.election['BallotStyle'])
    session.equal('ballots: lines without an order', session.texts('#ballots .ballot .contest > p.own').count(UNLISTED), unlisted)
    langs = session.browser.script("return [...new Set([...document.querySelectorAll('#ballots .ballot [lang]')].map((one) => one.lang))].sort()")
    session.equal('ballots: the languages', langs, ['en-US', 'es-US'])


UNLISTED = json.loads((ROOT / 'web' / 'texts.en.json').read_text(encoding='utf-8'))['ballot.unlisted']


def count_unlisted(content, report):
    """How many contests of a ballot list several selections in no order."""
    return sum(count_unlisted(entry.get('OrderedContent', []), report) if 'HeaderId' in entry
               else 'OrderedContestSelectionIds' not in entry and len(report.named[entry['ContestId']].get('ContestSelection', [])) > 1
               for entry in content)


def filtered(session):
    """The ballots of one precinct."""
    session.judged(COUNTY)
    session.browser.script("document.getElementById('ballots').open = true")
    session.browser.until("return document.querySelector('.style') !== null")
    session.browser.one('#ballot-filter').type('birch')
    session.becomes('ballots: those of a precinct', lambda: len(session.texts('.style')), 1)
    session.has('ballots: the precinct', session.text('.style summary'), 'Birch Hill')
    session.browser.one('#ballot-filter').type(' nowhere')
    session.becomes('ballots: those of no precinct', lambda: session.texts('.style'), [])
    # The number and the code of a precinct, and the name and the code of a district, with the code of a style that has it.
    for words, code in (('105', 'BS-2'), ('p-5', 'BS-2'), ('hill library', 'BS-1'), ('w-7', 'BS-3')):
        session.browser.script("const box = document.getElementById('ballot-filter'); box.value = ''; box.dispatchEvent(new Event('input'))")
        session.becomes(f'ballots: all before {words}', lambda: len(session.texts('.style')), 4)
        session.browser.one('#ballot-filter').type(words)
        session.becomes(f'ballots: found by {words}', lambda: len(session.texts('.style')) in (1, 2), True)
        session.has(f'ballots: the one found by {words}', ' '.join(session.texts('.style summary')), code)


def spoken(session):
    """The ballots in one language alone. A text without a language stays."""
    session.judged(COUNTY)
    session.open_details()
    session.browser.script("""
        const select = document.getElementById('ballot-language');
        select.value = 'es-US';
        select.dispatchEvent(new Event('change'));""")
    shown = session.browser.script("""
        return [...new Set([...document.querySelectorAll('#ballots .ballot .text')].filter((one) => !one.hidden).map((one) => one.dataset.lang))].sort()""")
    session.equal('ballots: one language', shown, ['', 'es-US'])


def changed(session):
    """The other vendor's file with a name misspelled, two selections exchanged, and a contest taken off one ballot."""
    report = json.loads(OTHER.read_text(encoding='utf-8'))
    election = report['Election'][0]
    candidate = next(one for one in election['Candidate'] if one['BallotName'] == 'Ingrith Sablewood')
    candidate['BallotName'] = 'Ingrid Sablewood'
    style = next(one for one in election['BallotStyle'] if one['ExternalIdentifier'][0]['Value'] == 'BS-4')
    entry = contests_of(style['OrderedContent'])[0]
    entry['OrderedContestSelectionIds'][:2] = reversed(entry['OrderedContestSelectionIds'][:2])
    last = style['OrderedContent'][-2]
    last['OrderedContent'].pop()
    return session.file('changed.json', json.dumps(report))


def contests_of(content):
    """The contests that list two selections or more."""
    found = []
    for entry in content:
        found += contests_of(entry.get('OrderedContent', []))
        found += [entry] if len(entry.get('OrderedContestSelectionIds', [])) > 1 else []
    return found


def two_files(session):
    """What differs is marked in place: changed words, what moved, and what only one file has. Ballots that are the same are folded."""
    session.judged(COUNTY, changed(session))
    session.open_details()
    words = session.browser.script("return [...document.querySelectorAll('#ballots .ballot .line-name :is(del, ins)')].map((one) => `${one.tagName} ${one.lastChild.textContent}`)")
    session.equal('ballots: changed words', [words[:2], set(words)], [['DEL Ingrith', 'INS Ingrid'], {'DEL Ingrith', 'INS Ingrid'}])
    four = "[...document.querySelectorAll('.style')].find((one) => one.querySelector('summary').textContent.includes('BS-4'))"
    moved = session.browser.script("return [...%s.querySelectorAll('.selection.moved > .ballot-mark')].map((one) => one.textContent)" % four)
    session.equal('ballots: what moved', moved, ['moved from 1 to 2'])
    removed = "return [...%s.querySelectorAll('.header.removed, .contest.removed')].map((one) => one.querySelector('.line-title .text').textContent)"
    session.equal('ballots: what was removed', session.browser.script(removed % four), ['District Measures', 'Measure C', 'Library Roof Bond'])
    session.judged(COUNTY, OTHER)
    session.browser.script("document.getElementById('ballots').open = true")
    session.browser.until("return document.querySelector('.style') !== null")
    session.equal('ballots: those that are the same', session.text('#ballots details summary'), '4 ballot styles are the same')
    session.equal('ballots: they are folded', session.browser.script("return document.querySelector('#ballots .styles').closest('details').open"), False)


def printed(session):
    """All ballots are printed, each on pages of its own; then one of them alone."""
    session.judged(COUNTY)
    session.browser.script("document.getElementById('ballots').open = true")
    session.browser.until("return document.querySelector('.style') !== null")
    session.browser.script('window.print = () => { window.printed = (window.printed ?? 0) + 1; }')
    session.browser.script("[...document.querySelectorAll('#ballots .controls button')].at(-1).click()")
    session.browser.until('return window.printed === 1')
    session.equal('ballots: all of them are printed', len(session.texts('.print-pages .ballot-head')), 4)
    pdf = base64.b64decode(session.browser.command('print'))
    session.said('ballots: printed', '' if pages_of(pdf) >= 4 else '%d pages' % pages_of(pdf))
    session.browser.script("dispatchEvent(new Event('afterprint'))")
    session.equal('ballots: nothing is left after that', session.browser.script("return document.querySelectorAll('.print-pages').length"), 0)
    session.browser.script("document.querySelector('.style').open = true")
    session.browser.until("return document.querySelector('.style .ballot') !== null")
    session.browser.script("[...document.querySelectorAll('.style > div > p > button')].at(-1).click()")
    session.browser.until('return window.printed === 2')
    session.equal('ballots: one alone', len(session.texts('.print-pages .ballot-head')), 1)
    session.browser.script("dispatchEvent(new Event('afterprint'))")
