"""What a new user does with six files of two vendors, of which two differ in one mistake: drops them, takes the two that stand alone, and reads
what differs. The files of a county have other names inside, another order of what is a set, and another envelope."""
import json
import random
import time

import answers
from flows import DROP
from made import candidate_contest, listed, measure, report, style

COUNTIES = ('Alder', 'Birch', 'Cedar')
VENDORS = ('castor', 'pollux')
RACES = ['S: Quill Oakes Tremblay W', 'C: Wynn Abara W', 'M: Yes No']
MISTAKE = ['S: Quill Oakes W', *RACES[1:]]
WANTED = 'Sheriff, on 1 of 3 ballots: the choice Tremblay is missing in the second file'
MOST_SECONDS = 60


def county(name, vendor, third):
    """The file of a county as a vendor has it; the third style lists these lines."""
    contests = [candidate_contest('S', 'Sheriff', 'Quill', 'Oakes', 'Tremblay'), candidate_contest('C', 'Clerk', 'Wynn', 'Abara'), measure('M', 'Measure 2')]
    styles = [style(f'BS-{number}', [listed(line) for line in lines], f'gp-{number}') for number, lines in enumerate([RACES, RACES, third], 1)]
    made = report(contests, styles, [f'{name} {part}' for part in ('East', 'West', 'North')])
    if vendor == VENDORS[1]:
        return json.dumps(renamed(shuffled(made, random.Random(name))) | {'VendorApplicationId': 'Pollux 9', 'GeneratedDate': '2026-08-09T10:00:00Z'})
    return json.dumps(made, indent=4)


def renamed(value, name=''):
    """The value with another name inside for each object, and in each reference."""
    if isinstance(value, dict):
        return {member: renamed(inner, member) for member, inner in value.items()}
    if isinstance(value, list):
        return [renamed(entry, name) for entry in value]
    return f'pollux-{value}' if name == '@id' or name.endswith(('Id', 'Ids')) else value


def shuffled(made, chance):
    """The report with its sets in another order, and its members too."""
    election = made['Election'][0]
    sets = [made['GpUnit'], *(election[name] for name in ('Candidate', 'Contest', 'BallotStyle'))]
    for entries in sets + [contest['ContestSelection'] for contest in election['Contest']]:
        chance.shuffle(entries)
    return dict(reversed(made.items()))


def run(session):
    files = {f'{name.lower()}.{vendor}.json': county(name, vendor, MISTAKE if (name, vendor) == ('Birch', 'pollux') else RACES)
             for name in COUNTIES for vendor in VENDORS}
    session.fresh()
    begin = time.monotonic()
    session.browser.script(DROP, [{'name': name, 'data': data} for name, data in files.items()], 'body')
    session.browser.until("return document.documentElement.dataset.busy === 'no' && document.querySelectorAll('#many-files tbody tr').length === 6")
    alone = session.browser.script("""
        const rows = [...document.querySelectorAll('#many-files tbody tr')].filter((row) => row.textContent.includes('alone'));
        return rows.map((row) => row.firstChild.textContent);""")
    session.equal('newcomer: the two that stand alone', alone, ['birch.castor.json', 'birch.pollux.json'])
    for name in alone:
        session.browser.script("""
            const rows = [...document.querySelectorAll('#many-files tbody tr')];
            rows.find((row) => row.firstChild.textContent === arguments[0]).querySelector('button').click();""", name)
    session.equal('newcomer: the verdict', session.verdict(), answers.say('verdict.different'))
    session.equal('newcomer: the mistake', session.texts('.finding > summary'), [WANTED])
    session.said('newcomer: it is found within a minute', '' if time.monotonic() - begin < MOST_SECONDS else f'{time.monotonic() - begin:.0f} s')
