"""Pictures of every view for a person to look at, in Chromium: 1280 and 375 pixels wide, light and dark, and as it is printed.
`tests/page/page.sh --views` leaves them in out/views."""
import base64
import json

from session import COUNTY, EXAMPLES, SMALL, SUITE

WIDTHS = (1280, 375)
FAULTY = EXAMPLES / 'state-primary.raw.json'


def run(session):
    for name, show in VIEWS.items():
        show(session)
        session.browser.script("document.activeElement.blur()")
        for width in WIDTHS:
            for dark in (False, True):
                session.browser.scheme(dark)
                write(session, f'{name}-{width}-{"dark" if dark else "light"}.png', whole(session, width))
        session.browser.scheme(False)
        write(session, f'{name}-print.pdf', base64.b64decode(session.browser.command('print')))
        session.said('the view ' + name, '')
    session.browser.resize(1000, 800)


def write(session, name, data):
    (session.pictures / name).write_bytes(data)


def whole(session, width):
    """The whole page at this width."""
    session.browser.resize(width, 800)
    height = session.browser.script('return document.documentElement.scrollHeight')
    clip = {'x': 0, 'y': 0, 'width': width, 'height': min(height, 16_000), 'scale': 1}
    return base64.b64decode(session.browser.devtools('Page.captureScreenshot', clip=clip, captureBeyondViewport=True)['data'])


def changed(session, name='changed.json', path=COUNTY[1], **texts):
    """A copy of a file with some texts replaced."""
    text = path.read_text(encoding='utf-8')
    for old, new in texts.items():
        text = text.replace(old, new)
    return session.file(name, text)


def small(session, name, **members):
    report = json.loads(SMALL.read_text(encoding='utf-8'))
    return session.file(name, json.dumps(report | members, ensure_ascii=False))


def example(session, number):
    session.fresh()
    session.browser.script("document.querySelectorAll('#examples button')[arguments[0]].click()", number)
    session.verdict()
    session.browser.until("return document.documentElement.dataset.busy === 'no'")


def ballots(session, *paths):
    """The ballots, of which the first two are open."""
    session.judged(*paths)
    session.browser.script("document.getElementById('ballots').open = true")
    session.browser.until("return document.querySelector('.style') !== null")
    session.browser.script("[...document.querySelectorAll('.style')].slice(0, 2).forEach((one) => { one.open = true; })")
    session.browser.until("return document.querySelectorAll('.ballot').length >= 2")


def steps(session):
    session.judged(FAULTY)
    session.click('#prepare-begin-0')
    session.browser.until("return document.querySelector('#prepare-check-0') !== null")
    session.browser.script("document.querySelector('.prepare details').open = true")


def copy(session):
    steps(session)
    session.browser.script("document.getElementById('verdict').remove(); document.querySelector('#prepare-check-0').click()")
    session.verdict()


def many(session):
    session.fresh()
    session.choose(0, *COUNTY, SMALL, FAULTY)
    session.browser.until("return document.querySelector('#many-files tbody tr') !== null")


def notices(session):
    twice = SMALL.read_text(encoding='utf-8').replace('"FullName":"Ann Ash"', '"FullName":"Bob Elm","FullName":"Ann Ash"')
    session.judged(session.file('twice.json', twice), small(session, 'notes.json', Notes='Contest C1 is struck by court order'))
    session.browser.script("document.querySelector('.envelope').open = true")


def other_type(session):
    def with_codes(codes):
        report = json.loads(SMALL.read_text(encoding='utf-8'))
        for number, unit in enumerate(report['GpUnit'] + report['Person'] + report['Party']):
            unit['ExternalIdentifier'].insert(0, {'@type': 'ElectionResults.ExternalIdentifier', 'Type': 'a-vendor', 'Value': f'{codes}{number}'})
        return session.file(codes + '.json', json.dumps(report))
    session.judged(with_codes('x'), with_codes('y'))


def spanish(session):
    example(session, 1)
    session.browser.script("""
        document.getElementById('verdict').remove();
        const select = document.getElementById('language');
        select.value = 'es';
        select.dispatchEvent(new Event('change'));""")
    session.verdict()
    session.open_details()


def selections_changed(session):
    """The county with other selections: one more, one less, one for a write-in that has a place, and one with another label."""
    report = json.loads(COUNTY[1].read_text(encoding='utf-8'))
    for contest in report['Election'][0]['Contest']:
        chosen = contest['ContestSelection']
        for one in chosen:
            if one.get('IsWriteIn'):
                one['SequenceOrder'] = one.get('SequenceOrder', 0) + 20
        if chosen[0]['@type'].endswith('CandidateSelection') and chosen[0].get('CandidateIds'):
            chosen[0]['EndorsementPartyIds'] = [report['Party'][0]['@id']]
        elif 'Selection' in chosen[0]:
            chosen[0]['Selection'] = 'Maybe'
    return session.file('selections.json', json.dumps(report, ensure_ascii=False))


def open_all(session, *paths):
    session.judged(*paths)
    session.open_details()


VIEWS = {
    'start': lambda session: session.fresh(),
    'accepted': lambda session: session.judged(SMALL),
    'same': lambda session: example(session, 0),
    'different': lambda session: example(session, 1),
    'faults': lambda session: example(session, 2),
    'faults-many': lambda session: session.judged(SUITE / 'shape-faults-of-the-whole-first-phase' / 'input.json'),
    'not-json': lambda session: session.judged(session.file('comma.json', SMALL.read_bytes().replace(b'}]', b'},]', 1))),
    'not-compared': lambda session: session.judged(FAULTY, session.file('cut.json', SMALL.read_bytes()[:900])),
    'after-election': lambda session: session.judged(small(session, 'results.json', Status='certified')),
    'selections': lambda session: open_all(session, COUNTY[0], selections_changed(session)),
    'renamed': lambda session: open_all(session, COUNTY[0], changed(session, **{'"K-12"': '"K-99"'})),
    'look-alikes': lambda session: open_all(session, SMALL, changed(session, path=SMALL, **{'"Ann"': '"\u0410nn"'})),
    'other-type': other_type,
    'notices': notices,
    'ballots': lambda session: ballots(session, COUNTY[0]),
    'ballots-two': lambda session: ballots(session, COUNTY[0], changed(session, **{'Ingrith': 'Ingrid', '["_841","_516"': '["_516","_841"'})),
    'steps': steps,
    'copy': copy,
    'many': many,
    'spanish': spanish,
}
