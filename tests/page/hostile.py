"""An untrusted file is only ever text: names, values and file names that try to be more."""
import json

from session import EXAMPLES

MARKUP = '<img src=x onerror="window.hacked=1"><script>window.hacked=1</script><a href="javascript:window.hacked=1">x</a>'
HIDDEN = 'a\u202eb\u2066c\u200bd\ufeffe\u0007f\u0000g\u2028h\u00a0i\ud7ff\U000e0041j\u061ck'
LONG = 'x' * 300_000
NAMES = {'markup': MARKUP, 'hidden': HIDDEN, 'long': LONG, 'template': '{{constructor}} ${1} {name} {object}',
         'prototype': '__proto__', 'constructor': 'constructor', 'emoji': '\U0001f469\u200d\U0001f469\u200d\U0001f467',
         'marks': 'Z' + '\u0300\u0301' * 200, 'arabic': 'مرشح'}

# What no text of the page may have: controls but line feeds and tabs, and characters that are invisible or change the direction.
UNSEEN = r"""
    const text = [...document.querySelectorAll('header, main, footer')].map((one) => one.textContent).join('');
    const found = text.match(/[\u0000-\u0008\u000b-\u001f\u007f-\u009f\u200b-\u200f\u2028-\u202e\u2060-\u206f\ufeff]/u);
    return found === null ? '' : found[0].codePointAt(0).toString(16);"""

# What no file may bring into the page.
ELEMENTS = """
    const brought = 'img, script, a, iframe, object, svg, style, form';
    return document.querySelectorAll(`#result :is(${brought}), .slot :is(${brought})`).length + (window.hacked ?? 0);"""


def run(session):
    planted(session)
    for name, text in NAMES.items():
        faults(session, name, text)
    for name, text in NAMES.items():
        differences(session, name, text)
    file_name(session)
    many_faults(session)
    shown_whole(session)


def planted(session):
    """The checks find what is planted."""
    session.fresh()
    session.browser.script("document.getElementById('result').append('a\\u202eb')")
    session.equal('the check finds an invisible character', session.browser.script(UNSEEN), '202e')
    session.browser.script("document.getElementById('result').append(document.createElement('a'))")
    session.equal('the check finds an element', session.browser.script(ELEMENTS), 1)


def judged_safely(session, name, *paths):
    verdict = session.judged(*paths)
    session.equal('%s: no element of a file' % name, session.browser.script(ELEMENTS), 0)
    session.equal('%s: nothing unseen' % name, session.browser.script(UNSEEN), '')
    wide = session.browser.script('return document.documentElement.scrollWidth - innerWidth')
    session.said('%s: the page is not wider' % name, '' if wide <= 0 else '%d pixels' % wide)
    return verdict


def small():
    return json.loads((EXAMPLES / 'small-ballot.json').read_text(encoding='utf-8'))


def identifier(kind, value):
    return {'@type': 'ElectionResults.ExternalIdentifier', 'Type': kind, 'Value': value}


def faults(session, name, text):
    """A name of a member, a title on the trail, and a value in an excerpt."""
    report = small()
    contest = report['Election'][0]['Contest'][0]
    contest['Name'] = text
    contest[text] = {text: 1.5, 'Id': text}
    verdict = judged_safely(session, 'faults, ' + name, session.file('hostile.json', json.dumps(report)))
    session.said('faults, %s: refused' % name, '' if verdict.startswith('Refused') else verdict)


def differences(session, name, text):
    """Two files that differ in a text, in a carried member and in a type of identifier."""
    left, right = small(), small()
    contest = right['Election'][0]['Contest'][0]
    contest['Name'] = text
    contest[text] = {text: [text, {text: text}]}
    contest['ExternalIdentifier'].append(identifier('other', text) | {'OtherType': text})
    right['GpUnit'][0]['ExternalIdentifier'].append(identifier('z' + text, text))
    paths = [session.file('left.json', json.dumps(left)), session.file('right.json', json.dumps(right, ensure_ascii=True))]
    verdict = judged_safely(session, 'differences, ' + name, *paths)
    session.equal('differences, %s: told' % name, verdict, 'These two files do not say the same')
    session.open_details()
    session.equal('differences, %s: nothing unseen when open' % name, session.browser.script(UNSEEN), '')
    session.equal('differences, %s: no element when open' % name, session.browser.script(ELEMENTS), 0)


def file_name(session):
    """The name of a file."""
    session.fresh()
    session.browser.script("""
        const transfer = new DataTransfer();
        transfer.items.add(new File(['{}'], arguments[0]));
        document.body.dispatchEvent(new DragEvent('drop', {dataTransfer: transfer, bubbles: true}));""", MARKUP + '\u202egnp.json')
    session.verdict()
    session.equal('the name of a file: no element', session.browser.script(ELEMENTS), 0)
    session.equal('the name of a file: nothing unseen', session.browser.script(UNSEEN), '')


def many_faults(session):
    """A file with very many faults: some are shown, and more when they are asked for."""
    data = '{"@type":"ElectionResults.ElectionReport","Status":"pre-election","Election":[' + ','.join(['{}'] * 100_000) + ']}'
    verdict = judged_safely(session, 'many faults', session.file('many.json', data))
    session.equal('many faults: the verdict', verdict, 'Refused: 100,000 faults')
    session.equal('many faults: one kind', len(session.texts('.card')), 1)
    session.equal('many faults: the places shown', len(session.texts('.places > li')), 10)
    session.browser.script("document.querySelector('.places + p button').click()")
    session.browser.until("return document.querySelectorAll('.places > li').length === 20")
    session.becomes('many faults: the focus is on the first new one', lambda: session.browser.script(
        "return document.activeElement === document.querySelector('.places > li:nth-child(11) .place')"), True)


def shown_whole(session):
    """A long text is cut, and can be seen whole."""
    report = small()
    report['Election'][0]['Contest'][0]['x' * 5000 + 'Id'] = 1
    session.judged(session.file('whole.json', json.dumps(report)))
    length = "return document.querySelector('.card .place').textContent.length"
    before = session.browser.script(length)
    session.browser.script("document.querySelector('.card .pointer button').click()")
    after = session.browser.script(length)
    session.said('a long text, cut and whole', '' if before < 1500 and after > 5000 else '%d, then %d characters' % (before, after))
