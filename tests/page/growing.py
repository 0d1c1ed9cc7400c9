"""Lists that grow: each difference is shown once, whatever a user clicks meanwhile, and what fails is told."""
import answers
from made import identified, report, style, typed, written

COUNT = 367
BUTTON = "[...document.querySelectorAll('.others > p > button')].at(-1)"
SENTENCES = "return [...document.querySelectorAll('.others > .differences > li')].map((one) => (one.querySelector('summary') ?? one).textContent)"


def units(name, count=COUNT):
    """A report with many units of this name."""
    made = report([], [style('BS-1', [])], ['East'])
    del made['Election'][0]['BallotStyle'][0]['OrderedContent']
    made['GpUnit'] += [typed('ReportingUnit', id=f'u-{number}', Type='precinct', Name=f'{name} {number}', ExternalIdentifier=identified(f'N{number:04}'))
                      for number in range(count)]
    return made


def run(session):
    clicked_twice(session)
    kinds(session)
    begun(session)
    cancelled(session)
    miscounted(session)
    told(session)


def clicked_twice(session):
    """Many clicks at once: the list grows by fifty for each that counts, and has each difference once in the end."""
    session.judged(written(session, 'left.json', units('Ward')), written(session, 'right.json', units('Precinct')))
    session.equal('growing: how many are shown', session.text('.shown-count'), answers.say('difference.shown', shown=50, all=COUNT))
    for _ in range(COUNT):
        clicked = session.browser.script(f"""
            const button = {BUTTON};
            [1, 2, 3].forEach(() => button?.click());
            return button !== undefined;""")
        if not clicked:
            break
        session.browser.until(f'return {BUTTON}?.disabled !== true')
    shown = session.browser.script(SENTENCES)
    session.equal('growing: all are shown, each once', [len(shown), len(set(shown))], [COUNT, COUNT])
    session.equal('growing: the count', session.text('.shown-count'), answers.say('difference.shown', shown=COUNT, all=COUNT))
    session.equal('growing: nothing is wrong', session.texts('.trouble'), [])


def kinds(session):
    """A long list of several kinds stands in groups with their counts. Each is made when it is opened, and all entries are counted."""
    left, right = units('Ward'), units('Precinct')
    for number, (one, other) in enumerate(zip(left['GpUnit'][1:], right['GpUnit'][1:])):
        one['Number'], other['Number'] = f'a{number}', f'b{number}'
    right['GpUnit'] += [typed('ReportingUnit', id=f'z-{number}', Type='precinct', ExternalIdentifier=identified(f'Z{number}')) for number in range(3)]
    session.judged(written(session, 'left.json', left), written(session, 'right.json', right))
    names = [f'Units: {answers.TEXTS[f"member.{name}"]} ({name})' for name in ('Name', 'Number')]
    session.equal('growing: kinds with their counts', session.texts('.kind > summary'), [*(f'{name} {COUNT}' for name in names), 'Units in right.json only 3'])
    session.equal('growing: none is shown yet', session.text('.shown-count'), answers.say('difference.shown', shown=0, all=2 * COUNT + 3))
    session.browser.script("[...document.querySelectorAll('.kind')].slice(1).forEach((one) => { one.open = true; })")
    counted = lambda: [len(session.texts(f'.kind:nth-of-type({at}) .differences > li')) for at in (1, 2, 3)]  # noqa: E731
    session.becomes('growing: those that are opened', counted, [0, 50, 3])
    session.equal('growing: of one kind alone', [text for text in session.texts('.kind:nth-of-type(2) summary')[1:] if '(Number)' not in text], [])
    session.equal('growing: these are counted', session.text('.shown-count'), answers.say('difference.shown', shown=53, all=2 * COUNT + 3))


# Keeps how a list stood when it was first there with its note: the heading, how many entries it had, and the first of them.
WATCH = """
    const [note] = arguments;
    new MutationObserver(() => {
        const holder = [...document.querySelectorAll('#result-rest .note')].find((one) => one.textContent === note)?.parentElement;
        if (window.begun === undefined && holder !== undefined) {
            const entries = holder.querySelectorAll('.differences > li');
            window.begun = [holder.querySelector('h3').textContent, entries.length, entries[0].textContent];
        }
    }).observe(document.getElementById('result-rest'), {childList: true, subtree: true});"""


def begun(session):
    """The first of very many differences are there before their values and names are."""
    count = 3 * COUNT
    paths = [written(session, f'{name}.json', units(name, count)) for name in ('Ward', 'Precinct')]
    session.fresh()
    session.browser.script(WATCH, answers.say('difference.begun'))
    session.choose(0, *paths)
    session.verdict()
    session.equal('growing: the first ones before their values', session.browser.script('return window.begun'),
                  [answers.say('difference.all', count=count), 50, 'Unit (local-level N0000) differs in its name (Name).'])
    session.equal('growing: with their names after that', session.browser.script(SENTENCES)[0], 'Unit “Ward 0” (local-level N0000) differs in its name (Name).')


def cancelled(session):
    """The worker is ended when the list is there: the button for more still works."""
    session.judged(written(session, 'left.json', units('Ward')), written(session, 'right.json', units('Precinct')))
    session.browser.script("document.getElementById('cancel').click()")
    session.browser.script(f'{BUTTON}.click()')
    session.becomes('growing: more after that', lambda: len(session.browser.script(SENTENCES)), 100)
    session.equal('growing: nothing has failed', session.texts('.trouble'), [])


# From now on each piece of a list is the first one.
REPEAT = """
    const post = Worker.prototype.postMessage;
    Worker.prototype.postMessage = function (message) {
        post.call(this, message.kind === 'more' ? {...message, question: {...message.question, from: 0}} : message);
    };"""


def miscounted(session):
    """The page counts what it shows. Where an entry comes twice, it says so, and that nobody should rely on the list."""
    session.judged(written(session, 'left.json', units('Ward')), written(session, 'right.json', units('Precinct')))
    session.browser.script(REPEAT)
    session.browser.script(f'{BUTTON}.click()')
    session.becomes('growing: an entry that comes twice is told', lambda: session.texts('.others .trouble'),
                    [answers.say('difference.miscounted', shown=50, all=COUNT)])


# Whether an element can be seen where a reader is.
IS_IN_VIEW = """
    const { top, bottom, height } = document.querySelector(arguments[0])?.getBoundingClientRect() ?? { height: 0 };
    return height > 0 && top >= 0 && bottom <= innerHeight;"""


def told(session):
    """An error that nothing else takes is shown, and in view at the foot of a long list too."""
    session.judged(written(session, 'left.json', units('Ward')), written(session, 'right.json', units('Precinct')))
    session.browser.script('scrollTo(0, document.body.scrollHeight)')
    session.browser.script("""
        const promise = Promise.resolve();
        dispatchEvent(new PromiseRejectionEvent('unhandledrejection', {promise, reason: new Error('of a test')}));""")
    session.equal('growing: an error is shown', session.texts('#trouble .trouble'), [answers.say('trouble.failed', error='of a test') + ' '])
    session.equal('growing: an error is in view', session.browser.script(IS_IN_VIEW, '#trouble .trouble'), True)
