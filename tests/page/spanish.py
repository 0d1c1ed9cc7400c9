"""The page in Spanish: its language is switched, and all of it follows."""
import json

from made import candidate_contest, listed, measure, report, style, typed, written
from session import COUNTY, ROOT, SMALL

TEXTS = {lang: json.loads((ROOT / 'web' / ('texts.%s.json' % lang)).read_text(encoding='utf-8')) for lang in ('en', 'es')}


def run(session):
    switched(session)
    faults(session)
    selections(session)
    languages(session)
    titles(session)


def speak(session, language):
    session.browser.script("""
        const select = document.getElementById('language');
        select.value = arguments[0];
        select.dispatchEvent(new Event('change'));""", language)


def switched(session):
    """The start, and a verdict that is shown: in Spanish, and back in English."""
    session.judged(*COUNTY)
    speak(session, 'es')
    session.becomes('Spanish: the verdict', session.verdict, TEXTS['es']['verdict.same'])
    session.equal('Spanish: the language', session.browser.script('return document.documentElement.lang'), 'es')
    for selector, key in (('h1', 'title'), ('#files-heading', 'files.heading'), ('#examples button', 'example.same'), ('#record', 'record.ofComparison')):
        session.equal('Spanish: ' + key, session.text(selector), TEXTS['es'][key])
    session.open_details()
    english = [text for key, text in TEXTS['en'].items() if isinstance(text, str) and len(text) > 20 and '{' not in text]
    shown = session.browser.script("return document.body.innerText")
    session.equal('Spanish: nothing in English', [text for text in english if text in shown], [])
    speak(session, 'en')
    session.becomes('Spanish: and back', session.verdict, TEXTS['en']['verdict.same'])


def faults(session):
    """The explanations of faults."""
    session.fresh()
    speak(session, 'es')
    session.browser.script("document.querySelectorAll('#examples button')[2].click()")
    session.becomes('Spanish: a refused file', session.verdict, 'Rechazado: 3 errores')
    session.said('Spanish: an explanation', '' if 'Una referencia nombra un @id que ningún objeto del archivo tiene.' in session.text('.faults') else 'there is none')
    speak(session, 'en')


def selections(session):
    """What differs inside the selections of a contest."""
    text = SMALL.read_text(encoding='utf-8').replace('"IsWriteIn":true', '"IsWriteIn":true,"SequenceOrder":3').replace('"CandidateIds":["a7"]', '"CandidateIds":["a7"],"IsWriteIn":false')
    session.fresh()
    speak(session, 'es')
    for side, path in enumerate((SMALL, session.file('otro.json', text))):
        session.choose(side, path)
        session.verdict()
    session.becomes('Spanish: selections', lambda: session.texts('[aria-labelledby="first-difference"] :is(.inside-heading, .inside > li)'), [
        '3 diferencias entre sus selecciones', 'Solo en small-ballot.json: la selección candidato por escrito',
        'Solo en otro.json: la selección candidato por escrito (lugar 3)',
        'La selección Candidato “Cy” (local-level K3) difiere en la marca de candidato por escrito (IsWriteIn).'])
    session.equal('Spanish: the values of a selection', session.texts('[aria-labelledby="first-difference"] tbody:last-child :is(th, td)'),
                  ['Candidato “Cy” (local-level K3): la marca de candidato por escrito (IsWriteIn)', 'no está', '', '', '≠difiere:false'])
    session.has('Spanish: things have articles', session.text('#first-difference + .sentence'), 'La contienda “')
    speak(session, 'en')


# The names of the languages of a ballot in each language of the page, in the order that a reader of it knows: by letters and not by code points.
NAMES = {'en': ['Arabic (ar)', 'Chinese (zh)', 'German (de)', 'Spanish (es)'], 'es': ['alemán (de)', 'árabe (ar)', 'chino (zh)', 'español (es)']}


def languages(session):
    """Languages have the names that a reader knows, and stand in the order of these names."""
    title = typed('InternationalizedText', Text=[typed('LanguageString', Content=f'Sheriff {tag}', Language=tag) for tag in ('zh', 'es', 'de', 'ar')])
    contest, candidates = candidate_contest('S', 'Sheriff', 'Ann', BallotTitle=title)
    path = written(session, 'languages.json', report([(contest, candidates)], [style('BS-1', [typed('OrderedContest', ContestId='S')])]))
    for language, names in NAMES.items():
        session.fresh()
        speak(session, language)
        session.choose(0, path)
        session.verdict()
        session.browser.script("document.getElementById('ballots').open = true")
        session.becomes(f'Spanish: languages to choose from, {language}', lambda: session.texts('#ballot-language option')[1:], names)
        session.has(f'Spanish: languages of a file, {language}', session.text('#card'), ', '.join(names))
    speak(session, 'en')


def titles(session):
    """A sentence on the ballots has the title of a contest in the language of the page, where the file has it."""
    def made(lines):
        texts = [typed('LanguageString', Content=text, Language=tag) for tag, text in (('en-US', 'Road Bond'), ('es-US', 'Bono vial'))]
        title = typed('InternationalizedText', Text=texts)
        return report([measure('M', 'Measure', BallotTitle=title)], [style('BS-1', [listed(lines)])])

    paths = [written(session, 'left.json', made('M: Yes No')), written(session, 'right.json', made('M: No'))]
    for language, wanted in (('es', 'Bono vial, en 1 de 1 boletas: la opción Yes falta en el segundo archivo'),
                             ('en', 'Road Bond, on 1 of 1 ballots: the choice Yes is missing in the second file')):
        session.fresh()
        speak(session, language)
        session.choose(0, *paths)
        session.verdict()
        session.becomes(f'Spanish: the title of a contest, {language}', lambda: session.texts('.finding > summary'), [wanted])
