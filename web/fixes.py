"""Reads docs/FIXES.md, and fixes.es.md, which is some of it in Spanish: for each reason what it means, where it comes from and how it is fixed."""
import pathlib
import re

PROFILE = pathlib.Path(__file__).resolve().parent.parent / 'docs' / 'PROFILE.md'
LABELS = {
    'What it means.': 'meaning', 'Where it comes from.': 'origin', 'How to fix it.': 'fixing',
    'Qué significa.': 'meaning', 'De dónde viene.': 'origin', 'Cómo se corrige.': 'fixing',
}

# The explanations of texts that look alike, by how their headings begin: which ways to look alike they are for.
ALIKE = {
    'Two spellings of one letter': ('spelling', 'blanks'), 'Dos maneras de escribir una letra': ('spelling', 'blanks'),
    'Letters of another alphabet': ('letters', 'hidden', 'marks'),
    'Letras de otro alfabeto': ('letters', 'hidden', 'marks'),
}


class FixesError(Exception):
    """The page does not have the form that is read here."""


def read(path):
    """For each reason its paragraphs, each a list of texts and of pieces of code; and those of texts that look alike."""
    text = path.read_text(encoding='utf-8')
    sections = {}
    for heading, body in re.findall(r'^## (.+)\n((?:(?!## ).*\n?)*)', text, re.M):
        found = re.fullmatch(r'(not JSON)|(\d+)\. .*', heading)
        if found:
            sections[found[1] or found[2]] = section(heading, body)
    if sorted(sections) != sorted(['not JSON', *reasons()]):
        raise FixesError('%s has sections for %s' % (path.name, ', '.join(sections)))
    return sections | {'alike': alike(text)}


def reasons():
    """The numbers of the table of reasons."""
    return re.findall(r'^\| (\d+) \| [A-Z]\w+: ', PROFILE.read_text(encoding='utf-8'), re.M)


def alike(text):
    """For each way to look alike its first paragraph."""
    found = {}
    for heading, paragraph in re.findall(r'^### (.+)\n\n(.+)$', text, re.M):
        found.update({way: [pieces(paragraph)] for beginning, ways in ALIKE.items() if heading.startswith(beginning) for way in ways})
    if len(found) != 5:
        raise FixesError('the explanations of texts that look alike are those of %s' % ', '.join(found))
    return found


def section(heading, body):
    paragraphs = {}
    for paragraph in re.split(r'\n\n+', body.strip()):
        found = re.fullmatch(r'\*\*([^*]+)\*\* (.*)', paragraph, re.S)
        if found and found[1] in LABELS:
            paragraphs[LABELS[found[1]]] = [pieces(found[2])]
    if sorted(paragraphs) != sorted(set(LABELS.values())):
        raise FixesError('the section %s has only %s' % (heading, ', '.join(paragraphs)))
    return paragraphs


def pieces(text):
    """The words of a paragraph, and its pieces of code. Of a link the words remain."""
    text = re.sub(r'\[([^\]]+)\]\([^)]+\)', r'\1', text.replace('\n', ' '))
    parts = re.split(r'`([^`]+)`', text)
    return [{'code': part} if index % 2 else part for index, part in enumerate(parts) if part]
