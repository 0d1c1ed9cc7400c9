"""Holds the blocks of the pages against where they come from: contracts and definitions against the sources, and edits, wrong
lines and cases against their files. Names of the code that pages for developers cite are in the sources, make knows what pages ask
of it, and the files that a page names are there. Each session and each JSON example stands on a page that another test runs. What
the reference program for ballots quotes is on a page. One line a case that fails, and at the end the counts.
"""

import re
import sys

from repository import ROOT
import examples
from cases import tell_cases

# The pages with a quoted block, the beginning of the block, and the files of which one has it. White space may differ.
QUOTES = (
    ('docs/TRUST.md', 'pub fn canonical(', 'crates/erd_canon/src/bytes/*.rt'),
    ('docs/TRUST.md', 'pub record Headline', 'crates/erd_canon/specs/*.antt'),
    ('docs/TRUST.md', 'TellsMeanings ', 'crates/erd_canon/specs/*.antt'),
    ('conformance/README.md', 'case identity-', 'conformance/cases/*.txt'),
    ('CONTRIBUTING.md', 'name: position_', 'tests/bodies/lists/*.txt'),
)
# The pages that cite names of the code, and where these stand.
CITING = ('docs/DECISIONS.md', 'docs/TRUST.md', 'docs/API.md', 'CONTRIBUTING.md')
SOURCES = ('crates', 'bindings', 'packaging', 'tests', 'web', 'conformance', 'contrib', 'reference')
# The pages whose sessions and JSON examples are run by tests/pages/examples.py.
RUN = {'console': set(examples.SESSIONS), 'json': {'docs/FIXES.md', 'docs/API.md'}}


def read(path):
    return (ROOT / path).read_text(encoding='utf-8')


def pages():
    return sorted(str(path.relative_to(ROOT)) for path in (*ROOT.glob('*.md'), *ROOT.glob('*/*.md'), *ROOT.glob('bindings/*/*.md')))


def blocks(page):
    """The blocks of a page: the word behind the three backticks, and the text."""
    word, text = None, []
    for line in read(page).splitlines(keepends=True):
        if not line.startswith('```'):
            text.append(line)
        elif word is None:
            word, text = line[3:].strip(), []
        else:
            yield word, ''.join(text)
            word = None


def codes(page):
    """What a page has in blocks and between backquotes."""
    return [text for _, text in blocks(page)] + re.findall(r'`([^`\n]+)`', read(page))


def bare(text):
    """A text with one blank in place of white space, and without words that only wrong lines need."""
    text = re.sub(r'^(?:case|batch|gate): .*\n', '', text, flags=re.M)
    return ' '.join(text.split())


def quoted():
    for page, beginning, files in QUOTES:
        found = [text for _, text in blocks(page) if text.startswith(beginning)]
        yield f'{page}: the block that begins with {beginning!r}', 1, len(found)
        for text in found:
            holds = [path for path in ROOT.glob(files) if bare(text) in bare(path.read_text(encoding='utf-8'))]
            yield f'{page}: a file has the block that begins with {beginning!r}', True, bool(holds)


def said_of_ballots():
    """What the reference program for ballots quotes between single quotes stands in docs/, where a link counts as its text."""
    text = ' '.join(' '.join(re.sub(r'\[([^]]*)\]\([^)]*\)', r'\1', path.read_text(encoding='utf-8')).split()) for path in ROOT.glob('docs/*.md'))
    said = [' '.join(it.split()) for it in re.findall(r'"""(.*?)"""', read('reference/erd_ballots.py'), re.S)]
    found = [sentence.rstrip('.') for it in said for sentence in re.findall(r"'([^']{12,})'", it)]
    yield 'reference/erd_ballots.py: it quotes the pages', True, len(found) > 10
    yield 'reference/erd_ballots.py: what it quotes and no page says', [], [sentence for sentence in found if sentence not in text]


def words_of_sources():
    """The words in the sources and in the names of their files."""
    found = set()
    for folder in SOURCES:
        for path in (ROOT / folder).rglob('*'):
            if 'out' not in path.parts and path.suffix in ('.rt', '.antt', '.py', '.sh', '.c', '.h', '.mjs', '.edit', '.txt', '.json', ''):
                found.update(re.findall(r'\w+', str(path.relative_to(ROOT))))
                found.update(re.findall(r'\w+', path.read_text(encoding='utf-8', errors='replace')) if path.is_file() else ())
    return found


def cited():
    """A word between backquotes with a low line in it, or with a capital behind a small letter, is a name of the code."""
    words = words_of_sources()
    for page in CITING:
        codes = re.findall(r'`([^`\n]+)`', re.sub(r'^```.*?^```$', '', read(page), flags=re.M | re.S))
        names = {name for code in codes for name in re.findall(r'\b[A-Za-z]\w+\b', code) if re.search(r'_|[a-z][A-Z]', name)}
        yield f'{page}: the names that no source has', [], sorted(names - words - {'minimize_crash'})


def made():
    """Each `make` of a page is a target of the Makefile."""
    targets = set(re.findall(r'^([a-z][a-z-]*):', read('Makefile'), re.M))
    for page in pages():
        names = {name for code in codes(page) for name in re.findall(r'^(?:sudo )?make ([a-z][a-z-]*)', code, re.M)}
        yield f'{page}: what make does not know', [], sorted(names - targets)


def named():
    """Each file of the repository that a page names is there, from the top or from the page."""
    folders = '|'.join(re.escape(path.name) for path in ROOT.iterdir() if path.is_dir() and path.name not in ('.git', 'out'))
    path = re.compile(rf'(?<![\w./~$-])((?:{folders})/(?![\w*]+/out\b)[\w./*-]*[\w*])')
    for page in pages():
        names = {name for code in codes(page) for name in path.findall(code)}
        missing = [name for name in names if not any(any(folder.glob(name)) for folder in (ROOT, (ROOT / page).parent))]
        yield f'{page}: the files that are not there', [], sorted(missing)


def run_elsewhere():
    """No page has a session or a JSON example that is not run, and of docs/FIXES.md each JSON block is one that is."""
    for word, wanted in RUN.items():
        yield f'the pages with blocks of the kind {word}', sorted(wanted), [page for page in pages() if word in dict(blocks(page))]
    page = read('docs/FIXES.md')
    headings, differences = page.split('\n## Differences that')
    count = 2 * len(re.findall(r'^## \d+\. ', headings, re.M)) + 2 * len(re.findall(r'^### ', differences, re.M))
    yield 'the JSON blocks of docs/FIXES.md', count, sum(word == 'json' for word, _ in blocks('docs/FIXES.md'))
    for text in (text for word, text in blocks('docs/API.md') if word == 'json'):
        yield 'a JSON block of docs/API.md is one line', (1, True), (text.count('\n'), text[0] in '[{')


if __name__ == '__main__':
    sys.exit(tell_cases([*quoted(), *said_of_ballots(), *cited(), *made(), *named(), *run_elsewhere()]))
