"""Holds what several pages and texts say against the one place that has it: the member table of docs/PROFILE.md against the
rows of `specs/`, what a voter sees against the member table, the limit on bytes against the constant of the code, exit statuses
against their definition, what the table of reasons names against the code, the calls that take a preference against the code, links
against the pages, lists of pictures and scripts against the folders, and what a person acts on against words by hand, those of
tests/pages/meanings.txt. One line a case that fails, and at the end the counts.
"""

import os
import pathlib
import re
import shutil
import subprocess
import sys

from repository import ROOT
import documented
from cases import tell_cases
from member_table import table_of_page
from voters_table import words_of_voters

SPECS = ROOT / 'crates' / 'erd_tables' / 'specs'


def read(path):
    return (ROOT / path).read_text(encoding='utf-8')


# ---- the member table, as the definitions have it


def rows_by_name():
    """Each named list of rows: its members with their kinds, and the lists that it goes on with."""
    lists = {}
    for name, body in re.findall(r'^(\w+_rows) =\n?((?:.*\n)+?)(?=\n|\Z)', (SPECS / 'Rows.antt').read_text(encoding='utf-8'), re.M):
        members = re.findall(r'\(codes "([^"]+)" is ([^)]+)\)', body)
        lists[name] = (members, re.findall(r'\b(\w+_rows)\b', body))
    return lists


def members_of_rows(lists, name):
    members, others = lists[name]
    found = {member: kind.replace('family.', '').lower() for member, kind in members}
    for other in others:
        found.update(members_of_rows(lists, other))
    return found


def table_of_specs():
    """For each class the kind of each listed member, and the members that it requires."""
    text = read('crates/erd_tables/specs/Rows.antt') + (SPECS / 'Table.antt').read_text(encoding='utf-8')
    lists = rows_by_name()
    rows = dict(re.findall(r'^rows_of_class class\.(\w+) = (\w+_rows)', text, re.M))
    required = {
        name: set(re.findall(r'codes "([^"]+)"', body))
        for name, body in re.findall(r'^required_names class\.(\w+) = (.*)$', text, re.M)
    }
    return {name: (members_of_rows(lists, list_name), required[name]) for name, list_name in rows.items()}


# ---- the member table, as the page has it


def told_by_reason_12(name, kind):
    """Whether an absent member is told in the second phase alone, and so is not required by the table of the shape."""
    return name == 'ExternalIdentifier' and kind == 'identifiers'


def compare_tables():
    specs, page = table_of_specs(), table_of_page()
    yield 'the classes of the member table', sorted(specs), sorted(page)
    for name in sorted(specs):
        members, required = specs[name]
        needed, optional = page.get(name, ({}, {}))
        yield f'the members of {name}', members, {**needed, **optional}
        listed = sorted(member for member, kind in needed.items() if not told_by_reason_12(member, kind))
        yield f'what {name} requires', sorted(required), listed


# ---- what a voter sees


def envelope_of_page():
    """The members of the report that the member table has in the row of the envelope."""
    row = re.search(r'^\| ElectionReport, the envelope \| none \| (.*?) \|$', read('docs/PROFILE.md'), re.M).group(1)
    return set(re.findall(r'`(\w+)`', row))


def compare_seen():
    """Each member of the member table has one word, and that of what is not compared if it is not part of the meaning."""
    words, page, envelope = words_of_voters(), table_of_page(), envelope_of_page()
    yield 'the classes of what a voter sees', sorted(page), sorted(words)
    for name, (needed, optional) in page.items():
        members = {**needed, **optional}
        yield f'what a voter sees of {name}', sorted(members), sorted(words.get(name, {}))
        outside = {member for member, kind in members.items() if kind == 'outside'} | (envelope if name == 'ElectionReport' else set())
        found = {member for member, word in words.get(name, {}).items() if word == 'not compared'}
        yield f'what is not compared in {name}', sorted(outside), sorted(found)


# ---- the limit on bytes


def compare_limits():
    limit = int(re.search(r'pub const MOST_BYTES: usize = ([\d_]+);', read('crates/erd_canon/src/devices/source.rt')).group(1).replace('_', ''))
    pages = sorted({*ROOT.glob('*.md'), *ROOT.glob('docs/*.md'), *ROOT.glob('docs/*.1'), *ROOT.glob('bindings/**/*.[ch]'), *ROOT.glob('tests/*.sh'), *ROOT.glob('crates/*/src/**/*.rt'), *ROOT.glob('crates/*/specs/*.antt')})
    for page in pages:
        numbers = {int(re.sub('[,_]', '', number)) for number in re.findall(r'\b6\d[,_]?\d{3}[,_]?\d{3}\b', page.read_text(encoding='utf-8'))}
        if numbers:
            yield f'the limit on bytes in {page.relative_to(ROOT)}', {limit}, numbers
    mebibytes = re.search(r'\((\d+) MiB\)', read('docs/PROFILE.md'))
    yield 'the limit in MiB', limit, int(mebibytes.group(1)) * 2**20


# ---- the table of reasons


def text_of_reasons():
    """The text of each reason, by its number, as docs/PROFILE.md has it."""
    section = read('docs/PROFILE.md').split('### The reasons')[1].split('\n### ')[0]
    return {int(number): text for number, text in re.findall(r'^\| (\d+) \| .* \| `(.*?)(?: NAME)?` \|$', section, re.M)}


def compare_reasons():
    """Each definition, function and test that docs/DEFINITIONS.md names for a reason is there."""
    texts = text_of_reasons()
    yield 'the numbers of the reasons', list(range(1, len(texts) + 1)), sorted(texts)
    section = read('docs/DEFINITIONS.md').split('## The reasons')[1].split('\n## ')[0]
    specs, judges = (''.join(read(path) for path in re.findall(pattern, section)) for pattern in (r'`(crates/\S+\.antt)`', r'`(crates/\S+\.rt)`'))
    rows = re.findall(r'^\| (\d+) \|.*\| (.*) \| (.*) \| (.*) \|$', section, re.M)
    yield 'the rows of the reasons', sorted(texts), [int(row[0]) for row in rows]
    for number, definitions, functions, tests in rows:
        missing = [name for name in re.findall(r'`(\w+)`', definitions) if not re.search(rf'\bpub (?:data |record )?{name}\b', specs)]
        missing += [name for name in re.findall(r'`(\w+)`', functions) if not re.search(rf'\bfn {name}\b', judges)]
        for name in re.findall(r'`(\w+)`', tests):
            if texts[int(number)] not in read(f'crates/erd_rows/src/tests/{name}.rt'):
                missing.append(name)
        yield f'what stands behind reason {number}', [], missing


# ---- exit statuses


def numbers_of(pattern, text):
    return [int(number) for number in re.findall(pattern, text, re.M)]


def compare_statuses():
    specs = read('crates/erd_canon/specs/Statuses.antt')
    numbers = dict(re.findall(r'^(?:outcome|fault)_status (\w+) = (\d)$', specs, re.M))
    words = {text: int(numbers[name]) for name, text in re.findall(r'^fault_words (\w+) = codes "(.*)"$', specs, re.M)}
    statuses = sorted({int(number) for number in numbers.values()})
    using = read('docs/GUIDE.md')
    yield 'the statuses of docs/GUIDE.md', statuses, sorted(set(numbers_of(r'^\| (\d) \|', using)))
    told = {text: int(number) for number, text in re.findall(r'^\| (\d) \| .* \| `([a-z ]+)` \|$', using, re.M)}
    yield 'the texts of faults in docs/GUIDE.md', words, {text: told.get(text) for text in words}
    help_texts = read('crates/erd_canon/src/commands/help.rt').split('Exit status:\n')[1:]
    yield 'the lists of statuses in the help', 7, len(help_texts)
    for text in help_texts:
        yield 'the statuses of the help', statuses, numbers_of(r'^  (\d)  ', text.split('\n\n')[0])
    manual = read('docs/erd.1').split('.SH EXIT STATUS')[1].split('.SH ')[0]
    yield 'the statuses of docs/erd.1', statuses, numbers_of(r'^\.B (\d)$', manual)
    texts = [text for text in re.findall(r'^\.B ([a-z ]+)$', manual, re.M) if text in words]
    yield 'the texts of faults in docs/erd.1', sorted(words), sorted(set(texts))
    yield 'the statuses of bindings/c/erd.h', statuses, numbers_of(r'^    ERD_(?!LINE_)\w+ = (\d)', read('bindings/c/erd.h'))


# ---- the calls that take a preference


def compare_preferring():
    """docs/PROFILE.md names each public function that takes a preferred type, and no other."""
    functions = re.compile(r'^pub fn (\w+)(?:<[^(]*>)?\([^)]*\bprefer: Option<&str>', re.M)
    found = set()
    for crate in documented.CRATES:
        handed_out = documented.names_at_root(crate)
        for path in (ROOT / 'crates' / crate / 'src').rglob('*.rt'):
            found.update(handed_out & set(functions.findall(path.read_text(encoding='utf-8'))))
    listed = read('docs/PROFILE.md').split('library that take one are ')[1].split('\n\n')[0]
    yield 'the calls of docs/PROFILE.md that take a preference', sorted(found), sorted(re.findall(r'`(\w+)`', listed))


# ---- links


def pages():
    """The pages of the repository: those at the top, and those in its folders, apart from what is built."""
    return {path.relative_to(ROOT) for path in (*ROOT.glob('*.md'), *ROOT.glob('*/*.md'), *ROOT.glob('bindings/*/*.md'))}


def anchor(heading):
    """The anchor that a heading of a page has."""
    return re.sub(r'[^\w -]', '', heading.lower()).replace(' ', '-')


def links(page):
    """The targets of the links of a page, as paths from the top, each with its anchor."""
    text = re.sub(r'^```.*?^```$', '', read(page), flags=re.M | re.S)
    for target in re.findall(r'\]\(((?!https?:)[^)]+)\)', text) + re.findall(r'<img src="([^"]+)"', text):
        path, _, name = target.partition('#')
        yield (pathlib.Path(os.path.normpath(page.parent / path)) if path else page), name


def compare_links():
    reached, waiting = set(), [pathlib.Path('README.md')]
    while waiting:
        page = waiting.pop()
        if page not in reached and page.suffix == '.md' and (ROOT / page).exists():
            reached.add(page)
            waiting += [path for path, _ in links(page)]
    yield 'the pages that links lead to from README.md', sorted(map(str, pages())), sorted(map(str, reached))
    for page in sorted(pages()):
        broken = []
        for path, name in links(page):
            headings = re.findall(r'^#+ (.*)$', read(path), re.M) if path.suffix == '.md' and (ROOT / path).exists() else []
            if not (ROOT / path).exists() or name and name not in map(anchor, headings):
                broken.append(f'{path}#{name}')
        named = re.findall(r'`((?:docs/|conformance/|\.\./)?[A-Z]+\.md|docs/[\w.]+)`', read(page))
        broken += [name for name in named if not any((ROOT / way).exists() for way in (name, page.parent / name))]
        yield f'the links of {page} that lead nowhere', [], broken
    sources = (path for kind in ('rt', 'antt') for path in ROOT.glob(f'crates/*/s*/**/*.{kind}'))
    named = {name for path in sources for name in re.findall(r'docs/[A-Z]+\.md', path.read_text(encoding='utf-8'))}
    yield 'the pages that comments of the crates name and that are not there', [], sorted(name for name in named if not (ROOT / name).exists())


def compare_pictures():
    """Each picture of docs/ is on a page."""
    shown = {path for page in pages() for path, _ in links(page)}
    pictures = {path.relative_to(ROOT) for kind in ('png', 'svg') for path in ROOT.glob(f'docs/*.{kind}')}
    yield 'the pictures that no page shows', [], sorted(map(str, pictures - shown))


def compare_lists():
    """Each script of the page and of the tests says at its top what it has, as CONTRIBUTING.md promises, and each folder of the tests is there."""
    scripts = [*ROOT.glob('web/scripts/*.mjs'), *(path for path in ROOT.glob('tests/*/*.*') if path.suffix in ('.sh', '.py', '.mjs'))]
    silent = [str(path.relative_to(ROOT)) for path in sorted(scripts) if not re.match(r'(#!.*\n)?(//|# |/\*|"""|r""")', path.read_text(encoding='utf-8'))]
    yield 'the scripts that do not say what they have', [], silent
    folders = {name for row in re.findall(r'^\| (`\w+/`.*?) \|', read('CONTRIBUTING.md'), re.M) for name in re.findall(r'`(\w+)/`', row)}
    yield 'the folders of the tests', sorted(path.name for path in (ROOT / 'tests').iterdir() if path.is_dir() and path.name != '__pycache__'), sorted(folders)


# ---- what a person acts on


def compare_meanings():
    """Each page has the words that tests/pages/meanings.txt asks of it."""
    for block in re.split(r'^\[', read('tests/pages/meanings.txt'), flags=re.M)[1:]:
        page, *wanted = block.strip().split('\n')
        text = ' '.join(read(page.rstrip(']')).split())
        yield f'what {page.rstrip("]")} has to tell', [], [words for words in wanted if not re.search(words, text)]


# ---- lengths

MOST_IN_SENTENCE, MOST_IN_PARAGRAPH = 40, 120


def paragraphs_of(page):
    """The paragraphs, items and cells of a page, without code."""
    text = re.sub(r'^ *```.*?^ *```$', '', read(page), flags=re.M | re.S)
    for part in re.split(r'\n\s*\n', text):
        if part.lstrip().startswith('|'):
            yield from (cell for row in part.split('\n') for cell in row.split('|'))
        else:
            yield from re.split(r'\n(?=\s*(?:[-*]|\d+\.) )', part)


def words_in(text):
    return sum(bool(re.search(r'\w', word)) for word in text.split())


def compare_lengths():
    """No paragraph and no sentence of a page is longer than a reader can take in."""
    for page in sorted(pages()):
        paragraphs = list(paragraphs_of(page))
        long = [text[:60] for text in paragraphs if words_in(text) > MOST_IN_PARAGRAPH and not text.lstrip().startswith('<!--')]
        long += [sentence[:60] for text in paragraphs for sentence in re.split(r'(?<=[.!?])\s+(?=[A-Z`*\["(])', text) if words_in(sentence) > MOST_IN_SENTENCE]
        yield f'the long sentences and paragraphs of {page}', [], long


# The most words of each page for readers, and of all pages in English.
MOST_WORDS = {
    'README.md': 800, 'docs/GUIDE.md': 3500, 'docs/FIXES.md': 4500, 'docs/VENDORS.md': 700, 'docs/LIMITS.md': 2000, 'docs/INSTALL.md': 1200,
    'docs/PROFILE.md': 6000, 'docs/API.md': 4000, 'docs/TRUST.md': 4500, 'docs/DEFINITIONS.md': 9300, 'CONTRIBUTING.md': 5000,
    'docs/DECISIONS.md': 3500, 'docs/MEASUREMENTS.md': 1200,
}
MOST_IN_ALL = 45000


def compare_words():
    """No page has more words than are meant for it, nor have all of them together. A page in Spanish says what one in English says."""
    words = {str(page): len(read(page).split()) for page in pages() if not page.name.endswith('.es.md')}
    yield 'the pages with too many words', {}, {page: words[page] for page, most in MOST_WORDS.items() if words[page] > most}
    yield f'at most {MOST_IN_ALL} words in all pages: {sum(words.values())}', True, sum(words.values()) <= MOST_IN_ALL


# ---- the kit


def logic_of(identities):
    """The sums of the logic in lines of `rt version`. Kits with the same sum accept the same proofs."""
    return [identity.partition(' logic ')[2] for identity in identities]


def compare_kit():
    """The README names the logic with which the code is proved. Another build of the kit with this logic is only told."""
    if shutil.which('rt'):
        here = [subprocess.run(['rt', 'version'], capture_output=True, text=True, check=False).stdout.strip()]
        named = re.findall(r'proved with `(.*?)`', read('README.md'))
        yield 'the logic of the kit of README.md', logic_of(here), logic_of(named)
        if here != named and logic_of(here) == logic_of(named):
            print(f'notice: the kit here is {here[0]}; README.md names another build with the same logic, {named[0]}')


if __name__ == '__main__':
    sys.exit(tell_cases([*compare_tables(), *compare_seen(), *compare_limits(), *compare_reasons(), *compare_statuses(), *compare_preferring(),
                         *compare_links(), *compare_pictures(), *compare_lengths(), *compare_words(), *compare_lists(), *compare_meanings(), *compare_kit()]))
