"""Holds docs/DEFINITIONS.md against the definitions in `specs/`, and public contracts against `specs/code/`. No two definitions
have one name. Lines of comments have at most 130 characters, and all others at most 160, but for an attribute, which `rt fmt`
writes into one line.

The lines of the page are made from the comments that stand before the definitions, and the order of the files is that of
each `Lib.antt`. A line has the first sentence of a comment. What a comment ends with in brackets is its source: the source
that most definitions of a file have stands once, after the name of the file. The page leaves out a definition that only its own file
uses, and one on which no promise of `closures.py` rests; a file that then has none is named alone. With `--write` these lines are
written anew; what else stands on the page is written by hand.

A reader may skip `specs/code/`: no clause of a public function or trait cites a definition from there, and no other
definition in `specs/` does. What a source imports from `specs/Words.antt` is passed on from other files of `specs/`, so that
file may not name `specs/code/` either: a source then imports from there by lines of its own, which are read here.

The names that the table of words in docs/TRUST.md quotes stand in the sources, and a word of it that is used for one
thing alone stands in the names of the crates that know this thing, and of no other (`KNOWING`).
"""

import re
import sys

from repository import ROOT
from cases import differing_lines, tell_cases
from closures import under_promises, used_elsewhere

PAGE = ROOT / 'docs' / 'DEFINITIONS.md'
CRATES = ['erd_tables', 'erd_index', 'erd_check', 'erd_prepare', 'erd_text', 'erd_meaning', 'erd_normal', 'erd_shown', 'erd_compare', 'erd_canon', 'erd_program', 'erd_c']
# Words of the table in docs/TRUST.md, with the crates whose files, functions, types and definitions may be named by them.
KNOWING = {
    'position': ['erd_index', 'erd_meaning', 'erd_normal', 'erd_compare'],
    'rank': ['erd_meaning', 'erd_normal', 'erd_compare'],
    'rising': ['erd_tables', 'erd_text', 'erd_meaning', 'erd_normal', 'erd_compare'],
    'salt': ['erd_index', 'erd_meaning'],
    'part': ['erd_compare'],
    'saying': ['erd_normal'],
}
# Where such a word has a second sense: in `erd_check` what a visitor knows of the value that it is at, in `erd_index` the whole
# blocks of a text that is hashed, in `erd_prepare` an object of a class of the table, and in `erd_canon` and `erd_program` what
# has been written of an answer.
SECOND = {('position', 'erd_check'), ('part', 'erd_index'), ('part', 'erd_prepare'), ('part', 'erd_canon'), ('part', 'erd_program')}

# The words of a sentence that stands on the page as it is.
MOST_WORDS = 11
# A longer sentence than the second is cut at a comma behind so many words.
LEAST_AT_COMMA, MOST_AT_COMMA = 5, 12

# Where the definitions of a file come from, if their comments do not say: the file, or one of its definitions.
PROFILE = 'profile'
SOURCES = {
    'erd_c/Lines': 'this project',
    'erd_c/Prepared': 'this project',
    'erd_c/Told': 'this project',
    'erd_canon/Bytes.IsNotJson': 'RFC 8259, as `serde_json` reads it',
    'erd_canon/DataAnswers': 'docs/API.md',
    'erd_canon/DataValues': 'docs/API.md',
    'erd_canon/Devices': 'this project',
    'erd_canon/Engines': 'this project',
    'erd_canon/LineAnswers': 'docs/API.md',
    'erd_canon/Answering': 'this project',
    'erd_canon/Options.has_flag': 'the grammar of `clap`',
    'erd_canon/Options.preference_in': 'the grammar of `clap`',
    'erd_canon/Options.steps_in': 'the grammar of `clap`',
    'erd_canon/Options.steps_words': 'this project',
    'erd_canon/ReadLines': 'the grammar of `clap`',
    'erd_canon/ReadLines.IsReadExactly': 'this project',
    'erd_canon/Subcommands': 'this project',
    'erd_canon/Writing': 'this project',
    'erd_check/Faults.is_text': 'RFC 8259, section 3',
    'erd_check/Faults.is_array': 'RFC 8259, section 3',
    'erd_check/Faults.is_object': 'RFC 8259, section 3',
    'erd_check/Faults.is_empty_array': 'RFC 8259, section 3',
    'erd_check/Faults.lacks': 'RFC 8259, section 3',
    'erd_check/Numbers': 'the reading of `serde_json`',
    'erd_check/Paths': 'this project',
    'erd_check/Trees': 'RFC 8259',
    'erd_check/Trees.IsNumber': 'the reading of `serde_json`',
    'erd_check/Trees.IsShallow': 'the reading of `serde_json`',
    'erd_check/Trees.IsNoDeeper': 'the reading of `serde_json`',
    'erd_check/Values': 'RFC 8259, section 5',
    'erd_check/Visits': 'this project',
    'erd_compare/DifferenceData': 'docs/API.md',
    'erd_compare/DifferenceLine.key_as_json': 'RFC 8259',
    'erd_index/Salts': 'this project',
    'erd_meaning/Hashes': 'this project',
    'erd_meaning/Lookups.id_in': "the standard's rule of references",
    'erd_meaning/Lookups.election_in': 'class Election',
    'erd_meaning/Lookups.FindsId': "the standard's rule of references",
    'erd_meaning/Meaning.Content': 'classes BallotStyle and OrderedHeader',
    'erd_meaning/Meaning.Node': 'classes BallotStyle and OrderedHeader',
    'erd_meaning/NumberedNames': 'this project',
    'erd_meaning/Objects.has_id': "the standard's rule of references",
    'erd_meaning/Objects.owner_at': "the standard's rule of references",
    'erd_meaning/Objects.is_owned': "the standard's rule of references",
    'erd_meaning/Places': 'this project',
    'erd_meaning/RankedNames': 'this project',
    'erd_meaning/Records.content_inside': 'classes BallotStyle and OrderedHeader',
    'erd_meaning/Records.is_header_class': 'classes OrderedContest and OrderedHeader',
    'erd_meaning/Records.node_of': 'classes BallotStyle and OrderedHeader',
    'erd_meaning/Records.nodes_of': 'classes BallotStyle and OrderedHeader',
    'erd_prepare/Changes': 'this project',
    'erd_prepare/Laws': 'this project',
    'erd_prepare/ClassNames': 'docs/FIXES.md',
    'erd_prepare/LocalSteps': 'docs/FIXES.md',
    'erd_prepare/Local': 'docs/FIXES.md',
    'erd_prepare/Names': 'docs/FIXES.md',
    'erd_prepare/Nulls': 'docs/FIXES.md',
    'erd_prepare/Numbers': 'this project',
    'erd_prepare/Persons': 'docs/FIXES.md',
    'erd_prepare/Places': 'this project',
    'erd_prepare/Plans': 'this project',
    'erd_prepare/Preparations': 'this project',
    'erd_prepare/Reading.IsNoJson': 'RFC 8259, as `serde_json` reads it',
    'erd_prepare/Reading.IsReadAs': 'the reading of `serde_json`',
    'erd_prepare/Rules': 'this project',
    'erd_prepare/Steps': 'this project',
    'erd_prepare/StepWords': 'docs/FIXES.md',
    'erd_prepare/Styles': 'docs/FIXES.md',
    'erd_prepare/WholeNumbers': 'docs/FIXES.md',
    'erd_meaning/SaltWrites': 'this project',
    'erd_program/Files': 'this project',
    'erd_program/Messages': 'this project',
    'erd_program/Program': 'this project',
    'erd_program/World': 'this project',
    'erd_tables/Classes.class_name': 'the standard',
    'erd_tables/Classes.text_of_class': 'the standard',
    'erd_tables/Classes.classes': 'the standard',
    'erd_tables/Classes.class_of_text': 'the standard',
    'erd_tables/Classes.NamesItsClass': 'the standard',
    'erd_tables/Families': 'this project',
    'erd_tables/Rows.selection_rows': 'class ContestSelection',
    'erd_text/Tokens': 'RFC 8259',
}

DEFINITION = re.compile(r'(?:  )?(?:abbrev pub|pub data|pub record|pub)\s+([^\s:({]+)')


def definitions(path):
    """The public definitions of a file, each with the words of its comment. Of several that stand together as `mutual`,
    one without a comment goes with the one before it."""
    found = []
    comment = []
    for line in path.read_text(encoding='utf-8').splitlines():
        text = line.strip()
        match = DEFINITION.match(line)
        if text.startswith('-- ----') or not text:
            comment = []
        elif text.startswith('--'):
            comment.append(text[2:].strip())
        elif match and match.group(1) not in ('use', 'mod') and not is_field(line, path):
            if comment or not line.startswith(' '):
                found.append((match.group(1), ' '.join(comment)))
            comment = []
        elif text not in ('mutual', 'abbrev mutual'):
            comment = []
    return found


def is_field(line, path):
    """Whether a line that begins with `pub` is a field of a record: it is set in, and no part of a `mutual` block."""
    if not line.startswith('  '):
        return False
    before = path.read_text(encoding='utf-8').split(line + '\n')[0].splitlines()
    outer = next((text for text in reversed(before) if text and not text.startswith((' ', '--'))), '')
    return outer not in ('mutual', 'abbrev mutual')


def words_and_source(crate, name, definition, comment):
    """The first sentence of the comment, and the source of the definition."""
    words, source = comment, None
    match = re.fullmatch(r'(.*?) \(([^()]*)\)(;.*)?', comment)
    if match and is_source(match.group(2)):
        words, source = match.group(1) + (match.group(3) or ''), match.group(2)
    if re.match(r'class [A-Z]', words):
        words, source = 'members of ' + words, source or class_of(words)
    source = source or SOURCES.get(f'{crate}/{name}.{definition}') or SOURCES.get(f'{crate}/{name}') or PROFILE
    return first_sentence(words), source


def first_sentence(words):
    """The first sentence of a comment without its stop. Of a long one, what stands before its colon, or before a part that only says more,
    unless that is a condition."""
    sentence = re.split(r'(?<=\.) (?=[A-Z`])', words)[0].removesuffix('.')
    front = re.match(r'(?!If ).{20,}?(?=[:;] |, (?:which|such as|as|where|with) )', sentence)
    return front[0] if front and len(sentence.split()) > MOST_WORDS else cut_at_comma(sentence)


def cut_at_comma(sentence):
    """A long sentence up to its last comma that stands within the first words, with a mark where it was cut."""
    words = sentence.split()
    fronts = [' '.join(words[:count]) for count in range(LEAST_AT_COMMA, min(MOST_AT_COMMA + 1, len(words)))]
    fronts = [front for front in fronts if front.endswith((',', ';')) and front.count('(') == front.count(')')]
    return fronts[-1].rstrip(',;') + '…' if fronts and len(words) > MOST_AT_COMMA else sentence


def is_source(words):
    return re.match(r"profile|class|RFC|docs/|the standard|this project(?!'s word)|`", words) is not None


def class_of(comment):
    """The class that rows of the member table are of."""
    return re.match(r'class [A-Za-z]+', comment).group(0)


def modules(path):
    """The files that a list of modules names, in its order."""
    return [name for name in re.findall(r'^pub mod (\w+)', path.read_text(encoding='utf-8'), re.M) if name != 'code']


def lines_of_crate(crate, trusted, used):
    """The lines of a crate: the first words of each file with its source, and its definitions on which promises rest and that other files
    use. Files that have none are named alone."""
    specs = ROOT / 'crates' / crate / 'specs'
    lines, alone = [], []
    for name in modules(specs / 'Lib.antt'):
        found = [(definition, *words_and_source(crate, name, definition, comment))
                 for definition, comment in definitions(specs / f'{name}.antt')]
        sources = [source for _, _, source in found]
        usual = max(sources, key=sources.count, default=PROFILE)
        of_promises = [one for one in found if one[0] in trusted.get(f'{crate}/{name}', ())]
        read = [one for one in of_promises if (f'{crate}/{name}', one[0]) in used]
        if not read:
            alone.append(name)
            continue
        lines += [f'**{name}** ({usual}): {first_words(specs / (name + ".antt"))}', '']
        lines += [*(f'- `{definition}`: {words}' + (f' ({source})' if source != usual else '') for definition, words, source in read), '']
    lines += [f'**Named alone**: {", ".join(alone)}', ''] if alone else []
    return lines


def first_words(path):
    """The first sentence of a file."""
    words = ' '.join(line[2:].strip() for line in path.read_text(encoding='utf-8').split('\nuse ')[0].splitlines() if line.startswith('--'))
    return words.split('. ')[0].rstrip('.') + '.'


def made_anew(page):
    """The page with the lines of each crate made anew."""
    trusted, used = under_promises(), used_elsewhere()
    for crate in CRATES:
        lines = '\n'.join(lines_of_crate(crate, trusted, used))
        page = re.sub(rf'(?<=^## {crate}\n\n).*?(?=^## |\Z)', lambda _: lines + '\n', page, flags=re.M | re.S)
    return page.rstrip('\n') + '\n'


CODE_IMPORT = re.compile(r'^\s*(?:(?:ghost|pub|unfoldable pub) )?use Rattle\.\w+\.specs\.code\.\w+(?:\.\{([^}]*)\})?', re.M)
PUBLIC = re.compile(r'^(?: {4})?pub (?:fn|trait) (\w+)(.*?)\n(?: {4})?(?:\{|\}|\{\})$', re.M | re.S)


def code_cited():
    """Where a public contract, or a definition outside `specs/code/`, cites a definition of `specs/code/`."""
    found = []
    for path in sorted(ROOT.glob('crates/*/src/**/*.rt')):
        text = path.read_text(encoding='utf-8')
        names = {name.strip().split(' as ')[-1] for names in CODE_IMPORT.findall(text) for name in names.split(',') if name}
        for function in PUBLIC.finditer(text):
            cited = names & set(re.findall(r'[^\s(){}[\],.]+', function.group(2)))
            found += [f'{path.relative_to(ROOT)}: {function.group(1)} cites {name}' for name in sorted(cited)]
    for path in sorted(ROOT.glob('crates/*/specs/*.antt')):
        if CODE_IMPORT.search(path.read_text(encoding='utf-8')):
            found.append(f'{path.relative_to(ROOT)} rests on specs/code')
    return found


def named_twice():
    """The names that several files of `specs/` define: one name would have two meanings."""
    names = [definition for crate in CRATES for name in modules(ROOT / 'crates' / crate / 'specs' / 'Lib.antt')
             for definition, _ in definitions(ROOT / 'crates' / crate / 'specs' / f'{name}.antt')]
    return sorted({name for name in names if names.count(name) > 1})


def names_of(crate):
    """The names of a crate's sources, and of what they and its definitions declare."""
    folder = ROOT / 'crates' / crate
    for path in sorted((folder / 'src').rglob('*.rt')):
        yield path.stem
        yield from re.findall(r'(?m)^\s*(?:pub(?:\(\w+\))? )?(?:fn|struct|enum|trait|const|type) (\w+)', path.read_text(encoding='utf-8'))
    for path in sorted((folder / 'specs').rglob('*.antt')):
        yield from re.findall(r'(?m)^\s*(?:abbrev |unfoldable )?pub (?:record |data )?([^\s:(]+)', path.read_text(encoding='utf-8'))


def misused_words():
    """What stands in no source though the table of words quotes it, and the names that have a word of another crate."""
    table = (ROOT / 'docs' / 'TRUST.md').read_text(encoding='utf-8').split('\n### Words\n')[1].split('\n## ')[0]
    names = {crate: set(names_of(crate)) for crate in CRATES}
    known = set(CRATES).union(*names.values())
    for quoted in re.findall(r'`([^`]+)`', table):
        if quoted.split('::')[-1] not in known:
            yield f'docs/TRUST.md has the word {quoted}, which no source declares'
    for word, crates in KNOWING.items():
        if f'| {word}' not in table and f', {word}' not in table:
            yield f'docs/TRUST.md has no row for the word {word}'
        for crate in CRATES:
            if crate not in crates and (word, crate) not in SECOND:
                for name in sorted(names[crate]):
                    if word in re.sub(r'([a-z0-9])([A-Z])', r'\1_\2', name).lower().split('_'):
                        yield f'{crate} has the name {name}, and `{word}` is a word of {", ".join(crates)}'


def long_lines():
    """Where a line of comment in the crates is longer than 130 characters, or another line than 160 that is more than one text."""
    for path in sorted(path for ending in ('rt', 'antt') for path in ROOT.glob(f'crates/**/*.{ending}') if 'out' not in path.parts):
        place = path.relative_to(ROOT)
        for number, line in enumerate(path.read_text(encoding='utf-8').split('\n'), 1):
            is_comment = re.match(r'\s*(?://|--)', line)
            is_whole = line.lstrip().startswith('#[') or re.fullmatch(r'\s*(?:codes )?"[^"]*"', line)
            if len(line) > 130 and is_comment or len(line) > 160 and not is_whole:
                yield f'{place}:{number}'


def main():
    page = PAGE.read_text(encoding='utf-8')
    new = made_anew(page)
    if '--write' in sys.argv[1:]:
        PAGE.write_text(new, encoding='utf-8')
        return 0
    return tell_cases([
        ('the definitions of docs/DEFINITIONS.md: python3 tests/pages/definitions.py --write', new, page),
        ('public contracts can be read without specs/code', '', '\n'.join(code_cited())),
        ('one name is one definition; defined twice', '', '\n'.join(named_twice())),
        ('no line is too long', '', '\n'.join(long_lines())),
        ('a word of docs/TRUST.md is used for one thing', '', '\n'.join(misused_words())),
    ], differing_lines)


if __name__ == '__main__':
    sys.exit(main())
