"""Holds the tables of the packages against docs/PROFILE.md: the words of the reasons, and what drives the converter from XML (the
other half of it is bindings/xml_classes.txt); what to do about a fault that is left (bindings/remedies.txt); and the options of the manual page and of the completions against the help of the program
(options.py). With `--write` they are written anew. Each stands in its file between a line that begins it and one that ends it.
It holds the members that ballots print (BallotWords.antt) against the table of what a voter sees.
"""
import re
import sys

from repository import ROOT
import options
from cases import tell_cases
from facts_and_links import text_of_reasons
from member_table import families_of_page, table_of_page
from voters_table import words_of_voters

MOST_WORDS = 110
# Where `rt fmt` breaks a line.
WIDTH_OF_CODE = 100


def quoted(members, joint):
    """The members as one text, in lines of which each begins with the joint, but for the first."""
    lines = ['']
    for member in members:
        if len(lines[-1]) + len(member) > MOST_WORDS:
            lines.append('')
        lines[-1] += member + '; '
    lines[-1] = lines[-1].removesuffix('; ')
    return [f"        {joint if number else ''}'{line}'" for number, line in enumerate(lines)]


XML_CLASSES = ROOT / 'bindings' / 'xml_classes.txt'
# The shape in XML of what the member table has; that of an Outside member stands in the file of the classes.
SHAPES = {'word': 'text', 'whole': 'whole', 'flag': 'flag', 'one': 'reference', 'many': 'references', 'ordered': 'references',
          'label': 'label InternationalizedText', 'identifiers': 'objects ExternalIdentifier', 'languages': 'objects LanguageString',
          'elections': 'objects Election', 'content': 'objects OrderedContest OrderedHeader'}


def section_of_xml(name):
    """The rows of a section of the file of the classes."""
    section = XML_CLASSES.read_text(encoding='utf-8').split(f'\n[{name}]\n')[1].split('\n[')[0]
    return [line.split(': ', 1) for line in section.splitlines() if line and not line.startswith('#')]


def shape_of(kind, classes_of):
    word, *family = kind.split(' ')
    return ' '.join(['objects', *classes_of[family[0]]]) if word == 'keyed' else SHAPES.get(word)


def xml_classes():
    """For each class its members, each with its shape in XML: those of the member table, and those of the schema's other classes."""
    classes_of = {family: classes for family, classes in families_of_page() if family != 'none'}
    table = {name: {member: shape_of(kind, classes_of) for part in parts_of_row for member, kind in part.items()}
             for name, parts_of_row in table_of_page().items()}
    for name, cells in section_of_xml('classes'):
        table.setdefault(name, {}).update(cell.split(' ', 1) for cell in cells.split('; '))
    return table


def xml_rows(begin, joint, end):
    for name, members in xml_classes().items():
        lines = quoted([f'{member} {shape}' for member, shape in members.items()], joint)
        yield from [begin % name, *lines[:-1], lines[-1] + end]


def rows_of_version_1(name, line):
    return (line % (old, new) for old, new in section_of_xml(f'version 1: {name}'))


REMEDIES = ROOT / 'bindings' / 'remedies.txt'


def remedies():
    """What to do about a fault of each reason: the steps that may fix it, and what to ask the vendor for."""
    rows = [line.split(' | ') for line in REMEDIES.read_text(encoding='utf-8').splitlines() if not line.startswith('#')]
    return {int(number): ([] if steps == '-' else steps.split(', '), text) for number, steps, text in rows}


def steps_of_page():
    """For each reason the steps that fix it by the table of docs/FIXES.md."""
    text = (ROOT / 'docs' / 'FIXES.md').read_text(encoding='utf-8')
    rows = re.findall(r'^\| `([a-z-]+)` \| [a-z-]+ \| .* \| ([^|]*) \|$', text, re.M)
    return {number: [step for step, fixes in rows if f'[{number}](' in fixes] for number in text_of_reasons()}


def in_quotes(text):
    return f'"{text}"' if "'" in text else f"'{text}'"


def rows_of_remedies(opening, closing, joined):
    for number, (steps, text) in remedies().items():
        yield f'    {number}: {opening}{joined(steps)},'
        yield f'        {in_quotes(text)}{closing},'


def in_brackets(steps):
    return '[' + ', '.join(map(in_quotes, steps)) + ']'


def variants_of_reasons():
    """The variants of the reasons by their numbers, each as the definitions write it and as the code does."""
    text = (ROOT / 'crates' / 'erd_tables' / 'specs' / 'Faults.antt').read_text(encoding='utf-8')
    found = re.findall(r'^reason_number \(?reason\.(\w+)( name)?\)? = (\d+)$', text, re.M)
    return {int(number): (f'(reason.{variant} name)' if name else f'reason.{variant}', f'Reason::{variant}(_)' if name else f'Reason::{variant}')
            for variant, name, number in found}


def fronts_of_remedies():
    """What the line of the program about a reason begins with, before what to ask the vendor for."""
    words = text_of_reasons()
    for number, (steps, _) in remedies().items():
        ways = f'steps that may fix it: {", ".join(steps)}; otherwise ask the vendor: ' if steps else 'no step fixes it; ask the vendor: '
        yield number, f'reason {number} ({words[number].split(" `")[0]}): {ways}'


def letters_of_remedies():
    return ((number, letter) for number, (_, letter) in remedies().items())


def in_definition(name, texts):
    variants = variants_of_reasons()
    for number, text in texts:
        yield from (f'{name} {variants[number][0]} =', f'    codes "{text}"')
    yield ''


def in_code(texts):
    variants = variants_of_reasons()
    for number, text in texts:
        line = f'        {variants[number][1]} => "{text}",'
        yield from [line] if len(line) <= WIDTH_OF_CODE else (f'        {variants[number][1]} => {{', f'            "{text}"', '        }')


# The file, the lines that begin and end its table, and the lines of the table.
LINES_OF_REASONS = '-- The lines about the reasons of these faults but for those of some numbers, one for each, in the order of their first faults.'
REMEDY_TABLES = {'definition': 'crates/erd_canon/specs/Remedies.antt', 'code': 'crates/erd_canon/src/engines/remedies.rt'}
FROM_XML = {'python': 'bindings/python/src/erd/from_xml/table.py', 'javascript': 'web/scripts/from_xml/table.mjs'}
TABLES = (
    ('bindings/python/src/erd/results.py', 'WORDS = {', '}', (f"    {number}: '{words}'," for number, words in text_of_reasons().items())),
    ('bindings/js/lib/words.mjs', 'const WORDS_OF_REASONS = [', '];', (f"    '{words}'," for words in text_of_reasons().values())),
    (FROM_XML['python'], 'ROWS = {', '}', xml_rows("    '%s': (", '', '),')),
    (FROM_XML['python'], 'COLLECTIONS = {', '}', rows_of_version_1('collections', "    '%s': '%s',")),
    (FROM_XML['python'], 'OLD_NAMES = {', '}', rows_of_version_1('names', "    '%s': '%s',")),
    (FROM_XML['javascript'], 'const ROWS = {', '};', xml_rows('    %s:', '+ ', ',')),
    (FROM_XML['javascript'], 'const COLLECTED = {', '};', rows_of_version_1('collections', "    %s: '%s',")),
    (FROM_XML['javascript'], 'const RENAMED = {', '};', rows_of_version_1('names', "    %s: '%s',")),
    ('bindings/python/src/erd/prepare/step_words.py', 'REMEDIES: Dict[int, Tuple[List[str], str]] = {', '}', rows_of_remedies('(', ')', in_brackets)),
    ('bindings/js/lib/prepare/step_words.mjs', 'export const REMEDIES = {', '};', rows_of_remedies('[', ']', in_brackets)),
    (REMEDY_TABLES['definition'], 'abbrev pub remedy_front : Reason → List ℕ', '-- What to ask the vendor for.', in_definition('remedy_front', fronts_of_remedies())),
    (REMEDY_TABLES['definition'], 'abbrev pub remedy_letter : Reason → List ℕ', LINES_OF_REASONS, in_definition('remedy_letter', letters_of_remedies())),
    (REMEDY_TABLES['code'], '        // The table of the steps is written by tests/pages/tables.py.', '    }', in_code(fronts_of_remedies())),
    (REMEDY_TABLES['code'], '        // The table of the letters is written by tests/pages/tables.py.', '    }', in_code(letters_of_remedies())),
    *options.TABLES,
)


def parts(text, first, last):
    """A file in three parts: to the line that begins the table, the table, and from the line that ends it on."""
    before, rest = text.split(f'\n{first}\n', 1)
    table, after = rest.split(f'\n{last}\n', 1)
    return f'{before}\n{first}\n', table, f'\n{last}\n{after}'


def printed_members():
    """For each class the members that its ballots print, as the definition has them."""
    text = (ROOT / 'crates' / 'erd_shown' / 'specs' / 'BallotWords.antt').read_text(encoding='utf-8')
    found = {}
    for name, list_of in re.findall(r'^(\w+_words|printed_members class\.\w+) =(.*?)$(?=\n\S|\n\n)', text, re.M | re.S):
        members = re.findall(r'codes "(\w+)"|(\w+_words)', list_of)
        found[name.split('.')[-1]] = {it for member, more in members for it in ([member] if member else found[more])}
    return {name: members for name, members in found.items() if not name.endswith('_words')}


def members_on_ballots(classes):
    """The same by the table of what a voter sees. What holds objects is told object by object."""
    words = words_of_voters()
    holding = {'ContestSelection', 'Candidate', 'Contest', 'BallotStyle'}
    return {name: {it for it, word in words[name].items() if word == 'seen'} - holding for name in classes}


def cases():
    printed = printed_members()
    yield 'ballots print the members that a voter sees or may see', members_on_ballots(printed), printed
    yield 'bindings/remedies.txt has the steps of docs/FIXES.md for each reason', steps_of_page(), {number: steps for number, (steps, _) in remedies().items()}
    for path, first, last, lines in TABLES:
        _, table, _ = parts((ROOT / path).read_text(encoding='utf-8'), first, last)
        yield f'{first} of {path}, which tests/pages/tables.py --write writes', list(lines), table.split('\n')


def write():
    for path, first, last, lines in TABLES:
        before, _, after = parts((ROOT / path).read_text(encoding='utf-8'), first, last)
        (ROOT / path).write_text(before + '\n'.join(lines) + after, encoding='utf-8')


if __name__ == '__main__':
    sys.exit(write() if '--write' in sys.argv[1:] else tell_cases(cases()))
