"""Holds the lists of docs/DEFINITIONS.md that say what to read for each promise against the definitions in `specs/`.

To trust a promise, one reads the definition that states it, and each definition that this one rests on, down to those of the
standard library. The list of a promise has the files of all of these, in the order of the crates and of their files, with the number
of lines that they take with their comments. So it has the types and constants of which these definitions speak, as the code declares
them, and what the kit defines of JSON, of numbers as texts and of command lines. What an earlier list has is not counted again. With
`--write` the lists are written anew.
"""

import pathlib
import re
import subprocess
import sys

from repository import ROOT
from cases import differing_lines, tell_cases

PAGE = ROOT / 'docs' / 'DEFINITIONS.md'
CRATES = ['erd_tables', 'erd_index', 'erd_check', 'erd_prepare', 'erd_text', 'erd_meaning', 'erd_normal', 'erd_shown', 'erd_compare', 'erd_canon', 'erd_program', 'erd_c']
# Crates of the kit whose definitions a reader has to know too.
KIT = ['json', 'serde_json', 'fast_float', 'ryu', 'clap']
MOST_IN_LINE = 19
BEGIN, END = '<!-- the lists begin -->\n', '<!-- the lists end -->\n'

# The promises, with the definitions that state them.
PROMISES = [
    ('What it is to say the same', ['erd_normal/SaysTheSame.SaysTheSame']),
    ('What canonical bytes promise (`canonical`)', ['erd_canon/Headline.Headline']),
    ('How bytes are refused (`check_bytes`)', ['erd_canon/Refused.RefusedAs', 'erd_canon/Refused.IsSomeReport']),
    ('What a comparison answers (`compare_bytes`)', [
        'erd_canon/EngineTexts.IsComparison', 'erd_canon/ByteLaws.TellsWhatIsSaid', 'erd_canon/ByteLaws.AgreesUnderEach', 'erd_canon/Refused.RefusedSide']),
    ('Answers as data (`check_data_with` and its neighbours)', [
        'erd_canon/DataAnswers.IsCheckedData', 'erd_canon/DataAnswers.IsComparedData', 'erd_canon/DataAnswers.IsListedData']),
    ('The steps that prepare a report (`prepare`)', ['erd_prepare/Laws.UntoldStays', 'erd_prepare/Laws.UntoldIsUnchanged', 'erd_prepare/Steps.IsStepDone']),
    ('What is told of steps (`told`)', ['erd_prepare/Tellings.IsTellingAdded', 'erd_prepare/Tellings.AreNumbersInFront', 'erd_prepare/Numbers.AreChangedNumbers']),
    ('A file that is prepared (`prepare_bytes`)', ['erd_prepare/Steps.IsNamedStepDone', 'erd_prepare/Preparations.IsPrepared',
                                                   'erd_prepare/Preparations.IsUnprepared']),
    ('What the engines for ballots and for steps write (`run_report`, `run_pair`, `run_prepare`)', [
        'erd_canon/BallotAnswering.IsBallotLines', 'erd_canon/BallotAnswering.IsBallotsLine', 'erd_canon/BallotAnswering.IsBallotDifferenceLines',
        'erd_canon/BallotAnswering.IsBallotDifferencesLine', 'erd_canon/Preparing.IsPreparedAs', 'erd_canon/Preparing.AreStepsListed',
        'erd_canon/Preparing.IsPreparationTold']),
    ('What the whole program does (`run_program`)', ['erd_program/Program.IsProgramRun']),
    ('Pieces of lists (`check_data_piece`, `check_text_piece` and their neighbours)', [
        'erd_canon/Pieces.IsPieceText', 'erd_canon/Pieces.IsCheckPiece', 'erd_canon/Pieces.IsFormPiece', 'erd_canon/Pieces.IsComparePiece',
        'erd_canon/Pieces.IsListPiece', 'erd_canon/Pieces.IsCheckLines', 'erd_canon/Pieces.IsFormLines', 'erd_canon/Pieces.IsCompareLines',
        'erd_canon/Pieces.IsListLines', 'erd_canon/ValuedAnswers.IsValuesPiece', 'erd_canon/WordAnswers.IsWordsPiece']),
    ('The command line as data (`command_line_data`)', ['erd_canon/LineAnswers.IsLineData']),
    ('What the C library tells', ['erd_c/Told.IsCall', 'erd_c/Told.IsWrong', 'erd_c/Told.HasCanonicalText', 'erd_canon/Run.IsChecked',
                                  'erd_canon/Run.IsCompared', 'erd_c/Lines.IsLineCall', 'erd_c/Told.IsPieceCall']),
    ('The laws of reports and canonical forms', [
        'erd_normal/Laws.NamesAgree', 'erd_normal/Laws.ReferencesAgree', 'erd_normal/Laws.ObjectsAgree', 'erd_normal/Laws.CanonicalIsUnique',
        'erd_normal/Laws.RearrangedMeansTheSame', 'erd_normal/Laws.PreferencesAgree', 'erd_normal/Laws.CanonicalFormExists',
        'erd_normal/MeansTheSame.SayingTheSameMeansTheSame', 'erd_normal/SameLaws.SameIsAccepted', 'erd_normal/SameForms.CanonicalSaysTheSame',
        'erd_normal/SameForms.SayingAndMeaningAgree', 'erd_canon/ByteLaws.OneFormForOneMeaning', 'erd_canon/ByteLaws.IsItsOwnForm',
        'erd_canon/ByteLaws.SameFormWhenRearranged']),
    ('What `erd_tell_prepared` tells', ['erd_c/Prepared.IsPrepareCall']),
    ('What is shown of objects and ballots (`members_tell`, `rows_of`, `meanings_tell`)', [
        'erd_shown/Laws.MembersTell', 'erd_shown/Laws.ObjectsTell', 'erd_shown/Rows.AreRows', 'erd_shown/BallotLaws.MeaningsTell']),
]

USE = re.compile(r'^\s*(?:unfoldable )?(?:pub )?use Rattle\.(\w+)\.specs\.([\w.]+?)(?:\.\{([^}]*)\}| as (\w+))$')
WORD = re.compile(r"[^\s(){}\[\],;.λ⟦⟧]+")


class File:
    """A file of definitions: the blocks in it, by the names that they define, and what its names come from."""

    def __init__(self, crate, path):
        self.key = f'{crate}/{path.stem}'
        self.blocks, self.imported = [], {}
        # A block ends at an empty line, unless what follows is set in, as in a `mutual` block.
        for text in re.split(r'\n\n+(?! )', path.read_text(encoding='utf-8')):
            lines = [line for line in text.splitlines() if line.strip()]
            for use in filter(None, map(USE.match, lines)):
                self.take(*use.groups())
            self.blocks.append([line for line in lines if not USE.match(line)])
        self.defined = {}
        for number, block in enumerate(self.blocks):
            for name in [*names_of(block), *constructors_of(block)]:
                self.defined.setdefault(name, number)

    def take(self, crate, module, names, other):
        for name in (names or '').split(','):
            name, _, alias = name.strip().partition(' as ')
            if name:
                self.imported[alias or name] = (f'{crate}/{module}', name)
        if other:
            self.imported[other] = (f'{crate}/{module}', None)


class Types:
    """The types and constants that a file of code declares, as blocks: each with its comments, and a type with its model, by its name."""

    def __init__(self, key, path):
        self.key, self.imported, self.defined, self.blocks = key, {}, {}, []
        text = path.read_text(encoding='utf-8')
        for head in re.finditer(r'^pub(?:\([a-z]+\))? (?:struct|enum|type|const) (\w+)', text, re.M):
            front = re.search(r'(?:^(?:///|#\[).*\n)*\Z', text[:head.start()], re.M)[0]
            end = r'.*?;$' if ' const ' in head[0] else r'[^\n]*;|.*?\n\}'
            body = re.match(end, text[head.start():], re.S | re.M)[0]
            model = re.search(rf'^impl\S* Model for {head[1]}\b.*?\n\}}', text, re.M | re.S)
            self.defined[head[1]] = len(self.blocks)
            self.blocks.append([line for line in (front + body + (model[0] if model else '')).splitlines() if line.strip()])


def names_of(block):
    """The names that a block defines. The parts of a `mutual` block stand in it one after another."""
    is_mutual = any(line.strip() in ('mutual', 'abbrev mutual') for line in block)
    for line in block:
        if line.startswith('--') or (line.startswith(' ') and not (is_mutual and re.match(r'  \S', line))):
            continue
        head, colon, _ = line.partition(' : ')
        match = re.match(r'(?:  )?(?:abbrev )?(?:unfoldable )?(?:pub )?(?:data |record )?(\S+)', head)
        if colon and '=' not in head and match and not line.strip().startswith('--'):
            yield match.group(1)


def files():
    """All files of definitions, in the order in which one would read them."""
    return {**files_of_crates(), **of_the_kit()}


def files_of_crates():
    """The files of definitions of the crates, and those of the types that their code declares."""
    found = {}
    for crate in CRATES:
        specs = ROOT / 'crates' / crate / 'specs'
        for name in re.findall(r'^pub mod (\w+)', (specs / 'Lib.antt').read_text(encoding='utf-8'), re.M):
            if name != 'code':
                file = File(crate, specs / f'{name}.antt')
                found[file.key] = file
        found.update(declarations(crate, ROOT / 'crates' / crate / 'src'))
    return found


def of_the_kit():
    """The files of definitions of the kit's crates that are counted too."""
    kit = pathlib.Path(subprocess.run(['rt', 'doc'], stdout=subprocess.PIPE, text=True, check=True).stdout).parent
    found = {}
    for crate in KIT:
        specs = kit / 'rattle' / crate / 'specs'
        for path in sorted(specs.rglob('*.antt')):
            file = File(crate, path)
            file.key = f'{crate}/{".".join(path.relative_to(specs).with_suffix("").parts)}'
            found[file.key] = file
        found.update(declarations(crate, kit / 'rattle' / crate / 'src'))
    return found


def declarations(crate, source):
    """The files of the types that the code of a crate declares."""
    files = (Types(f'{crate}/declared.{".".join(path.relative_to(source).with_suffix("").parts)}', path) for path in sorted(source.rglob('*.rt')))
    return {file.key: file for file in files}


def passed_on(known, module, name):
    """Where the name is defined that a file defines or passes on, as the file and the name, or None."""
    while module in known and name not in known[module].defined:
        module, name = known[module].imported.get(name, ('', name))
    return (module, name) if module in known else None


def declared_at(known, module, name):
    """The type that a module declares, or the constant of this name, as the file and the name, or None."""
    key, _, kind = re.sub(r'\.The(?:Variants|Inside|Open)$', '', module).rpartition('.')
    kind = name if kind == 'TheConstants' else kind
    return (key, kind) if '/declared.' in key and kind in getattr(known.get(key), 'defined', ()) else None


def constructors_of(block):
    """The names of the constructors that a block declares: each stands set in below its `data`, before a colon."""
    inside = False
    for line in block:
        depth = len(line) - len(line.lstrip())
        head, colon, _ = line.strip().partition(' : ')
        if re.match(r'(?:pub )?data ', line.strip()):
            inside, outer = line.endswith(' where'), depth
        elif inside and depth == outer + 2 and colon and re.fullmatch(r'\S+', head):
            yield head
        elif inside and depth <= outer:
            inside = False


def types_named(known, key, block):
    """The types that the declaration of a type names: those of its crate, or else of the first that has one of this name. A type with
    a model is seen as its value alone."""
    crate = key.partition('/')[0]
    lines = [line for line in block if not line.strip().startswith(('//', '#'))]
    inner = [] if any('Model for' in line for line in lines) else [re.split(r'^[^(:=]*[(:=]', line, maxsplit=1)[-1] for line in lines if re.search(r'[(:=]', line)]
    for word in set(re.findall(r'(?<!:)\b[A-Z]\w+', '\n'.join(inner))):
        homes = [other for other, file in known.items() if '/declared.' in other and word in file.defined]
        homes.sort(key=lambda other: other.partition('/')[0] != crate)
        if homes:
            yield homes[0], word


def named_in(known, file, code):
    """For each word of the code that another file declares or this one defines, where it is defined, as the file and the name, or None."""
    for word in set(WORD.findall(code)):
        module, origin = file.imported.get(word, ('', None))
        declared = declared_at(known, module, origin)
        if module and not origin and not declared and module in known:
            # a whole file under another name, of which the code says what it means: `json.null`
            for name in set(re.findall(rf"(?<![\w.]){re.escape(word)}\.([^\s(){{}}\[\],;.λ⟦⟧]+)", code)):
                yield passed_on(known, module, name), word
        elif module:
            yield declared or passed_on(known, module, origin), word
        elif word in file.defined:
            yield (file.key, word), word


def closure(known, roots):
    """The blocks that the roots rest on, as pairs of a file and the number of a block."""
    found, waiting = set(), [tuple(root.split('.')) for root in roots]
    while waiting:
        key, name = waiting.pop()
        file = known[key]
        if name not in file.defined:
            sys.exit(f'{key} has no definition {name}')
        number = file.defined[name]
        if (key, number) in found:
            continue
        found.add((key, number))
        if isinstance(file, Types):
            waiting += types_named(known, key, file.blocks[number])
            continue
        code = [line for line in file.blocks[number] if not line.strip().startswith('--')]
        for home, word in named_in(known, file, '\n'.join(code)):
            if home:
                waiting.append(home)
            elif word in file.imported and file.imported[word][0].partition('/')[0] in CRATES:
                sys.exit(f'{key} has {word} from {file.imported[word][0]}, where nothing has this name')
    return found


def under_promises():
    """The names of the definitions on which the promises rest, by their files."""
    known, found = files_of_crates(), set()
    for _, roots in PROMISES:
        found |= closure(known, roots)
    return {key: {name for name, number in file.defined.items() if (key, number) in found} for key, file in known.items()}


def used_elsewhere():
    """The definitions that state a promise, or that definitions of another file use: each as its file and its name."""
    known, found = files_of_crates(), {tuple(root.split('.')) for _, roots in PROMISES for root in roots}
    for file in known.values():
        found |= {passed_on(known, module, name) for module, name in file.imported.values() if name}
    return found - {None}


def lists():
    """The text between the two marks of the page."""
    known, before, lines = files(), set(), []
    for words, roots in PROMISES:
        found = closure(known, roots)
        count = sum(len(known[key].blocks[number]) for key, number in found)
        new = found - before
        rest = f', {sum(len(known[key].blocks[number]) for key, number in new):,} of them new' if before else ''
        lines += ['', f'**{words}**: {count:,} lines in {len(found):,} definitions{rest}.', '']
        for crate in [*CRATES, *KIT]:
            sizes = []
            for key, file in known.items():
                size = sum(len(file.blocks[number]) for home, number in new if home == key)
                if size and key.startswith(f'{crate}/'):
                    name = key.removeprefix(f'{crate}/')
                    sizes.append(f'{name.replace("declared.", "src/").replace(".", "/")} {size}')
            # a line has at most so many files, as a sentence has words
            lines += [f'- {crate}: {", ".join(sizes[at:at + MOST_IN_LINE])}' for at in range(0, len(sizes), MOST_IN_LINE)]
        before |= found
    return '\n'.join(lines[1:]) + '\n'


def main():
    page = PAGE.read_text(encoding='utf-8')
    head, begin, rest = page.partition(BEGIN)
    old, end, tail = rest.partition(END)
    if not begin or not end:
        sys.exit(f'{PAGE.name} has no place for the lists')
    new = '\n' + lists() + '\n'
    if '--write' in sys.argv[1:]:
        PAGE.write_text(head + begin + new + end + tail, encoding='utf-8')
        return 0
    return tell_cases([('what to read for each promise: python3 tests/pages/closures.py --write', new, old)], differing_lines)


if __name__ == '__main__':
    sys.exit(main())
