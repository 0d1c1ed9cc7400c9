"""Compares `erd` with the reference program (reference/erd_reference.py) on random reports and pairs: every byte and status of
`check`, `canon`, `compare`, `differences` and the filter, with `--json` and without, with and without a preferred type of identifier.

usage: agrees_with_reference.py COUNT [SEED]

ERD names the program, if it is not the `erd` of this folder.
It also tries an input of as many bytes as may be read, and of one more.
Each report is an example with some random edits: renamed identifiers, shuffled arrays and members, further elections, and
edits that change the meaning or make a fault. The right report of a pair is the left one with further edits. At a
difference it prints the smallest input that it finds and both answers.
"""
import copy
import json
import os
import pathlib
import random
import subprocess
import sys
import tempfile

ROOT = pathlib.Path(__file__).resolve().parents[2]
sys.path[:0] = [str(ROOT / folder) for folder in ('reference', 'tests/reports', 'tests/shared')]
sys.dont_write_bytecode = True
import erd_reference  # noqa: E402
from reports import CLASS, OF_ELECTIONS as HELD, identifier, ids_in, keys_of, places, texts_in  # noqa: E402

PROGRAM = os.environ.get('ERD', str(ROOT / 'erd'))
EXAMPLES = ['one-unit', 'small-ballot', 'small-ballot', 'small-ballot', 'two-elections.vendor-a', 'two-elections.vendor-b', 'county.vendor-a']
TYPES = ['local-level', 'fips', 'other', 'zips', 'Fips', 'fips ', 'check', 'two  words', 'a\nb', 'a=b', '\u00e9', 'e\u0301', '\U00010000']
MOST_BYTES = 67108864
CLASSES = sorted(erd_reference.TABLE) + ['Device']
NAMES = sorted({name for members in erd_reference.MEMBERS.values() for name in members}) + ['Foo', 'Id', 'PersonIds', 'Ids', '@id', '', '~/', 'a\nb', 'Notes']
# Numbers as they are written: the reader of neither program sees them as Python writes them.
NUMBERS = ['0', '1', '-1', '-0', '1.5', '1e3', '1.0', '9223372036854775808', '18446744073709551615', '18446744073709551616', '-9223372036854775808', '-9223372036854775809', '1e308', '1.7976931348623157e308', '1.7976931348623159e308', '1e400', '-1e400', '1e-400', '2' + '0' * 308]
TEXTS = ['', 'x', 'fips', 'local-level', '\u00e9', '\uffff', '\U00010000', '"\\/\b\f\n\r\t\x01\x7f', 'pre-election', 'a1', 'u7']


class Number(str):
    """A number, by its text."""


def written(value, dice):
    """A JSON text of the value, in a spelling of its own."""
    if isinstance(value, Number):
        return str(value)
    blank = dice.choice(['', '', ' ', '\n\t'])
    if isinstance(value, dict):
        return '{' + blank + ','.join(json.dumps(name, ensure_ascii=dice.random() < 0.5) + ':' + blank + written(inner, dice) for name, inner in value.items()) + '}'
    if isinstance(value, list):
        return '[' + (',' + blank).join(written(inner, dice) for inner in value) + blank + ']'
    return json.dumps(value, ensure_ascii=dice.random() < 0.5)


# ---- edits


def some_value(report, dice):
    """A value for any place: a small one, or one of the report."""
    kind = dice.randrange(8)
    if kind == 0:
        return Number(dice.choice(NUMBERS))
    if kind == 1:
        return dice.choice([None, True, False, [], {}, [[]], [None, None], {'Foo': Number('1.5')}, {'Id': 'x'}])
    if kind == 2:
        return dice.choice(TEXTS)
    if kind == 3:
        place = dice.choice(places(report))
        return copy.deepcopy(place[dice.choice(keys_of(place))]) if place else []
    return dice.choice(texts_in(report))


def rename(report, dice):
    """Gives each `@id` another text, at references too."""
    salt = dice.choice(['', 'n', '\u00e9', 'z' * 20]) + str(dice.randrange(100))
    names = ids_in(report)
    for place in places(report):
        for key in keys_of(place):
            is_reference = key == '@id' or isinstance(place, list) or key.endswith(('Id', 'Ids'))
            if is_reference and type(place[key]) is str and place[key] in names:
                place[key] = salt + place[key]


def shuffle_all(report, dice):
    """Shuffles arrays, but for those in an order of their own, and members."""
    for place in places(report):
        if isinstance(place, dict):
            pairs = list(place.items())
            dice.shuffle(pairs)
            place.clear()
            place.update(pairs)
            for key, inner in pairs:
                if isinstance(inner, list) and (key not in ('OrderedContent', 'OrderedContestSelectionIds') or dice.random() < 0.05):
                    dice.shuffle(inner)


def remove(report, dice):
    place = dice.choice(places(report))
    if place:
        del place[dice.choice(keys_of(place))]


def double(report, dice):
    place = dice.choice([place for place in places(report) if isinstance(place, list) and place] or [[0]])
    place.insert(dice.randrange(len(place) + 1), copy.deepcopy(dice.choice(place)))


def replace(report, dice):
    place = dice.choice(places(report))
    if place:
        place[dice.choice(keys_of(place))] = some_value(report, dice)


def replace_text(report, dice):
    """One text by another of the report, so that references, keys and names meet."""
    place = dice.choice([place for place in places(report) if any(type(place[key]) is str for key in keys_of(place))])
    key = dice.choice([key for key in keys_of(place) if type(place[key]) is str])
    place[key] = dice.choice(texts_in(report) + TEXTS)


def add_member(report, dice):
    place = dice.choice([place for place in places(report) if isinstance(place, dict)])
    place[dice.choice(NAMES)] = some_value(report, dice)


def change_class(report, dice):
    place = dice.choice([place for place in places(report) if isinstance(place, dict)])
    place['@type'] = CLASS + dice.choice(CLASSES)


def add_identifier(report, dice):
    holders = [place for place in places(report) if isinstance(place, dict) and isinstance(place.get('ExternalIdentifier'), list)]
    if holders:
        kind = dice.choice(TYPES)
        entry = identifier(dice.choice(['1', '2', 'U1', '']), kind)
        if dice.random() < 0.2:
            entry['OtherType'] = dice.choice(TYPES)
        dice.choice(holders)['ExternalIdentifier'].append(entry)


def move(report, dice):
    """An object of one array into another one."""
    lists = [place for place in places(report) if isinstance(place, list)]
    source, target = dice.choice(lists), dice.choice(lists)
    if source:
        target.append(copy.deepcopy(dice.choice(source)))


# ---- edits of elections


def elections_of(report):
    """The elections of the report, as far as it still has such."""
    elections = report.get('Election') if isinstance(report, dict) else None
    return [entry for entry in elections if isinstance(entry, dict)] if isinstance(elections, list) else []


def move_held(report, dice):
    """A candidate, contest or style into another election."""
    name = dice.choice(HELD)
    sources = [election for election in elections_of(report) if isinstance(election.get(name), list) and election[name]]
    if sources:
        held = dice.choice(sources)[name]
        target = dice.choice(elections_of(report)).setdefault(name, [])
        if isinstance(target, list):
            target.append(held.pop(dice.randrange(len(held))))


def add_election(report, dice):
    """One more election, which takes over some of what stands in another. Mostly each election has an identifier then."""
    elections = elections_of(report)
    if elections:
        new = {name: copy.deepcopy(inner) for name, inner in dice.choice(elections).items() if name not in [*HELD, 'ExternalIdentifier']}
        report['Election'].insert(dice.randrange(len(report['Election']) + 1), new)
        for election in [new, *(elections if dice.random() < 0.95 else [])]:
            if not election.get('ExternalIdentifier'):
                kind = dice.choice(TYPES)
                election['ExternalIdentifier'] = [identifier('E' + str(dice.randrange(20)), kind)]
        for _ in range(dice.randrange(6)):
            move_held(report, dice)


def remove_election(report, dice):
    """One election less; sometimes what stands in it goes to another."""
    elections = elections_of(report)
    if elections:
        gone = dice.choice(elections)
        report['Election'] = [election for election in report['Election'] if election is not gone]
        if len(elections) > 1 and dice.random() < 0.7:
            target = dice.choice(elections_of(report))
            for name in HELD:
                if isinstance(gone.get(name), list) and isinstance(target.setdefault(name, []), list):
                    target[name].extend(gone[name])


def drop_identifiers(report, dice):
    """The identifiers of an election go."""
    if elections_of(report):
        election = dice.choice(elections_of(report))
        election['ExternalIdentifier'] = []
        if dice.random() < 0.5:
            del election['ExternalIdentifier']


def mix_identifiers(report, dice):
    """The identifiers of two elections are exchanged, or one has those of the other too."""
    if elections_of(report):
        one, other = dice.choice(elections_of(report)), dice.choice(elections_of(report))
        first, second = one.get('ExternalIdentifier'), other.get('ExternalIdentifier')
        other['ExternalIdentifier'] = copy.deepcopy(first)
        if dice.random() < 0.7:
            one['ExternalIdentifier'] = second


HARMLESS = [rename, shuffle_all]
EDITS = [remove, double, replace, replace_text, replace_text, add_member, change_class, add_identifier, add_identifier, move]
OF_ELECTIONS = [add_election, remove_election, drop_identifiers, mix_identifiers, move_held, move_held]


def edited(report, dice, most):
    """The report with harmless edits, and at most so many others."""
    report = copy.deepcopy(report)
    for edit in HARMLESS:
        if dice.random() < 0.7:
            edit(report, dice)
    for _ in range(dice.randrange(most + 1)):
        dice.choice(EDITS if dice.random() < 0.7 else OF_ELECTIONS)(report, dice)
    return report


def with_elections(report, dice):
    """The report; sometimes with further elections."""
    report = copy.deepcopy(report)
    for _ in range(dice.choice([0, 0, 0, 1, 2, 5])):
        add_election(report, dice)
    return report


def damaged(data, dice):
    """Sometimes the bytes with one of them taken away, added or changed."""
    if dice.random() > 0.03 or not data:
        return data
    at = dice.randrange(len(data))
    return data[:at] + dice.choice([b'', b'\xff', b'0', b'"', b'\\ud800', b'\xef\xbb\xbf', b',']) + data[at + dice.randrange(2):]


# ---- both programs

COMMANDS = ['check', 'canon', 'compare', 'compare', 'filter', 'differences', 'check --json', 'compare --json', 'differences --json']



def by_erd(command, inputs, prefer, folder):
    words = [PROGRAM]
    given = b''
    if command == 'filter':
        given = inputs[0]
    else:
        words += command.split() + (['--prefer', prefer] if prefer else [])
        for number, data in enumerate(inputs):
            path = pathlib.Path(folder) / str(number)
            path.write_bytes(data)
            words.append(str(path))
    ran = subprocess.run(words, input=given, capture_output=True, check=False)
    return ran.returncode, ran.stdout, ran.stderr


def lines(texts):
    return ''.join(text + '\n' for text in texts).encode()


def by_reference(command, inputs, prefer):
    answers = []
    for data in inputs:
        answers.append(erd_reference.answer_of(data, prefer))
        if answers[-1][0] != 0:
            break
    status, texts, resolved = answers[-1]
    if '--json' in command:
        status, text = erd_reference.data_of(command.split()[0], inputs, prefer)
        return status, lines([text]), b''
    if command == 'check':
        return status, lines(texts), b''
    if command not in ('compare', 'differences'):
        return (status, b'', lines(texts)) if status else (0, erd_reference.canonical_bytes(resolved), b'')
    if status:
        side = 'left: ' if len(answers) == 1 else 'right: '
        return status, lines(side + text for text in texts), b''
    if command == 'differences':
        found = list(erd_reference.differences(answers[0][2], resolved))
        return int(bool(found)), lines(found or ['same']), b''
    difference = erd_reference.first_difference(answers[0][2], resolved)
    return int(difference is not None), lines(['same' if difference is None else difference]), b''


# ---- runs


class Case:
    """A command on one report or two, and how they are spelled."""

    def __init__(self, command, reports, prefer, seed):
        self.command, self.reports, self.prefer, self.seed = command, reports, prefer, seed

    def inputs(self):
        dice = random.Random(self.seed)
        return [damaged(written(report, dice).encode(), dice) for report in self.reports]

    def answers(self, folder):
        inputs = self.inputs()
        return by_erd(self.command, inputs, self.prefer, folder), by_reference(self.command, inputs, self.prefer)

    def smaller(self):
        """The cases with one member or entry less."""
        for number, report in enumerate(self.reports):
            for index, place in enumerate(places(report)):
                for key in keys_of(place):
                    reports = copy.deepcopy(self.reports)
                    del places(reports[number])[index][key]
                    yield Case(self.command, reports, self.prefer, self.seed)


def smallest(case, folder):
    """A case on which the programs differ too, of which no part can be taken away."""
    for other in case.smaller():
        found, wanted = other.answers(folder)
        if found != wanted:
            return smallest(other, folder)
    return case


def differs_at_the_limit(folder):
    """Whether the programs differ on an input of as many bytes as may be read, or of one more."""
    place = pathlib.Path(folder) / 'limit'
    for size in (MOST_BYTES, MOST_BYTES + 1):
        place.write_bytes(b'x' * size)
        words = ['check', str(place)]
        programs = [[PROGRAM], [sys.executable, str(ROOT / 'reference' / 'erd_reference.py')]]
        erd, reference = (subprocess.run(program + words, capture_output=True, check=False) for program in programs)
        if (erd.returncode, erd.stdout, erd.stderr) != (reference.returncode, reference.stdout, reference.stderr):
            print(f'FAILED  {size} bytes:', f'erd: {erd}', f'reference: {reference}', sep='\n')
            return True
    return False


def types_in(report):
    """The types of identifiers in the report, as far as the command line takes them."""
    kinds = [place.get('Type') for place in places(report) if isinstance(place, dict) and 'Value' in place]
    return [kind for kind in kinds if type(kind) is str and kind and kind[0] != '-' and '\0' not in kind]


def cases(bases, count, dice):
    for _ in range(count):
        command = dice.choice(COMMANDS)
        left = edited(with_elections(dice.choice(bases), dice), dice, 3)
        reports = [left, edited(left, dice, 2)] if command.startswith(('compare', 'differences')) else [left]
        prefer = None if command == 'filter' else dice.choice([None, dice.choice(TYPES), dice.choice(types_in(left) or TYPES)])
        yield Case(command, reports, prefer, dice.random())


def main():
    count = int(sys.argv[1])
    seed = int(sys.argv[2]) if len(sys.argv) > 2 else random.randrange(10**6)
    print(f'{count} random reports and pairs, seed {seed}')
    bases = [json.loads((ROOT / 'examples' / f'{name}.json').read_text(encoding='utf-8')) for name in EXAMPLES]
    statuses = {}
    with tempfile.TemporaryDirectory() as folder:
        if differs_at_the_limit(folder):
            print('0 passed, 1 failed')
            return 1
        for case in cases(bases, count, random.Random(seed)):
            found, wanted = case.answers(folder)
            if found != wanted:
                case = smallest(case, folder)
                found, wanted = case.answers(folder)
                print(f'FAILED  {case.command}, preference {case.prefer}:', *case.inputs(), f'erd: {found}', f'reference: {wanted}', sep='\n')
                print('0 passed, 1 failed')
                return 1
            statuses[case.command, found[0]] = statuses.get((case.command, found[0]), 0) + 1
    print(', '.join(f'{command} {status}: {number}' for (command, status), number in sorted(statuses.items())))
    print('1 passed, 0 failed')
    return 0


if __name__ == '__main__':
    sys.exit(main())
