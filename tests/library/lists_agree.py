"""Compares the list of all differences of the C library with that of the reference program, on random pairs of reports: each byte,
outcome and number of `erd_differences_data`, `erd_differences_values` and `erd_differences`, with the whole list in one piece, and in
pieces of several sizes.

usage: lists_agree.py COUNT [SEED]

LIBRARY names the shared library, if it is not the one that is made of out/c/liberd.a here. The pairs are those of
tests/program/agrees_with_reference.py, with further edits of the selections of contests. At a difference it prints both reports and
both answers.
"""
import copy
import json
import os
import pathlib
import random
import subprocess
import sys
import tempfile

ROOT = pathlib.Path(__file__).resolve().parents[2]
sys.path[:0] = [str(ROOT / 'tests' / 'program'), str(ROOT / 'tests' / 'reports'), str(ROOT / 'tests' / 'library')]
sys.dont_write_bytecode = True
from agrees_with_reference import EXAMPLES, TYPES, edited, types_in, with_elections, written  # noqa: E402
from by_ctypes import Library  # noqa: E402
from listed import ALL, bytes_in_selections, bytes_in_values, erd_reference, listed  # noqa: E402
from reports import contest, identifier, label, report, selection, translation, unit  # noqa: E402

CLASSES = ['CandidateSelection', 'BallotMeasureSelection', 'PartySelection']
ORDERS = [0, 1, 2, 10, -1, 2 ** 53, 2 ** 53 + 1, 2 ** 64 - 1, -2 ** 63]
# Members that a selection must have.
NEEDED = ['PartyIds', 'Selection']
LABELS = ['Yes', 'yes', '\u00e9', '"\\', '\U00010000', '']


# ---- edits of selections


def contests_of(whole):
    return [one for election in whole['Election'] for one in election.get('Contest', [])]


def ids_of(holders):
    return [entry['@id'] for entry in holders if '@id' in entry]


def some_of(ids, dice):
    return dice.sample(ids, dice.randrange(min(len(ids), 3) + 1))


class Edits:
    """Edits of the selections of a contest. What a report may not have can come of them: such pairs are refused."""

    def __init__(self, whole, dice):
        self.dice = dice
        self.parties = ids_of(whole.get('Party', []))
        self.candidates = ids_of([entry for election in whole['Election'] for entry in election.get('Candidate', [])])
        self.count = 0

    def some_label(self):
        plain = self.dice.choice(LABELS)
        return plain if self.dice.random() < 0.6 else label([translation(plain), translation(self.dice.choice(LABELS), 'es')])

    def add(self, selections):
        self.count += 1
        new = selection('new-%d-%d' % (self.dice.randrange(10 ** 6), self.count), self.dice.choice(CLASSES))
        if new['@type'].endswith('CandidateSelection'):
            new['CandidateIds'] = some_of(self.candidates, self.dice)
        elif new['@type'].endswith('PartySelection') and self.parties:
            new['PartyIds'] = some_of(self.parties, self.dice) or self.parties[:1]
        else:
            new.update(selection(new['@id'], 'BallotMeasureSelection'), Selection=self.some_label())
        selections.insert(self.dice.randrange(len(selections) + 1), new)

    def remove(self, selections):
        if selections:
            selections.pop(self.dice.randrange(len(selections)))

    def change(self, selections):
        if not selections:
            return
        one = self.dice.choice(selections)
        name, value = self.dice.choice(self.changes(one['@type']))
        if name in one and name not in NEEDED and self.dice.random() < 0.3:
            del one[name]
        else:
            one[name] = value

    def changes(self, class_text):
        """Members that a selection of the class may have, each with a value."""
        found = [('SequenceOrder', self.dice.choice(ORDERS)), ('Note', self.dice.choice([None, 1, []])),
                 ('ExternalIdentifier', [identifier(self.dice.choice('123'), self.dice.choice(['b', 'fips', 'local-level']))])]
        if class_text.endswith('CandidateSelection'):
            found += [('IsWriteIn', self.dice.choice([True, False])), ('CandidateIds', some_of(self.candidates, self.dice)),
                      ('EndorsementPartyIds', some_of(self.parties, self.dice))]
        elif class_text.endswith('PartySelection'):
            found.append(('PartyIds', some_of(self.parties, self.dice) or self.parties[:1]))
        else:
            found.append(('Selection', self.some_label()))
        return found


def with_selections(base, dice, most):
    """The report with some edits of the selections of its contests. References of ballots to what is gone are gone too."""
    changed = copy.deepcopy(base)
    edits = Edits(changed, dice)
    contests = contests_of(changed)
    for _ in range(dice.randrange(most + 1) if contests else 0):
        selections = dice.choice(contests).setdefault('ContestSelection', [])
        dice.choice([edits.add, edits.add, edits.remove, edits.change, edits.change])(selections)
    kept = set(ids_of([entry for one in contests for entry in one.get('ContestSelection', [])]))
    for election in changed['Election']:
        for style in election.get('BallotStyle', []):
            drop_references(style.get('OrderedContent', []), kept)
    return changed


def drop_references(content, kept):
    for entry in content:
        # A contest on a ballot may carry a member of this name.
        drop_references(entry.get('OrderedContent', []) if 'HeaderId' in entry else [], kept)
        if 'OrderedContestSelectionIds' in entry:
            entry['OrderedContestSelectionIds'] = [it for it in entry['OrderedContestSelectionIds'] if it in kept]


# ---- pairs


def pairs(bases, count, dice):
    """The bytes of two reports and a preference. Most pairs are of accepted reports that differ inside selections."""
    for _ in range(count):
        base = with_elections(dice.choice(bases), dice)
        left = with_selections(base, dice, 6)
        right = with_selections(left, dice, 6)
        if dice.random() < 0.3:
            right = edited(right, dice, 2)
        prefer = dice.choice([None, None, dice.choice(TYPES), dice.choice(types_in(left) or TYPES)])
        yield [written(side, dice).encode() for side in (left, right)], prefer


# ---- the library


def shared_library(folder):
    """The path of the library: the one that the environment names, or one of out/c/liberd.a."""
    given = os.environ.get('LIBRARY')
    if given:
        return given
    made = os.path.join(folder, 'liberd.so')
    subprocess.run([os.environ.get('CC', 'cc'), '-shared', '-o', made, '-Wl,--whole-archive', str(ROOT / 'out' / 'c' / 'liberd.a'),
                    '-Wl,--no-whole-archive'], check=True)
    return made


def sizes_of(found, dice):
    """Bounds for pieces: so many entries, and so many bytes. Some end where what differs inside selections, or the values of that,
    just fits or just does not."""
    entries = [data for data in found.data if 'selections' in data]
    whole = list(map(bytes_in_selections, entries))
    values = [list(map(bytes_in_values, data['selections'])) for data in entries]
    sizes = (sum(whole[:1]), sum(whole[:2]), sum(whole), *(sum(of_one[:count]) for of_one in values[:2] for count in (1, 2, len(of_one))))
    edges = [size + more for size in sizes for more in (-1, 0, 1) if size + more > 0]
    return [(1, ALL), (2, 1000), (ALL, 1), (1000, 2 ** 20), (3, 300), (ALL, dice.randrange(1, 2000)), *((ALL, edge) for edge in edges)]


def failure_of_list(library, reports, prefer, found, sizes, whole=True):
    """What is wrong in the answers with the list of two accepted reports, or None: with the whole list, if it is asked for, and with
    one piece after another, for each of these sizes of pieces."""
    for name, wanted in (('erd_differences_data', found.piece), ('erd_differences_values', found.valued_piece),
                         ('erd_differences', found.lines)):
        if whole and library.whole(name, reports, prefer) != wanted(0, ALL, ALL)[:2]:
            return f'{name} without a piece:\n{library.whole(name, reports, prefer)}\nreference:\n{wanted(0, ALL, ALL)}'
        for most, enough in [(ALL, ALL)] * whole + sizes:
            first = 0
            while True:
                answer = library.piece(name, reports, prefer, first, most, enough)
                if answer != wanted(first, most, enough):
                    return f'{name} of {first}, {most}, {enough}:\n{answer}\nreference:\n{wanted(first, most, enough)}'
                first += answer[2]
                if first >= answer[3]:
                    break
    return None


def failure_of_open_list(library, reports, prefer, found, dice):
    """What is wrong in the list with values as it is opened and handed out, or None. What an entry has inside selections depends on what
    is kept of the list."""
    wanted = [without_selections(data) for data in found.data]
    for most, enough, room in ((ALL, ALL, 0), (1, ALL, 0), (ALL, dice.randrange(1, 2000), dice.randrange(1, 2000))):
        entries = []
        for outcome, text, first, told, count in library.opened('erd_differences_values', reports, prefer, most, enough, room):
            shown = [without_selections(data) for data in json.loads(text)] if text else []
            if (outcome, first, len(shown), count) != (found.outcome, len(entries), told, len(wanted)):
                return f'erd_differences_values opened, {most}, {enough}, {room}:\n{outcome} {text} {first} {told} {count}'
            entries += shown
        if entries != wanted:
            return f'erd_differences_values opened, {most}, {enough}, {room}:\n{entries}\nreference:\n{wanted}'
    return None


def without_selections(data):
    """The object of a difference as JSON reads it, without what differs inside selections."""
    return json.loads(json.dumps({name: value for name, value in data.items() if name != 'selections'}))


def failure_of_many_entries(library):
    """What is wrong in a list of 2,500 contests, or None: each differs in a selection that only one report has, and in its title."""
    reports = []
    for title, is_right in (('Mayor', False), ('Sheriff', True)):
        contests = [contest(f'c{number}', f'C{10000 + number}', 'u', [selection(f's{number}', SequenceOrder=number % 7 + is_right)], BallotTitle=title)
                    for number in range(2500)]
        reports.append(json.dumps(report([unit('u', 'U')], 'u', Contest=contests)).encode())
    found = listed(*reports, None)
    why = failure_of_list(library, reports, None, found, [(1000, 2 ** 20), (ALL, 100_000), (2499, ALL)])
    return why or (None if len(found.entries) == 5000 else f'the list has {len(found.entries)} entries')


def failure_of_long_name(library):
    """What is wrong in a piece of the list of two small reports whose whole list has 200 MB, or None: 2,000 members differ in one
    selection, whose name has 100,000 bytes."""
    reports = []
    for note in (1, 2):
        chosen = selection('s', ExternalIdentifier=[identifier('x' * 100_000)], **{f'Note{number}': note for number in range(2000)})
        reports.append(json.dumps(report([unit('u', 'U')], 'u', Contest=[contest('c', 'C', 'u', [chosen])])).encode())
    found = listed(*reports, None)
    why = failure_of_list(library, reports, None, found, [(ALL, 2 ** 20)], whole=False)
    return why or (None if len(found.entries[0].selections) == 2000 else f'{len(found.entries[0].selections)} members differ')


def failure_of_orders_alone(library):
    """What is wrong in the list of two reports, or None, of which one has 20,000 selections with names without any text: a sequence order
    alone. Such names count by what is written of them, too."""
    reports = []
    for orders in (range(20_000), (70_000,)):
        chosen = [selection(f's{order}', SequenceOrder=order) for order in orders]
        reports.append(json.dumps(report([unit('u', 'U')], 'u', Contest=[contest('c', 'C', 'u', chosen)])).encode())
    found = listed(*reports, None)
    size = bytes_in_selections(erd_reference.difference_data(found.entries[0]))
    for enough, is_told in ((1, False), (2 ** 20, False), (size - 1, False), (size, True)):
        answer = library.piece('erd_differences_data', reports, None, 0, ALL, enough)
        if ('selections' in json.loads(answer[1])[0]) != is_told or len(answer[1]) > enough + 200:
            return f'with room for {enough} bytes there are {len(answer[1])}'
    return failure_of_list(library, reports, None, found, [(ALL, 1), (ALL, size - 1), (ALL, size)], whole=False)


def failure_of_line_feeds(library):
    """What is wrong in the lines of an open list, or None: names in them have line feeds, and one looks like a line of its own. Each
    piece has to be what the call for this piece answers."""
    faults = {'a\nb': [1.5] * 5, '\n/Election: wrong number of elections\n': [1.5], 'c\\n"]}': [1.5] * 3}
    refused = json.dumps({'@type': 'ElectionResults.ElectionReport', 'Election': [], **faults}).encode()
    for name, reports in (('erd_check_piece', [refused]), ('erd_canonical_piece', [refused]), ('erd_compare_piece', [refused] * 2),
                          ('erd_differences', [refused] * 2)):
        for most, enough, room in ((1, ALL, 0), (2, ALL, 0), (ALL, 1, 100), (ALL, ALL, 0)):
            count = 0
            for outcome, text, first, told, _all in library.opened(name, reports, None, most, enough, room):
                wanted = library.piece(name, reports, None, count, most if room == 0 else told, ALL)
                if told > 0 and (first != count or (outcome, text, told) != wanted[:3]):
                    return f'{name} of {count}, {most}, {enough}:\n{text}\nthe call for the piece:\n{wanted}'
                count += told
            if count != wanted[3]:
                return f'{name}: {count} entries of {wanted[3]}'
    return None


def failure_of_refusal(library, reports, prefer):
    """What is wrong in the answers for two reports of which one is refused, or None."""
    status, value = erd_reference.entries_answer(*reports, None if prefer is None else prefer.decode())
    faults = value['faults'] if isinstance(value['faults'], list) else []
    wanted = (status, erd_reference.compact_text(value), len(faults), len(faults))
    for name in ('erd_differences_data', 'erd_differences_values'):
        answer = library.piece(name, reports, prefer, 0, ALL, ALL)
        if answer != wanted:
            return f'{name}:\n{answer}\nreference:\n{wanted}'
    return None


def tried(library, reports, prefer, dice, seen):
    """What is wrong in the answers for two reports, or None. Counts what the pairs are."""
    found = listed(*reports, prefer)
    taken = None if prefer is None else prefer.encode()
    seen['refused' if found is None else 'same' if not found.entries else 'different'] += 1
    if found is None:
        return failure_of_refusal(library, reports, taken)
    for entry in found.entries:
        for inside in entry.selections or []:
            seen[f'inside: {inside.how}'] = seen.get(f'inside: {inside.how}', 0) + 1
    return failure_of_list(library, reports, taken, found, sizes_of(found, dice)) \
        or failure_of_open_list(library, reports, taken, found, dice)


def main():
    count = int(sys.argv[1])
    seed = int(sys.argv[2]) if len(sys.argv) > 2 else random.randrange(10 ** 6)
    print(f'{count} random pairs, seed {seed}')
    bases = [json.loads((ROOT / 'examples' / f'{name}.json').read_text(encoding='utf-8')) for name in EXAMPLES]
    dice, seen = random.Random(seed), {'refused': 0, 'same': 0, 'different': 0}
    with tempfile.TemporaryDirectory() as folder:
        library = Library(shared_library(folder))
        for what, failure_of in (('many entries', failure_of_many_entries), ('a long name', failure_of_long_name),
                                 ('orders alone', failure_of_orders_alone), ('line feeds', failure_of_line_feeds)):
            why = failure_of(library)
            if why:
                print(f'FAILED  {what}: {why[:2000]}', '0 passed, 1 failed', sep='\n')
                return 1
        for reports, prefer in pairs(bases, count, dice):
            why = tried(library, reports, prefer, dice, seen)
            if why:
                print(f'FAILED  preference {prefer}:', *reports, why, '0 passed, 1 failed', sep='\n')
                return 1
    print(', '.join(f'{what} {number}' for what, number in seen.items()))
    print('1 passed, 0 failed')
    return 0


if __name__ == '__main__':
    sys.exit(main())
