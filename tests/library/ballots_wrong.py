"""Wrong answers about ballots, each of which the check of tests/library/ballots_agree.py has to notice: what the library tells of two
reports is changed in one way, which is what a mistake in it would tell."""
import json
import random
import re

from erd_ballots import compact_text
from reports import candidate, contest, identifier, named, ordered_contest, report, selection, style, unit

OF_STYLES, BESIDE = 'erd_ballot_differences', 'erd_ballots_beside'


# ---- two reports


def listing(id, *selections):
    return ordered_contest(id, **({'OrderedContestSelectionIds': list(selections)} if selections else {}))


def known_report(title, styles):
    """A report with seven contests, of which each has the same four choices."""
    contests = [contest(f'c{number}', f'C{number}', 'u0', [selection(f's{number}{at}', CandidateIds=[f'k{at}']) for at in range(4)], BallotTitle=title)
                for number in range(7)]
    whole = report([unit('u0', 'U0'), unit('u1', 'U1')], 'u0', Candidate=[candidate(f'k{at}', f'K{at}') for at in range(4)], Contest=contests,
                   BallotStyle=styles, ExternalIdentifier=[identifier('E')])
    whole.update(Party=[named('Party', 'p0', 'P0', Name='Blue')], Header=[named('Header', 'h0', 'H0', Name='State')])
    return whole


def header(*lines):
    return {'@type': 'ElectionResults.OrderedHeader', 'HeaderId': 'h0', 'OrderedContent': list(lines)}


def known_reports():
    """Two reports. Of the ballots of the style `B1`, lines have gone, come and moved; and so have choices of its first contest."""
    one = [header(listing('c0', 's00', 's01', 's02')), listing('c1'), listing('c2'), listing('c3', 's30'), listing('c4'), listing('c5')]
    other = [listing('c4'), header(listing('c0', 's01', 's00', 's03')), listing('c1'), listing('c2'), listing('c6'), listing('c5')]
    left = [style('B1', ['u0'], PartyIds=['p0'], OrderedContent=one), style('B2', ['u1'], OrderedContent=[]), style('B3', ['u1']), style('B5', ['u0'])]
    right = [style('B2', ['u1']), style('B4', ['u0']), style('B1', ['u0', 'u1'], OrderedContent=other), style('B5', ['u0'])]
    return [json.dumps(known_report('Title', styles)).encode() for styles in (left, right)]


# ---- wrong answers


def in_list(change):
    """The change of a list, where it has entries."""
    return lambda outcome, told: (outcome, change(list(told)) if told else told)


def in_lines(change):
    """The change of the lines of a ballot, which a head and the style that `erd_ballot` has not are without."""
    return lambda outcome, told: (outcome, {**told, 'lines': change(list(told['lines']))} if told and told['lines'] else told)


def in_first(**members):
    """The first entry of a list has these members, each given by a function of the entry."""
    return lambda entries: [{**entries[0], **{name: make(entries[0]) for name, make in members.items()}}, *entries[1:]]


def in_rows(change):
    return lambda outcome, told: (outcome, {**told, 'rows': change(told['rows'])} if told and told['rows'] else told)


def in_row(how, make):
    """What the function makes of each row of a kind, which is a list of rows."""
    return in_rows(lambda rows: [it for row in rows for it in (make(row) if row['how'] == how else [row])])


def inside(change):
    """The change of the selections of each row that has some."""
    return in_rows(lambda rows: [{**row, 'selections': change(row['selections'])} if row['selections'] else row for row in rows])


def told_as_pairs(rows):
    """A line that moved is told as if it stood on both sides where it is now."""
    return [{**row, 'how': 'both'} if row['how'] == 'moved here' else row for row in rows if row['how'] != 'moved away']


def paired_at_random(rows):
    """The first line that has gone and the first that has come are told as one."""
    removed, added = ([row for row in rows if row['how'] == how][:1] for how in ('removed', 'added'))
    if not (removed and added):
        return rows
    return [{**removed[0], 'how': 'both', 'right': added[0]['right']} if row is removed[0] else row for row in rows if row is not added[0]]


def without_pair(row):
    return [{**row, 'how': 'removed', 'right': None, 'selections': []}, {**row, 'how': 'added', 'left': None, 'selections': []}]


def moved_for_nothing(row):
    return [{**row, 'how': 'moved away', 'selections': []}, {**row, 'how': 'moved here'}]


def moved_choice(rows):
    """A choice that has its place is told as one that moved."""
    at = next((at for at, row in enumerate(rows) if row['how'] == 'both'), None)
    return rows if at is None else [*rows[:at], *({**rows[at], 'how': how} for how in ('moved away', 'moved here')), *rows[at + 1:]]


def choices_moved_away(rows):
    """A line that moved has choices where it was, too."""
    choices = next((row['selections'] for row in rows if row['selections']), [])
    return [{**row, 'selections': choices} if row['how'] == 'moved away' else row for row in rows]


# The call, what is wrong, and what it tells in place of what is right.
WRONG = [
    ('erd_ballots', 'a wrong number of lines', in_list(in_first(lines=lambda head: head['lines'] + 1))),
    ('erd_ballots', 'a wrong position', in_list(in_first(at=lambda head: head['at'] + 1))),
    ('erd_ballots', 'a wrong key', in_list(in_first(key=lambda head: ['fips', '', 'B1']))),
    ('erd_ballots', 'parties in place of units', in_list(in_first(parties=lambda head: head['units'], units=lambda head: head['parties']))),
    ('erd_ballots', 'a style left out', in_list(lambda heads: heads[:-1])),
    ('erd_ballots', 'another order', in_list(lambda heads: heads[::-1])),
    ('erd_ballots', 'another outcome', lambda outcome, told: (1, told)),
    ('erd_ballot', 'a lost line', in_lines(lambda lines: lines[:-1])),
    ('erd_ballot', 'an invented line', in_lines(lambda lines: lines + lines[-1:])),
    ('erd_ballot', 'two lines changed about', in_lines(lambda lines: lines[1:] + lines[:1])),
    ('erd_ballot', 'a line of another thing', in_lines(in_first(what=lambda line: ['contest', line['what'][1]]))),
    ('erd_ballot', 'another depth', in_lines(in_first(depth=lambda line: line['depth'] + 1))),
    ('erd_ballot', 'listed for not listed', in_lines(in_first(listed=lambda line: not line['listed']))),
    ('erd_ballot', 'selections in another order', in_lines(lambda lines: [{**line, 'selections': line['selections'][::-1]} for line in lines])),
    ('erd_ballot', 'no election', lambda outcome, told: (outcome, {**told, 'election': None} if told else told)),
    ('erd_ballot', 'a ballot where no style is', lambda outcome, told: (outcome, told or {})),
    (OF_STYLES, 'a style left out', in_list(lambda styles: styles[:-1])),
    (OF_STYLES, 'same for different', lambda outcome, told: (0, [])),
    (OF_STYLES, 'different for same', lambda outcome, told: (outcome, [*told, {**told[0], 'key': ['local-level', '', 'B5'], 'left': 3, 'right': 3}])),
    (OF_STYLES, 'a style twice', in_list(lambda styles: styles + styles[-1:])),
    (OF_STYLES, 'exchanged sides', in_list(lambda styles: [{**it, 'left': it['right'], 'right': it['left']} for it in styles])),
    (OF_STYLES, 'another order', in_list(lambda styles: styles[::-1])),
    (OF_STYLES, 'another outcome', lambda outcome, told: (0, told)),
    (OF_STYLES, 'a line below lost', in_list(in_first(below=lambda it: it['below'].split('\n', 1)[1]))),
    (OF_STYLES, 'a line below invented', in_list(in_first(below=lambda it: it['below'] + '  changed contest ["local-level","","C2"]\n'))),
    (OF_STYLES, 'moved told as changed', in_list(in_first(below=lambda it: it['below'].replace('  moved contest', '  changed contest')))),
    (OF_STYLES, 'no selections below', in_list(in_first(below=lambda it: re.sub('^    .*\n', '', it['below'], flags=re.M)))),
    (BESIDE, 'a lost row', in_rows(lambda rows: rows[:-1])),
    (BESIDE, 'an invented row', in_rows(lambda rows: rows + rows[-1:])),
    (BESIDE, 'rows in another order', in_rows(lambda rows: rows[::-1])),
    (BESIDE, 'a line that moved as a pair', in_rows(told_as_pairs)),
    (BESIDE, 'a line that moved, in one row', in_row('moved away', lambda row: [])),
    (BESIDE, 'a pair of different things', in_rows(paired_at_random)),
    (BESIDE, 'a pair as two lines', in_row('both', without_pair)),
    (BESIDE, 'a pair as moved', in_row('both', moved_for_nothing)),
    (BESIDE, 'removed for added', in_row('removed', lambda row: [{**row, 'how': 'added'}])),
    (BESIDE, 'another kind', in_row('added', lambda row: [{**row, 'how': 'new'}])),
    (BESIDE, 'exchanged positions', in_row('both', lambda row: [{**row, 'left': row['right'], 'right': row['left']}])),
    (BESIDE, 'exchanged ballots', lambda outcome, told: (outcome, told and {**told, 'left': told['right'], 'right': told['left']})),
    (BESIDE, 'no ballots', lambda outcome, told: (outcome, None)),
    (BESIDE, 'another outcome', lambda outcome, told: (1, told)),
    (BESIDE, 'a lost choice', inside(lambda rows: rows[:-1])),
    (BESIDE, 'no choices', inside(lambda rows: [])),
    (BESIDE, 'a choice twice', inside(lambda rows: rows + rows[-1:])),
    (BESIDE, 'a choice that moved for nothing', inside(moved_choice)),
    (BESIDE, 'a choice that moved as a pair', inside(told_as_pairs)),
    (BESIDE, 'another choice', inside(in_first(name=lambda row: [*row['name'][:-1], ['fips', '', '1']]))),
    (BESIDE, 'a choice removed for added', inside(lambda rows: [{**row, 'how': 'added'} if row['how'] == 'removed' else row for row in rows])),
    (BESIDE, 'choices of a line that has moved away', in_rows(choices_moved_away)),
]


class Altered:
    """The library, but for one call, whose answers are wrong."""

    def __init__(self, library, call, alter):
        self.library, self.name, self.alter, self.is_altered = library, call, alter, False

    def call(self, name, reports, prefer, *positions):
        outcome, text = self.library.call(name, reports, prefer, *positions)
        if name != self.name:
            return outcome, text
        altered, told = self.alter(outcome, json.loads(text))
        self.is_altered |= (altered, compact_text(told)) != (outcome, text)
        return altered, compact_text(told)


def tried(library, check):
    """For what is right, and for each wrong answer, what it is and what is wrong with the check, or None. `check` makes a check of a library,
    two reports and a preference."""
    reports = known_reports()
    yield 'two known reports', check(library, reports, None).failure(random.Random(1))
    for call, what, alter in WRONG:
        altered = Altered(library, call, alter)
        is_noticed = check(altered, reports, None).failure(random.Random(1)) is not None
        yield f'{call}: {what}', None if is_noticed and altered.is_altered else 'is not noticed' if altered.is_altered else 'is told of no report'
