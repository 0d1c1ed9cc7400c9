"""Random reports with many kinds of ballots, and edits of them. Most of what is made is accepted."""
import copy

from erd_reference import FAMILIES, member_of
from reports import CLASS, OF_ELECTIONS, candidate, contest, election, identifier, label, named, ordered_contest, places, report, selection, style, \
    translation, unit

CONTESTS = ['CandidateContest', 'CandidateContest', 'BallotMeasureContest', 'RetentionContest', 'PartyContest']
WORDS = ['Ann', 'ann', 'Bo', '\u00e9', '"\\\n', '\U00010000', '']
# Members that may be on a ballot, and some that are on none, by the array of their objects.
PRINTED = {
    'GpUnit': ['Name', 'Number', 'Type', 'OtherType'], 'Party': ['Name', 'Abbreviation', 'Slogan'], 'Header': ['Name'],
    'Person': ['FullName', 'FirstName', 'LastName', 'Title', 'Profession'], 'Office': ['Name'],
    'Candidate': ['BallotName', 'CampaignSlogan', 'PreElectionStatus', 'FileDate'],
    'Contest': ['Name', 'BallotTitle', 'BallotSubTitle', 'VoteVariation', 'OtherVoteVariation', 'Abbreviation', 'SummaryText', 'FullText',
                'ProStatement', 'ConStatement', 'EffectOfAbstain', 'PassageThreshold', 'Type', 'OtherType'],
}
# Members that are numbers or truth values: the array of their objects, a member that these have, and values.
PLAIN = [('Contest', 'VotesAllowed', member, [1, 2]) for member in ('VotesAllowed', 'NumberElected', 'NumberRunoff')] + [
    (name, '@type', member, [False, True]) for name, member in (('Contest', 'HasRotation'), ('Candidate', 'IsIncumbent'), ('Candidate', 'IsTopTicket'),
                                                                ('GpUnit', 'IsDistricted'), ('GpUnit', 'IsMailOnly'), ('Office', 'IsPartisan'))]
# Members that name objects: the array of those that have them, a member that these have, and the array of what they name.
NAMING = [('Candidate', '@type', 'PartyId', 'Party'), ('Candidate', '@type', 'PersonId', 'Person'), ('Contest', 'CandidateId', 'CandidateId', 'Candidate'),
          ('Contest', 'VotesAllowed', 'PrimaryPartyIds', 'Party'), ('Contest', 'VotesAllowed', 'OfficeIds', 'Office'),
          ('Contest', '@type', 'ElectionDistrictId', 'GpUnit'), ('GpUnit', '@type', 'ComposingGpUnitIds', 'GpUnit'),
          ('Party', '@type', 'LeaderPersonIds', 'Person'), ('Person', '@type', 'PartyId', 'Party'), ('Office', '@type', 'OfficeHolderPersonIds', 'Person')]


def some_of(things, dice, least=0):
    return dice.sample(things, dice.randrange(least, len(things) + 1))


class Made:
    """A new report, of up to three elections. Styles list contests of each, some below headers and some several times."""

    def __init__(self, dice):
        self.dice = dice
        self.candidates = [f'k{number}' for number in range(6)]
        self.parties = [f'p{number}' for number in range(3)]
        self.headers = [f'h{number}' for number in range(3)]
        self.contests = [self.contest(number) for number in range(dice.randrange(1, 6))]

    def report(self):
        dice = self.dice
        whole = report([unit(f'u{number}', f'U{number}', Name=f'Unit {number}') for number in range(3)], 'u0')
        whole['Person'] = [named('Person', f'q{number}', f'Q{number}', FullName=f'Person {number}') for number in range(2)]
        whole['Office'] = [named('Office', 'o0', 'O0', Name='Office')]
        whole['Header'] = [named('Header', id, id.upper(), Name=f'Header {id}') for id in self.headers]
        whole['Party'] = [named(dice.choice(['Party', 'Party', 'Coalition']), id, id.upper(), Name=f'Party {id}') for id in self.parties]
        whole['Election'] = [election('u0', ExternalIdentifier=[identifier(f'E{number}')]) for number in range(dice.choice([1, 1, 1, 2, 3]))]
        if len(whole['Election']) == 1 and dice.random() < 0.5:
            del whole['Election'][0]['ExternalIdentifier']
        styles = [self.style(f'S{number}') for number in range(dice.randrange(1, 5))]
        for name, things in zip(OF_ELECTIONS, (list(map(self.candidate, self.candidates)), self.contests, styles)):
            for thing in things:
                dice.choice(whole['Election']).setdefault(name, []).append(thing)
        return whole

    def candidate(self, id):
        made = candidate(id, id.upper())
        made.update({name: value for name, value in (('PartyId', self.dice.choice(self.parties)), ('PersonId', self.dice.choice(['q0', 'q1'])))
                     if self.dice.random() < 0.5})
        return made

    def contest(self, number):
        dice, class_name = self.dice, self.dice.choice(CONTESTS)
        made = contest(f'c{number}', f'C{number}', 'u0', [], class_name)
        makers = {'CandidateContest': self.choices_of_candidates, 'PartyContest': self.choices_of_parties}
        made['ContestSelection'] = [self.numbered(f's{number}-{at}', *choice) for at, choice in enumerate(makers.get(class_name, self.answers)())]
        if class_name == 'RetentionContest':
            made['CandidateId'] = dice.choice(self.candidates)
        if class_name == 'CandidateContest' and dice.random() < 0.5:
            made.update(PrimaryPartyIds=some_of(self.parties, dice), OfficeIds=['o0'])
        return made

    def numbered(self, id, class_name, members):
        """A selection, sometimes with an order or an identifier."""
        more = dict(SequenceOrder=self.dice.randrange(3)) if self.dice.random() < 0.2 else {}
        if self.dice.random() < 0.2:
            more['ExternalIdentifier'] = [identifier(id)]
        return selection(id, class_name, **members, **more)

    def choices_of_candidates(self):
        found = [dict(CandidateIds=[id]) for id in some_of(self.candidates, self.dice)] + [dict(IsWriteIn=True)] * (self.dice.random() < 0.5)
        for choice in found:
            if self.dice.random() < 0.2:
                choice['EndorsementPartyIds'] = some_of(self.parties, self.dice, 1)
        return [('CandidateSelection', choice) for choice in found]

    def choices_of_parties(self):
        return [('PartySelection', dict(PartyIds=[id])) for id in some_of(self.parties, self.dice)]

    def answers(self):
        labels = ['Yes', 'No', label([translation('Yes'), translation('Si', 'es')])]
        return [('BallotMeasureSelection', dict(Selection=text)) for text in some_of(labels, self.dice)]

    # ---- ballots

    def style(self, value):
        more = dict(PartyIds=some_of(self.parties, self.dice)) if self.dice.random() < 0.4 else {}
        return style(value, some_of(['u0', 'u1', 'u2'], self.dice, 1), OrderedContent=self.content(), **more)

    def content(self, depth=0):
        """Some lines; now and then very many, which often list the same."""
        count = self.dice.randrange(6 - depth) if self.dice.random() < 0.995 else 40
        return [self.line(depth) for _ in range(count)]

    def line(self, depth=0):
        if depth < 3 and self.dice.random() < 0.25:
            return header_of(self.dice.choice(self.headers), self.content(depth + 1))
        return listing(self.dice.choice(self.contests), self.dice)


def header_of(id, content):
    return {'@type': CLASS + 'OrderedHeader', 'HeaderId': id, 'OrderedContent': content}


def listing(of_contest, dice):
    """A line for a contest: with all of its selections, some, some of them twice, or none."""
    ids = [it['@id'] for it in of_contest.get('ContestSelection', []) if '@id' in it]
    kind = dice.randrange(4)
    listed = [[], dice.sample(ids, len(ids)), some_of(ids, dice), some_of(ids * dice.choice([2, 2, 2, 9]), dice)][kind]
    return ordered_contest(of_contest['@id'], **({} if kind == 0 else dict(OrderedContestSelectionIds=listed)))


class BallotEdits:
    """Edits of a report, mostly of its ballots."""

    def __init__(self, whole, dice):
        self.whole, self.dice = whole, dice

    def all_in(self, name):
        """The objects in an array of the report or of its elections."""
        return self.whole.get(name, []) if name not in OF_ELECTIONS else [it for one in self.whole['Election'] for it in one.get(name, [])]

    def contents(self):
        """The lists of lines, of all styles and headers."""
        found = [style.setdefault('OrderedContent', []) for style in self.all_in('BallotStyle')]
        for content in found:
            found += [node.setdefault('OrderedContent', []) for node in content if 'HeaderId' in node]
        return found

    def filled(self):
        return self.dice.choice([content for content in self.contents() if content] or [[None]])

    def some_line(self):
        headers = [it['@id'] for it in self.all_in('Header') if '@id' in it]
        if headers and self.dice.random() < 0.3:
            return header_of(self.dice.choice(headers), [])
        contests = [it for it in self.all_in('Contest') if '@id' in it]
        return listing(self.dice.choice(contests), self.dice) if contests else None

    def insert(self, node):
        if node is not None and self.contents():
            content = self.dice.choice(self.contents())
            content.insert(self.dice.randrange(len(content) + 1), node)

    def take(self):
        content = self.filled()
        return content.pop(self.dice.randrange(len(content)))

    # ---- lines

    def move_line(self):
        self.insert(self.take())

    def move_here(self):
        content = self.filled()
        content.insert(self.dice.randrange(len(content)), content.pop(self.dice.randrange(len(content))))

    def mix_lines(self):
        self.dice.shuffle(self.filled())

    def lose_line(self):
        self.take()

    def add_line(self):
        self.insert(self.some_line())

    def double_line(self):
        self.insert(copy.deepcopy(self.dice.choice(self.filled())))

    def wrap(self):
        """Some lines of a list come below a header."""
        content, headers = self.filled(), [it['@id'] for it in self.all_in('Header') if '@id' in it]
        if headers and content != [None]:
            first, last = sorted(self.dice.choices(range(len(content) + 1), k=2))
            content[first:last] = [header_of(self.dice.choice(headers), content[first:last])]

    def unwrap(self):
        """A header goes, and what stands below it takes its place."""
        content = self.filled()
        at = self.dice.randrange(len(content))
        if content[at] and 'HeaderId' in content[at]:
            content[at:at + 1] = content[at].get('OrderedContent', [])

    def list_again(self):
        """The selections that a line lists stand in another order, or some go or come."""
        node = self.dice.choice(self.filled())
        found = [it for it in self.all_in('Contest') if node and it.get('@id') == node.get('ContestId')]
        if not found:
            return
        listed = node.get('OrderedContestSelectionIds', [])
        if listed and self.dice.random() < 0.7:
            at = self.dice.randrange(len(listed))
            listed[:] = self.dice.choice([self.dice.sample(listed, len(listed)), listed[:at] + listed[at + 1:], [*listed, listed[at]],
                                          [listed[at], *listed[:at], *listed[at + 1:]]])
        else:
            node.clear()
            node.update(listing(found[0], self.dice))

    def carry(self):
        """A member that only passes through, which may have the name of one that other classes list."""
        things = [node for content in self.contents() for node in content] + [it for name in PRINTED for it in self.all_in(name)]
        if things:
            thing = self.dice.choice(things)
            name = 'OrderedContent' if 'ContestId' in thing and self.dice.random() < 0.5 else self.dice.choice(['Note', 'IsWriteIn', 'FileDate', 'Selection'])
            if not (name == 'FileDate' and 'BallotName' in thing):
                thing[name] = self.dice.choice([None, True, 1, [], {'a': 1}])

    # ---- what ballots name

    def reword(self):
        name = self.dice.choice(list(PRINTED))
        if self.all_in(name):
            self.dice.choice(self.all_in(name))[self.dice.choice(PRINTED[name])] = self.dice.choice(WORDS)

    def number(self):
        name, has, member, values = self.dice.choice(PLAIN)
        things = [it for it in self.all_in(name) if has in it]
        if things:
            self.dice.choice(things)[member] = self.dice.choice(values)

    def name_another(self):
        """An object names others: a candidate another party, or a primary other parties."""
        name, has, member, of = self.dice.choice(NAMING)
        things, ids = [it for it in self.all_in(name) if has in it], [it['@id'] for it in self.all_in(of) if '@id' in it]
        if things and ids:
            self.dice.choice(things)[member] = some_of(ids, self.dice) if member.endswith('Ids') else self.dice.choice(ids)

    def key_again(self):
        """An object gets another key."""
        things = [it for name in (*PRINTED, 'BallotStyle') for it in self.all_in(name)]
        thing = self.dice.choice(things)
        if self.dice.random() < 0.5:
            thing['ExternalIdentifier'].append(identifier(str(self.dice.randrange(9)), self.dice.choice(['fips', 'other', 'zips'])))
        else:
            thing['ExternalIdentifier'][0]['Value'] += 'x'

    def turn_measure(self):
        """A contest becomes one of another class."""
        things = [it for it in self.all_in('Contest') if it['@type'] in (CLASS + 'PartyContest', CLASS + 'BallotMeasureContest')]
        if things:
            self.dice.choice(things)['@type'] = CLASS + self.dice.choice(['PartyContest', 'BallotMeasureContest'])

    # ---- styles

    def voters(self):
        styles = self.all_in('BallotStyle')
        if styles:
            member, array, least = self.dice.choice([('GpUnitIds', 'GpUnit', 1), ('PartyIds', 'Party', 0)])
            self.dice.choice(styles)[member] = some_of([it['@id'] for it in self.all_in(array)], self.dice, least)

    def lose_style(self):
        held = [one['BallotStyle'] for one in self.whole['Election'] if one.get('BallotStyle')]
        if held:
            styles = self.dice.choice(held)
            styles.pop(self.dice.randrange(len(styles)))

    def add_style(self):
        styles = self.all_in('BallotStyle')
        if styles:
            new = copy.deepcopy(self.dice.choice(styles))
            new['ExternalIdentifier'] = [identifier(self.dice.choice('ATZ') + str(self.dice.randrange(99)))]
            held = self.dice.choice(self.whole['Election']).setdefault('BallotStyle', [])
            held.insert(self.dice.randrange(len(held) + 1), new)

    def rehouse(self):
        """An object comes into another election."""
        name = self.dice.choice(OF_ELECTIONS)
        held = [one[name] for one in self.whole['Election'] if one.get(name)]
        if held:
            things = self.dice.choice(held)
            self.dice.choice(self.whole['Election']).setdefault(name, []).append(things.pop(self.dice.randrange(len(things))))


HELPERS = ['all_in', 'contents', 'filled', 'some_line', 'insert', 'take']
# Other words are the most of what differs, as each of them may be that of a contest, a candidate, a party, or of one beside these.
EDITS = [name for name in vars(BallotEdits) if not name.startswith('_') and name not in HELPERS] + ['reword'] * 4


def with_ballots(base, dice, most):
    """The report with at most so many edits."""
    changed = copy.deepcopy(base)
    edits = BallotEdits(changed, dice)
    for _ in range(dice.randrange(most + 1)):
        getattr(edits, dice.choice(EDITS))()
    return changed


# ---- one member


WORDED = [name for family in ('unit', 'party', 'person', 'office', 'header', 'candidate', 'contest', 'selection') for name in FAMILIES[family]]


def each_change(whole):
    """For each member of an object of which ballots may print something: its class and its name, and the report where it is gone. One that
    is required has the value that it has elsewhere, or a greater number."""
    for at, thing in enumerate(places(whole)):
        class_name = thing.get('@type', '')[len(CLASS):] if isinstance(thing, dict) else ''
        for name in thing if class_name in WORDED else []:
            if name not in ('@id', '@type', 'ExternalIdentifier', 'ContestSelection'):
                changed = copy.deepcopy(whole)
                change_member(changed, places(changed)[at], name, member_of(class_name, name).required)
                yield f'{class_name} {name}', changed


def change_member(whole, thing, name, is_required):
    holders = [it for it in places(whole) if isinstance(it, dict)]
    found = [it[name] for it in holders if name in it] + [entry for it in holders for entry in it.get(name + 's', [])]
    others = [value for value in found if value != thing[name]]
    if not is_required:
        del thing[name]
    elif others:
        thing[name] = others[0]
    elif isinstance(thing[name], int):
        thing[name] += 1
