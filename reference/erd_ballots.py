"""The ballots of a report, and what differs on those of two, as a second opinion on the proved program.

It was written from docs/API.md ("Ballots"), docs/PROFILE.md ("What a voter sees"), docs/GUIDE.md ("What differs on a ballot") and the
formal definitions in crates/erd_shown/specs, without a look at the code. It builds on erd_reference.py, and is written to be read, not
to be fast. The sentences in quotation marks are those of the pages.

Rows of two ballots beside each other are not unique, so none are made here. What differs on a ballot is told of given rows.
"""
from collections import namedtuple

from erd_reference import KEYED_FAMILIES, chosen_triple, class_of, compact_text, key_of_holder, name_data, selection_name, words_of

# A header or a contest on a ballot: how many headers stand around it, and the object of the content.
Line = namedtuple('Line', 'depth node')

# The objects whose words stand on a ballot beside those of an object, by the members that name them.
BESIDE = {
    'candidate': [('PartyId', 'party'), ('PersonId', 'person')],
    'contest': [('PrimaryPartyIds', 'party'), ('CandidateId', 'candidate')],
    'selection': [('CandidateIds', 'candidate'), ('PartyIds', 'party'), ('EndorsementPartyIds', 'party')],
}

# Those whose voters get a ballot.
VOTERS = [('parties', 'PartyIds', 'party'), ('units', 'GpUnitIds', 'unit')]


def lines_of(content, depth=0):
    """'`lines` counts headers and contests.' '`depth` counts the headers around a line.'"""
    for node in content:
        yield Line(depth, node)
        if class_of(node) == 'OrderedHeader':
            yield from lines_of(node.get('OrderedContent', []), depth + 1)


def references_in(value, member):
    """What a member of the kind One or Many names: none where it is absent."""
    found = value.get(member, [])
    return [found] if isinstance(found, str) else found


class Ballots:
    """The ballots of an accepted report."""

    def __init__(self, resolved):
        self.resolved = resolved
        self.styles = [thing for thing in resolved.objects if thing.family == 'style']
        self.by_key = {(thing.family, resolved.key_of(thing)): thing.value for thing in resolved.objects if thing.family in KEYED_FAMILIES}

    def named(self, value, member):
        """The objects that a member of an object names."""
        return [self.resolved.named[reference].value for reference in references_in(value, member)]

    def key(self, value):
        return chosen_triple(value, self.resolved.preference)

    def words(self, value):
        """The text of what is printed of an object: 'the members that a voter sees or may see, the carried ones too, with keys in place of
        references.'"""
        return compact_text(words_of(self.resolved, value))

    # ---- one ballot

    def style_at(self, position):
        """The style at a position, in the order of the report, or None."""
        return self.styles[position].value if position < len(self.styles) else None

    def lines(self, style):
        return list(lines_of(style.get('OrderedContent', [])))

    def thing(self, line):
        """What a line is: the word `header` or `contest`, and the key."""
        word, member = ('header', 'HeaderId') if class_of(line.node) == 'OrderedHeader' else ('contest', 'ContestId')
        return word, self.key(self.named(line.node, member)[0])

    def is_listed(self, line):
        """Whether the ballot lists selections of the line."""
        return bool(line.node.get('OrderedContestSelectionIds', []))

    def selections(self, line):
        """The selections of a line: 'as the ballot lists them, or, with `listed` false, in rising order' of their names. A header has none."""
        if self.is_listed(line):
            return self.named(line.node, 'OrderedContestSelectionIds')
        inside = [it for contest in self.named(line.node, 'ContestId') for it in contest.get('ContestSelection', [])]
        return sorted(inside, key=lambda it: selection_name(self.resolved, it))

    def names(self, line):
        return [selection_name(self.resolved, it) for it in self.selections(line)]

    def line_data(self, line):
        return {'depth': line.depth, 'listed': self.is_listed(line), 'selections': list(map(name_data, self.names(line))), 'what': self.thing(line)}

    def lines_data(self, style):
        return list(map(self.line_data, self.lines(style)))

    def voters(self, style):
        """'`parties` and `units` have the keys of those whose voters get the ballot.' Sets rise."""
        return {name: sorted(map(self.key, self.named(style, member))) for name, member, _ in VOTERS}

    def without_election(self, style):
        return {'key': self.key(style), 'lines': self.lines_data(style), **self.voters(style)}

    def ballot(self, position):
        """'`erd_ballot` answers for a position with `election`, `key`, `lines`, `parties` and `units`, or with `null`.'"""
        style = self.style_at(position)
        return None if style is None else {'election': key_of_holder(self.resolved, self.styles[position]), **self.without_election(style)}

    # ---- all ballots

    def positions_by_key(self):
        return sorted(range(len(self.styles)), key=lambda position: self.key(self.style_at(position)))

    def heads(self):
        """'`erd_ballots` answers with an array, by the rising keys of the styles.'"""
        return [{'at': position, 'key': self.key(style), 'lines': len(self.lines(style)), **self.voters(style)}
                for position, style in ((it, self.style_at(it)) for it in self.positions_by_key())]


class TwoReports:
    """The ballots of two accepted reports."""

    def __init__(self, left, right):
        self.left, self.right = left, right

    # ---- words

    def has_other_words(self, family, value):
        """Whether the right report has the object of this key, and prints other words of it."""
        other = self.right.by_key.get((family, self.left.key(value)))
        return other is not None and self.left.words(value) != self.right.words(other)

    def is_reworded(self, family, value):
        """Whether the words of an object of the left report, or those beside them, are others in the right one. A selection has no words
        of its own here: they are compared with the line."""
        return family != 'selection' and self.has_other_words(family, value) or any(
            self.is_any_reworded(inner, value, member) for member, inner in BESIDE.get(family, []))

    def is_any_reworded(self, family, value, member):
        return any(self.is_reworded(family, it) for it in self.left.named(value, member))

    def is_line_reworded(self, line):
        """Of a contest, by itself and by its selections on this ballot."""
        if class_of(line.node) == 'OrderedHeader':
            return self.is_any_reworded('header', line.node, 'HeaderId')
        return self.is_any_reworded('contest', line.node, 'ContestId') or any(self.is_reworded('selection', it) for it in self.left.selections(line))

    # ---- two ballots

    def is_same_line(self, one, other):
        """Whether the lines are as deep, list selections both or neither, and print the same words: those of the selections too."""
        return (one.depth == other.depth and self.left.is_listed(one) == self.right.is_listed(other)
                and list(map(self.left.words, self.left.selections(one))) == list(map(self.right.words, self.right.selections(other)))
                and not self.is_line_reworded(one))

    def changed_voters(self, one, other):
        """'`changed parties`, `changed units`: other voters get it.' Or the right report has other words of them."""
        before, after = self.left.voters(one), self.right.voters(other)
        return [name for name, member, family in VOTERS if before[name] != after[name] or self.is_any_reworded(family, one, member)]

    def is_same_ballot(self, one, other):
        """'The same ballots have the same lines, voters and words, in whatever election.'"""
        lines = list(zip(self.left.lines(one), self.right.lines(other)))
        return (compact_text(self.left.without_election(one)) == compact_text(self.right.without_election(other))
                and not self.changed_voters(one, other) and all(self.is_same_line(*pair) for pair in lines))

    def differing(self):
        """'`erd_ballot_differences` answers with the styles whose ballots differ, and their positions or `null`': for each key the
        positions."""
        sides = [{side.key(style.value): position for position, style in enumerate(side.styles)} for side in (self.left, self.right)]
        found = {key: tuple(side.get(key) for side in sides) for side in sides for key in side}
        return {key: places for key, places in found.items() if None in places
                or not self.is_same_ballot(self.left.style_at(places[0]), self.right.style_at(places[1]))}

    # ---- what differs on a ballot

    def below(self, one, other, rows):
        """'`below` says in lines what differs on the ballots', each ended by one line feed. The rows are those of the two ballots."""
        told = [f'  changed {name}' for name in self.changed_voters(one, other)]
        for row in rows:
            told += self.row_lines(self.left.lines(one), self.right.lines(other), row)
        return ''.join(line + '\n' for line in told)

    def row_lines(self, ones, others, row):
        """'`removed` and `added`: only the left or the right ballot has it. `moved`: it stands elsewhere on the right ballot.' Of the two rows
        of a line that moved, the one where it is now tells of it."""
        how = row['how']
        if how == 'moved away':
            return []
        if how == 'removed':
            return [f'  removed {self.thing_text(self.left, ones[row["left"]])}']
        if how == 'added':
            return [f'  added {self.thing_text(self.right, others[row["right"]])}']
        moved = [f'  moved {self.thing_text(self.right, others[row["right"]])}'] if how == 'moved here' else []
        return moved + self.changed_lines(ones[row['left']], others[row['right']], row['selections'])

    def changed_lines(self, one, other, rows):
        """'`changed`: it, or what it names, has other words, more or fewer headers stand around it, or its selections differ. A selection is
        told by its name'."""
        words = {'removed': 'removed', 'added': 'added', 'moved here': 'moved'}
        inside = [f'    {words[row["how"]]} selection {compact_text(row["name"])}' for row in rows if row['how'] in words]
        return [f'  changed {self.thing_text(self.left, one)}', *inside] if inside or not self.is_same_line(one, other) else []

    def thing_text(self, side, line):
        word, key = side.thing(line)
        return f'{word} {compact_text(key)}'
