#!/usr/bin/env python3
"""A reference program for `erd`, as a second opinion on the proved one.

It was written from docs/PROFILE.md, README.md and the manual page erd.1 alone, without a look at the sources of
`erd`. The rules for several elections were added later, from the same pages; their author knew the formal
definitions of these rules too, and had not seen the code. It does what the pages say the program does: the same
lines, the same bytes and the same exit statuses. Of help and of usage faults only the status is meant to agree. It
is written to be read, not to be fast.

How to run it (Python 3, standard library only):

    python3 erd_reference.py < report.json
    python3 erd_reference.py check [--prefer TYPE] FILE
    python3 erd_reference.py canon [--prefer TYPE] FILE
    python3 erd_reference.py compare [--prefer TYPE] LEFT RIGHT

Two more commands write all differences of two reports: `differences` as lines, and `entries` as data, which docs/API.md
describes.

One thing Python does before this program begins: it ends with status 1 if its standard input is a folder, where the
pages ask for `read failed` and status 3. And what the pages say of memory can be followed only as far as Python tells
of its want.

The sentences in the docstrings are those of PROFILE.md as it was then, or short forms of them. Where the pages left a
question open, they were made to answer it, or a comment begins with 'The page does not say:'.

Python orders texts by code points, and that is the order of their UTF-8 bytes. So 'Order of texts: by their UTF-8
bytes, everywhere' is the order of `sorted`, of `min` and of `<`.
"""

import itertools
import json
import os
import sys
import unicodedata
from collections import namedtuple

# ---------------------------------------------------------------------------------------------------------------
# Reading
# ---------------------------------------------------------------------------------------------------------------

LEVELS_AT_MOST = 127


class NotJson(ValueError):
    """'Bytes that it does not read are not JSON.'"""


class NumberThatIsNotWhole:
    """'Every other number is not whole.' Its value is never looked at, so none is kept."""


NOT_WHOLE = NumberThatIsNotWhole()


def read_report(data):
    """'The report is the value that `serde_json` reads from the bytes. Bytes that it does not read are not JSON.'

    'Bytes that are not UTF-8 are not JSON. A byte order mark before the report is not JSON.' `decode` keeps the
    mark as a character, and the grammar refuses it. Python's reader takes the white space of RFC 8259 and no other.
    """
    try:
        # Pairs are kept as a tuple until `settled`, so that what is wrong in a member that is written twice is seen.
        written = json.loads(data.decode('utf-8'), object_pairs_hook=tuple, parse_int=number_of,
                             parse_float=number_of, parse_constant=refuse_constant)
    except (ValueError, RecursionError):
        raise NotJson() from None
    return settled(written, 1)


def refuse_constant(text):
    """NaN, Infinity and -Infinity are no part of RFC 8259."""
    raise NotJson(text)


def number_of(text):
    """'A whole number is written without fraction and exponent and lies between -2^63 and 2^64 - 1.' '`-0` is not
    whole.' 'A number that is too large for a double-precision floating-point number is not JSON.'"""
    if not text.isascii():
        raise NotJson(text)
    # 'Rounded to the nearest one.'
    if float(text) in (float('inf'), float('-inf')):
        raise NotJson(text)
    written_whole = text.lstrip('-').isdigit() and len(text) <= 20
    if written_whole and text != '-0' and -2 ** 63 <= int(text) <= 2 ** 64 - 1:
        return int(text)
    return NOT_WHOLE


def settled(written, level):
    """'Nesting is at most 127 levels; the root is the first level.' 'Of a member name that is written twice in one
    object, `serde_json` keeps the last', as a dict does."""
    if isinstance(written, str):
        return settled_text(written)
    if not isinstance(written, (list, tuple)):
        return written
    # 'Only arrays and objects are levels.'
    if level > LEVELS_AT_MOST:
        raise NotJson()
    if isinstance(written, list):
        return [settled(entry, level + 1) for entry in written]
    return {settled_text(name): settled(value, level + 1) for name, value in written}


def settled_text(text):
    """'Bytes that [serde_json] does not read are not JSON.'"""
    # 'An escape of half a surrogate pair alone is not JSON.'
    if any('\ud800' <= character <= '\udfff' for character in text):
        raise NotJson()
    return text


def equal_as_json(left, right):
    """'Equal as JSON: built alike, objects as maps and arrays as lists, with equal texts and equal whole numbers.
    A number that is not whole is equal to none, not even to itself.'"""
    # '`true`, `false` and `null` are each equal to themselves alone.'
    if left is NOT_WHOLE or right is NOT_WHOLE or type(left) is not type(right):
        return False
    if isinstance(left, dict):
        return left.keys() == right.keys() and all(equal_as_json(left[name], right[name]) for name in left)
    if isinstance(left, list):
        return len(left) == len(right) and all(map(equal_as_json, left, right))
    return left == right


def compact_text(value):
    """'Compact text: the text that `serde_json` writes, with no blanks and members in the byte order of their
    names.' Python escapes as serde_json does: the quotation mark, the backslash and control characters, \\b \\f \\n
    \\r \\t in the short form and the others as \\u00xx in lower case; all else stands as it is."""
    return json.dumps(value, ensure_ascii=False, separators=(',', ':'), sort_keys=True)


# ---------------------------------------------------------------------------------------------------------------
# Classes, families and the member table
# ---------------------------------------------------------------------------------------------------------------

CLASS_PREFIX = 'ElectionResults.'

FAMILIES = {
    'unit': ['ReportingUnit'],
    'party': ['Party', 'Coalition'],
    'person': ['Person'],
    'office': ['Office'],
    'header': ['Header'],
    'candidate': ['Candidate'],
    'contest': ['CandidateContest', 'BallotMeasureContest', 'RetentionContest', 'PartyContest'],
    'style': ['BallotStyle'],
    'selection': ['CandidateSelection', 'BallotMeasureSelection', 'PartySelection'],
}
KEYED_FAMILIES = ['unit', 'party', 'person', 'office', 'header', 'candidate', 'contest', 'style']

# The classes of the entries of an array, by its kind; of a Keyed array they are those of its family.
CLASSES_IN = {
    'Identifiers': ['ExternalIdentifier'],
    'Languages': ['LanguageString'],
    'Elections': ['Election'],
    'Content': ['OrderedContest', 'OrderedHeader'],
}
ARRAY_KINDS = ['Many', 'Identifiers', 'Languages', 'Keyed', 'Elections', 'Content', 'Ordered']

# The member table: of each class the required members, then the optional ones, as the page writes them.
KEYED_BY = 'ExternalIdentifier Identifiers (reason 12)'

ENVELOPE = ('Format Word; GeneratedDate Word; Issuer Word; IssuerAbbreviation Word; VendorApplicationId Word; '
            'Notes Word; SequenceStart Whole; SequenceEnd Whole; ExternalIdentifier Identifiers')

PARTY = ('Name Label; ' + KEYED_BY,
         'Abbreviation Label; Slogan Label; LeaderPersonIds Many person; PartyScopeGpUnitIds Many unit')

PARTY_CONTEST = ('Name Label; ElectionDistrictId One unit; ' + KEYED_BY,
                 'Abbreviation Label; BallotTitle Label; BallotSubTitle Label; HasRotation Flag; '
                 'VoteVariation Word; OtherVoteVariation Word; ContestSelection Keyed selection; '
                 'OtherCounts Outside')

MEASURE_CONTEST = (PARTY_CONTEST[0],
                   PARTY_CONTEST[1] + '; SummaryText Label; FullText Label; ProStatement Label; ConStatement Label; '
                   'EffectOfAbstain Label; PassageThreshold Label; Type Word; OtherType Word')

SELECTION = 'SequenceOrder Whole; ExternalIdentifier Identifiers; VoteCounts Outside'

TABLE = {
    'ElectionReport': ('Status Word; Election Elections',
                       'IsTest Flag; TestType Word; GpUnit Keyed unit; Party Keyed party; Person Keyed person; '
                       'Office Keyed office; Header Keyed header; OfficeGroup Outside; ' + ENVELOPE),
    'Election': ('Name Label; Type Word; StartDate Word; EndDate Word; ElectionScopeId One unit',
                 'OtherType Word; ExternalIdentifier Identifiers; Candidate Keyed candidate; '
                 'Contest Keyed contest; BallotStyle Keyed style'),
    'ReportingUnit': ('Type Word; ' + KEYED_BY,
                      'OtherType Word; Name Label; Number Word; ComposingGpUnitIds Many unit; '
                      'AuthorityIds Many person; IsDistricted Flag; IsMailOnly Flag; '
                      'ElectionAdministration Outside; PartyRegistration Outside'),
    'Party': PARTY,
    'Coalition': (PARTY[0], PARTY[1] + '; ContestId One contest; ContestIds Many contest; PartyIds Many party'),
    'Person': (KEYED_BY,
               'FullName Label; FirstName Word; LastName Word; Title Label; Profession Label; PartyId One party'),
    'Office': ('Name Label; ' + KEYED_BY,
               'Description Label; IsPartisan Flag; ElectionDistrictId One unit; OfficeHolderPersonIds Many person'),
    'Header': ('Name Label; ' + KEYED_BY, ''),
    'Candidate': ('BallotName Label; ' + KEYED_BY,
                  'CampaignSlogan Label; FileDate Word; IsIncumbent Flag; IsTopTicket Flag; PartyId One party; '
                  'PersonId One person; PreElectionStatus Word'),
    'PartyContest': PARTY_CONTEST,
    'CandidateContest': (PARTY_CONTEST[0] + '; VotesAllowed Whole',
                         PARTY_CONTEST[1] + '; NumberElected Whole; NumberRunoff Whole; OfficeIds Many office; '
                         'PrimaryPartyIds Many party'),
    'BallotMeasureContest': MEASURE_CONTEST,
    'RetentionContest': (MEASURE_CONTEST[0] + '; CandidateId One candidate',
                         MEASURE_CONTEST[1] + '; OfficeId One office'),
    'CandidateSelection': ('', SELECTION + '; CandidateIds Many candidate; EndorsementPartyIds Many party; '
                           'IsWriteIn Flag'),
    'BallotMeasureSelection': ('Selection Label', SELECTION),
    'PartySelection': ('PartyIds Many party (not empty)', SELECTION),
    'BallotStyle': ('GpUnitIds Many unit (not empty); ' + KEYED_BY, 'PartyIds Many party; OrderedContent Content'),
    'OrderedContest': ('ContestId One contest', 'OrderedContestSelectionIds Ordered'),
    'OrderedHeader': ('HeaderId One header', 'OrderedContent Content'),
    'ExternalIdentifier': ('Type Word; Value Word', 'OtherType Word'),
    'InternationalizedText': ('Text Languages (not empty)', ''),
    'LanguageString': ('Language Word; Content Word', ''),
}

Member = namedtuple('Member', 'kind family required not_empty')


def members_of_column(column, required):
    """'After each name stands its kind, and the family where the kind has one.' '"Not empty" means that the array
    is required and has an entry. "Reason 12" means that an absent or an empty array is told by reason 12 alone.'"""
    members = {}
    for written in column.split('; ') if column else []:
        text, _, note = written.partition(' (')
        name, kind, *family = text.split(' ')
        members[name] = Member(kind, family[0] if family else None, required and note != 'reason 12)',
                               note == 'not empty)')
    return members


def members_of_class(class_name):
    """'`@type` stands in every class, and `@id` in every class of a family.' '`@type` is required in each of them.'
    '`@id` may stand, as a text, on every object of the nine families, and is required of none.'"""
    members = {'@type': Member('ClassText', None, True, False)}
    if any(class_name in classes for classes in FAMILIES.values()):
        members['@id'] = Member('Identity', None, False, False)
    members.update(members_of_column(TABLE[class_name][0], True))
    members.update(members_of_column(TABLE[class_name][1], False))
    return members


MEMBERS = {class_name: members_of_class(class_name) for class_name in TABLE}
ENVELOPE_NAMES = list(members_of_column(ENVELOPE, False))


def member_of(class_name, name):
    """'A name is listed for a class only if the table lists it under that class.' The others are of the kinds
    StrangeIdentity, StrangeReference and Carried. 'The ending `Id` or `Ids` is tested with upper and lower case
    told apart.'"""
    if name in MEMBERS[class_name]:
        return MEMBERS[class_name][name]
    if name == '@id':
        return Member('StrangeIdentity', None, False, False)
    if name.endswith(('Id', 'Ids')):
        return Member('StrangeReference', None, False, False)
    return Member('Carried', None, False, False)


def class_of(value):
    """The class of an object that the first phase has found right."""
    return value['@type'][len(CLASS_PREFIX):]


def members_with_values(value):
    """The members of an object of the 22 classes: the name, what the table says of it, and the value."""
    return [(name, member_of(class_of(value), name), inner) for name, inner in value.items()]


# ---------------------------------------------------------------------------------------------------------------
# The first phase
# ---------------------------------------------------------------------------------------------------------------

# A place is a tuple of steps: names and positions. The name of a fault is empty but for reason 2.
Fault = namedtuple('Fault', 'place reason name')


def first_phase(report):
    """'First phase: reasons 1 to 10, and reason 11 in arrays of the kinds Identifiers and Languages.'"""
    faults = []
    judge_object(report, (), ['ElectionReport'], faults)
    return faults


def judge_object(value, place, classes, faults):
    """'An object whose `@type` is missing has reason 2 with the name `@type`. One whose `@type` is not a text has
    reason 1 at `@type`. One whose class is not allowed has reason 3 at `@type`. In each case nothing else is told
    of the object or inside it.'"""
    if not isinstance(value, dict):
        faults.append(Fault(place, 1, ''))
    elif '@type' not in value:
        faults.append(Fault(place, 2, '@type'))
    elif not isinstance(value['@type'], str):
        faults.append(Fault(place + ('@type',), 1, ''))
    elif value['@type'] not in [CLASS_PREFIX + class_name for class_name in classes]:
        faults.append(Fault(place + ('@type',), 3, ''))
    else:
        judge_members(value, place, faults)


def judge_members(value, place, faults):
    """'MissingMember: a required member is absent, one fault for each.' 'NotPreElection: `Status` is a text other than
    `pre-election`.'"""
    for name, member in MEMBERS[class_of(value)].items():
        if member.required and name not in value:
            faults.append(Fault(place, 2, name))
    for name, member, inner in members_with_values(value):
        judge_value(member, inner, place + (name,), faults)
    status = value.get('Status') if class_of(value) == 'ElectionReport' else None
    if isinstance(status, str) and status != 'pre-election':
        faults.append(Fault(place + ('Status',), 8, ''))


def judge_value(member, value, place, faults):
    """The table of kinds. '`null` is a value of the wrong kind in a member that the table lists, except that
    Outside refuses it by reason 5.' 'Below a value with reason 1, 5, 6 or 7 nothing further is sought.'"""
    if member.kind == 'Outside':
        if not (isinstance(value, list) and not value):
            faults.append(Fault(place, 5, ''))
    elif member.kind == 'StrangeReference':
        faults.append(Fault(place, 6, ''))
    elif member.kind == 'StrangeIdentity':
        faults.append(Fault(place, 7, ''))
    elif member.kind == 'Carried':
        judge_carried(value, place, faults)
    elif member.kind in ARRAY_KINDS:
        judge_array(member, value, place, faults)
    elif member.kind == 'Label' and isinstance(value, dict):
        judge_object(value, place, ['InternationalizedText'], faults)
    elif member.kind == 'Whole' and value is NOT_WHOLE:
        faults.append(Fault(place, 4, ''))
    elif not is_of_plain_kind(member.kind, value):
        faults.append(Fault(place, 1, ''))


def is_of_plain_kind(kind, value):
    """'Flag: `true` or `false`. Whole: a whole number.' The other plain kinds ask for a JSON string: ClassText,
    Identity, Word, One, and a Label that is no object."""
    if kind == 'Flag':
        return isinstance(value, bool)
    if kind == 'Whole':
        return isinstance(value, int) and not isinstance(value, bool)
    return isinstance(value, str)


def judge_array(member, value, place, faults):
    """'EmptyArray: an array that must not be empty is empty.' 'ElectionCount: `Election` is an empty array.'"""
    if not isinstance(value, list):
        faults.append(Fault(place, 1, ''))
        return
    if member.not_empty and not value:
        faults.append(Fault(place, 10, ''))
    if member.kind == 'Elections' and not value:
        faults.append(Fault(place, 9, ''))
    for position, entry in enumerate(value):
        if member.kind not in ('Many', 'Ordered'):
            classes = FAMILIES[member.family] if member.kind == 'Keyed' else CLASSES_IN[member.kind]
            judge_object(entry, place + (position,), classes, faults)
        elif not isinstance(entry, str):
            faults.append(Fault(place + (position,), 1, ''))
    if member.kind in ('Identifiers', 'Languages'):
        judge_equal_entries(value, place, faults)


def judge_equal_entries(entries, place, faults):
    """'Two entries of a set of the kind Identifiers or Languages are the same if they are equal as JSON.' Reason 11
    'is judged of the whole entry against the earlier entries of the array, whatever other fault the entry has.'"""
    for position, entry in enumerate(entries):
        if any(equal_as_json(earlier, entry) for earlier in entries[:position]):
            faults.append(Fault(place + (position,), 11, ''))


def judge_carried(value, place, faults):
    """'Inside a carried value, at any depth: every number is whole (reason 4); no member is named `@id` or has a
    name that ends in `Id` or `Ids` (reason 7); `@type` is plain JSON, and nothing is judged by it.'"""
    if value is NOT_WHOLE:
        faults.append(Fault(place, 4, ''))
    elif isinstance(value, list):
        for position, entry in enumerate(value):
            judge_carried(entry, place + (position,), faults)
    elif isinstance(value, dict):
        for name, inner in value.items():
            if name == '@id' or name.endswith(('Id', 'Ids')):
                faults.append(Fault(place + (name,), 7, ''))
            else:
                judge_carried(inner, place + (name,), faults)


# ---------------------------------------------------------------------------------------------------------------
# Objects and keys; the second phase
# ---------------------------------------------------------------------------------------------------------------

# An object of the nine families, or an Election, with its place in the report.
Object = namedtuple('Object', 'place family value')


def objects_below(value, place):
    """The elections, and the objects of the nine families: these stand in the Keyed arrays of the report, of each
    Election and of each contest. An Election is of no family; here its family is called 'election'."""
    objects = []
    for name, member, inner in members_with_values(value):
        if member.kind in ('Keyed', 'Elections'):
            for position, entry in enumerate(inner):
                inside = place + (name, position)
                objects.append(Object(inside, member.family or 'election', entry))
                objects.extend(objects_below(entry, inside))
    return objects


def triple_of(identifier):
    """'The triple of an entry of `ExternalIdentifier` is (`Type`, `OtherType` or the empty text if it is absent,
    `Value`). `OtherType` counts whatever `Type` is.'"""
    return (identifier['Type'], identifier.get('OtherType', ''), identifier['Value'])


def chosen_triple(value, preference):
    """'If some entry of the object has the preferred text as its `Type`, the key is the least triple of those
    entries. Otherwise, and always if the preference is none, the key is the least triple of all entries.' 'An Election
    whose `ExternalIdentifier` is absent or empty has no key.'"""
    triples = [triple_of(identifier) for identifier in value.get('ExternalIdentifier', [])]
    preferred = [triple for triple in triples if preference is not None and triple[0] == preference]
    return min(preferred or triples, default=None)


def no_key_first(key):
    """'Where keys are ordered, no key comes before every key.'"""
    return () if key is None else (key,)


def second_phase(report, preference):
    """'Second phase: reasons 12 to 14.' '"Earlier" and "later" mean this order of places.'"""
    faults = []
    keys = set()
    identities = set()
    for thing in sorted(objects_below(report, ()), key=lambda thing: thing.place):
        if thing.family == 'election':
            judge_key(thing, preference, len(report['Election']) > 1, keys, faults)
        elif thing.family in KEYED_FAMILIES:
            judge_key(thing, preference, True, keys, faults)
        if '@id' in thing.value:
            if thing.value['@id'] in identities:
                faults.append(Fault(thing.place + ('@id',), 14, ''))
            identities.add(thing.value['@id'])
    return faults


def judge_key(thing, preference, needs_key, keys, faults):
    """'NoIdentifier: `ExternalIdentifier` absent or empty, in a keyed family, or in an Election of a report with two
    elections or more.' 'TwinIdentifier: the key of an earlier object of the family in the report, or of an Election the
    key of an earlier one.' 'Objects of different families may have the same key.'"""
    key = chosen_triple(thing.value, preference)
    if key is None and needs_key:
        faults.append(Fault(thing.place, 12, ''))
    elif key is not None and (thing.family, key) in keys:
        faults.append(Fault(thing.place, 13, ''))
    keys.add((thing.family, key))


# ---------------------------------------------------------------------------------------------------------------
# References and selection names; the third and the fourth phase
# ---------------------------------------------------------------------------------------------------------------


class Resolved:
    """A report without faults of the first two phases, with what its references name under one preference."""

    def __init__(self, report, preference):
        self.report = report
        self.preference = preference
        self.objects = objects_below(report, ())
        self.named = {thing.value['@id']: thing for thing in self.objects if '@id' in thing.value}

    def key_of(self, thing):
        """'The key of an object of a keyed family is one of the triples of its `ExternalIdentifier`.'"""
        return chosen_triple(thing.value, self.preference)

    def key_named(self, reference):
        """The key of the object that a reference names."""
        return self.key_of(self.named[reference])


def third_phase(resolved):
    """'Third phase: reasons 15 to 17, and reason 11 in arrays of the kind Many.'"""
    faults = []
    judge_references(resolved, resolved.report, (), faults)
    return faults


def judge_references(resolved, value, place, faults):
    """'A reference stands in a member of the kind One, Many or Ordered.'"""
    for name, member, inner in members_with_values(value):
        inside = place + (name,)
        if member.kind == 'One':
            judge_reference(resolved, inner, member.family, inside, faults)
        elif member.kind == 'Many':
            for position, reference in enumerate(inner):
                judge_reference(resolved, reference, member.family, inside + (position,), faults)
            judge_equal_references(inner, inside, faults)
        elif member.kind == 'Ordered':
            judge_ordered_selections(resolved, value['ContestId'], inner, inside, faults)
        elif member.kind in ('Keyed', 'Elections', 'Content'):
            for position, entry in enumerate(inner):
                judge_references(resolved, entry, inside + (position,), faults)


def judge_reference(resolved, reference, family, place, faults):
    """'Unresolved: no object has this `@id`.' 'WrongFamily: the object named is of another family.' 'Reasons 15 and
    16 are judged in any case.'"""
    if reference not in resolved.named:
        faults.append(Fault(place, 15, ''))
    elif resolved.named[reference].family != family:
        faults.append(Fault(place, 16, ''))


def judge_equal_references(references, place, faults):
    """'Two entries of the kind Many [are the same] if they are equal texts.' Reason 11: 'at each later copy'."""
    seen = set()
    for position, reference in enumerate(references):
        if reference in seen:
            faults.append(Fault(place + (position,), 11, ''))
        seen.add(reference)


def judge_ordered_selections(resolved, contest_reference, references, place, faults):
    """'SelectionOfOtherContest: a selection, but of another contest than `ContestId` names. Reason 17 is judged only
    where `ContestId` names a contest.'"""
    contest = resolved.named.get(contest_reference)
    for position, reference in enumerate(references):
        inside = place + (position,)
        judge_reference(resolved, reference, 'selection', inside, faults)
        thing = resolved.named.get(reference)
        if thing and thing.family == 'selection' and contest and contest.family == 'contest':
            if contest_place(thing) != contest.place:
                faults.append(Fault(inside, 17, ''))


def contest_place(selection):
    """The place of the contest of a selection: without the last steps, `ContestSelection` and the position."""
    return selection.place[:-2]


def selection_name(resolved, value):
    """'The selection name of a selection in its contest has six parts. Names are compared part by part.' None comes
    first: it is the empty tuple, and a value is a tuple of one."""
    class_name = class_of(value)
    references = {'CandidateSelection': 'CandidateIds', 'PartySelection': 'PartyIds'}.get(class_name)
    keys = {resolved.key_named(reference) for reference in value.get(references, [])} if references else []
    write_in = class_name == 'CandidateSelection' and value.get('IsWriteIn', False)
    order = (value['SequenceOrder'],) if 'SequenceOrder' in value else ()
    is_measure = class_name == 'BallotMeasureSelection'
    label = (compact_text(canonical_label(value['Selection'])),) if is_measure else ()
    triple = chosen_triple(value, resolved.preference)
    return (class_name, tuple(sorted(keys)), write_in, order, label, () if triple is None else (triple,))


def canonical_label(label):
    """The compact text of a label has 'its `Text` entries rising by their compact texts'."""
    return label if isinstance(label, str) else dict(label, Text=sorted(label['Text'], key=compact_text))


def fourth_phase(resolved):
    """'TwinSelection: the selection name of an earlier selection of the contest.'"""
    faults = []
    names = set()
    selections = [thing for thing in resolved.objects if thing.family == 'selection']
    for selection in sorted(selections, key=lambda thing: thing.place):
        name = (contest_place(selection), selection_name(resolved, selection.value))
        if name in names:
            faults.append(Fault(selection.place, 18, ''))
        names.add(name)
    return faults


def judged(report, preference):
    """'A phase is judged only if no earlier phase has a fault. The list of faults has all faults of that phase and no
    others.' 'Faults are ordered by their places, then by the numbers of their reasons, then by the member names in reason
    2. Names [are compared] by the bytes of the names themselves; positions by number; a place comes before the places that
    continue it.' Answers with the list of faults, and with what is resolved if the list is empty."""
    faults = first_phase(report) or second_phase(report, preference)
    if faults:
        return sorted(faults), None
    resolved = Resolved(report, preference)
    return sorted(third_phase(resolved) or fourth_phase(resolved)), resolved


# ---------------------------------------------------------------------------------------------------------------
# The lines of faults
# ---------------------------------------------------------------------------------------------------------------

TEXTS = {
    1: 'wrong kind',
    2: 'missing member ',
    3: 'wrong class',
    4: 'not a whole number',
    5: 'outside the profile',
    6: 'unknown reference',
    7: 'carried identity',
    8: 'not pre-election',
    9: 'wrong number of elections',
    10: 'empty array',
    11: 'repeated',
    12: 'no external identifier',
    13: 'identifier used twice',
    14: '@id used twice',
    15: 'unresolved reference',
    16: 'reference to another family',
    17: 'selection of another contest',
    18: 'selection name used twice',
}


def pointer_of(place):
    """'Each step is `/` and the name, or `/` and the position in decimal; in a name `~` is written `~0` and `/` is
    written `~1`. The place of the root is the empty text.'"""
    return ''.join('/' + str(step).replace('~', '~0').replace('/', '~1') for step in place)


def fault_line(fault):
    """'A fault line is the place, a colon, a blank, and the text.'"""
    return pointer_of(fault.place) + ': ' + TEXTS[fault.reason] + fault.name


# ---------------------------------------------------------------------------------------------------------------
# The canonical report
# ---------------------------------------------------------------------------------------------------------------

PREFIXES = {'unit': 'gp', 'party': 'pa', 'person': 'pe', 'office': 'of', 'header': 'hd', 'candidate': 'ca',
            'contest': 'co'}

CANONICAL_ENVELOPE = {
    'Format': 'summary-contest',
    'GeneratedDate': '2000-01-01T00:00:00Z',
    'Issuer': 'canonical',
    'IssuerAbbreviation': 'canonical',
    'VendorApplicationId': 'canonical',
    'SequenceStart': 1,
    'SequenceEnd': 1,
}


def canonical_bytes(resolved):
    """'The canonical report is the compact text, with no line end, of the report changed as follows.' 'The envelope
    has values of this project's own. `Notes` and the report's own `ExternalIdentifier` are absent.'"""
    identities = canonical_identities(resolved)
    report = canonical_object(resolved, identities, resolved.report, ())
    for name in ENVELOPE_NAMES:
        report.pop(name, None)
    report.update(CANONICAL_ENVELOPE)
    return compact_text(report).encode('utf-8')


def canonical_identities(resolved):
    """The `@id` of each object by its place: 'the prefix of the family and the rank of the object's key among those
    of its family in the report, counted from 1. The selections of contest `co3` are `cs3-1`, `cs3-2` and so on.'"""
    identities = {}
    for family, prefix in PREFIXES.items():
        things = [thing for thing in resolved.objects if thing.family == family]
        for rank, thing in enumerate(sorted(things, key=resolved.key_of), 1):
            identities[thing.place] = prefix + str(rank)
            if family == 'contest':
                identities.update(selection_identities(resolved, thing, rank))
    return identities


def selection_identities(resolved, contest, contest_rank):
    """The `@id` of the selections of one contest, rising by selection name."""
    selections = sorted(objects_below(contest.value, contest.place),
                        key=lambda thing: selection_name(resolved, thing.value))
    return {thing.place: 'cs%d-%d' % (contest_rank, rank) for rank, thing in enumerate(selections, 1)}


def canonical_object(resolved, identities, value, place):
    """'Empty arrays of the table and Outside members are left out.' '`@id` stands on every object of every family but
    style, and nowhere else.' 'Everything else stands as in the input.'"""
    changed = {}
    for name, member, inner in members_with_values(value):
        if member.kind not in ('Identity', 'Outside') and not (member.kind in ARRAY_KINDS and not inner):
            changed[name] = canonical_value(resolved, identities, member, inner, place + (name,))
    if place in identities:
        changed['@id'] = identities[place]
    return changed


def canonical_value(resolved, identities, member, value, place):
    """The table of the orders of entries, and 'References use these names. A text in a carried member is no reference
    and is not renamed.'"""
    def renamed(reference):
        return identities[resolved.named[reference].place]

    if member.kind == 'One':
        return renamed(value)
    if member.kind == 'Many':
        return [renamed(reference) for reference in sorted(value, key=resolved.key_named)]
    if member.kind == 'Ordered':
        return [renamed(reference) for reference in value]
    if member.kind == 'Identifiers':
        return sorted(value, key=compact_text)
    if member.kind == 'Label':
        return canonical_label(value)
    if member.kind in ('Keyed', 'Elections', 'Content'):
        entries = [(order_of_entry(resolved, member, entry), position) for position, entry in enumerate(value)]
        return [canonical_object(resolved, identities, value[position], place + (position,))
                for _, position in sorted(entries)]
    return value


def order_of_entry(resolved, member, entry):
    """'`Election` and the Keyed arrays of the keyed families rising by key; `ContestSelection` rising by selection name;
    Content as in the input.'"""
    if member.kind == 'Content':
        return ()
    if member.family == 'selection':
        return selection_name(resolved, entry)
    return no_key_first(chosen_triple(entry, resolved.preference))


# ---------------------------------------------------------------------------------------------------------------
# What a report means, and the first difference
# ---------------------------------------------------------------------------------------------------------------

Record = namedtuple('Record', 'class_name members')

PARTS = ['report', 'unit', 'party', 'person', 'office', 'header', 'election', 'candidate', 'contest', 'style']


def meaning_of(resolved):
    """'The record of the report; a finite map from the keys of the elections to their records, in which an Election
    without a key stands under no key; and, for each keyed family, a finite map from keys to records, for the objects of
    all elections together.' Here each part is such a map, and no key is None, as that of the report."""
    meaning = {part: {} for part in PARTS}
    meaning['report'][None] = record_of(resolved, resolved.report)
    for thing in resolved.objects:
        if thing.family in PARTS:
            record = record_of(resolved, thing.value)
            meaning[thing.family][resolved.key_of(thing)] = record
            add_key_of_election(resolved, thing, record)
    return meaning


def add_key_of_election(resolved, thing, record):
    """'The record of a candidate, a contest or a style has one more member, `ElectionId`: the key of the Election that
    the object stands in, if that has one; otherwise there is no such member.'"""
    if thing.family in ('candidate', 'contest', 'style'):
        key = chosen_triple(resolved.report['Election'][thing.place[1]], resolved.preference)
        if key is not None:
            record.members['ElectionId'] = key


def record_of(resolved, value):
    """'The record of an object is its class and a finite map from member names to values.'"""
    members = {name: value_in_record(resolved, member, inner)
               for name, member, inner in members_with_values(value)
               if is_in_record(class_of(value), name, member, inner)}
    return Record(class_of(value), members)


def is_in_record(class_name, name, member, value):
    """'These are not in the map: `@type`, `@id`, Outside members, the envelope, empty arrays of the table, `Election`
    of the report, and the Keyed arrays of the table other than `ContestSelection`. A Carried member with one of these
    names is in the map.'"""
    if member.kind in ('ClassText', 'Identity', 'Outside', 'Elections'):
        return False
    if class_name == 'ElectionReport' and name in ENVELOPE_NAMES:
        return False
    if member.kind in ARRAY_KINDS and not value:
        return False
    return member.kind != 'Keyed' or member.family == 'selection'


def value_in_record(resolved, member, value):
    """The table of the values in the record. Values of JSON are told apart by their compact texts: accepted ones are
    equal as JSON exactly if these are equal."""
    if member.kind == 'Label':
        return compact_text(canonical_label(value))
    if member.kind == 'Identifiers':
        return {compact_text(entry) for entry in value}
    if member.kind == 'One':
        return resolved.key_named(value)
    if member.kind == 'Many':
        return {resolved.key_named(reference) for reference in value}
    if member.kind == 'Content':
        return [node_of(resolved, entry) for entry in value]
    if member.kind == 'Keyed':
        return {selection_name(resolved, entry): record_of(resolved, entry) for entry in value}
    return compact_text(value)


def node_of(resolved, value):
    """'A node of content is either a contest's key with the list of the selection names that
    `OrderedContestSelectionIds` gives, or a header's key with its own list of nodes. Each node also has the map of its
    carried members.'"""
    carried = {name: compact_text(inner) for name, member, inner in members_with_values(value)
               if member.kind == 'Carried'}
    if class_of(value) == 'OrderedHeader':
        nodes = [node_of(resolved, entry) for entry in value.get('OrderedContent', [])]
        return ('header', resolved.key_named(value['HeaderId']), nodes, carried)
    names = [selection_name(resolved, resolved.named[reference].value)
             for reference in value.get('OrderedContestSelectionIds', [])]
    return ('contest', resolved.key_named(value['ContestId']), names, carried)


# An entry of the list of all differences. `member` is None where the records differ in no member. `selections` is what differs
# inside the selections of a contest that differs in them, and None of any other entry.
Difference = namedtuple('Difference', 'part key how member selections')

# What differs inside: the name of a selection, and how the two contests differ there.
SelectionDifference = namedtuple('SelectionDifference', 'name how member')


def first_difference(left, right):
    """'The first entry' of the list, as a line. None if the reports mean the same: 'it is empty if and only if the reports
    mean the same.'"""
    return next(differences(left, right), None)


def differences(left, right):
    """The lines of the list, one after another."""
    return map(difference_line, entries(left, right))


def entries(left, right):
    """The list of all differences. 'It rises by part, then by key, then by name.'"""
    left_meaning = meaning_of(left)
    right_meaning = meaning_of(right)
    for part in PARTS:
        for key in sorted(left_meaning[part].keys() | right_meaning[part].keys(), key=no_key_first):
            one, other = left_meaning[part].get(key), right_meaning[part].get(key)
            for how, member in differences_of(one, other):
                is_inside = part == 'contest' and member == 'ContestSelection'
                yield Difference(part, key, how, member, differences_inside(one, other) if is_inside else None)


def differences_of(left, right):
    """'`only left` or `only right`, where one report alone has a record; `other class`, where the classes differ.'
    'Where the records have one class, it has `member NAME` for each name at which they differ.' 'It may be a name that
    only one of them has.'"""
    if right is None:
        return [('only left', None)]
    if left is None:
        return [('only right', None)]
    if left.class_name != right.class_name:
        return [('other class', None)]
    return [('member', name) for name in sorted(left.members.keys() | right.members.keys())
            if name not in left.members or name not in right.members or left.members[name] != right.members[name]]


def differences_inside(left, right):
    """API.md: 'The array rises by the names of the selections, then of members. A selection that only one contest has is
    one entry. Otherwise there is an entry for each member that differs.'"""
    one, other = (record.members.get('ContestSelection', {}) for record in (left, right))
    return [SelectionDifference(name, how, member) for name in sorted(one.keys() | other.keys())
            for how, member in differences_of(one.get(name), other.get(name))]


def difference_line(difference):
    """'The line is the part; then, if there is a key, a blank and the compact JSON array of its three texts; then a
    colon, a blank and one of the above, the member's name as compact JSON text.'"""
    key = '' if difference.key is None else ' ' + compact_text(difference.key)
    member = '' if difference.member is None else ' ' + compact_text(difference.member)
    return difference.part + key + ': ' + difference.how + member


# ---------------------------------------------------------------------------------------------------------------
# The list as data
# ---------------------------------------------------------------------------------------------------------------


def difference_data(difference):
    """API.md: 'one object for each difference' with `how`, `key`, `member` and `part`. `key` 'is `null` for the report itself,
    and for a sole election without external identifiers'. 'An entry for the member `ContestSelection` of a contest has a
    further member, `selections`, the array of what differs inside'."""
    data = {'part': difference.part, 'key': difference.key, **way_data(difference)}
    if difference.selections is not None:
        data['selections'] = [{'name': name_data(inside.name), **way_data(inside)} for inside in difference.selections]
    return data


def valued_entries(left, right):
    """API.md: 'the values: what either report has there'. The list as data, one object after another."""
    sides = {'left': Shown(left), 'right': Shown(right)}
    for difference in entries(left, right):
        yield valued_data(difference, sides)


def valued_data(difference, sides):
    """API.md: 'An entry has a last member `values`, with `left` and `right`.' 'Entries of `selections` have `values` too'."""
    data = difference_data(difference)
    for entry, inside in zip(data.get('selections', []), difference.selections or []):
        entry.update(values_data(side.value_inside(difference, inside) for side in sides.values()))
    return {**data, **values_data(side.value_at(difference) for side in sides.values())}


def values_data(told):
    """API.md: 'A report that has nothing there is left out.'"""
    values = {name: value for name, value in zip(('left', 'right'), told) if value is not NOTHING}
    return {'values': values} if values else {}


# What a report has where a member is absent or means nothing by itself, or an object is not there. A carried member may be null.
NOTHING = object()


class Shown:
    """What a report has at its differences from another one."""

    def __init__(self, resolved):
        self.resolved = resolved
        self.objects = {(thing.family, resolved.key_of(thing)): thing for thing in resolved.objects if thing.family in PARTS}
        self.objects['report', None] = Object((), 'report', resolved.report)
        self.inside = {}

    def value_at(self, difference):
        """API.md: 'Each is the value of the member, or the record of the object if `how` is not `"member"`.'"""
        thing = self.objects.get((difference.part, difference.key))
        if thing is None:
            return NOTHING
        members, election = shown_members(self.resolved, thing.value), key_of_holder(self.resolved, thing)
        if difference.member is None:
            return {'class': thing.value['@type'], 'election': election, 'members': members}
        if difference.member == 'ElectionId':
            return NOTHING if election is None else election
        return members.get(difference.member, NOTHING)

    def value_inside(self, difference, inside):
        """API.md: 'what the contests have at that name, with no `election`.'"""
        selection = self.selections_of(difference.key).get(inside.name)
        if selection is None:
            return NOTHING
        members = shown_members(self.resolved, selection)
        return {'class': selection['@type'], 'members': members} if inside.member is None else members.get(inside.member, NOTHING)

    def selections_of(self, key):
        """The selections of the contest with a key, by their names."""
        if key not in self.inside:
            contest = self.objects.get(('contest', key))
            named = contest.value.get('ContestSelection', []) if contest else []
            self.inside[key] = {selection_name(self.resolved, it): it for it in named}
        return self.inside[key]


def key_of_holder(resolved, thing):
    """The key of the Election that a candidate, a contest or a style stands in, if that has one."""
    if thing.family not in ('candidate', 'contest', 'style'):
        return None
    return chosen_triple(resolved.report['Election'][thing.place[1]], resolved.preference)


def shown_members(resolved, value):
    """The members of an object that are told. API.md: '`ContestSelection` and the content of ballots have no `values`, and are in no
    record.'"""
    return {name: shown_value(resolved, member, inner) for name, member, inner in members_with_values(value)
            if is_in_record(class_of(value), name, member, inner) and member.kind not in ('Keyed', 'Content')}


def shown_value(resolved, member, value):
    """API.md: 'Keys stand in place of references, and sets rise.'"""
    if member.kind == 'Label':
        return canonical_label(value)
    if member.kind == 'Identifiers':
        return sorted(value, key=compact_text)
    if member.kind == 'One':
        return resolved.key_named(value)
    if member.kind == 'Many':
        return sorted(map(resolved.key_named, value))
    return value


# PROFILE.md, 'What a voter sees': the members of the meaning that are unseen: 'no ballot shows' them. Beside these,
# 'ExternalIdentifier' is unseen in every class.
UNSEEN = {
    'ReportingUnit': {'AuthorityIds', 'IsDistricted', 'IsMailOnly'},
    'Party': {'LeaderPersonIds', 'PartyScopeGpUnitIds'},
    'Coalition': {'LeaderPersonIds', 'PartyScopeGpUnitIds'},
    'Office': {'OfficeHolderPersonIds'},
    'Candidate': {'FileDate'},
    'CandidateContest': {'NumberRunoff'},
}


def word_entries(resolved):
    """API.md: 'answers with an entry for each unit, party, person, office, header, election, candidate and contest, in this order and
    by rising keys'. The entries, one after another."""
    for part in PARTS[1:-1]:
        for thing in sorted((it for it in resolved.objects if it.family == part), key=lambda it: no_key_first(resolved.key_of(it))):
            yield word_entry(resolved, thing)


def word_entry(resolved, thing):
    """API.md: '`selections` has those of a contest in the rising order of their names.'"""
    entry = {'class': thing.value['@type'], 'key': resolved.key_of(thing), 'part': thing.family}
    if thing.family == 'contest':
        named = [(selection_name(resolved, it), it) for it in thing.value.get('ContestSelection', [])]
        entry['selections'] = [{'name': name_data(name), 'words': words_of(resolved, it)} for name, it in sorted(named, key=lambda pair: pair[0])]
    return {**entry, 'words': words_of(resolved, thing.value)}


def words_of(resolved, value):
    """API.md: '`words` has the members that a voter sees or may see, the carried ones too, with keys in place of references.'"""
    unseen = UNSEEN.get(class_of(value), set()) | {'ExternalIdentifier'}
    return {name: shown_value(resolved, member, inner) for name, member, inner in members_with_values(value)
            if is_in_record(class_of(value), name, member, inner) and member.kind not in ('Keyed', 'Content')
            and (member.kind == 'Carried' or name not in unseen)}


def way_data(difference):
    """API.md on `member`: 'the name of the member that differs. Only `"member"` has it'."""
    return {'how': difference.how} if difference.member is None else {'how': difference.how, 'member': difference.member}


def name_data(name):
    """API.md: 'The name of a selection is the array of its six parts': 'the `@type` of its class', 'the array of the keys of its
    candidates or parties', 'whether it is for a write-in', 'its `SequenceOrder`, the compact text of its label, and the triple
    chosen from its identifiers. A part that the name has not is null.'"""
    class_name, keys, write_in, *parts = name
    return [CLASS_PREFIX + class_name, keys, write_in, *(part[0] if part else None for part in parts)]


def fault_data(fault):
    """API.md on `name`: 'the name of the missing member, as a string. Only reason 2 (`missing member`) has it'."""
    data = {'place': fault.place, 'reason': fault.reason}
    return {**data, 'name': fault.name} if fault.reason == 2 else data


# ---------------------------------------------------------------------------------------------------------------
# The program
# ---------------------------------------------------------------------------------------------------------------

BYTES_AT_MOST = 67108864
STANDARD_INPUT, STANDARD_OUTPUT, STANDARD_ERROR = 0, 1, 2


class Stop(Exception):
    """An end with the words on standard error and an exit status of 3 or 4."""

    def __init__(self, words, status=3):
        super().__init__(words)
        self.words = words
        self.status = status


def open_input(name):
    """'A file cannot be opened: `cannot open`, and a line with its name, in which each control character is a `?`.' 'A folder given as a file opens, and its reading fails', so this does
    not use Python's `open`, which refuses a folder."""
    try:
        return os.open(name, os.O_RDONLY)
    except OSError:
        shown = ''.join('?' if unicodedata.category(character) == 'Cc' else character for character in name)
        raise Stop('cannot open\n' + shown) from None


def read_input(handle):
    """'An engine takes at most 67,108,864 bytes (64 MiB) per input. Beyond it answers `too long`.' 'Each input is read
    to its end before anything is judged.' The limit of 2^27 calls of read cannot be met here by whole pieces."""
    # 'A read failed; so does that of a closed standard input.'
    data = bytearray()
    while len(data) <= BYTES_AT_MOST:
        try:
            piece = os.read(handle, 1 << 20)
        except OSError:
            raise Stop('read failed') from None
        if not piece:
            return bytes(data)
        data += piece
    raise Stop('too long')


def write_bytes(handle, data):
    """'A write or a flush failed, of fault lines to standard error too; a write that takes no byte has failed.'"""
    while data:
        try:
            taken = os.write(handle, data)
        except OSError:
            raise Stop('write failed') from None
        if taken == 0:
            raise Stop('write failed')
        data = data[taken:]


def write_lines(handle, lines):
    """'Every line ends with one line feed.'"""
    write_bytes(handle, ''.join(line + '\n' for line in lines).encode('utf-8'))


def verdict_on(data, preference):
    """What is judged of one input: the exit status, the faults, and what is resolved if it is accepted."""
    try:
        report = read_report(data)
    except NotJson:
        return 2, [], None
    faults, resolved = judged(report, preference)
    return (1, faults, None) if faults else (0, [], resolved)


def answer_of(data, preference):
    """What is judged of one input: the exit status, the lines that tell of it, and what is resolved if it is
    accepted."""
    status, faults, resolved = verdict_on(data, preference)
    lines = [fault_line(fault) for fault in faults]
    return status, {0: ['accepted'], 1: lines, 2: ['not JSON']}[status], resolved


def run_check(handle, preference):
    """'`check FILE` writes `accepted`; or the fault lines; or `not JSON`.'"""
    status, lines, _ = answer_of(read_input(handle), preference)
    write_lines(STANDARD_OUTPUT, lines)
    return status


def run_canon(handle, preference):
    """'The filter and `canon`, of a refused report, write nothing to standard output, and the fault lines or `not JSON`
    to standard error. Of an accepted report they write nothing to standard error.'"""
    status, lines, resolved = answer_of(read_input(handle), preference)
    if status == 0:
        write_bytes(STANDARD_OUTPUT, canonical_bytes(resolved))
    else:
        write_lines(STANDARD_ERROR, lines)
    return status


def run_two(left_handle, right_handle, preference, lines_of):
    """'`compare` writes the lines of the first refused report alone, the left one before the right one. Each of these
    lines begins with `left: ` or `right: `. The right report is judged only if the left one is accepted.' 'It then
    reads the left file, then the right one.'"""
    left_data = read_input(left_handle)
    right_data = read_input(right_handle)
    status, lines, left = answer_of(left_data, preference)
    # 'Once for each fault.'
    side = 'left: '
    if status == 0:
        status, lines, right = answer_of(right_data, preference)
        side = 'right: '
    if status != 0:
        write_lines(STANDARD_OUTPUT, [side + line for line in lines])
        return status
    found = lines_of(left, right)
    write_lines(STANDARD_OUTPUT, found or ['same'])
    return 1 if found else 0


def run_compare(left_handle, right_handle, preference):
    """'`compare LEFT RIGHT` writes `same`; or the line of the first difference; or the lines of the refused report.'"""
    return run_two(left_handle, right_handle, preference, lambda left, right: list(itertools.islice(differences(left, right), 1)))


def run_differences(left_handle, right_handle, preference):
    """'`differences LEFT RIGHT` writes `same`; or a line for each difference; or the lines of the refused report.'"""
    return run_two(left_handle, right_handle, preference, lambda left, right: list(differences(left, right)))


def run_entries(left_handle, right_handle, preference):
    """The same as data, with what either report has there, and with no line end. `erd` has a line end."""
    left_data = read_input(left_handle)
    right_data = read_input(right_handle)
    status, value = entries_answer(left_data, right_data, preference)
    write_bytes(STANDARD_OUTPUT, compact_text(value).encode('utf-8'))
    return status


def entries_answer(left_data, right_data, preference):
    """API.md: '[]' if the reports mean the same; 'an array with one object for each difference'; 'If the left report is
    refused, or else the right one, the object names the side', and has its faults, or 'the string `"not JSON"`'."""
    resolved = []
    for side, data in (('left', left_data), ('right', right_data)):
        status, faults, accepted = verdict_on(data, preference)
        if status != 0:
            return status, {'refused': side, 'faults': 'not JSON' if status == 2 else [fault_data(fault) for fault in faults]}
        resolved.append(accepted)
    found = list(valued_entries(*resolved))
    return (1 if found else 0), found


def run_as_data(command, handles, preference):
    """'`check --json FILE`: the JSON that `check_data_with` answers, and one line feed', and so with two files."""
    status, text = data_of(command, [read_input(handle) for handle in handles], preference)
    write_lines(STANDARD_OUTPUT, [text])
    return status


def data_of(command, inputs, preference):
    """The status and the JSON for these inputs."""
    if command == 'check':
        status, faults, _ = verdict_on(inputs[0], preference)
        value = 'not JSON' if status == 2 else [fault_data(fault) for fault in faults]
    else:
        status, value = entries_answer(*inputs, preference)
    if command == 'compare' and isinstance(value, list):
        # API.md: `null`, or 'an object for the first difference', which has neither `selections` nor `values`.
        value = {name: part for name, part in value[0].items() if name not in ('selections', 'values')} if value else None
    return status, compact_text(value)


FILES_OF = {'check': 1, 'canon': 1, 'compare': 2, 'differences': 2, 'entries': 2}

WITH_JSON = ('check', 'compare', 'differences')

USAGE = ('usage: erd < report | erd check|canon [--json] [--prefer TYPE] FILE | '
         'erd compare|differences [--json] [--prefer TYPE] LEFT RIGHT')


class Help(Exception):
    """The words ask for help."""


def texts_of(words):
    """README.md: 'an argument is not UTF-8: `the arguments are not text`'."""
    try:
        return [os.fsencode(word).decode('utf-8') for word in words]
    except UnicodeDecodeError:
        raise Stop('the arguments are not text') from None


def preference_after(words, preference):
    """'Of `--prefer` without a TYPE, with an empty one, or with no command before it, `clap` makes a usage fault.' A
    TYPE that is a word of its own does not begin with `-`."""
    # 'It takes `--prefer=TYPE`.' Two of them are a usage fault. The page does not say: what a TYPE of one hyphen is. Here,
    # as clap has it, it is read.
    if preference is not None or not words or not words[0] or (words[0].startswith('-') and words[0] != '-'):
        raise Stop(USAGE)
    return words[0]


def words_of_command(command, words):
    """'`--prefer TYPE` may follow `check`, `canon`, `compare` and `differences`, before the first file, and behind `--json`
    if that is there.' erd.1: 'Write a name that begins with - after --, or with ./ before it.'"""
    # '`clap` takes both options after a file or in the other order.'
    preference, is_json, files = None, False, []
    while words:
        word, words = words[0], words[1:]
        if word == '--':
            files, words = files + words, []
        elif word in ('-h', '--help'):
            raise Help()
        elif word == '--json' and command in WITH_JSON and not is_json:
            is_json = True
        elif word == '--prefer':
            preference, words = preference_after(words, preference), words[1:]
        elif word.startswith('--prefer=') and word != '--prefer=' and preference is None:
            preference = word[len('--prefer='):]
        elif (word.startswith('-') and word != '-') or len(files) == FILES_OF[command]:
            raise Stop(USAGE)
        else:
            files.append(word)
    if len(files) != FILES_OF[command]:
        raise Stop(USAGE)
    return preference, is_json, files


def run(words):
    """The table of the words after `erd`. '`compare` opens both files first, so `cannot open` comes before
    everything.'"""
    # The page does not say: what an empty file name is. Here it cannot be opened; the status is that of a usage fault.
    # 'Any option other than `--prefer`, `--json` and help' is a usage fault; `--json` twice, with a value, or after `canon`.
    # The page does not say: what `--` alone is. Here it is the filter: no words are left after the end of options.
    if not words or words == ['--']:
        return run_canon(STANDARD_INPUT, None)
    command, rest = words[0], words[1:]
    if command in ('-h', '--help'):
        raise Help()
    if command == 'help' and (not rest or (len(rest) == 1 and (rest[0] in FILES_OF or rest[0] == 'help'))):
        raise Help()
    if command not in FILES_OF:
        raise Stop(USAGE)
    preference, is_json, files = words_of_command(command, rest)
    handles = [open_input(name) for name in files]
    if is_json:
        return run_as_data(command, handles, preference)
    runners = {'check': run_check, 'canon': run_canon, 'compare': run_compare, 'differences': run_differences,
               'entries': run_entries}
    return runners[command](*handles, preference)


def main(words):
    """The table of the exit statuses. 'Memory was refused: 4, `no memory`.' 'Help goes to standard output, usage to
    standard error.'"""
    try:
        return run(texts_of(words))
    except Help:
        write_lines(STANDARD_OUTPUT, [USAGE])
        return 0
    except MemoryError:
        stop = Stop('no memory', 4)
    except Stop as caught:
        stop = caught
    try:
        write_lines(STANDARD_ERROR, [stop.words])
    except Stop:
        pass
    return stop.status


if __name__ == '__main__':
    sys.exit(main(sys.argv[1:]))
