"""The ballots of a report, and which of them are not the same in two reports."""

import json
import subprocess
import sys

import pytest

import erd

NAMES = {'small-ballot', 'county.vendor-a', 'county-general', 'two-elections.vendor-a', 'one-unit'}


@pytest.fixture(params=sorted(NAMES))
def report(top, request):
    return (top / 'examples' / f'{request.param}.json').read_bytes()


def contents(entries, depth=0):
    """The headers and contests of a ballot, each with how many headers stand around it."""
    for entry in entries:
        yield depth, entry
        yield from contents(entry.get('OrderedContent', []), depth + 1)


def styles_of(report):
    return [style for election in json.loads(report)['Election'] for style in election.get('BallotStyle', [])]


def ids_of(report, *names):
    """The local numbers of the objects in these members of the report and of its elections, by their system names."""
    whole = json.loads(report)
    entries = [entry for holder in (whole, *whole['Election']) for name in names for entry in holder.get(name, [])]
    return {entry['@id']: {it['Value'] for it in entry['ExternalIdentifier']} for entry in entries if '@id' in entry}


def test_the_heads_of_all_ballots(report):
    styles = styles_of(report)
    units, parties = ids_of(report, 'GpUnit'), ids_of(report, 'Party')
    found = erd.ballots(report)
    assert found and found.check.accepted
    assert sorted(head.position for head in found.ballots) == list(range(len(styles)))
    assert [head.key for head in found.ballots] == sorted(head.key for head in found.ballots)
    for head in found.ballots:
        style = styles[head.position]
        assert head.key[2] in {it['Value'] for it in style['ExternalIdentifier']}
        assert head.all_lines == len(list(contents(style.get('OrderedContent', []))))
        assert all(key[2] in units[name] for key, name in zip(head.units, style['GpUnitIds'])) or len(head.units) > 1
        assert len(head.units) == len(style['GpUnitIds']) and len(head.parties) == len(style.get('PartyIds', []))
        assert all(any(key[2] in values for values in parties.values()) for key in head.parties)
    assert found.lines == tuple(f'ballot {erd.results.compact(list(head.key))}: {head.all_lines} lines' for head in found.ballots)


def test_each_ballot(report):
    contests, headers = ids_of(report, 'Contest'), ids_of(report, 'Header')
    for head in erd.ballots(report).ballots:
        style = styles_of(report)[head.position]
        ballot = erd.ballot(report, head.position).ballot
        assert (ballot.key, ballot.parties, ballot.units, len(ballot.lines)) == (head.key, head.parties, head.units, head.all_lines)
        for line, (depth, entry) in zip(ballot.lines, contents(style.get('OrderedContent', []))):
            is_header = entry['@type'].endswith('OrderedHeader')
            names = headers if is_header else contests
            assert (line.depth, line.what) == (depth, 'header' if is_header else 'contest')
            assert line.key[2] in names[entry['HeaderId' if is_header else 'ContestId']]
            listed = entry.get('OrderedContestSelectionIds')
            assert line.is_listed == bool(listed)
            assert not listed or len(line.selections) == len(listed)
            assert all(isinstance(name, erd.SelectionName) for name in line.selections)
    assert erd.ballot(report, len(styles_of(report))).ballot is None


def test_the_election_of_each_ballot(top):
    report = (top / 'examples' / 'two-elections.vendor-a.json').read_bytes()
    elections = {head.key[2]: erd.ballot(report, head.position).ballot.election for head in erd.ballots(report).ballots}
    primary, referendum = (('local-level', '', value) for value in ('2026-PRIMARY', '2026-REFERENDUM'))
    assert elections == {'BS-GRANITE': primary, 'BS-HARBOR': primary, 'BS-MEASURES': referendum}
    alone = json.loads((top / 'examples' / 'small-ballot.json').read_bytes())
    assert 'ExternalIdentifier' not in alone['Election'][0] and erd.ballot(json.dumps(alone), 0).ballot.election is None


def test_the_same_ballots(report):
    found = erd.ballot_differences(report, report)
    assert found.same and found and found.lines == ('same ballots',)


def test_ballots_that_differ(top):
    """Two candidates change places on one style, another style is gone, and one is new."""
    left = json.loads((top / 'examples' / 'county-general.json').read_text(encoding='utf-8'))
    right = json.loads(json.dumps(left))
    election = right['Election'][0]
    moved, gone = election['BallotStyle'][0], election['BallotStyle'].pop(1)
    content = next(entry for _, entry in contents(moved['OrderedContent']) if len(entry.get('OrderedContestSelectionIds', [])) > 1)
    content['OrderedContestSelectionIds'].reverse()
    new = json.loads(json.dumps(gone))
    new['ExternalIdentifier'][0]['Value'] = 'ZZ'
    election['BallotStyle'].append(new)
    found = erd.ballot_differences(json.dumps(left), json.dumps(right))
    keys = [style['ExternalIdentifier'][0]['Value'] for style in (moved, gone, new)]
    assert {(difference.key[2], difference.how) for difference in found.differences} == set(zip(keys, ('differs', 'only left', 'only right')))
    assert [(difference.left, difference.right) for difference in found.differences if difference.how == 'differs'] == [(0, 0)]
    words = {'differs': 'differs', 'only left': 'only in the left report', 'only right': 'only in the right report'}
    heads = tuple(f'ballot {erd.results.compact(list(it.key))}: {words[it.how]}' for it in found.differences)
    assert tuple(line for line in found.lines if line[0] != ' ') == heads
    assert [len(it.below) > 1 for it in found.differences] == [it.how == 'differs' for it in found.differences]
    assert [line for line in found.lines if line[0] == ' '] == [line for it in found.differences for line in it.below]
    assert not found.same and not found


def test_ballots_beside_each_other(top):
    """On the right ballot a contest is gone, the last line stands first, and two selections of a contest have changed places."""
    left = json.loads((top / 'examples' / 'county-general.json').read_text(encoding='utf-8'))
    flat = [{'@type': 'ElectionResults.OrderedContest', 'ContestId': contest['@id'],
             'OrderedContestSelectionIds': [it['@id'] for it in contest['ContestSelection']]} for contest in left['Election'][0]['Contest'][:4]]
    assert len(flat) == 4 and len(flat[1]['OrderedContestSelectionIds']) == 4
    left['Election'][0]['BallotStyle'][0]['OrderedContent'] = flat
    right = json.loads(json.dumps(left))
    content = right['Election'][0]['BallotStyle'][0]['OrderedContent']
    content[1]['OrderedContestSelectionIds'][:2] = reversed(content[1]['OrderedContestSelectionIds'][:2])
    del content[2]
    content.insert(0, content.pop())
    found = erd.ballots_beside(json.dumps(left), json.dumps(right), 0, 0)
    assert (found.is_there, found.refused, found.check) == (True, None, None)
    assert found.left == erd.ballot(json.dumps(left), 0).ballot.lines and found.right == erd.ballot(json.dumps(right), 0).ballot.lines
    assert {(row.how, row.left, row.right) for row in found.rows} == {
        ('both', 0, 1), ('both', 1, 2), ('removed', 2, None), ('moved away', 3, 0), ('moved here', 3, 0)}
    inside = next(row.selections for row in found.rows if row.left == 1)
    assert sorted(row.how for row in inside) == ['both', 'both', 'both', 'moved away', 'moved here']
    assert [row.name for row in inside if row.how != 'moved here'] == list(found.left[1].selections)
    assert [row.name for row in inside if row.how != 'moved away'] == list(found.right[2].selections)
    assert erd.ballots_beside(json.dumps(left), json.dumps(right), 0, 99) == erd.BallotsBeside()


def named_by(style, election):
    """The `@id` of all that the ballot of a style prints: headers, contests, selections, candidates, parties, persons and units."""
    contests = {it['@id']: it for it in election['Contest']}
    candidates = {it['@id']: it for it in election['Candidate']}
    found = {*style['GpUnitIds'], *style.get('PartyIds', [])}
    for _, entry in contents(style['OrderedContent']):
        found.add(entry.get('HeaderId', entry.get('ContestId')))
        contest = contests.get(entry.get('ContestId'), {})
        listed = entry.get('OrderedContestSelectionIds') or [it['@id'] for it in contest.get('ContestSelection', [])]
        found |= {*listed, *contest.get('PrimaryPartyIds', []), contest.get('CandidateId')}
        for selection in (it for it in contest.get('ContestSelection', []) if it['@id'] in listed):
            found |= {*selection.get('EndorsementPartyIds', []), *selection.get('PartyIds', []), *selection.get('CandidateIds', [])}
    return found | {candidates[it].get(name) for it in found & candidates.keys() for name in ('PartyId', 'PersonId')}


@pytest.mark.parametrize('family, member, value', [
    ('Candidate', 'BallotName', 'Another Name'), ('Candidate', 'PartyId', None), ('Contest', 'VotesAllowed', 7), ('Contest', 'BallotTitle', 'Title'),
    ('Header', 'Name', 'Head'), ('Party', 'Abbreviation', 'XYZ'), ('Person', 'FullName', 'Another Name'), ('GpUnit', 'Name', 'Place'),
    ('ContestSelection', 'EndorsementPartyIds', []), ('Candidate', 'FileDate', '2026-01-02'), ('Office', 'Name', 'Office'),
])
def test_ballots_with_other_words(top, family, member, value):
    """One member of one object is changed. The ballots that print the object differ, and no other."""
    left = (top / 'examples' / 'county-general.json').read_text(encoding='utf-8')
    hidden = family == 'Office' or member == 'FileDate'
    whole = json.loads(left)
    selections = [it for contest in whole['Election'][0]['Contest'] for it in contest.get('ContestSelection', [])]
    for number in range(len(selections if family == 'ContestSelection' else whole.get(family, whole['Election'][0].get(family)))):
        right = json.loads(left)
        election = right['Election'][0]
        held = [it for contest in election['Contest'] for it in contest.get('ContestSelection', [])]
        changed = (held if family == 'ContestSelection' else right.get(family, election.get(family)))[number]
        if (member == 'VotesAllowed' and member not in changed) or changed.get(member, value) == value and value in (None, []):
            continue
        changed[member] = value
        if value is None:
            del changed[member]
        keys = {it['ExternalIdentifier'][0]['Value'] for it in election['BallotStyle'] if changed['@id'] in named_by(it, json.loads(left)['Election'][0])}
        found = erd.ballot_differences(left, json.dumps(right))
        assert found.refused is None
        assert {(it.key[2], it.how) for it in found.differences} == (set() if hidden else {(key, 'differs') for key in keys}), changed['@id']


def test_what_is_refused():
    assert (erd.ballots('{').check.outcome, erd.ballots('{').lines, erd.ballots('{').ballots) == ('not JSON', ('not JSON',), ())
    assert not erd.ballots('{}') and erd.ballots('{}').lines == erd.check('{}').lines
    assert erd.ballot('{}', 0) == erd.OneBallot(erd.check('{}'))
    found = erd.ballot_differences('{}', '{')
    assert (found.refused, found.check, found.same, found.lines) == ('left', erd.check('{}'), False, ('left: : missing member @type',))
    assert erd.ballots_beside('{}', '{', 0, 0) == erd.BallotsBeside(refused='left', check=erd.check('{}'))
    for position, error in ((-1, ValueError), (2 ** 64, ValueError), ('0', TypeError)):
        for call in (lambda: erd.ballot('{}', position), lambda: erd.ballots_beside('{}', '{}', position, 0),
                     lambda: erd.ballots_beside('{}', '{}', 0, position)):
            with pytest.raises(error):
                call()


def test_a_preferred_type(top):
    report = json.loads((top / 'examples' / 'county-general.json').read_text(encoding='utf-8'))
    for number, unit in enumerate(report['GpUnit']):
        unit['ExternalIdentifier'].append({'@type': 'ElectionResults.ExternalIdentifier', 'Type': 'state-level', 'Value': f'S-{number}'})
    data = json.dumps(report)
    for prefer, wanted in (('state-level', {'state-level'}), ('local-level', {'local-level'})):
        found = erd.ballots(data, prefer=prefer)
        assert {key[0] for head in found.ballots for key in head.units} == wanted
        assert erd.ballot(data, 0, prefer=prefer).ballot.units == next(head.units for head in found.ballots if head.position == 0)
        assert erd.ballot_differences(data, data, prefer=prefer).same


def test_two_ballots_under_a_preferred_type(top):
    """The first style is gone on the right. Each style, contest and header has a number of the state too."""
    left = json.loads((top / 'examples' / 'county.vendor-a.json').read_text(encoding='utf-8'))
    for letter, name in (('S', 'BallotStyle'), ('C', 'Contest'), ('H', 'Header')):
        for number, it in enumerate({**left, **left['Election'][0]}[name]):
            it['ExternalIdentifier'].append({'@type': 'ElectionResults.ExternalIdentifier', 'Type': 'state-level', 'Value': f'{letter}-{number}'})
    right = json.loads(json.dumps(left))
    del right['Election'][0]['BallotStyle'][0]
    one, other = json.dumps(left), json.dumps(right)
    assert [it.key for it in erd.ballot_differences(one, other, prefer='state-level').differences] == [('state-level', '', 'S-0')]
    beside = erd.ballots_beside(one, other, 1, 0, prefer='state-level')
    assert beside.left and {line.key[0] for line in beside.left + beside.right} == {'state-level'}


def run(*words):
    done = subprocess.run([sys.executable, '-m', 'erd', 'ballots', *map(str, words)], capture_output=True, stdin=subprocess.DEVNULL)
    return done.returncode, done.stdout.decode('utf-8'), done.stderr.decode('utf-8')


def test_command(top, tmp_path, report):
    left, right = tmp_path / 'left.json', top / 'examples' / 'small-ballot.json'
    left.write_bytes(report)
    other = right.read_bytes()
    assert run(left) == (0, ''.join(f'{line}\n' for line in erd.ballots(report).lines), '')
    differences = erd.ballot_differences(report, other)
    assert run(left, right) == (0 if differences.same else 1, ''.join(f'{line}\n' for line in differences.lines), '')
    status, out, _ = run('--json', left)
    assert (status, [it['at'] for it in json.loads(out)]) == (0, [head.position for head in erd.ballots(report).ballots])
    status, out, _ = run('--json', left, right)
    assert (status, out[-1:], [it['left'] for it in json.loads(out)]) == (0 if differences.same else 1, '\n', [it.left for it in differences.differences])


def test_command_for_what_is_refused(top, tmp_path):
    good, bad, none = top / 'examples' / 'one-unit.json', tmp_path / 'bad', tmp_path / 'none'
    bad.write_text('{}')
    none.write_text('{')
    assert run(bad) == (1, ': missing member @type\n', '')
    assert run(none) == (2, 'not JSON\n', '')
    assert run('--json', none) == (2, '"not JSON"\n', '')
    assert run(good, bad) == (1, 'right: : missing member @type\n', '')
    assert run(none, bad) == (2, 'left: not JSON\n', '')
    status, out, _ = run('--json', good, bad)
    assert (status, json.loads(out)['refused']) == (1, 'right')


# Members of these reports that the standard has and the member table has not: ballots may show them.
CARRIED = {'Color', 'Term'}
# The members that an entry of the list of words may have, for objects of the examples: what ballots print, by docs/PROFILE.md.
SEEN = {'Candidate': {'BallotName', 'PartyId', 'CampaignSlogan', 'IsIncumbent', 'IsTopTicket', 'PersonId', 'PreElectionStatus'},
        'Party': {'Name', 'Abbreviation', 'Slogan'}, 'Header': {'Name'},
        'Election': {'Name', 'StartDate', 'EndDate', 'Type', 'OtherType', 'ElectionScopeId'},
        'Office': {'Name', 'Description', 'ElectionDistrictId', 'IsPartisan'}}


def test_the_words_of_each_object(report):
    """Each object is there once, its words are members of it, and ballots name the selections of a contest as its entry does."""
    whole = json.loads(report)
    holders = [whole, *whole['Election']]
    found = erd.words(report, most_entries=None)
    assert found and not found.more and found.all_entries == len(found.entries)
    counts = {part: sum(len(it.get(name, [])) for it in holders)
              for part, name in (('unit', 'GpUnit'), ('party', 'Party'), ('person', 'Person'), ('office', 'Office'), ('header', 'Header'),
                                 ('election', 'Election'), ('candidate', 'Candidate'), ('contest', 'Contest'))}
    parts = [entry.part for entry in found.entries]
    assert parts == [part for part, count in counts.items() for _ in range(count)]
    for part in counts:
        keys = [entry.key for entry in found.entries if entry.part == part]
        assert keys == sorted(keys) or keys == [None]
    for entry in found.entries:
        seen = SEEN.get(entry.type.rsplit('.', 1)[-1])
        assert seen is None or set(entry.words) <= seen | CARRIED
        assert all(isinstance(it.name, erd.SelectionName) for it in entry.selections)
    names = {entry.key: [it.name for it in entry.selections] for entry in found.entries if entry.part == 'contest'}
    for head in erd.ballots(report).ballots:
        for line in erd.ballot(report, head.position).ballot.lines:
            if line.what == 'contest':
                assert set(line.selections) <= set(names[line.key])
                assert line.is_listed or list(line.selections) == names[line.key]


def test_words_in_place_of_references(top):
    found = {(entry.part, entry.key): entry for entry in erd.words((top / 'examples' / 'small-ballot.json').read_bytes()).entries}
    tree = json.loads((top / 'examples' / 'small-ballot.json').read_bytes())
    for candidate in tree['Election'][0]['Candidate']:
        key = min((it['Type'], it.get('OtherType', ''), it['Value']) for it in candidate['ExternalIdentifier'])
        words = found['candidate', key].words
        assert words['BallotName'] == candidate['BallotName'] and 'ExternalIdentifier' not in words and '@id' not in words


def test_words_of_what_is_refused():
    refused = erd.words('{}', most_entries=0)
    assert not refused and refused.more and refused.entries == () and refused.check.all_faults > 0
    assert erd.words('{').check.lines == ('not JSON',)


def test_the_first_words(report):
    first = erd.words(report, most_entries=2)
    assert len(first.entries) == min(2, first.all_entries) and first.more == (first.all_entries > 2)
    assert erd.words(report, most_entries=0).entries == ()
