"""What the steps of `prepare` mend: for each step an accepted report that is damaged so that this step alone mends it.

A damage changes a report in place. The reports are those of `examples/`.
"""

CLASS = 'ElectionResults.'
COUNTY = 'county.vendor-a.json'
ELECTIONS = 'two-elections.vendor-a.json'


def contests(report):
    return [contest for election in report['Election'] for contest in election['Contest']]


def selections(report):
    return [selection for contest in contests(report) for selection in contest['ContestSelection']]


def candidates(report):
    return [candidate for election in report['Election'] for candidate in election['Candidate']]


def styles(report):
    return [style for election in report['Election'] for style in election['BallotStyle']]


def identifier(value, kind='local-level'):
    return {'@type': CLASS + 'ExternalIdentifier', 'Type': kind, 'Value': value}


def nulls(report):
    report['GpUnit'][1]['Number'] = None
    report['Notes'] = None
    report['GpUnit'][2]['Directions'] = {'Text': [{'Note': None}]}


def class_names(report):
    del report['GpUnit'][0]['ExternalIdentifier'][0]['@type']
    del report['GpUnit'][1]['@type']
    for style in styles(report):
        style['@type'] = 'BallotStyle'
        for content in style['OrderedContent']:
            del content['@type']


def kinds(report):
    contest = next(contest for contest in contests(report) if 'VotesAllowed' in contest)
    contest['VotesAllowed'] = str(contest['VotesAllowed'])
    report['IsTest'] = 'False'
    report['GpUnit'][1]['Number'] = 101
    for selection in selections(report):
        if len(selection.get('CandidateIds', [])) == 1:
            selection['CandidateIds'] = selection['CandidateIds'][0]
    for party in report['Party']:
        if len(party['ExternalIdentifier']) == 1:
            party['ExternalIdentifier'] = party['ExternalIdentifier'][0]
    report['Party'][0]['ExternalIdentifier']['Value'] = 12
    report['Election'] = report['Election'][0]


def twin_ids(report):
    """Gives a party the `@id` of a unit, and a header that of a person, with the references to them."""
    for family, member, other in (('Party', ('PartyId', 'EndorsementPartyIds', 'PartyIds', 'PrimaryPartyIds'), 'GpUnit'),
                                  ('Header', ('HeaderId',), 'Person')):
        old, new = report[family][0]['@id'], report[other][0]['@id']
        rename_references(report, member, old, new)
        report[family][0]['@id'] = new


def unused_ids(report):
    """Two persons of one `@id`, to which nothing refers."""
    report['Person'] += [{'@id': 'clerk', '@type': CLASS + 'Person', 'FullName': name, 'ExternalIdentifier': [identifier(name)]}
                         for name in ('Ada Clerk', 'Bea Clerk')]


def rename_references(value, members, old, new):
    if isinstance(value, list):
        for entry in value:
            rename_references(entry, members, old, new)
    elif isinstance(value, dict):
        for name, inner in value.items():
            if name in members:
                value[name] = [new if text == old else text for text in inner] if isinstance(inner, list) \
                    else new if inner == old else inner
            else:
                rename_references(inner, members, old, new)


def outside(report):
    report['OfficeGroup'] = [{'@type': CLASS + 'OfficeGroup', 'Name': 'County', 'OfficeIds': [report['Office'][0]['@id']]}]
    report['GpUnit'][0]['ElectionAdministration'] = {
        '@type': CLASS + 'ElectionAdministration', 'ElectionOfficialPersonIds': [report['Person'][0]['@id']]}
    report['GpUnit'][1]['PartyRegistration'] = [{'@type': CLASS + 'PartyRegistration', 'Count': 7, 'PartyId': report['Party'][0]['@id']}]


def counts(report):
    counted = {'@type': CLASS + 'VoteCounts', 'Count': 0, 'GpUnitId': report['GpUnit'][0]['@id'], 'Type': 'total', 'Round': 1}
    for selection in selections(report):
        selection['VoteCounts'] = [counted]
    contests(report)[0]['OtherCounts'] = [{'@type': CLASS + 'OtherCounts', 'Overvotes': 0.0, 'Undervotes': 0}]


def devices(report):
    for number in range(3):
        report['GpUnit'].append({'@id': f'device-{number}', '@type': CLASS + 'ReportingDevice', 'SerialNumber': f'A-{number}'})
        report['GpUnit'][number].setdefault('ComposingGpUnitIds', []).append(f'device-{number}')


def coordinates(report):
    for unit in report['GpUnit'][:3]:
        unit['ContactInformation'] = {'Name': 'Hall', 'LatLng': {'Latitude': 40.4406, 'Longitude': -79.0}}
    report['GpUnit'][0] |= {'Shape': {'Kind': 'Polygon', 'Ring': [[-79.5, 40.0], [-79.0, 41.25]]}, 'Sizes': [[1, 2]]}
    report['GpUnit'][1] |= {'Latitude': 40.5, 'Longitude': -79.25}


def whole_numbers(report):
    contest = next(contest for contest in contests(report) if 'VotesAllowed' in contest)
    contest['VotesAllowed'] = float(contest['VotesAllowed'])
    report['GpUnit'][0]['Sizes'] = [[1.0, 2], {'Voters': 3.0}]


def stray_ids(report):
    report['Election'][0]['@id'] = 'election-1'
    report['GpUnit'][0]['ExternalIdentifier'][0]['@id'] = 'identifier-1'
    report['GpUnit'][1]['ContactInformation'] = {'@id': 'contact-1', 'Phone': [{'@id': 'phone-1', 'Number': '5'}]}


def vendor_identifiers(report):
    for number, contest in enumerate(contests(report)):
        del contest['ExternalIdentifier']
        contest['VendorContestId'] = str(47 + number)
        contest['OwnerId'] = 'one for all'
    for contest in contests(report):
        del contest['OwnerId']


def vendor_texts(report):
    for number, contest in enumerate(contests(report)):
        contest['VendorContestId'] = 47 + number
    report['GpUnit'][0]['ContactInformation'] = {'BuildingIds': ['7', {'RoomId': '8'}]}


def repeated(report):
    style = styles(report)[0]
    style['GpUnitIds'].append(style['GpUnitIds'][0])
    report['GpUnit'][0]['ExternalIdentifier'] += report['GpUnit'][0]['ExternalIdentifier']


def unseen(report):
    """Members that no ballot shows."""
    report['GpUnit'][0] |= {'AuthorityIds': [report['Person'][0]['@id']], 'IsDistricted': True, 'IsMailOnly': False}
    report['Party'][0] |= {'LeaderPersonIds': [report['Person'][0]['@id']], 'PartyScopeGpUnitIds': [report['GpUnit'][0]['@id']]}
    report['Office'][0]['OfficeHolderPersonIds'] = [report['Person'][0]['@id']]
    candidates(report)[0]['FileDate'] = '2026-06-01'
    next(contest for contest in contests(report) if 'VotesAllowed' in contest)['NumberRunoff'] = 2


def false_flags(report):
    """Truth values that are false, where another file has none. One in a member of a vendor's own stays."""
    report['IsTest'] = False
    report['GpUnit'][0]['IsOpen'] = False
    for contest in contests(report):
        contest['HasRotation'] = False
    for candidate in candidates(report):
        candidate |= {'IsIncumbent': False, 'IsTopTicket': False}
    for selection in selections(report):
        if selection['@type'] == CLASS + 'CandidateSelection' and selection.get('IsWriteIn') is not True:
            selection['IsWriteIn'] = False


def other_codes(report):
    """A number of the vendor beside each identifier of a unit and of a candidate."""
    for number, one in enumerate(report['GpUnit'] + candidates(report)):
        one['ExternalIdentifier'].append({**identifier(f'{number}', 'other'), 'OtherType': 'vendor'})


def gone_candidates(report):
    """Takes out a candidate whom one line names, and no contest."""
    times = [text for selection in selections(report) for text in selection.get('CandidateIds', [])]
    gone = next(selection['CandidateIds'][0] for selection in selections(report)
                if len(selection.get('CandidateIds', [])) == 1 and times.count(selection['CandidateIds'][0]) == 1)
    for election in report['Election']:
        election['Candidate'] = [candidate for candidate in election['Candidate'] if candidate['@id'] != gone]


def unused_styles(report):
    report['Election'][0]['BallotStyle'].append({'@type': CLASS + 'BallotStyle', 'ExternalIdentifier': [identifier('unused')], 'GpUnitIds': []})


def unused_persons(report):
    """A person without an identifier, to whom nothing refers any more."""
    report['Person'].append({'@id': 'person-unused', '@type': CLASS + 'Person', 'FullName': 'Ada Clerk'})


def empty_lists(report):
    """Lists that are no fault, but a difference: one file has them, and another one has not."""
    report['GpUnit'][1]['ContactInformation'] = {'Name': 'Hall', 'Phone': []}
    report['GpUnit'][1]['ComposingGpUnitIds'] = []


def empty_texts(report):
    report['Party'][0]['Slogan'] = {'@type': CLASS + 'InternationalizedText', 'Text': []}


def names(report):
    for family in ('Header', 'Office', 'Person', 'Party'):
        for entry in report[family]:
            entry.pop('ExternalIdentifier', None)
    report['Header'][0]['Name'] = {'@type': CLASS + 'InternationalizedText', 'Text': [
        {'@type': CLASS + 'LanguageString', 'Language': language, 'Content': content}
        for language, content in (('es', 'Condado'), ('en', 'County'))]}


def two_counties(report):
    """Makes two counties of the first two units, with two of the other units in each that have the same numbers."""
    for number, unit in enumerate(report['GpUnit'][:2]):
        inside = report['GpUnit'][2 + 2 * number:4 + 2 * number]
        unit.update({'Type': 'county', 'ExternalIdentifier': [identifier(f'9900{number}', 'fips')],
                     'ComposingGpUnitIds': [one['@id'] for one in inside]})
        for position, one in enumerate(inside):
            one.update({'Type': 'precinct', 'ExternalIdentifier': [identifier(f'{position}')]})
            one.pop('ComposingGpUnitIds', None)
    for unit in report['GpUnit'][6:]:
        unit.pop('ComposingGpUnitIds', None)


def two_towns(report):
    """Makes a county of the first unit and two towns of the next two, with two of the other units in each that have the same numbers."""
    county, *towns = report['GpUnit'][:3]
    county.update({'Type': 'county', 'ExternalIdentifier': [identifier('99031', 'fips')], 'ComposingGpUnitIds': [one['@id'] for one in towns]})
    for number, unit in enumerate(towns):
        inside = report['GpUnit'][3 + 2 * number:5 + 2 * number]
        unit.update({'Type': 'town', 'ExternalIdentifier': [identifier(f'T-{number}')], 'ComposingGpUnitIds': [one['@id'] for one in inside]})
        for position, one in enumerate(inside):
            one.update({'Type': 'precinct', 'ExternalIdentifier': [identifier(f'{position}')]})
            one.pop('ComposingGpUnitIds', None)
    for unit in report['GpUnit'][7:]:
        unit.pop('ComposingGpUnitIds', None)


def shared_codes(report):
    """The code of the county on each unit, and nothing else on the county itself."""
    report['GpUnit'][0]['ExternalIdentifier'] = [identifier('99031', 'fips')]
    for unit in report['GpUnit'][1:]:
        unit['ExternalIdentifier'] = [identifier('99031', 'fips'), identifier(f'P-{unit["@id"]}')]
    # Numbers that do not come from the system's names.
    for number, unit in enumerate(report['GpUnit'][1:]):
        unit['ExternalIdentifier'][1]['Value'] = f'P-{number}'


def codes(report):
    """Counts candidates from 1 in each contest, and gives the contests of both elections the same codes."""
    named = {candidate['@id']: candidate for candidate in candidates(report)}
    for contest in contests(report):
        ids = [text for selection in contest['ContestSelection'] for text in selection.get('CandidateIds', [])]
        for number, text in enumerate(dict.fromkeys(ids)):
            named[text]['ExternalIdentifier'] = [identifier(str(number + 1))]
    for election in report['Election']:
        for number, contest in enumerate(election['Contest']):
            contest['ExternalIdentifier'] = [identifier(str(number + 1))]
        for number, style in enumerate(election['BallotStyle']):
            style['ExternalIdentifier'] = [identifier(str(number + 1))]


def write_in_lines(report):
    """Lines without numbers. Two ballot styles list them in two orders, so that one of the styles has to decide."""
    for selection in selections(report):
        selection.pop('SequenceOrder', None)
    contest = max(contests(report), key=lambda contest: sum(selection.get('IsWriteIn') is True for selection in contest['ContestSelection']))
    listed = [content for style in styles(report) for content in contents(style['OrderedContent']) if content.get('ContestId') == contest['@id']]
    listed[-1]['OrderedContestSelectionIds'].reverse()


def write_in_candidates(report):
    """Write-in lines of a contest, each with a candidate of its own, all of whom have one code."""
    contest = max(contests(report), key=lambda contest: sum(selection.get('IsWriteIn') is True for selection in contest['ContestSelection']))
    lines = [selection for selection in contest['ContestSelection'] if selection.get('IsWriteIn') is True]
    election = next(election for election in report['Election'] if contest in election['Contest'])
    for number, one in enumerate(lines):
        one['CandidateIds'] = [f'write-in-{number}']
        election['Candidate'].append({'@id': f'write-in-{number}', '@type': CLASS + 'Candidate', 'ExternalIdentifier': [identifier('W-1')],
                                      'BallotName': {'@type': CLASS + 'InternationalizedText', 'Text': [
                                          {'@type': CLASS + 'LanguageString', 'Language': 'en', 'Content': 'Write-in'}]}})


def contents(entries):
    """All entries of an ordered list, and of those below them."""
    return [each for entry in entries for each in (entry, *contents(entry.get('OrderedContent', [])))]


def party_lines(report):
    """A candidate on a second line, for another party."""
    contest, one = next((contest, selection) for contest in contests(report) for selection in contest['ContestSelection']
                        if selection.get('CandidateIds'))
    one['EndorsementPartyIds'] = [report['Party'][0]['@id']]
    other = dict(one, EndorsementPartyIds=[report['Party'][1]['@id'], report['Party'][0]['@id']])
    other['@id'] = 'second-line'
    contest['ContestSelection'].append(other)


def counted(report):
    """A count of votes."""
    selections(report)[0]['VoteCounts'] = [{'@type': CLASS + 'VoteCounts', 'Count': 5, 'Type': 'total'}]


def one_of_two_gone(report):
    """A line of two candidates, one of whom is gone."""
    one = next(selection for selection in selections(report) if selection.get('CandidateIds'))
    one['CandidateIds'] = [one['CandidateIds'][0], 'gone']


# What a step leaves as it is: the step, the damage, and why.
def twin_units(report):
    report['GpUnit'][2]['ExternalIdentifier'] = report['GpUnit'][1]['ExternalIdentifier']


LEFT = (('counts', counted, 'counted'), ('gone-candidates', one_of_two_gone, 'someGone'), ('codes', twin_units, 'nothingTells'))

# For each step: the report, the damage, and the steps beside it that the damaged report needs.
DAMAGES = {
    'nulls': (COUNTY, nulls), 'class-names': (COUNTY, class_names), 'kinds': (COUNTY, kinds), 'twin-ids': (COUNTY, twin_ids),
    'outside': (COUNTY, outside), 'counts': (COUNTY, counts), 'devices': (COUNTY, devices), 'coordinates': (COUNTY, coordinates),
    'whole-numbers': (COUNTY, whole_numbers), 'stray-ids': (COUNTY, stray_ids), 'vendor-identifiers': (COUNTY, vendor_identifiers),
    'vendor-texts': (COUNTY, vendor_texts), 'repeated': (COUNTY, repeated), 'gone-candidates': (COUNTY, gone_candidates),
    'unused-styles': (COUNTY, unused_styles), 'unused-persons': (COUNTY, unused_persons), 'empty-lists': (COUNTY, empty_lists),
    'empty-texts': (COUNTY, empty_texts), 'names': (COUNTY, names), 'county-codes': (COUNTY, two_counties),
    'shared-codes': (COUNTY, shared_codes), 'codes': (ELECTIONS, codes), 'write-in-lines': (COUNTY, write_in_lines),
    'party-lines': (COUNTY, party_lines), 'unused-ids': (COUNTY, unused_ids), 'town-codes': (COUNTY, two_towns),
    'write-in-candidates': (COUNTY, write_in_candidates), 'unseen': (COUNTY, unseen), 'false-flags': (COUNTY, false_flags),
    'other-codes': (COUNTY, other_codes),
}
