"""What each step makes of the report that lacks only it (damages.py), by hand from what docs/FIXES.md says of the step: each function makes
the report, from the one before the damage, that has to mean the same. What has none here comes out as it was before the damage.
"""
import damages
from damages import CLASS, contests, identifier, selections, styles


def named(kind, value):
    """The identifiers of an object that has only one, of a kind that no list of the standard has."""
    return [{'@type': CLASS + 'ExternalIdentifier', 'Type': 'other', 'OtherType': kind, 'Value': value}]


def nulls(report):
    report['GpUnit'][1].pop('Number', None)
    report['GpUnit'][2]['Directions'] = {'Text': [{}]}


def kinds(report):
    report['IsTest'] = False
    report['GpUnit'][1]['Number'] = '101'
    report['Party'][0]['ExternalIdentifier'][0]['Value'] = '12'


def unused_ids(report):
    report['Person'] += [{'@id': f'clerk {name}', '@type': CLASS + 'Person', 'FullName': name, 'ExternalIdentifier': [identifier(name)]}
                         for name in ('Ada Clerk', 'Bea Clerk')]


def coordinates(report):
    for unit in report['GpUnit'][:3]:
        unit['ContactInformation'] = {'Name': 'Hall'}
    report['GpUnit'][0] |= {'Shape': {'Kind': 'Polygon'}, 'Sizes': [[1, 2]]}


def whole_numbers(report):
    report['GpUnit'][0]['Sizes'] = [[1, 2], {'Voters': 3}]


def stray_ids(report):
    report['GpUnit'][1]['ContactInformation'] = {'Phone': [{'Number': '5'}]}


def vendor_identifiers(report):
    for number, contest in enumerate(contests(report)):
        contest['ExternalIdentifier'] = named('VendorContestId', str(47 + number))


def vendor_texts(report):
    for number, contest in enumerate(contests(report)):
        contest['VendorContestCode'] = 47 + number
    report['GpUnit'][0]['ContactInformation'] = {'BuildingCodes': ['7', {'RoomCode': '8'}]}


# The members of each class that no ballot shows, and the truth values of the standard.
UNSEEN = {'ReportingUnit': ['AuthorityIds', 'IsDistricted', 'IsMailOnly'], 'Party': ['LeaderPersonIds', 'PartyScopeGpUnitIds'],
          'Coalition': ['LeaderPersonIds', 'PartyScopeGpUnitIds'], 'Office': ['OfficeHolderPersonIds'], 'Candidate': ['FileDate'],
          'CandidateContest': ['NumberRunoff']}
FLAGS = ('IsTest', 'IsDistricted', 'IsMailOnly', 'IsPartisan', 'IsIncumbent', 'IsTopTicket', 'HasRotation', 'IsWriteIn')


def objects(report):
    """The report, and each object in one of its lists of objects, or of an election or a contest."""
    families = [entry for name in ('GpUnit', 'Party', 'Person', 'Office', 'Header', 'Election') for entry in report[name]]
    return [report, *families, *damages.candidates(report), *contests(report), *selections(report), *styles(report)]


def unseen(report):
    for entry in objects(report):
        for name in UNSEEN.get(entry['@type'].removeprefix(CLASS), []):
            entry.pop(name, None)


def false_flags(report):
    damages.false_flags(report)
    for entry in objects(report):
        for name in FLAGS:
            if entry.get(name) is False:
                del entry[name]


def other_codes(report):
    """What has no identifier of another type keeps all that it has."""
    damages.other_codes(report)
    for entry in objects(report):
        codes = entry.get('ExternalIdentifier', [])
        if any(one['Type'] != 'other' for one in codes):
            entry['ExternalIdentifier'] = [one for one in codes if one['Type'] != 'other']


def gone_candidates(report):
    """The line of the candidate is gone, on each ballot too."""
    before = [candidate['@id'] for candidate in damages.candidates(report)]
    damages.gone_candidates(report)
    gone, = set(before) - {candidate['@id'] for candidate in damages.candidates(report)}
    line, = [one['@id'] for one in selections(report) if one.get('CandidateIds') == [gone]]
    for contest in contests(report):
        contest['ContestSelection'] = [one for one in contest['ContestSelection'] if one['@id'] != line]
    for style in styles(report):
        for entry in damages.contents(style['OrderedContent']):
            if line in entry.get('OrderedContestSelectionIds', []):
                entry['OrderedContestSelectionIds'].remove(line)


def empty_lists(report):
    report['GpUnit'][1]['ContactInformation'] = {'Name': 'Hall'}
    report['GpUnit'][1].pop('ComposingGpUnitIds', None)


def empty_texts(report):
    report['Party'][0].pop('Slogan', None)


def names(report):
    damages.names(report)
    for family in ('Header', 'Office', 'Person', 'Party'):
        for entry in report[family]:
            entry['ExternalIdentifier'] = named('name', text_of(entry.get('Name', entry.get('FullName'))))


def text_of(name):
    """A name, or that of a text in English."""
    return name if isinstance(name, str) else next(one['Content'] for one in name['Text'] if one['Language'].startswith('en'))


def county_codes(report):
    damages.two_counties(report)
    for unit, code in zip(report['GpUnit'][2:6], ('99000-0', '99000-1', '99001-0', '99001-1')):
        unit['ExternalIdentifier'] = [identifier(code)]


def town_codes(report):
    damages.two_towns(report)
    for unit, code in zip(report['GpUnit'][3:7], ('T-0-0', 'T-0-1', 'T-1-0', 'T-1-1')):
        unit['ExternalIdentifier'] = [identifier(code)]


def shared_codes(report):
    damages.shared_codes(report)
    for unit in report['GpUnit'][1:]:
        unit['ExternalIdentifier'] = unit['ExternalIdentifier'][1:]


def codes(report):
    """The election stands before what it alone has, and the contest before what only its candidates have in common."""
    damages.codes(report)
    for election in report['Election']:
        head = election['ExternalIdentifier'][0]['Value']
        lines = {text: contest for contest in election['Contest'] for line in contest['ContestSelection'] for text in line.get('CandidateIds', [])}
        for candidate in election['Candidate']:
            contest = lines.get(candidate['@id']) or next(one for one in election['Contest'] if one.get('CandidateId') == candidate['@id'])
            put_before(candidate, f'{head}-{contest["ExternalIdentifier"][0]["Value"]}')
        for entry in (*election['Contest'], *election['BallotStyle']):
            put_before(entry, head)


def put_before(thing, head):
    name = thing['ExternalIdentifier'][0]
    name['Value'] = f'{head}-{name["Value"]}'


def write_in_lines(report):
    """The lines of each contest with several are numbered as the first ballot style by its identifier lists them."""
    damages.write_in_lines(report)
    first = sorted(styles(report), key=lambda style: style['ExternalIdentifier'][0]['Value'])
    for contest in contests(report):
        lines = {line['@id']: line for line in contest['ContestSelection'] if line.get('IsWriteIn') is True}
        order = next((entry['OrderedContestSelectionIds'] for style in first for entry in damages.contents(style['OrderedContent'])
                      if entry.get('ContestId') == contest['@id'] and 'OrderedContestSelectionIds' in entry), [])
        if len(lines) > 1:
            for number, text in enumerate([text for text in order if text in lines], 1):
                lines[text]['SequenceOrder'] = number


def write_in_candidates(report):
    damages.write_in_candidates(report)
    for number, candidate in enumerate((one for one in damages.candidates(report) if one['@id'].startswith('write-in-')), 1):
        candidate['ExternalIdentifier'] = [identifier(f'W-1-{number}')]


def party_lines(report):
    """Each of the two lines has the codes of its parties, in rising order."""
    damages.party_lines(report)
    codes_of = {party['@id']: party['ExternalIdentifier'][0]['Value'] for party in report['Party']}
    second = next(line for line in selections(report) if line['@id'] == 'second-line')
    for line in selections(report):
        if line.get('CandidateIds') == second['CandidateIds']:
            line['ExternalIdentifier'] = named('endorsement', '+'.join(sorted(codes_of[text] for text in line['EndorsementPartyIds'])))


CHANGES = (nulls, kinds, unused_ids, coordinates, whole_numbers, stray_ids, vendor_identifiers, vendor_texts, unseen, false_flags, other_codes,
           gone_candidates, empty_lists, empty_texts, names, county_codes, town_codes, shared_codes, codes, write_in_lines, write_in_candidates, party_lines)
MENDED = {change.__name__.replace('_', '-'): change for change in CHANGES}
