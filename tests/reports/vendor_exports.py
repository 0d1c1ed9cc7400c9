"""Exports as three vendors would write them, from the schema of the standard: a state primary with fusion, a city with two
elections, and a large county with machines and coordinates. Each is refused as it is. All names are invented.

usage: vendor_exports.py FOLDER
"""

import json
import pathlib
import sys

CLASS = 'ElectionResults.'
FIRST = ('Ada', 'Bruno', 'Celeste', 'Dorian', 'Edda', 'Florian', 'Greta', 'Hamid', 'Ines', 'Jonas', 'Kaja', 'Leander')
LAST = ('Amsel', 'Birkwood', 'Corrigan', 'Dunmore', 'Elsworth', 'Farrow', 'Gallagher', 'Hartwell', 'Ibsen', 'Juniper', 'Kestrel',
        'Larkin', 'Merriday')
PLACES = ('Ashgrove', 'Beacon Hill', 'Cold Spring', 'Dockside', 'East Ferry', 'Fallow Creek', 'Grange', 'Harrow')


def typed(name, **members):
    return {'@type': CLASS + name, **members}


def code(value, kind='local-level', **more):
    return typed('ExternalIdentifier', Type=kind, Value=value, **more)


def label(content, spanish=None):
    texts = [typed('LanguageString', Content=content, Language='en')]
    if spanish is not None:
        texts.insert(0, typed('LanguageString', Content=spanish, Language='es'))
    return typed('InternationalizedText', Text=texts)


def person_name(number):
    return FIRST[number % len(FIRST)], LAST[number * 5 % len(LAST)]


def envelope(issuer, **more):
    return typed('ElectionReport', Format='summary-contest', GeneratedDate='2028-02-11T08:30:00Z', Issuer=issuer, IssuerAbbreviation='X',
                 SequenceStart=1, SequenceEnd=1, Status='pre-election', VendorApplicationId='Export 7', **more)


# ---- a state primary: each table counts from 1, codes are numbers, small objects lack a class, candidates are on several lines


def fusion_primary():
    """A primary of two parties in two counties. A third party endorses candidates of both, on a line of its own."""
    units = [{'@id': '1', **typed('ReportingUnit', Type='state', ExternalIdentifier=[plain_code('WM', 'state-level')], Name=label('Westmark'),
                                  ComposingGpUnitIds=['2', '3'])}]
    for county in range(2):
        inside = [str(4 + 4 * county + number) for number in range(4)]
        units.append({'@id': str(2 + county), **typed('ReportingUnit', Type='county', Name=label(f'{PLACES[county]} County'), Number=None,
                                                      ExternalIdentifier=[plain_code(f'5900{county}', 'fips')], ComposingGpUnitIds=inside)})
    for number in range(8):
        units.append({'@id': str(4 + number), **typed('ReportingUnit', Type='precinct', Name=label(PLACES[number]), IsMailOnly=None,
                                                      ExternalIdentifier=[plain_code(number % 4 + 1)], Number=number % 4 + 1)})
    parties = [{'@id': str(number + 1), **typed('Party', Name=label(name), Abbreviation=label(short), ExternalIdentifier=[plain_code(short)],
                                                Slogan=typed('InternationalizedText', Text=[]))}
               for number, (name, short) in enumerate((('Civic Union', 'CUP'), ('Prairie', 'PRA'), ('Working People', 'WPP')))]
    offices = [{'@id': str(number + 1), **typed('Office', Name=label(name), Description=None, ElectionDistrictId=district, IsPartisan='true')}
               for number, (name, district) in enumerate((('Governor', '1'), ('Attorney General', '1'), ('County Clerk', '2'), ('County Clerk', '3')))]
    people = [{'@id': str(number + 1), **typed('Person', FirstName=first, LastName=last, FullName=label(f'{first} {last}'), Title=None)}
              for number, (first, last) in enumerate(map(person_name, range(16)))]
    election = primary_election()
    report = envelope('Westmark Board of Elections', IsTest='false', GpUnit=units, Party=parties, Office=offices, Person=people, Election=election,
                      Header=[{'@id': '1', **typed('Header', Name=label('State', 'Estado'))}, {'@id': '2', **typed('Header', Name=label('County', 'Condado'))}])
    return b'\xef\xbb\xbf' + json.dumps(report, ensure_ascii=False, indent=2).encode()


def plain_code(value, kind='local-level'):
    """An identifier without a class."""
    return {'Type': kind, 'Value': value}


def primary_election():
    """The election, as one object where a list belongs."""
    candidates, contests, contents = [], [], {}
    for office in range(4):
        for party in range(2):
            contest = str(office * 2 + party + 1)
            lines = primary_lines(office, party, contest, candidates)
            contests.append({'@id': contest, **typed(
                'CandidateContest', Name=f'Office {office + 1}', ExternalIdentifier=[plain_code(('GOV', 'AG', 'CLERK', 'CLERK')[office])],
                ElectionDistrictId=('1', '1', '2', '3')[office], OfficeIds=str(office + 1), PrimaryPartyIds=[str(party + 1)], VotesAllowed='1',
                NumberElected=1, VoteVariation='plurality', ContestSelection=lines, OtherCounts=[])})
            contents[office, party] = {'ContestId': contest, 'OrderedContestSelectionIds': [line['@id'] for line in lines]}
    styles = []
    for county in range(2):
        for party in range(2):
            header = [{'HeaderId': '1', 'OrderedContent': [contents[0, party], contents[1, party]]},
                      {'HeaderId': '2', 'OrderedContent': [contents[2 + county, party]]}]
            styles.append(typed('BallotStyle', ExternalIdentifier=[plain_code(party + 1)], GpUnitIds=[str(4 + 4 * county + number) for number in range(4)],
                                PartyIds=str(party + 1), OrderedContent=header, ImageUri=None))
    return typed('Election', Name=label('State Primary', 'Primaria estatal'), Type='primary', StartDate='2028-06-06', EndDate='2028-06-06',
                 ElectionScopeId='1', ExternalIdentifier=[code('2028-PRIMARY', 'state-level')], Candidate=candidates, Contest=contests, BallotStyle=styles)


def primary_lines(office, party, contest, candidates):
    """Two candidates, the first on a second line too, and two write-in lines. Candidates are counted in each contest."""
    lines = []
    for number in range(2):
        first, last = person_name(len(candidates))
        candidates.append({'@id': str(len(candidates) + 1), **typed(
            'Candidate', BallotName=label(f'{first} {last}'), ExternalIdentifier=[plain_code(number + 1)], PersonId=str(len(candidates) + 1),
            PartyId=str(party + 1), IsTopTicket=None)})
        lines.append(typed('CandidateSelection', CandidateIds=candidates[-1]['@id'], EndorsementPartyIds=[str(party + 1)]))
    if office < 2:
        lines.append(typed('CandidateSelection', CandidateIds=[lines[0]['CandidateIds']], EndorsementPartyIds=['3']))
    lines += [typed('CandidateSelection', IsWriteIn='True') for _ in range(2)]
    counted = {'@type': CLASS + 'VoteCounts', 'Count': 0.0, 'GpUnitId': '1', 'Type': 'total'}
    return [{'@id': f'{contest}-{number + 1}', **line, 'VoteCounts': [counted]} for number, line in enumerate(lines)]


# ---- a city with two elections: every object has an `@id`, contests have numbers of the vendor's database alone


def two_elections():
    """A city election and a library district's, in one report."""
    made = City()
    units = [made.unit('city', 'City of Fenwick', 'FENWICK'), made.unit('library', 'Fenwick Library District', 'LIB')]
    precincts = [made.unit('precinct', place, f'P{number + 1}') for number, place in enumerate(PLACES[:5])]
    for unit in units:
        unit['ComposingGpUnitIds'] = [precinct['@id'] for precinct in precincts]
    precincts[0]['ContactInformation'] = typed('ContactInformation', Name='Old Library', BuildingId='B-7', Phone=[], Directions=None)
    headers = [made.named('Header', Name=made.label(name), ExternalIdentifier=[]) for name in ('City Offices', 'Questions')]
    offices = [made.named('Office', Name=made.label(name), ElectionDistrictId=units[0]['@id'], ExternalIdentifier=None) for name in ('Mayor', 'Council')]
    elections = [made.election('City General Election', units[0], precincts, headers, offices),
                 made.election('Library Bond Election', units[1], precincts, headers, [])]
    style = elections[0]['BallotStyle'][1]
    style['GpUnitIds'] = style['GpUnitIds'] + style['GpUnitIds'][:1]
    report = envelope('City Clerk of Fenwick', IsTest=False, TestType=None, Notes=None, GpUnit=units + precincts, Party=[], Header=headers,
                      Office=offices, Election=elections)
    return json.dumps(report, ensure_ascii=False).encode()


class City:
    """Makes objects with numbers that go on from one to the next."""

    def __init__(self):
        self.last = 0

    def named(self, name, **members):
        self.last += 1
        return {'@id': f'obj{self.last:05}', '@type': CLASS + name, **members}

    def label(self, content):
        return self.named('InternationalizedText', Text=[self.named('LanguageString', Content=content, Language='en')])

    def code(self, value):
        return self.named('ExternalIdentifier', Type='local-level', Value=value, OtherType=None)

    def unit(self, kind, name, value):
        return self.named('ReportingUnit', Type=kind, Name=self.label(name), ExternalIdentifier=[self.code(value)], Number=None, IsDistricted='false')

    def election(self, name, scope, precincts, headers, offices):
        candidates = []
        contests = [self.contest(office, scope, candidates, votes) for office, votes in zip(offices, (1, 3))]
        contests += [self.measure(number, scope) for number in range(2)]
        ballots = [precincts[:2], precincts[2:]]
        styles = [self.named('BallotStyle', ExternalIdentifier=[self.code(str(number + 1))], GpUnitIds=[unit['@id'] for unit in units],
                             OrderedContent=self.content(headers, contests)) for number, units in enumerate(ballots)]
        return self.named('Election', Name=self.label(name), Type='general', StartDate='2029-04-03', EndDate='2029-04-03', ElectionScopeId=scope['@id'],
                          ExternalIdentifier=None, Candidate=candidates, Contest=contests, BallotStyle=styles, CountStatus=[])

    def content(self, headers, contests):
        """The contests of offices below the first header, and those of measures below the second one."""
        parts = [[contest for contest in contests if contest['@type'].endswith(kind)] for kind in ('CandidateContest', 'MeasureContest')]
        return [self.named('OrderedHeader', HeaderId=header['@id'], OrderedContent=[
            self.named('OrderedContest', ContestId=contest['@id'], OrderedContestSelectionIds=[line['@id'] for line in contest['ContestSelection']])
            for contest in part]) for header, part in zip(headers, parts) if part]

    def contest(self, office, scope, candidates, votes):
        lines = []
        for number in range(votes + 1):
            first, last = person_name(len(candidates) + 3)
            candidates.append(self.named('Candidate', BallotName=self.label(f'{first} {last}'), VendorCandidateId=9000 + len(candidates), PartyId=None))
            lines.append(self.named('CandidateSelection', CandidateIds=[candidates[-1]['@id']], IsWriteIn=None, VoteCounts=[]))
        lines += [self.named('CandidateSelection', CandidateIds=None, IsWriteIn=True, VoteCounts=[]) for _ in range(votes)]
        return self.named('CandidateContest', Name=office['Name']['Text'][0]['Content'], VendorContestId=f'{40000 + self.last}', OfficeIds=[office['@id']],
                          ElectionDistrictId=scope['@id'], VotesAllowed=float(votes), HasRotation=None, ContestSelection=lines)

    def measure(self, number, scope):
        lines = [self.named('BallotMeasureSelection', Selection=self.label(text), SequenceOrder=place + 1) for place, text in enumerate(('Yes', 'No'))]
        return self.named('BallotMeasureContest', Name=f'Question {number + 1}', VendorContestId=f'{40000 + self.last}', Type='ballot-measure', OtherType=None,
                          ElectionDistrictId=scope['@id'], SummaryText=self.label('Shall bonds be issued?'), FullText=None, ContestSelection=lines)


# ---- a large county: machines among the units, coordinates, registered voters, and who runs the elections


def large_county(count=150):
    """One county with so many precincts, each with a polling place, two machines and its registered voters."""
    precincts, others = [], []
    for number in range(count):
        precincts.append({'@id': f'gp{number}', **county_unit(number, 'precinct', f'{PLACES[number % 8]} {number // 8 + 1}', f'{number + 1:03}'),
                          'ComposingGpUnitIds': [f'poll{number}', f'scan{number}a', f'scan{number}b']})
        others.append({'@id': f'poll{number}', **county_unit(number, 'polling-place', f'Hall {number + 1}', f'HALL-{number + 1}'), 'ComposingGpUnitIds': []})
        others += [{'@id': f'scan{number}{letter}', **typed('ReportingDevice', SerialNumber=f'SX-{number}{letter}', ExternalIdentifier=[])} for letter in 'ab']
    county = {'@id': 'county', **typed('ReportingUnit', Type='county', ExternalIdentifier=[code('59045', 'fips')], Name=label('Kestrel County'),
                                       ComposingGpUnitIds=[unit['@id'] for unit in precincts], IsDistricted=None),
              'ElectionAdministration': typed('ElectionAdministration', Name=label('Registrar'), ElectionOfficialPersonIds=['clerk', 'deputy'])}
    people = [{'@id': name, **typed('Person', FullName=label(full), Title=label(title))} for name, full, title in
              (('clerk', 'Ruth Vandermeer', 'Registrar'), ('deputy', 'Ottmar Quist', 'Deputy'))]
    report = envelope('Kestrel County Registrar', GpUnit=[*others, *precincts, county], Person=people + county_people(), Office=county_offices(),
                      Party=[{'@id': 'green', **typed('Party', Name=label('Green Valley'), ExternalIdentifier=[code('GVP')], LeaderPersonIds=[])}],
                      Header=[{'@id': 'head', **typed('Header', Name=label('County Offices'))}], Election=[county_election(precincts)],
                      OfficeGroup=[typed('OfficeGroup', Name='County', OfficeIds=['office0', 'office1'])])
    return json.dumps(report, ensure_ascii=False, indent=1).encode()


def county_unit(number, kind, name, value):
    place = typed('LatLng', Latitude=41.25 + number / 1000, Longitude=-93.5, Source='survey')
    return typed('ReportingUnit', Type=kind, Name=label(name), ExternalIdentifier=[code('59045', 'fips'), code(value)],
                 ContactInformation=typed('ContactInformation', Name=name, AddressLine=[f'{number + 1} Main Street'], Email=[], LatLng=place),
                 PartyRegistration=[typed('PartyRegistration', Count=400 + number, PartyId='green')], SpatialDimension=None)


def county_people():
    return [{'@id': f'person{number}', **typed('Person', FullName=label(' '.join(person_name(number))), PartyId=None)} for number in range(24)]


def county_offices():
    return [{'@id': f'office{number}', **typed('Office', Name=label(name), ElectionDistrictId='county', OfficeHolderPersonIds=[])}
            for number, name in enumerate(('Sheriff', 'Assessor', 'Surveyor', 'Supervisor, Seat 1', 'Supervisor, Seat 2', 'School Board'))]


def county_election(precincts):
    candidates, contests = [], []
    for office in range(6):
        votes = 3 if office == 5 else 1
        lines = []
        for number in range(4):
            at = office * 4 + number
            candidates.append({'@id': f'cand{at}', **typed('Candidate', BallotName=label(' '.join(person_name(at))), PersonId=f'person{at}',
                                                           ExternalIdentifier=[code(f'C-{at}')], FileDate=None, CampaignSlogan=None)})
            lines.append({'@id': f'line{at}', **typed('CandidateSelection', CandidateIds=[f'cand{at}'], SequenceOrder=None)})
        lines += [{'@id': f'write{office}{number}', **typed('CandidateSelection', IsWriteIn=True)} for number in range(votes)]
        contests.append({'@id': f'con{office}', **typed(
            'CandidateContest', Name=f'Contest {office + 1}', ExternalIdentifier=[code(f'K-{office}')], ElectionDistrictId='county', OfficeIds=[f'office{office}'],
            VotesAllowed=votes, ContestSelection=lines, OtherCounts=[typed('OtherCounts', GpUnitId='county', Overvotes=0, Undervotes=0)])})
    content = [typed('OrderedHeader', HeaderId='head', OrderedContent=[
        typed('OrderedContest', ContestId=contest['@id'], OrderedContestSelectionIds=[line['@id'] for line in contest['ContestSelection']])
        for contest in contests])]
    styles = [typed('BallotStyle', ExternalIdentifier=[code(f'S-{number}')], GpUnitIds=[unit['@id'] for unit in precincts[number::5]], PartyIds=[],
                    OrderedContent=content) for number in range(5)]
    return typed('Election', Name=label('General Election'), Type='general', StartDate='2028-11-07', EndDate='2028-11-07', ElectionScopeId='county',
                 Candidate=candidates, Contest=contests, BallotStyle=styles, CountStatus=[])


EXPORTS = {'fusion-primary': fusion_primary, 'two-elections': two_elections, 'large-county': large_county}


def main(folder):
    for name, export in EXPORTS.items():
        (pathlib.Path(folder) / f'{name}.raw.json').write_bytes(export())


if __name__ == '__main__':
    main(*sys.argv[1:])
