"""Six reports as counties have them, for the tests of the converter from XML. All names are invented."""
import copy


def of(class_name, **members):
    return {'@type': f'ElectionResults.{class_name}', **members}


def named(class_name, name, **members):
    """An object of a family with its identity and an identifier."""
    return {'@type': f'ElectionResults.{class_name}', '@id': name, 'ExternalIdentifier': [identifier('local-level', f'{name}-x')], **members}


def identifier(kind, value, **members):
    return of('ExternalIdentifier', Type=kind, Value=value, **members)


def label(english, spanish=None):
    texts = [('en-US', english)] + ([('es-US', spanish)] if spanish else [])
    return of('InternationalizedText', Text=[of('LanguageString', Language=language, Content=content) for language, content in texts])


def report(election, **members):
    return of('ElectionReport', Format='summary-contest', GeneratedDate='2026-08-01T12:00:00Z', Issuer='Ferrin County', IssuerAbbreviation='FC',
              SequenceStart=1, SequenceEnd=2, Status='pre-election', VendorApplicationId='Maker 3.2', Notes='Proof & draft',
              Election=election if isinstance(election, list) else [election], **members)


def election(**members):
    return of('Election', **{'Name': label('General election', 'Elección general'), 'Type': 'general', 'StartDate': '2026-11-03',
                             'EndDate': '2026-11-03', 'ElectionScopeId': 'county', **members})


def units(*names):
    return [named('ReportingUnit', 'county', Type='county', Name=label('Ferrin County'), ComposingGpUnitIds=list(names), IsDistricted=True),
            *(named('ReportingUnit', name, Type='precinct', Name=f'Precinct {name}', Number=f'0{number}')
              for number, name in enumerate(names))]


def contest(name, selections, class_name='CandidateContest', **members):
    votes = {'VotesAllowed': 1} if class_name == 'CandidateContest' else {}
    return named(class_name, name, Name=f'Contest {name}', ElectionDistrictId='county', VoteVariation='plurality', ContestSelection=selections,
                 **votes, **members)


def choice(name, *candidates, **members):
    return {'@type': 'ElectionResults.CandidateSelection', '@id': name, **({'CandidateIds': list(candidates)} if candidates else {}), **members}


def ordered(contest_name, *selections):
    return of('OrderedContest', ContestId=contest_name, **({'OrderedContestSelectionIds': list(selections)} if selections else {}))


def primary():
    parties = [named('Party', name, Name=label(name.title(), f'Partido {name}'), Abbreviation=name[:3].upper(), Color='a0b1c2')
               for name in ('willow', 'quarry')]
    people = [named('Person', f'person{number}', FirstName='Ada', LastName=f'Lind{number}', MiddleName=['May', 'Lou'], PartyId='willow',
                    FullName=label(f'Ada Lind{number}')) for number in range(4)]
    candidates = [named('Candidate', f'cand{number}', BallotName=label(f'Ada LIND{number}'), IsIncumbent=number == 0, PersonId=f'person{number}',
                        PartyId=('willow', 'quarry')[number % 2], PreElectionStatus='qualified', FileDate='2026-03-01') for number in range(4)]
    contests = [contest(f'assessor-{party}', [choice(f's{at}{first}', f'cand{first}', SequenceOrder=at, EndorsementPartyIds=[party])
                                              for at, first in enumerate((side, side + 2))]
                        + [choice(f'w{side}', IsWriteIn=True, SequenceOrder=9)],
                        PrimaryPartyIds=[party], OfficeIds=['assessor'], NumberElected=1, HasRotation=False)
                for side, party in enumerate(('willow', 'quarry'))]
    styles = [named('BallotStyle', f'style-{party}', GpUnitIds=['p1', 'p2'], PartyIds=[party],
                    OrderedContent=[ordered(f'assessor-{party}', f's1{side + 2}', f's0{side}', f'w{side}')])
              for side, party in enumerate(('willow', 'quarry'))]
    return report(election(Type='primary', Candidate=candidates, Contest=contests, BallotStyle=styles), GpUnit=units('p1', 'p2'), Party=parties,
                  Person=people, Office=[named('Office', 'assessor', Name=label('Assessor', 'Tasador'), IsPartisan=True, ElectionDistrictId='county',
                                               OfficeHolderPersonIds=['person0'], Term=of('Term', Type='full-term', StartDate='2027-01-01'))])


def answers(name):
    return [{'@type': 'ElectionResults.BallotMeasureSelection', '@id': f'{name}-{word}', 'Selection': label(word, other), 'SequenceOrder': at}
            for at, (word, other) in enumerate((('Yes', 'Sí'), ('No', 'No')))]


def measures():
    long = 'Shall the county:\n  (a) build <one> bridge, & keep "it";\n  (b) pay for it?\n'
    contests = [contest('bridge', answers('bridge'), 'BallotMeasureContest', FullText=label(long, '<b>¿Puente?</b>'), SummaryText='Bridge',
                        Type='referendum', ProStatement=label('Yes: it is needed.'), ConStatement=label('No.'), PassageThreshold='60%',
                        InfoUri=[of('AnnotatedUri', Annotation='text', Content='https://ferrin.example/?a=1&b=2')]),
                contest('judge', answers('judge'), 'RetentionContest', CandidateId='lowe', BallotTitle=label('Shall Ø. Lowe stay?'),
                        OfficeId='court')]
    style = named('BallotStyle', 'all', GpUnitIds=['county'], OrderedContent=[ordered('judge', 'judge-No', 'judge-Yes'), ordered('bridge')])
    return report(election(Contest=contests, BallotStyle=[style], Candidate=[named('Candidate', 'lowe', BallotName=label('Ø. Lowe'))]),
                  GpUnit=units('p1'), Office=[named('Office', 'court', Name='Court')], IsTest=False)


def parties():
    list_of = [named('Party', f'list{number}', Name=label(f'List {number}'), LeaderPersonIds=['lead'], PartyScopeGpUnitIds=['county'],
                     LogoUri=['https://ferrin.example/logo.svg']) for number in range(3)]
    both = named('Coalition', 'both', Name=label('Both lists'), PartyIds=['list0', 'list1'], ContestIds=['council'], IsRecognizedParty=True)
    selections = [{'@type': 'ElectionResults.PartySelection', '@id': f'l{number}', 'PartyIds': [f'list{number}'], 'SequenceOrder': number,
                   'ExternalIdentifier': [identifier('other', f'{number}', OtherType='line')]} for number in range(3)]
    style = named('BallotStyle', 'all', GpUnitIds=['p1', 'p2', 'p3'], OrderedContent=[ordered('council', 'l2', 'l0', 'l1')])
    return report(election(Contest=[contest('council', selections, 'PartyContest')], BallotStyle=[style]), GpUnit=units('p1', 'p2', 'p3'),
                  Party=[*list_of, both], Person=[named('Person', 'lead', LastName='Oak')])


def headers():
    names = ['mayor', 'clerk', 'ward1', 'ward2']
    contests = [contest(name, [choice(f'{name}-a', 'a'), choice(f'{name}-b', 'b'), choice(f'{name}-ab', 'a', 'b')]) for name in names]
    ward = of('OrderedHeader', HeaderId='wards', OrderedContent=[ordered(name, f'{name}-b', f'{name}-a') for name in names[2:]])
    city = of('OrderedHeader', HeaderId='city', OrderedContent=[ordered('mayor', 'mayor-ab'), ward, ordered('clerk')])
    style = named('BallotStyle', 'style', GpUnitIds=['p1'], OrderedContent=[city, of('OrderedHeader', HeaderId='wards')])
    return report(election(Contest=contests, BallotStyle=[style], Type='municipal',
                           Candidate=[named('Candidate', name, BallotName=label(name.upper())) for name in 'ab']),
                  GpUnit=units('p1'), Header=[named('Header', name, Name=label(name.title(), f'{name}!')) for name in ('city', 'wards')])


def elections():
    def one(name, votes):
        selections = [choice(f'{name}-s{at}', f'{name}-c{at}') for at in range(2)]
        return election(Name=f'Election {name}', ExternalIdentifier=[identifier('state-id', name)], Contest=[
            {**contest(f'{name}-k', selections), 'VotesAllowed': votes}], BallotStyle=[
                named('BallotStyle', f'{name}-b', GpUnitIds=['p1'], OrderedContent=[ordered(f'{name}-k', f'{name}-s1', f'{name}-s0')])],
            Candidate=[named('Candidate', f'{name}-c{at}', BallotName=f'Name {at}', CampaignSlogan=label('Go')) for at in range(2)])
    return report([one('runoff', 1), one('special', 2)], GpUnit=units('p1'), ExternalIdentifier=[identifier('state-id', 'file-7')])


def offices_open():
    contact = of('ContactInformation', Name='Desk', AddressLine=['Room 12', '40 Granary Street'], Label='main', Email=['desk@ferrin.example'],
                 Phone=[of('AnnotatedString', Annotation='day', Content='555-0100'), '555-0101'], Directions=label('Left', 'Izquierda'),
                 Schedule=[of('Schedule', Hours=[of('Hours', Day='weekday', StartTime='08:00', EndTime='17:00')], IsOnlyByAppointment=False,
                              StartDate='2026-10-01')], Uri=['https://ferrin.example/'])
    places = units('p1', 'p2')
    places[0].update(ContactInformation=contact, AuthorityIds=['clerk'], VotersRegistered=12034, TotalSubUnits=2, SpatialDimension=of(
        'SpatialDimension', MapUri=['https://ferrin.example/map'], SpatialExtent=of('SpatialExtent', Format='wkt', Coordinates='POINT (1 2)')),
        CountStatus=[of('CountStatus', Type='election-day', Status='not-processed')])
    return report(election(ContactInformation=contact, OtherType='', Contest=[contest('a', [choice('s', 'c'), choice('t')])],
                           Candidate=[named('Candidate', 'c', BallotName='  C  D ', ContactInformation=contact)]),
                  GpUnit=places, Person=[named('Person', 'clerk', ContactInformation=[contact, contact], Prefix='Dr', DateOfBirth='1970-02-03')])


# Each report. Those with headers stand in version 1 as `in_version` reduces them.
REPORTS = {make.__name__: make for make in (primary, measures, parties, headers, elections, offices_open)}


def in_version(report_of_2, version):
    """A report as far as a version of the standard can say it. Version 2 says all of it. Version 1, from memory of its schema, has no class
    Header, and a ballot style lists nothing but ordered contests: so its report is the same without headers. Whatever else the reports have
    stands in both versions, some of it under another name or in a collection."""
    return report_of_2 if version == 2 else without_headers(report_of_2)


def without_headers(report_of_2):
    """A copy of a report without headers. The contests below a header stand in its place, in the same order, so that no ballot loses one;
    a list that had nothing but headers without contests is left out, since XML has no empty list."""
    reduced = copy.deepcopy(report_of_2)
    reduced.pop('Header', None)
    for one in reduced['Election']:
        for style in one.get('BallotStyle', []):
            contests = contests_in(style.pop('OrderedContent', []))
            style.update({'OrderedContent': contests} if contests else {})
    return reduced


def contests_in(content):
    """The ordered contests of a list, with those below its headers, in their order."""
    below = [contests_in(entry.get('OrderedContent', [])) if 'HeaderId' in entry else [entry] for entry in content]
    return [entry for entries in below for entry in entries]
