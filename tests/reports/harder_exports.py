"""Three more exports, each with what the first three lack: towns whose precinct numbers begin again inside a county, several write-in
candidates of one code and coordinates in a carried shape; objects of one name without codes, and `@id`s that nothing refers to and
that are there twice; and a file in which a line is put into another contest, a reference names an object of another family, a
contest has no name and a line has counts. All names are invented.

usage: harder_exports.py FOLDER
"""
import json
import pathlib
import sys

from vendor_exports import PLACES, code, envelope, label, person_name, typed

# ---- towns


def towns():
    """Two towns of one county, each with precincts 1 to 3, write-in candidates with one code, and shapes of the precincts."""
    towns_of = PLACES[:2]
    precincts = [town_precinct(town, number) for town in range(2) for number in range(3)]
    units = [{'@id': f'town{town}', **typed('ReportingUnit', Type='town', Name=label(name), ExternalIdentifier=[code(name.upper())],
                                            ComposingGpUnitIds=[unit['@id'] for unit in precincts[3 * town:3 * town + 3]])} for town, name in enumerate(towns_of)]
    county = {'@id': 'county', **typed('ReportingUnit', Type='county', Name=label('Merrow County'), ExternalIdentifier=[code('23031', 'fips')],
                                       ComposingGpUnitIds=['town0', 'town1'], SpatialDimension=None)}
    parties = [{'@id': f'party{number}', **typed('Party', Name=label(name), ExternalIdentifier=[code(short)], Color='1f3f6f')}
               for number, (name, short) in enumerate((('Harbor', 'HAR'), ('Upland', 'UPL')))]
    offices = [{'@id': f'office{number}', **typed('Office', Name=label(name), ElectionDistrictId='county', ExternalIdentifier=[code(f'OFF-{number}')])}
               for number, name in enumerate(('Sheriff', 'Register of Deeds'))]
    report = envelope('Merrow County', GpUnit=[county, *units, *precincts], Party=parties, Office=offices, Election=[town_election(precincts)])
    return json.dumps(report, ensure_ascii=False, indent=2).encode()


def town_precinct(town, number):
    corner = [-70.25 - town / 8, 43.5 + number / 16]
    shape = {'Type': 'Polygon', 'Ring': [corner, [corner[0], 44.0], corner]}
    return {'@id': f'p{town}{number}', **typed('ReportingUnit', Type='precinct', Name=label(f'{PLACES[town]} {number + 1}'), Number=str(number + 1),
                                              ExternalIdentifier=[code(str(number + 1))], Geometry=shape)}


def town_election(precincts):
    candidates, contests = [], []
    for office in range(2):
        lines = []
        for party in range(2):
            at = office * 2 + party
            candidates.append({'@id': f'cand{at}', **typed('Candidate', BallotName=label(' '.join(person_name(at))), PartyId=f'party{party}',
                                                           ExternalIdentifier=[code(f'CAND-{at}')])})
            lines.append({'@id': f'line{at}', **typed('CandidateSelection', CandidateIds=[f'cand{at}'])})
        for number in range(2):
            at = f'{office}{number}'
            candidates.append({'@id': f'writein{at}', **typed('Candidate', BallotName=label('Write-in'), ExternalIdentifier=[code('WRITE-IN')])})
            lines.append({'@id': f'write{at}', **typed('CandidateSelection', CandidateIds=[f'writein{at}'], IsWriteIn=True)})
        contests.append({'@id': f'con{office}', **typed(
            'CandidateContest', Name=('Sheriff', 'Register of Deeds')[office], ExternalIdentifier=[code(f'CON-{office}')], ElectionDistrictId='county',
            OfficeIds=[f'office{office}'], VotesAllowed=2, VoteVariation='n-of-m', ContestSelection=lines)})
    content = [typed('OrderedContest', ContestId=contest['@id'], OrderedContestSelectionIds=[line['@id'] for line in contest['ContestSelection']])
               for contest in contests]
    styles = [typed('BallotStyle', ExternalIdentifier=[code(f'STYLE-{town}')], GpUnitIds=[unit['@id'] for unit in precincts[3 * town:3 * town + 3]],
                    OrderedContent=content) for town in range(2)]
    return typed('Election', Name=label('Town Election'), Type='general', StartDate='2028-11-07', EndDate='2028-11-07', ElectionScopeId='county',
                 Candidate=candidates, Contest=contests, BallotStyle=styles)


# ---- objects of one name


def one_name():
    """A borough of two wards that have one name, with two headers of one name, and `@id`s of one number to which nothing refers."""
    wards = [{'@id': f'ward{number}', **typed('ReportingUnit', Type='ward', Name=label('Ward'), ComposingGpUnitIds=[f'pr{number}'])} for number in range(2)]
    precincts = [{'@id': f'pr{number}', **typed('ReportingUnit', Type='precinct', Name=label(f'Precinct {number + 1}'),
                                                ExternalIdentifier=[code(f'PR-{number + 1}')])} for number in range(2)]
    borough = {'@id': 'borough', **typed('ReportingUnit', Type='borough', Name=label('Tarn'), ExternalIdentifier=[code('TARN')],
                                         ComposingGpUnitIds=['ward0', 'ward1'])}
    headers = [{'@id': f'head{number}', **typed('Header', Name=label('Proposals'))} for number in range(2)]
    contests = [named_measure(number) for number in range(2)]
    styles = [{'@id': 'style', **typed('BallotStyle', ExternalIdentifier=[code(f'BS-{number}')], GpUnitIds=[f'pr{number}'], OrderedContent=[
        typed('OrderedHeader', HeaderId=f'head{which}', OrderedContent=[
            typed('OrderedContest', ContestId=contests[which]['@id'], OrderedContestSelectionIds=[line['@id'] for line in contests[which]['ContestSelection']])])
        for which in range(2)])} for number in range(2)]
    election = typed('Election', Name=label('Special Election'), Type='special', StartDate='2029-03-13', EndDate='2029-03-13', ElectionScopeId='borough',
                     Contest=contests, BallotStyle=styles, Candidate=[], CountStatus=[])
    return json.dumps(envelope('Borough of Tarn', GpUnit=[borough, *wards, *precincts], Header=headers, Election=[election])).encode()


def named_measure(number):
    lines = [{'@id': f'm{number}{place}', **typed('BallotMeasureSelection', Selection=label(text), SequenceOrder=place + 1)}
             for place, text in enumerate(('Yes', 'No'))]
    return {'@id': f'measure{number}', **typed('BallotMeasureContest', Name=f'Proposal {number + 1}', ExternalIdentifier=[code(f'PROP-{number}')],
                                              ElectionDistrictId='borough', Type='ballot-measure', SummaryText=label('Shall the borough borrow?'),
                                              ContestSelection=lines)}


# ---- what only the vendor can mend


def vendor_faults():
    """A county in which a ballot lists the line of another contest, a candidate's party is an office, one contest has no name, and a
    line has counts."""
    report = json.loads(towns())
    election = report['Election'][0]
    election['Contest'][0]['Name'] = None
    election['Contest'][1]['ContestSelection'][0]['VoteCounts'] = [typed('VoteCounts', Type='total', GpUnitId='county', Count=12)]
    election['Candidate'][0]['PartyId'] = 'office0'
    first, second = election['BallotStyle'][0]['OrderedContent']
    first['OrderedContestSelectionIds'][0] = second['OrderedContestSelectionIds'][0]
    return json.dumps(report, ensure_ascii=False).encode()


EXPORTS = {'towns': towns, 'one-name': one_name, 'vendor-faults': vendor_faults}


def main(folder):
    for name, export in EXPORTS.items():
        (pathlib.Path(folder) / f'{name}.raw.json').write_bytes(export())


if __name__ == '__main__':
    main(*sys.argv[1:])
