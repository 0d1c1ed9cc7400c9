// The table that drives the converter from XML. `tests/pages/tables.py --write` writes it from the member table of docs/PROFILE.md and from
// bindings/xml_classes.txt, which was written from memory of the public schema.

// The members of each class, with their shapes, and the classes of their objects.
const ROWS = {
    ElectionReport:
        'Status text; Election objects Election; IsTest flag; TestType text; '
        + 'GpUnit objects ReportingUnit ReportingDevice; Party objects Party Coalition; Person objects Person; '
        + 'Office objects Office; Header objects Header; OfficeGroup objects OfficeGroup; Format text; GeneratedDate text; '
        + 'Issuer text; IssuerAbbreviation text; VendorApplicationId text; Notes text; SequenceStart whole; '
        + 'SequenceEnd whole; ExternalIdentifier objects ExternalIdentifier',
    Election:
        'Name label InternationalizedText; Type text; StartDate text; EndDate text; ElectionScopeId reference; '
        + 'OtherType text; ExternalIdentifier objects ExternalIdentifier; Candidate objects Candidate; '
        + 'Contest objects CandidateContest BallotMeasureContest RetentionContest PartyContest; '
        + 'BallotStyle objects BallotStyle; BallotCounts objects BallotCounts; '
        + 'ContactInformation object ContactInformation; CountStatus objects CountStatus',
    ReportingUnit:
        'Type text; ExternalIdentifier objects ExternalIdentifier; OtherType text; Name label InternationalizedText; '
        + 'Number text; ComposingGpUnitIds references; AuthorityIds references; IsDistricted flag; IsMailOnly flag; '
        + 'ElectionAdministration object ElectionAdministration; PartyRegistration objects PartyRegistration; '
        + 'ContactInformation object ContactInformation; CountStatus objects CountStatus; '
        + 'SpatialDimension object SpatialDimension; SubUnitsReported whole; TotalSubUnits whole; '
        + 'VotersParticipated whole; VotersRegistered whole',
    Party:
        'Name label InternationalizedText; ExternalIdentifier objects ExternalIdentifier; '
        + 'Abbreviation label InternationalizedText; Slogan label InternationalizedText; LeaderPersonIds references; '
        + 'PartyScopeGpUnitIds references; Color text; ContactInformation object ContactInformation; '
        + 'IsRecognizedParty flag; LogoUri annotations AnnotatedUri',
    Coalition:
        'Name label InternationalizedText; ExternalIdentifier objects ExternalIdentifier; '
        + 'Abbreviation label InternationalizedText; Slogan label InternationalizedText; LeaderPersonIds references; '
        + 'PartyScopeGpUnitIds references; ContestId reference; ContestIds references; PartyIds references; Color text; '
        + 'ContactInformation object ContactInformation; IsRecognizedParty flag; LogoUri annotations AnnotatedUri',
    Person:
        'ExternalIdentifier objects ExternalIdentifier; FullName label InternationalizedText; FirstName text; '
        + 'LastName text; Title label InternationalizedText; Profession label InternationalizedText; PartyId reference; '
        + 'ContactInformation objects ContactInformation; DateOfBirth text; Gender text; MiddleName texts; Nickname text; '
        + 'Prefix text; Suffix text',
    Office:
        'Name label InternationalizedText; ExternalIdentifier objects ExternalIdentifier; '
        + 'Description label InternationalizedText; IsPartisan flag; ElectionDistrictId reference; '
        + 'OfficeHolderPersonIds references; ContactInformation object ContactInformation; FilingDeadline text; '
        + 'Term object Term',
    Header:
        'Name label InternationalizedText; ExternalIdentifier objects ExternalIdentifier',
    Candidate:
        'BallotName label InternationalizedText; ExternalIdentifier objects ExternalIdentifier; '
        + 'CampaignSlogan label InternationalizedText; FileDate text; IsIncumbent flag; IsTopTicket flag; '
        + 'PartyId reference; PersonId reference; PreElectionStatus text; ContactInformation object ContactInformation; '
        + 'PostElectionStatus text',
    PartyContest:
        'Name label InternationalizedText; ElectionDistrictId reference; ExternalIdentifier objects ExternalIdentifier; '
        + 'Abbreviation label InternationalizedText; BallotTitle label InternationalizedText; '
        + 'BallotSubTitle label InternationalizedText; HasRotation flag; VoteVariation text; OtherVoteVariation text; '
        + 'ContestSelection objects CandidateSelection BallotMeasureSelection PartySelection; '
        + 'OtherCounts objects OtherCounts; CountStatus objects CountStatus; SubUnitsReported whole; TotalSubUnits whole',
    CandidateContest:
        'Name label InternationalizedText; ElectionDistrictId reference; ExternalIdentifier objects ExternalIdentifier; '
        + 'VotesAllowed whole; Abbreviation label InternationalizedText; BallotTitle label InternationalizedText; '
        + 'BallotSubTitle label InternationalizedText; HasRotation flag; VoteVariation text; OtherVoteVariation text; '
        + 'ContestSelection objects CandidateSelection BallotMeasureSelection PartySelection; '
        + 'OtherCounts objects OtherCounts; NumberElected whole; NumberRunoff whole; OfficeIds references; '
        + 'PrimaryPartyIds references; CountStatus objects CountStatus; SubUnitsReported whole; TotalSubUnits whole',
    BallotMeasureContest:
        'Name label InternationalizedText; ElectionDistrictId reference; ExternalIdentifier objects ExternalIdentifier; '
        + 'Abbreviation label InternationalizedText; BallotTitle label InternationalizedText; '
        + 'BallotSubTitle label InternationalizedText; HasRotation flag; VoteVariation text; OtherVoteVariation text; '
        + 'ContestSelection objects CandidateSelection BallotMeasureSelection PartySelection; '
        + 'OtherCounts objects OtherCounts; SummaryText label InternationalizedText; FullText label InternationalizedText; '
        + 'ProStatement label InternationalizedText; ConStatement label InternationalizedText; '
        + 'EffectOfAbstain label InternationalizedText; PassageThreshold label InternationalizedText; Type text; '
        + 'OtherType text; CountStatus objects CountStatus; InfoUri annotations AnnotatedUri; SubUnitsReported whole; '
        + 'TotalSubUnits whole',
    RetentionContest:
        'Name label InternationalizedText; ElectionDistrictId reference; ExternalIdentifier objects ExternalIdentifier; '
        + 'CandidateId reference; Abbreviation label InternationalizedText; BallotTitle label InternationalizedText; '
        + 'BallotSubTitle label InternationalizedText; HasRotation flag; VoteVariation text; OtherVoteVariation text; '
        + 'ContestSelection objects CandidateSelection BallotMeasureSelection PartySelection; '
        + 'OtherCounts objects OtherCounts; SummaryText label InternationalizedText; FullText label InternationalizedText; '
        + 'ProStatement label InternationalizedText; ConStatement label InternationalizedText; '
        + 'EffectOfAbstain label InternationalizedText; PassageThreshold label InternationalizedText; Type text; '
        + 'OtherType text; OfficeId reference; CountStatus objects CountStatus; InfoUri annotations AnnotatedUri; '
        + 'SubUnitsReported whole; TotalSubUnits whole',
    CandidateSelection:
        'SequenceOrder whole; ExternalIdentifier objects ExternalIdentifier; VoteCounts objects VoteCounts; '
        + 'CandidateIds references; EndorsementPartyIds references; IsWriteIn flag',
    BallotMeasureSelection:
        'Selection label InternationalizedText; SequenceOrder whole; ExternalIdentifier objects ExternalIdentifier; '
        + 'VoteCounts objects VoteCounts',
    PartySelection:
        'PartyIds references; SequenceOrder whole; ExternalIdentifier objects ExternalIdentifier; '
        + 'VoteCounts objects VoteCounts',
    BallotStyle:
        'GpUnitIds references; ExternalIdentifier objects ExternalIdentifier; PartyIds references; '
        + 'OrderedContent objects OrderedContest OrderedHeader; ImageUri annotations AnnotatedUri',
    OrderedContest:
        'ContestId reference; OrderedContestSelectionIds references',
    OrderedHeader:
        'HeaderId reference; OrderedContent objects OrderedContest OrderedHeader',
    ExternalIdentifier:
        'Type text; Value text; OtherType text',
    InternationalizedText:
        'Text objects LanguageString; Label text',
    LanguageString:
        'Language text; Content text',
    ReportingDevice:
        'DeviceClass object DeviceClass; ExternalIdentifier objects ExternalIdentifier; '
        + 'Name label InternationalizedText; SerialNumber text',
    AnnotatedString:
        'Annotation text; Content text',
    AnnotatedUri:
        'Annotation text; Content text',
    BallotCounts:
        'BallotsCast whole; BallotsOutstanding whole; BallotsRejected whole; DeviceClass object DeviceClass; '
        + 'GpUnitId reference; IsSuppressedForPrivacy flag; OtherType text; Round whole; Type text',
    ContactInformation:
        'AddressLine texts; Directions label InternationalizedText; Email annotations AnnotatedString; '
        + 'Fax annotations AnnotatedString; Label text; LatLng object LatLng; Name text; '
        + 'Phone annotations AnnotatedString; Schedule objects Schedule; Uri annotations AnnotatedUri',
    CountStatus:
        'OtherType text; Status text; Type text',
    DeviceClass:
        'Manufacturer text; Model text; OtherType text; Type text',
    ElectionAdministration:
        'ContactInformation object ContactInformation; ElectionOfficialPersonIds references; Name text',
    Hours:
        'Day text; EndTime text; Label text; StartTime text',
    LatLng:
        'Latitude number; Longitude number; Source text',
    OfficeGroup:
        'Label text; Name text; OfficeIds references; SubOfficeGroup objects OfficeGroup',
    OtherCounts:
        'DeviceClass object DeviceClass; GpUnitId reference; IsSuppressedForPrivacy flag; Overvotes number; '
        + 'Undervotes number; WriteIns whole',
    PartyRegistration:
        'Count whole; PartyId reference',
    Schedule:
        'EndDate text; Hours objects Hours; IsOnlyByAppointment flag; IsOrByAppointment flag; IsSubjectToChange flag; '
        + 'Label text; StartDate text',
    SpatialDimension:
        'MapUri annotations AnnotatedUri; SpatialExtent object SpatialExtent',
    SpatialExtent:
        'Coordinates text; Format text',
    Term:
        'EndDate text; Label text; StartDate text; Type text',
    VoteCounts:
        'Count number; DeviceClass object DeviceClass; GpUnitId reference; IsSuppressedForPrivacy flag; OtherType text; '
        + 'Round whole; Type text',
};

// Elements of version 1 that hold others, and the name of those.
const COLLECTED = {
    BallotStyleCollection: 'BallotStyle',
    CandidateCollection: 'Candidate',
    ContestCollection: 'Contest',
    ExternalIdentifiers: 'ExternalIdentifier',
    GpUnitCollection: 'GpUnit',
    OfficeCollection: 'Office',
    OfficeGroupCollection: 'OfficeGroup',
    PartyCollection: 'Party',
    PersonCollection: 'Person',
    VoteCountsCollection: 'VoteCounts',
};

// Names of version 1, those that version 2 has for the same, and the classes that have them.
const RENAMED = {
    BallotSelection: 'ContestSelection PartyContest CandidateContest BallotMeasureContest RetentionContest',
    ElectoralDistrictId: 'ElectionDistrictId PartyContest CandidateContest BallotMeasureContest RetentionContest Office',
    OfficeId: 'OfficeIds CandidateContest',
    OrderedBallotSelectionIds: 'OrderedContestSelectionIds OrderedContest',
    OrderedContest: 'OrderedContent BallotStyle',
    PrimaryPartyId: 'PrimaryPartyIds CandidateContest',
};

const LISTS = new Set(['texts', 'objects', 'annotations', 'references']);

/** What the table says of a member. */
export class Shape {
    constructor(word, classes = []) {
        this.word = word;
        this.classes = classes;
        /** Whether each element is an entry of an array, or several. */
        this.isList = LISTS.has(word);
        /** Whether a plain text may stand in the place of an object. */
        this.mayBeText = word === 'label' || word === 'annotations';
        /** Whether it is an object in any case. */
        this.isObject = word === 'object' || word === 'objects';
    }
}

function membersOf(cells) {
    return new Map(cells.split('; ').map((cell) => cell.split(' ')).map(([name, word, ...classes]) => [name, new Shape(word, classes)]));
}

const TABLE = new Map(Object.entries(ROWS).map(([name, cells]) => [name, membersOf(cells)]));

/** Elements of version 1 that hold others, and the name of those. */
export const COLLECTIONS = new Map(Object.entries(COLLECTED));

/** The member of a class that is the text of its elements, as in `<Text Language="en">words</Text>`. */
export const TEXT_MEMBER = 'Content';

const ATTRIBUTES = new Map([['ObjectId', '@id'], ['Language', 'Language'], ['Label', 'Label'], ['Annotation', 'Annotation']]);
const OLD_ATTRIBUTES = new Map([...ATTRIBUTES, ...[...ATTRIBUTES].map(([name, member]) => [name[0].toLowerCase() + name.slice(1), member])]);

/** What a version of XML writes as attributes, and the names in JSON. Those of version 1 begin with a small letter. */
export function attributesOf(version) {
    return version === 1 ? OLD_ATTRIBUTES : ATTRIBUTES;
}

// A function of a list of classes, which keeps what it has found.
function kept(find) {
    const found = new Map();
    return (classes) => {
        const key = classes.join(' ');
        if (!found.has(key)) {
            found.set(key, find(classes));
        }
        return found.get(key);
    };
}

/** The members of an object of one of these classes. Of a member of several, what the first has counts. */
export const shapesOf = kept((classes) => new Map([...classes].reverse().flatMap((name) => [...TABLE.get(name)])));

/** The names of version 1 in an object of one of these classes, with those of version 2. */
export const oldNamesOf = kept((classes) => new Map(Object.entries(RENAMED)
    .map(([old, words]) => [old, ...words.split(' ')])
    .filter(([, , ...holders]) => classes.some((name) => holders.includes(name)))
    .map(([old, current]) => [old, current])));

/** The class of an element that names none: that of the schema, if the schema has one there that is not abstract; else null. */
export function classByDefault(element, classes) {
    if (classes.length === 1) {
        return classes[0];
    }
    return classes.includes(element) ? element : null;
}
