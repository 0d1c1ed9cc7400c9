// Tries the conversion from XML without a browser: what each kind of member becomes and what is told, in both versions; JSON that was made from
// XML; how a text is cut into parts; and by which bytes its encoding is told. The answers are written out here. One line for each case
// that fails; at the end stand the counts.
import { createHash } from 'node:crypto';
import { readBorn } from '../../web/scripts/from_xml/born.mjs';
import { Converter } from '../../web/scripts/from_xml/converting.mjs';
import { encodingOf, partsOfText } from '../../web/scripts/from_xml/decoding.mjs';
import { formOf, whyNot } from '../../web/scripts/from_xml/form.mjs';
import { NotXml } from '../../web/scripts/from_xml/frame.mjs';
import { LineCounter, Parts } from '../../web/scripts/from_xml/parts.mjs';
import { counts, equal } from './counted.mjs';

const REPORT = { '@type': 'ElectionResults.ElectionReport' };
const typed = (name, members) => ({ '@type': `ElectionResults.${name}`, ...members });
const encoded = (text) => new TextEncoder().encode(text);

/** What is told: where, in which line, and what. */
const toldOf = ({ told }) => told.map(({ place, line, key, name }) => [place, line, key, name].filter((one) => one !== '' && one !== null).join(' '));

/** Why something is not converted, with the line. */
function whyOf(call) {
    try {
        call();
        return 'it is';
    } catch (error) {
        return `${error.why} ${error.values.line ?? error.values.encoding ?? error.values.most ?? ''}`.trim();
    }
}

/** What a converter makes of simple XML, whose tags and texts are read here. */
function converted(xml, version = 2) {
    const converter = new Converter(version);
    let line = 1;
    converter.lineNow = () => line;
    for (const [, end, name, attributes, alone, text] of xml.matchAll(/<(\/?)([\w:]+)((?: [\w:]+="[^"]*")*)(\/?)>|([^<]+)/g)) {
        if (text !== undefined) {
            converter.words(text);
            line += text.split('\n').length - 1;
        } else if (end === '') {
            converter.start(name, [...attributes.matchAll(/([\w:]+)="([^"]*)"/g)].map(([, attribute, value]) => [attribute, value]));
        }
        if (text === undefined && end + alone !== '') {
            converter.end();
        }
    }
    return converter;
}

const UNIT = '<GpUnit xsi:type="ReportingUnit"';
// XML within a report, its members, and what is told.
const MEMBERS = {
    'a text with its blanks': ['<Notes> a\n</Notes>', { Notes: ' a\n' }],
    'whole numbers': ['<SequenceStart>\n 007 </SequenceStart><SequenceEnd>-2</SequenceEnd>', { SequenceStart: 7, SequenceEnd: -2 }],
    'truth values': [`<IsTest> 1 </IsTest>${UNIT}><IsDistricted>false</IsDistricted><IsMailOnly>0</IsMailOnly></GpUnit>`,
        { IsTest: true, GpUnit: [typed('ReportingUnit', { IsDistricted: false, IsMailOnly: false })] }],
    'references': [`${UNIT} ObjectId="u"><ComposingGpUnitIds> a\n b </ComposingGpUnitIds></GpUnit>`,
        { GpUnit: [typed('ReportingUnit', { '@id': 'u', ComposingGpUnitIds: ['a', 'b'] })] }],
    'one reference': ['<Election><ElectionScopeId> u </ElectionScopeId></Election>', { Election: [typed('Election', { ElectionScopeId: 'u' })] }],
    'a label in two languages': ['<Party><Name><Text Language="en">Blue</Text><Text Language="es">Azul</Text></Name></Party>',
        { Party: [typed('Party', { Name: typed('InternationalizedText', { Text: [typed('LanguageString', { Language: 'en', Content: 'Blue' }),
            typed('LanguageString', { Language: 'es', Content: 'Azul' })] }) })] }],
    'a label that is a text': ['<Party><Name>Blue</Name></Party>', { Party: [typed('Party', { Name: 'Blue' })] }],
    'a number with a fraction': ['<Office><ContactInformation><LatLng><Latitude>44.050</Latitude></LatLng></ContactInformation></Office>',
        { Office: [typed('Office', { ContactInformation: typed('ContactInformation', { LatLng: typed('LatLng', { Latitude: 44.05 }) }) })] }],
    'texts that are a list': ['<Person><MiddleName>A</MiddleName></Person>', { Person: [typed('Person', { MiddleName: ['A'] })] }],
    'nothing': ['<Notes xsi:nil="true"/>', { Notes: null }],
    'not nothing': ['<Notes xsi:nil="false">a</Notes>', { Notes: 'a' }],
    'said to be nothing': ['<Notes xsi:nil="1">a</Notes>', { Notes: 'a' }, '/ElectionReport/Notes 1 nil'],
    'an element that nobody knows': ['\n<Blurb><B C="1"/></Blurb>', { Blurb: { B: { C: '1' } } }, '/ElectionReport/Blurb 2 element'],
    'two of them, and a third': ['<X>a</X><X>b</X><Y/>', { X: ['a', 'b'], Y: '' },
        '/ElectionReport/X 1 element', '/ElectionReport/X[2] 1 element', '/ElectionReport/Y 1 element'],
    'an attribute that nobody knows': ['<Notes X="1">a</Notes>', { Notes: { X: '1', '#text': 'a' } }, '/ElectionReport/Notes 1 attribute X'],
    'no whole number': ['<SequenceEnd>1.5</SequenceEnd>', { SequenceEnd: '1.5' }, '/ElectionReport/SequenceEnd 1 whole'],
    'no truth value': ['<IsTest>yes</IsTest>', { IsTest: 'yes' }, '/ElectionReport/IsTest 1 flag'],
    'no number': ['<Office><ContactInformation><LatLng><Latitude>x</Latitude></LatLng></ContactInformation></Office>',
        { Office: [typed('Office', { ContactInformation: typed('ContactInformation', { LatLng: typed('LatLng', { Latitude: 'x' }) }) })] },
        '/ElectionReport/Office[1]/ContactInformation/LatLng/Latitude 1 number'],
    'one that stands twice': ['<Notes>a</Notes><Notes>b</Notes>', { Notes: ['a', 'b'] }, '/ElectionReport/Notes[2] 1 several Notes'],
    'references that stand twice': [`${UNIT}><AuthorityIds>a</AuthorityIds><AuthorityIds>b</AuthorityIds></GpUnit>`,
        { GpUnit: [typed('ReportingUnit', { AuthorityIds: ['a', 'b'] })] }, '/ElectionReport/GpUnit[1]/AuthorityIds[2] 1 several AuthorityIds'],
    'a text among elements': ['<Party>a<Color>b</Color></Party>', { Party: [typed('Party', { Color: 'b' })] }, '/ElectionReport/Party[1] 1 text'],
    'no class': ['<GpUnit><Number>1</Number></GpUnit>', { GpUnit: [{ Number: '1' }] }, '/ElectionReport/GpUnit[1] 1 noClass'],
    'a class that nobody knows': ['<GpUnit xsi:type="Pond"/>', { GpUnit: [typed('Pond', {})] }, '/ElectionReport/GpUnit[1] 1 class'],
    'two classes': [`${UNIT} xsi:type="ReportingDevice"/>`, { GpUnit: [typed('ReportingUnit', {})] }, '/ElectionReport/GpUnit[1] 1 twoClasses'],
    'a party, and a coalition': ['<Party/><Party xsi:type="Coalition"><ContestIds>c</ContestIds></Party>',
        { Party: [typed('Party', {}), typed('Coalition', { ContestIds: ['c'] })] }],
    'two references for one': ['<Election><ElectionScopeId>a b</ElectionScopeId></Election>', { Election: [typed('Election', { ElectionScopeId: 'a b' })] },
        '/ElectionReport/Election[1]/ElectionScopeId 1 reference'],
    'a name of version 1': ['<GpUnitCollection/>', { GpUnitCollection: '' }, '/ElectionReport/GpUnitCollection 1 element'],
};
const OF_VERSION_1 = {
    'units in a collection': [`<GpUnitCollection>${UNIT} objectId="u"/></GpUnitCollection>`, { GpUnit: [typed('ReportingUnit', { '@id': 'u' })] }],
    'a collection with an attribute and a text': [`<PartyCollection X="1">a<Party/></PartyCollection>`, { Party: [typed('Party', {})] },
        '/ElectionReport/PartyCollection 1 attributeLeftOut X', '/ElectionReport/PartyCollection 1 text'],
    'another element in a collection': ['<PartyCollection><Person/></PartyCollection>', { Person: '' }, '/ElectionReport/PartyCollection/Person 1 element'],
    'names that are other ones now': ['<Election><ContestCollection><Contest xsi:type="CandidateContest"><ElectoralDistrictId>u</ElectoralDistrictId>'
        + '<OfficeId>o</OfficeId><BallotSelection xsi:type="CandidateSelection"/></Contest></ContestCollection></Election>',
    { Election: [typed('Election', { Contest: [typed('CandidateContest', { ElectionDistrictId: 'u', OfficeIds: ['o'],
        ContestSelection: [typed('CandidateSelection', {})] })] })] }],
    'an attribute of a small letter': ['<Party><Name><Text language="en">Blue</Text></Name></Party>',
        { Party: [typed('Party', { Name: typed('InternationalizedText', { Text: [typed('LanguageString', { Language: 'en', Content: 'Blue' })] }) })] }],
};
for (const [version, cases] of [[2, MEMBERS], [1, OF_VERSION_1]]) {
    for (const [name, [xml, members, ...told]] of Object.entries(cases)) {
        const found = converted(`<ElectionReport>${xml}</ElectionReport>`, version);
        equal(`converted, ${name}`, [JSON.parse(found.text), toldOf(found), found.allTold], [{ ...REPORT, ...members }, told, told.length]);
    }
}
const many = converted(`<ElectionReport>${'<X/>'.repeat(1500)}</ElectionReport>`);
equal('converted: of what is told a thousand places', [many.told.length, many.allTold], [1000, 1500]);
equal('converted: what is of another kind', whyOf(() => converted(`<ElectionReport>${'<X/>'.repeat(20001)}</ElectionReport>`)), 'tooMany 20000');
equal('converted: 127 levels, and one more', [127, 128].map((depth) => whyOf(() => converted(`<ElectionReport>${'<X>'.repeat(depth)}a`))),
    ['it is', 'tooDeep 127']);

// ---- JSON that was made from XML

const SPACE = 'http://itl.nist.gov/ns/voting/1500-100/v2';
const BORN = {
    'a number where a text was': [{ Notes: 7 }, { Notes: '7' }, '/ElectionReport/Notes numberForText'],
    'an empty list': [{ Party: [] }, {}, '/ElectionReport emptyList Party'],
    'null': [{ Notes: null }, { Notes: null }],
    'a number and a truth value': [{ SequenceEnd: 7, IsTest: true }, { SequenceEnd: 7, IsTest: true }],
    'one element, and two': [{ Party: { Color: 'a' }, Office: [{}, {}] },
        { Party: [typed('Party', { Color: 'a' })], Office: [typed('Office', {}), typed('Office', {})] }],
    'a class beside the attributes': [{ GpUnit: { 'xsi:type': 'ReportingUnit', '@ObjectId': 'a' } }, { GpUnit: [typed('ReportingUnit', { '@id': 'a' })] }],
    'attributes in one member': [{ GpUnit: { '@attributes': { 'xsi:type': 'n:ReportingUnit', ObjectId: 'a' } } },
        { GpUnit: [typed('ReportingUnit', { '@id': 'a' })] }],
    'a text beside attributes': [{ Party: { Name: { Text: { '@Language': 'en', '#text': 'Blue' } } } },
        { Party: [typed('Party', { Name: typed('InternationalizedText', { Text: [typed('LanguageString', { Language: 'en', Content: 'Blue' })] }) })] }],
    'prefixes': [{ '@xmlns:y': 'urn:y', 'n:Notes': 'a', 'y:Notes': 'b' }, { Notes: 'a', 'y:Notes': 'b' }, '/ElectionReport/y:Notes element'],
};
const born = (value) => readBorn(encoded(typeof value === 'string' ? value : JSON.stringify(value)));
for (const [name, [members, wanted, ...told]] of Object.entries(BORN)) {
    const found = born({ '?xml': {}, 'n:ElectionReport': { '@xmlns:n': SPACE, '@xsi:schemaLocation': 'a b', ...members } });
    equal(`born, ${name}`, [JSON.parse(found.text), toldOf(found)], [{ ...REPORT, ...wanted }, told]);
}
equal('born: without a root, by its attributes', JSON.parse(born({ '@attributes': { xmlns: SPACE }, Notes: 'a' }).text), { ...REPORT, Notes: 'a' });
equal('born: without a namespace', toldOf(born({ ElectionReport: { Notes: 'a' } })), ['/ElectionReport noNamespace']);
equal('born: a name that stands twice', toldOf(born(`{"ElectionReport":{"@xmlns":"${SPACE}","Notes":"a","Notes":"b"}}`)),
    ['/ElectionReport/Notes repeated']);
equal('born: version 1', [born({ ElectionReport: { '@xmlns': SPACE.replace(/2$/, '1'), PartyCollection: { Party: {} } } })].map(({ version, text }) => (
    [version, JSON.parse(text)])), [[1, { ...REPORT, Party: [typed('Party', {})] }]]);
equal('born: what was not made from XML', [born(REPORT), born([1]), born({ Notes: 'a' }), born({ Ballot: {} })], [null, null, null, null]);
equal('born: what no converter makes', whyOf(() => born({ ElectionReport: { Notes: [['a']] } })), 'noSuchJson');

// ---- the parts of a text

const XML = '<a>\n<b x=">">t</b>\n<c/></a>';
const told = ({ text, before, after, starts, ends, line, lead }) => [text, before, after, starts.join(), ends.join(), line, lead].join(' | ');
const partsOf = (text, enough, pieces = [text]) => {
    const parts = new Parts(enough);
    return [...pieces.flatMap((piece) => [...parts.more(piece, false)]), ...parts.more('', true)];
};
equal('parts: one', partsOf(XML).map(told), [`${XML} | 0 | 0 | 0,4,19 | 14,23,23 | 1 | 0`]);
equal('parts: one for each token', partsOf(XML, 1).map(told), ['<a></a> | 0 | 1 | 0 |  | 1 | 0', '<a>\n</a> | 1 | 1 |  |  | 1 | 0',
    '<a><b x=">"></b></a> | 1 | 2 | 0 |  | 2 | 0', '<a><b x=">">t</b></a> | 2 | 2 |  |  | 2 | 0', '<a><b x=">"></b></a> | 2 | 1 |  | 0 | 2 | 0',
    '<a>\n</a> | 1 | 1 |  |  | 2 | 0', '<a><c/></a> | 1 | 1 | 0 | 4 | 3 | 0', '<a></a> | 1 | 0 |  | 0 | 3 | 0']);
equal('parts: the tags of what is open, and nothing behind them', partsOf('<a>xyz<b>uvw</b></a>', 6).map(({ text }) => text),
    ['<a>xyz</a>', '<a><b>uvw</b></a>', '<a><b></b></a>']);
const STRANGE = '<?xml version="1.0"?><!-- <z> --><a\ny="1"><![CDATA[<c>]] >]]><?p <d>?>&amp;\r\né<e f=\'"\'/>\u{1f642}</a>\n';
for (const enough of [1, 7, 1000]) {
    const letters = partsOf(STRANGE, enough, STRANGE.split(''));
    equal(`parts of at least ${enough}: together the text`, letters.map(({ content }) => content).join(''), STRANGE);
    equal(`parts of at least ${enough}: two elements`, ['starts', 'ends'].map((name) => letters.flatMap((part) => part[name]).length), [2, 2]);
    equal(`parts of at least ${enough}: lines of the tags before`, letters.at(-1).lead, enough === 1000 ? 0 : 1);
}
equal('parts: a text is not cut within a character or an entity', [...new Parts(1).more('<a>x\u{1f642}&am', false)].map(({ content }) => content),
    ['<a>', 'x\u{1f642}']);
equal('parts: nor within the end of a line', [...new Parts(1).more('<a>x\r', false)].map(({ content }) => content), ['<a>', 'x']);
equal('parts: a text that goes on as a text', partsOf('<a><![CDATA[x]]></a>', 1).map(({ text }) => text),
    ['<a></a>', '<a><![CDATA[]]></a>', '<a><![CDATA[x]]></a>', '<a></a>']);
const WRONG = {
    '<!DOCTYPE a><a/>': 'doctype 1', '\n<!ENTITY a>': 'malformed 2', '<a/>\n\n<b/>': 'malformed 3', '</a>': 'malformed 1', '<a>\n': 'malformed 2',
    '<a><![CDATA[': 'malformed 1', '': 'malformed 1', '<a': 'malformed 1',
};
Object.entries(WRONG).forEach(([text, why]) => equal(`parts: ${JSON.stringify(text)}`, whyOf(() => partsOf(text)), why));
equal('parts: a long tag', whyOf(() => partsOf(`<a b="${'x'.repeat(262144)}"/>`)), 'longTag 1');
equal('parts: long tags that are open', whyOf(() => partsOf(`<a b="${'x'.repeat(200000)}">`.repeat(2))), 'longTag 1');
const attributes = (count) => whyOf(() => partsOf(`<a ${Array.from({ length: count }, (_, at) => `b${at}=""`).join(' ')}/>`));
equal('parts: many attributes', [attributes(100), attributes(101)], ['it is', 'manyAttributes 100']);
equal('parts: many elements that are open', [256, 257].map((depth) => whyOf(() => partsOf('<a>'.repeat(depth) + '</a>'.repeat(depth)))),
    ['it is', 'tooDeep 127']);
const lines = new LineCounter({ content: 'a\r\nb\rc\nd', line: 5 });
equal('lines: of one place after another', [0, 3, 5, 7].map((place) => lines.of(place)), [5, 6, 7, 8]);

// ---- bytes and sums

const bytesOf = (text, ...mark) => Uint8Array.from([...mark, ...encoded(text)]);
const little = (text) => Uint8Array.from([...text].flatMap((letter) => [letter.charCodeAt(0), 0]));
const big = (text) => Uint8Array.from([...text].flatMap((letter) => [0, letter.charCodeAt(0)]));
const readAs = (bytes) => encodingOf(bytes) && [encodingOf(bytes).encoding, [...partsOfText(bytes, encodingOf(bytes), 3)].join('')].join(' ');
equal('bytes: by their mark', [bytesOf('<é/>', 0xef, 0xbb, 0xbf), Uint8Array.from([0xff, 0xfe, ...little('<a/>')]),
    Uint8Array.from([0xfe, 0xff, ...big('<a/>')])]
    .map(readAs), ['utf-8 <é/>', 'utf-16le <a/>', 'utf-16be <a/>']);
equal('bytes: by their letters', [bytesOf(' \n<a/>'), little('<a/>'), big('<a/>')].map(readAs), ['utf-8  \n<a/>', 'utf-16le <a/>', 'utf-16be <a/>']);
equal('bytes: no XML', [bytesOf('{}'), bytesOf('a<b/>'), bytesOf('')].map(readAs), [null, null, null]);
const declared = (encoding, make = bytesOf) => whyOf(() => readAs(make(`<?xml version="1.0" encoding='${encoding}'?><a/>`)));
equal('bytes: as declared', [declared('utf-8'), declared('UTF-16', little), declared('utf-16be', big)], ['it is', 'it is', 'it is']);
equal('bytes: not as declared', [declared('UTF-16'), declared('UTF-8', little), declared('UTF-16LE', big), declared('Windows-1252')],
    ['encoding UTF-16', 'encoding UTF-8', 'encoding UTF-16LE', 'otherEncoding Windows-1252']);
equal('bytes: none of the encoding', whyOf(() => readAs(Uint8Array.from([...encoded('<a>'), 0xff, ...encoded('</a>')]))), 'encoding UTF-8');
equal('bytes: the half of a character at the end', whyOf(() => readAs(Uint8Array.from([...encoded('<aa/>'), 0xc3]))), 'encoding UTF-8');
const sumOf = (bytes) => createHash('sha256').update(bytes).digest('hex');
const before = encoded('<ElectionReport><X/></ElectionReport>');
const { form, conversion } = await formOf(before, converted('<ElectionReport><X/></ElectionReport>'));
equal('form: its text', new TextDecoder().decode(form), '{"@type":"ElectionResults.ElectionReport","X":""}\n');
equal('form: the sums of both files', conversion, { size: before.length, sha256: sumOf(before), form: { size: form.length, sha256: sumOf(form) }, version: 2,
    told: [{ place: '/ElectionReport/X', line: 1, key: 'element', name: '' }], allTold: 1 });
equal('form: why there is none', [whyNot(new NotXml('root')), whyNot(new NotXml('tooDeep', { most: 1 })), whyNot(new RangeError())],
    [{ why: 'root', values: {} }, { why: 'tooDeep', values: { most: 1 } }, { why: 'noMemory', values: {} }]);
let others = '';
try {
    whyNot(new TypeError('odd'));
} catch ({ message }) {
    others = message;
}
equal('form: another error', others, 'odd');
counts();
