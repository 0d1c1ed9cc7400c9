"""The whole result of each pair of kinds: verdict, notices, cards, differences, record and saved files, as data.

`results.json` has the rows: which files are chosen, and what no other program says of them, which is what objects are called and
what is marked. All else comes from the reference program, from docs/FIXES.md and from the texts of the page (`answers.py`).
"""
import datetime
import hashlib
import json
import os
import pathlib
import re
import urllib.parse
import urllib.request
import zoneinfo

import answers
from answers import FIXES, SEEN, Answer, say
from session import EXAMPLES, ROOT, SUITE, report_of_units

HERE = pathlib.Path(__file__).parent
READ = (HERE / 'results.js').read_text(encoding='utf-8')
ROWS = json.loads((HERE / 'results.json').read_text(encoding='utf-8'))
SIDES = ('left', 'right')
ENVELOPE = ['Format', 'GeneratedDate', 'Issuer', 'IssuerAbbreviation', 'VendorApplicationId', 'Notes', 'SequenceStart', 'SequenceEnd',
            'ExternalIdentifier']
LETTERS = '0123456789ABCDEFGHJKMNPQRSTVWXYZ'

# The members of which the proved code compares what ballots print. What is carried is compared too. The county of the small ballot is on no ballot.
PRINTED = {'party': ('Name', 'Abbreviation', 'Slogan'), 'header': ('Name',),
           'person': ('FullName', 'FirstName', 'LastName', 'Title', 'Profession', 'PartyId'),
           'candidate': ('BallotName', 'PartyId', 'CampaignSlogan', 'IsIncumbent', 'IsTopTicket', 'PersonId', 'PreElectionStatus'),
           'contest': ('Name', 'VotesAllowed', 'VoteVariation', 'ContestSelection'), 'style': ('GpUnitIds', 'PartyIds', 'OrderedContent')}
# Those of which a ballot that differs tells what differs.
TOLD = ('header', 'person', 'candidate', 'contest', 'style')
# The class of each part in the small ballot.
CLASSES = {'report': 'ElectionReport', 'unit': 'ReportingUnit', 'party': 'Party', 'person': 'Person', 'office': 'Office', 'header': 'Header',
           'election': 'Election', 'candidate': 'Candidate', 'contest': 'CandidateContest', 'style': 'BallotStyle'}

# Of each outcome of one file the tone and the sign. Of a comparison also its heading and its sentence.
FILE_VERDICTS = {'accepted': ('good', '✓'), 'refused': ('bad', '✗')}
COMPARISONS = {
    'same': ('good', '✓', 'verdict.same', 'sentence.same'),
    'different': ('bad', '✗', 'verdict.different', 'sentence.different'),
    'no memory': ('stop', '!', 'verdict.noMemory', 'sentence.compareNoMemory'),
}
STOP = ('stop', '!')

# What a text of the page has to say, whatever its other words are.
WORDS = {
    'verdict.same': r'^(?!.*\bnot?\b).*\bsame\b', 'verdict.different': r'\bnot\b', 'verdict.accepted': r'^Accepted$',
    'verdict.refused': r'^Refused\b', 'verdict.notJson': r'^Not JSON$', 'verdict.notCompared': r"\bcan't\b",
    'sentence.same': r'\bcan differ only\b', 'sentence.different': r'\bdifferences\b', 'sentence.accepted': r'\{name\} is accepted\b',
    'sentence.refused': r'\{name\} is refused\b', 'sentence.notJson': r'\{name\} is not JSON\b',
    'difference.only left': r'\{left\} only\b', 'difference.only right': r'\{right\} only\b',
    'difference.other class': r'\{leftClass\} in \{left\} .*\{rightClass\} in \{right\}', 'record.file1': r'\bFirst\b',
    'record.file2': r'\bSecond\b', 'record.save1': r'\bfirst\b', 'record.save2': r'\bsecond\b',
}


def run(session):
    """All rows, or those of the cases that CASES names, one a line."""
    cases = os.environ.get('CASES')
    texts_say(session)
    program = answers.Program()
    for row in ROWS['rows']:
        if cases is None or f'result: {row["name"]}, ' in cases:
            Result(session, program, row).tried()
    if cases is None or 'preference' in cases:
        preferences(session)


def texts_say(session):
    """The texts that decide say what they are for."""
    for key, words in WORDS.items():
        text = answers.TEXTS[key]
        forms = list(text.values()) if isinstance(text, dict) else [text]
        session.said('the text ' + key, '' if all(re.search(words, form) for form in forms) else repr(text))


def made(session, spec, name):
    """The file of a row: an example, a case of the suite, or the small ballot with some texts replaced."""
    path = session.work / name
    if 'megabytes' in spec:
        with open(path, 'wb') as file:
            file.truncate(answers.MOST_BYTES + 1)
        return path
    if 'units' in spec:
        return report_of_units(path, spec['units'])
    place = SUITE / spec['case'] / spec.get('file', name) if 'case' in spec else EXAMPLES / spec.get('example', 'small-ballot.json')
    text = place.read_text(encoding='utf-8')
    for change in spec.get('changes', ()):
        old, new = ROWS['changes'][change]
        assert text.count(old) == 1, '%s: %d times %s' % (change, text.count(old), old)
        text = text.replace(old, new)
    data = text.encode()[:spec.get('cut')]
    path.write_bytes(data)
    return path


class Result:
    """One row: what is chosen, and what has to be shown."""

    def __init__(self, session, program, row):
        self.session, self.row = session, row
        self.name = 'result: ' + row['name']
        self.prefer = row.get('prefer')
        self.specs = [row[side] for side in SIDES if side in row]
        names = [f'{side}.json' for side in SIDES] if len(self.specs) == 2 else ['only.json']
        self.paths = [made(session, spec, name) for spec, name in zip(self.specs, names)]
        self.answers = [Answer(program, path, self.prefer, spec.get('outcome')) for spec, path in zip(self.specs, self.paths)]
        self.compared, self.lines, self.data = None, [], []
        self.is_listed = row.get('others') is not None
        self.has_names = row.get('page') != 'short'
        if len(self.paths) == 2 and all(it.outcome == 'accepted' for it in self.answers):
            self.line = program.run(self.prefer, 'compare', *self.paths)[1].decode('utf-8').rstrip('\n')
            self.lines = program.run(self.prefer, 'differences', *self.paths)[1].decode('utf-8').splitlines() if self.is_listed else []
            self.data = json.loads(program.run(self.prefer, 'entries', *self.paths)[1]) if self.is_listed else []
            self.compared = row.get('compared') or ('same' if self.line == 'same' else 'different')

    def tried(self):
        """Chooses the files, reads the result, and saves what can be saved."""
        self.choose()
        before = datetime.datetime.now(zone(self.session))
        self.session.open_details()
        found = self.session.browser.script(READ)
        wanted = self.wanted()
        dates = [line[1] for line in found['record']['lines'] if line[0] == say('record.date')]
        around = {date_text(before - datetime.timedelta(minutes=minutes)) for minutes in (0, 1)}
        listed = [{name: entry.get(name) for name in ('part', 'key', 'how', 'member')} for entry in self.entries]
        self.session.equal(self.name + ', the list of the program', listed, [difference_of(line) for line in self.lines] if self.compared == 'different' else [])
        self.session.said(self.name + ', the date', '' if len(dates) == 1 and set(dates) <= around else f'{dates}, not {around}')
        found['record']['lines'] = [line for line in found['record']['lines'] if line[0] != say('record.date')]
        for part in wanted:
            for name, one, other in parts_of(part, found[part], wanted[part]):
                self.session.equal(f'{self.name}, {name}', one, other)
        self.saved()

    def choose(self):
        if self.row.get('page', 'usual') == 'usual':
            self.session.fresh()
        else:
            self.session.browser.open(self.session.others[self.row['page']])
            self.session.browser.until('return document.documentElement.dataset.ready')
        self.session.choose(0, *self.paths)
        self.session.verdict(seconds=200)
        gone = [path for spec, path in zip(self.specs, self.paths) if spec.get('outcome') == 'unreadable']
        for path in gone:
            path.unlink()
        if self.prefer or gone:
            choose_type(self.session, self.prefer or '')

    def wanted(self):
        tone, sign, heading, sentences = self.verdict()
        is_one = self.compared == 'different' and len(self.entries) < 2
        return {
            'tone': f'banner {tone}', 'sign': sign, 'heading': heading, 'announced': heading, 'notices': self.notices(), 'sentences': sentences,
            'envelope': (ENVELOPE + self.envelope()) if self.compared in ('same', 'different') else [], 'headings': self.headings(),
            'seen': [self.seen()] if self.is_listed and self.has_names else [],
            'faults': [self.faults(it, side) for it, side in self.each('refused')],
            'notJson': [self.not_json(it, side) for it, side in self.each('notJson')],
            'first': [self.entry(self.first())] if self.compared == 'different' else [], 'others': self.others(),
            'notes': ([say('difference.noOthers')] if is_one else []) + ([] if self.has_names else [say('difference.tooLarge')]),
            'record': self.record(heading), 'chosen': self.chosen(), 'prefer': self.types(),
        }

    @property
    def entries(self):
        """All differences, if they are listed."""
        return [self.first(), *self.row['others']] if self.is_listed else []

    def envelope(self):
        """The members of the envelope that one of the files has."""
        reports = [json.loads(path.read_bytes()) for path in self.paths]
        return [name for name in ENVELOPE if any(name in report for report in reports)]

    def each(self, outcome):
        return [(it, side) for it, side in zip(self.answers, SIDES) if it.outcome == outcome]

    def verdict(self):
        if self.compared:
            tone, sign, heading, sentence = COMPARISONS[self.compared]
            return tone, sign, say(heading), [say(sentence)]
        sentences = [sentence for it in self.answers for sentence in self.sentences_on(it)]
        if len(self.answers) == 2:
            return *STOP, say('verdict.notCompared'), sentences
        only = self.answers[0]
        return *FILE_VERDICTS.get(only.outcome, STOP), say(f'verdict.{only.outcome}', count=len(only.faults)), sentences

    @staticmethod
    def sentences_on(it):
        said = [say(f'sentence.{it.outcome}', name=it.name, count=len(it.faults), size=it.size, most=answers.MOST_BYTES)]
        status = [fault for fault in it.faults if fault.words == 'not pre-election']
        return said + [say('sentence.afterElection', status=it.status)] if status else said

    def headings(self):
        found = self.notices()
        if self.is_listed and self.has_names:
            found.append(self.seen()[0])
            found += self.on_ballots()
            found += [say('own.heading')] if self.own_kinds() else []
        if self.compared == 'different':
            found.append(say('difference.first'))
            found += [say('difference.all', count=len(self.entries))] if len(self.entries) > 1 else []
        for it in self.answers:
            if it.outcome == 'refused':
                found += [say('prepare.heading', name=it.name), say('faults.heading', name=it.name, count=len(it.faults))]
            elif it.outcome == 'notJson':
                found.append(say('notJson.heading', name=it.name))
        if all(it.form is not None for it in self.answers):
            found += [say('card.heading')] if len(self.answers) == 1 else []
            found += [say('ballots.heading')] if self.compared != 'no memory' else []
        return found + [self.record_heading()]

    def notices(self):
        """Two files with the same bytes are told."""
        sums = [it.sum for it in self.answers]
        found = [say('notice.sameBytes')] if len(sums) == 2 and sums[0] is not None and sums[0] == sums[1] else []
        return found + [say('notice.test', name=it.name) for it in self.answers if it.outcome == 'accepted' and json.loads(it.path.read_bytes()).get('IsTest')]

    def own_kinds(self):
        """The types of identifier that only one file has."""
        left, right = (answers.kinds_in(json.loads(path.read_bytes())) for path in self.paths)
        return left ^ right

    def on_ballots(self):
        """The heading of what differs on the ballots, which stands there if they differ."""
        return [self.session.text('#on-ballots') or 'what differs on the ballots'] if self.differing()[0] > 0 else []

    def seen(self):
        """The box on what a voter sees: whether the ballots differ, what they leave out, and what no ballot shows."""
        differing, count = self.differing()
        heading = say('seen.differ', differing=differing, all=count) if differing else say('seen.shownSame' if count else 'seen.noBallots')
        return [heading, self.left_out(), self.kinds([entry for entry in self.entries if self.is_unseen(entry)])]

    def left_out(self):
        """What a voter may see, and the ballots that differ don't tell."""
        differ = self.differing()[0] > 0
        return self.kinds([entry for entry in self.entries if not self.is_unseen(entry) and not (
            differ and self.is_told(entry))])

    def kinds(self, entries):
        """The line of each kind of differences."""
        counts = {}
        for entry in entries:
            kind = (entry['part'], entry['how'], entry.get('member'))
            counts[kind] = counts.get(kind, 0) + 1
        return [self.left_out_line(*kind, count) for kind, count in counts.items()]

    def differing(self):
        """How many ballots differ, and how many there are."""
        return self.row.get('ballots', [int(any(entry['how'] == 'member' and self.is_printed(entry) for entry in self.entries)), 1])

    @staticmethod
    def is_printed(entry):
        """Whether a difference in this member makes the ballots differ."""
        return entry['part'] in PRINTED and (entry['member'] in PRINTED[entry['part']] or entry['member'] not in SEEN[CLASSES[entry['part']]])

    def is_told(self, entry):
        """Whether a ballot that differs tells the difference."""
        return entry['part'] in TOLD and (entry['how'] != 'member' or self.is_printed(entry))

    @staticmethod
    def left_out_line(part, how, member, count):
        parts = say(f'parts.{part}')
        return say('seen.leftOut.member', parts=parts, member=member_words(member), count=count) if how == 'member' else \
            say('seen.leftOut.class' if how == 'other class' else 'seen.leftOut.object', parts=parts, count=count)

    @staticmethod
    def is_unseen(entry):
        """Whether no ballot shows the member that differs. Of a ballot style and of the report that is never said."""
        return (entry['how'] == 'member' and entry['part'] not in ('style', 'report')
                and SEEN[entry.get('class', CLASSES[entry['part']])].get(entry['member']) == 'unseen')

    # ---- what is wrong with a file

    def faults(self, it, side):
        kinds = {}
        for fault, known in zip(it.faults, self.row[side]['cards']):
            kinds.setdefault(fault.number, []).append((fault, known))
        return {'heading': say('faults.heading', name=it.name, count=len(it.faults)), 'kinds': say('faults.kinds', count=len(kinds)),
                'cards': [self.card(faults) for faults in kinds.values()], 'buttons': [say('faults.save')]}

    @staticmethod
    def card(faults):
        """A kind of fault, with its places."""
        first = faults[0][0]
        places = [{'trail': trail, 'pointer': fault.pointer or say('faults.emptyPointer'), 'name': fault.name or None, 'marked': marked}
                  for fault, (trail, marked) in faults]
        return {
            'heading': f'{say("reason." + first.number)} {say("faults.places", count=len(faults))}', 'meaning': [first.meaning],
            'fixing': [first.fixing, say('faults.origin'), first.origin], 'places': places,
        }

    def not_json(self, it, side):
        known = self.row[side]
        _, _, origin, fixing = FIXES['not JSON']
        where = [say('notJson.where', line=str(known['where'][0]), column=str(known['where'][1]))] if 'where' in known else []
        return {'heading': say('notJson.heading', name=it.name), 'paragraphs': [say(f'notJson.{known["why"]}'), *where],
                'marked': known.get('marked', ''), 'fixing': [fixing, say('faults.origin'), origin]}

    # ---- differences

    def first(self):
        """The first difference: its line comes from the program."""
        return {'titles': [], **difference_of(self.line), **(self.row.get('first') or {})}

    def entry(self, entry):
        """A difference as it is shown: its sentence, what differs inside selections, and its table."""
        return [self.sentence_on(entry), *self.inside(entry), *self.table(entry), *self.values_inside(entry)]

    def other(self, entry):
        """A difference of the list. Its table has no more than its sentence needs."""
        table = self.table(entry)
        return [self.sentence_on(entry), *self.inside(entry), *((table[-1:] if entry.get('values') else []) if entry['how'] == 'member' else table),
                *self.values_inside(entry)]

    def inside(self, entry):
        """What differs inside the selections of a contest, or on a ballot, which is in the row."""
        if 'onBallot' in entry:
            return [say('inside.heading.style', count=len(entry['onBallot'])), *(say(f'inside.{how}', selection=name) for how, name in entry['onBallot'])]
        lines = [line for line, _, _ in self.selections(entry)]
        return [say('inside.heading.contest', count=len(lines)), *lines] if lines else []

    def values_inside(self, entry):
        """The groups of the table that have the values of selections."""
        return [[heading, *rows] for _, heading, values in self.selections(entry) if (rows := with_signs(values))]

    def filed_inside(self, entry):
        """What differs inside selections or on a ballot, as the printed record has it: with the values, and without a heading."""
        lines = [text for line, _, values in self.selections(entry) for text in (line, *values_filed(values))]
        return lines or self.inside(entry)[1:]

    def selections(self, entry):
        """What differs inside the selections of a contest: of each the line, and of a member the heading and the rows of its values. The
        reference program says how they differ. The row has the names, and what is shown of the values of the members."""
        ways = next((it['selections'] for it in self.data if (it['key'], it.get('member')) == (entry.get('key'), entry.get('member')) and 'selections' in it), [])
        names, values = entry.get('inside', []), iter(entry.get('insideValues', []))
        assert len(ways) == len(names), f'{self.name}: {len(ways)} names of {entry}'
        words = [member_words(way.get('member', '')) for way in ways]
        return [(say(f'inside.{way["how"]}', selection=name, member=member, left=self.answers[0].name, right=self.answers[1].name),
                 say('inside.values', selection=name, member=member), next(values) if way['how'] == 'member' else [])
                for way, name, member in zip(ways, names, words)]

    def sentence_on(self, entry):
        title = next((f' “{it}”' for it in entry['titles'] if it), '')
        key, classes = entry.get('key'), entry.get('classes', ['', ''])
        member = entry.get('member')
        return say(f'difference.{entry["how"]}', object=say(f'part.{entry["part"]}') + title + (f' ({" ".join(filter(None, key))})' if key else ''),
                   member=member and member_words(member), left=self.answers[0].name, right=self.answers[1].name,
                   leftClass=classes[0], rightClass=classes[1])

    @staticmethod
    def table(entry):
        titles, key, how = entry['titles'], entry.get('key'), entry['how']
        shown_key = key and ' '.join(filter(None, key))
        there = [how != f'only {side}' for side in reversed(SIDES)]
        groups = [('difference.name', titles)] if any(titles) else []
        groups += [('difference.identifier', [shown_key if is_there else None for is_there in there])] if key else []
        groups += [('difference.class', entry['classes'])] if how == 'other class' else []
        rows = [[say(label), cells(texts)] for label, texts in groups]
        values = with_signs(entry.get('values', ()))
        return [*rows, *([[member_words(entry['member']), *values]] if values else [])]

    def others(self):
        """The list of all differences, if there is more than one: how many objects of each kind differ, and each of them."""
        if len(self.entries) < 2:
            return []
        parts = {}
        for entry in self.entries:
            part = parts.setdefault(entry['part'], {'only left': set(), 'only right': set(), 'objects': set(), 'members': 0})
            part[entry['how'] if entry['how'].startswith('only') else 'objects'].add(tuple(entry['key'] or ()))
            part['members'] += entry['how'] == 'member'
        heads = [say('tally.kind'), say('tally.differ'), say('tally.members'), *(say('tally.only', name=it.name) for it in self.answers)]
        rows = [[say(f'parts.{name}'), *(str(count or '') for count in (len(part['objects']), part['members'], len(part['only left']), len(part['only right'])))]
                for name, part in parts.items()]
        return [{'heading': say('difference.all', count=len(self.entries)), 'tallies': [heads, *rows],
                 'entries': [self.other(entry) for entry in self.entries]}]

    # ---- the record

    def record_heading(self):
        return say('record.ofCheck' if len(self.answers) == 1 else 'record.ofComparison')

    def record(self, heading):
        lines = [[say('record.verdict'), heading]]
        if self.is_listed and self.has_names:
            lines.append([say('record.seen'), self.seen()[0]])
        for number, it in enumerate(self.answers, 1):
            lines += self.record_of(it, number if len(self.answers) == 2 else '')
        lines += [[say('record.prefer'), self.prefer or say('prefer.none')], [say('record.version'), f'erd {answers.VERSION}'],
                  [say('record.page'), self.page_sum()]]
        forms = [say('record.save' + (str(number) if len(self.answers) == 2 else ''))
                 for number, it in enumerate(self.answers, 1) if it.form is not None]
        return {'heading': self.record_heading(), 'lines': lines, 'buttons': [say('record.print'), *forms],
                'phone': [say('record.phone')] if forms else [], 'filed': self.filed()}

    def page_sum(self):
        page = self.session.others.get(self.row.get('page'), self.session.address)
        return hashlib.sha256(pathlib.Path(urllib.request.url2pathname(urllib.parse.urlparse(page).path)).read_bytes()).hexdigest()

    def filed(self):
        """What only the printed record has: the notices, the differences or the faults, what is proved, and what is signed."""
        refused = [it for it, _ in self.each('refused')]
        headings = [say('faults.heading', name=it.name, count=len(it.faults)) for it in refused]
        entries = [line for it in refused for line in it.lines.decode('utf-8').splitlines()]
        if self.is_listed:
            headings = [say('difference.all', count=len(self.entries))]
            ordered = sorted(self.entries, key=lambda entry: (self.is_unseen(entry), not self.is_told(entry))) if self.has_names else self.entries
            entries = [self.sentence_on(entry) + ''.join(self.filed_inside(entry) or values_filed(entry.get('values', ()))) for entry in ordered]
        is_told = self.is_listed and self.has_names
        left_out = [say('seen.leftOut')] if is_told and self.left_out() else []
        paragraphs = [*self.notices(), *left_out, say('record.proved'), say('record.notProved'), *self.signed()]
        return {'headings': headings, 'entries': entries, 'paragraphs': paragraphs}

    def signed(self):
        """What stands above the signatures: the verdict, and each file with its sum."""
        labels = ['sheet.file'] if len(self.answers) == 1 else ['sheet.file1', 'sheet.file2']
        return [self.verdict()[2], *(say(label, name=it.name) + (f' SHA-256 {it.sum}' if it.sum else '') for label, it in zip(labels, self.answers))]

    @staticmethod
    def record_of(it, number):
        lines = [[say(f'record.file{number}'), f'{it.name} ({say("bytes", count=it.size)})']]
        report = json.loads(it.path.read_bytes()) if it.outcome == 'accepted' else {}
        lines += [[say('record.election'), election_shown(election)] for election in report.get('Election', [])]
        lines += [[say('record.test'), say('record.isTest')]] if report.get('IsTest') else []
        if number:
            lines.append([say('record.outcome'), say(f'verdict.{it.outcome}', count=len(it.faults))])
        if it.sum:
            lines.append([say('record.fileSum'), it.sum])
        if it.form is not None:
            lines.append([say('record.formSum'), it.form_sum, code_of(it.form_sum)])
        if report:
            lines.append([say('record.envelope'), '; '.join(f'{name}: {member_text(report[name])}' for name in ENVELOPE if name in report) or say('record.none')])
        return lines

    def chosen(self):
        shown = [f'{it.name} ({size_text(it.size)})' for it in self.answers]
        return shown + [say('files.none')] * (2 - len(shown))

    def types(self):
        """The type that is chosen, and all that are offered."""
        types = sorted(set().union(*(it.types for it in self.answers)))
        none = say('prefer.none')
        return [(self.prefer or none) if types else None, none, *types]

    # ---- what is saved

    def saved(self):
        lists = [it for it in self.answers if it.outcome == 'refused']
        forms = [it for it in self.answers if it.form is not None]
        for it, button in zip(lists, self.buttons(say('faults.save'))):
            self.session.equal(f'{self.name}, the saved faults of {it.name}', self.download(button, 'faults.txt'), it.lines)
        for number, it in enumerate(self.answers, 1):
            if it in forms:
                label = say('record.save' + (str(number) if len(self.answers) == 2 else ''))
                name = it.name.replace('.json', '.canonical.json')
                for button in self.buttons(label):
                    self.session.equal(f'{self.name}, the saved form of {it.name}', self.download(button, name), it.form)

    def buttons(self, label):
        return self.session.browser.script('return [...document.querySelectorAll("#result button")].filter((one) => one.textContent === arguments[0])', label)

    def download(self, button, name):
        (self.session.work / 'downloads' / name).unlink(missing_ok=True)
        self.session.browser.script('arguments[0].scrollIntoView()', button)
        button.click()
        return self.session.downloaded(name)


def difference_of(line):
    """A difference, from its line."""
    part, key, how = re.fullmatch(r'(\w+)(?: (\[.*\]))?: (.*)', line).groups()
    member = re.fullmatch(r'member (".*")', how)
    return {'part': part, 'key': key and json.loads(key), 'how': 'member' if member else how, 'member': member and json.loads(member[1])}


def parts_of(name, found, wanted):
    """The cases of a part: its name, and what is found and wanted there. Lines of the record, and fields of cards and of their
    places, are cases of their own."""
    if name == 'record':
        for label in dict.fromkeys(line[0] for line in wanted['lines']):
            yield f'record, {label}', *([line[1:] for line in it['lines'] if line[0] == label] for it in (found, wanted))
        yield 'record', *({**it, 'lines': [line[0] for line in it['lines']]} for it in (found, wanted))
    elif name == 'faults' and wanted:
        cards = [[card for section in it for card in section['cards']] for it in (found, wanted)]
        for field in ('heading', 'meaning', 'fixing'):
            yield f'faults, {field}', *([card.get(field) for card in it] for it in cards)
        for field in ('trail', 'pointer', 'name', 'marked'):
            yield f'faults, {field}', *([[place.get(field) for place in card['places']] for card in it] for it in cards)
        yield 'faults', *([[section['heading'], section['kinds'], section['buttons']] for section in it] for it in (found, wanted))
    else:
        yield name, found, wanted


def election_shown(election):
    """An election as the record has it: its name, in English if it has several, and its days."""
    name = election['Name']
    if not isinstance(name, str):
        texts = [text['Content'] for text in name['Text']]
        name = next((text['Content'] for text in name['Text'] if text['Language'].lower().startswith('en')), texts[0])
    days = sorted({election['StartDate'], election['EndDate']})
    return f'{name}, {" – ".join(days)}'


def member_text(value):
    """A member of the envelope as the record has it."""
    return '\n'.join(' '.join(filter(None, (one['Type'], one.get('OtherType', ''), one['Value']))) for one in value) if isinstance(value, list) else str(value)


def values_filed(rows):
    """The values of a difference as the printed record has them."""
    nothing = say('difference.notThere')
    for row in rows:
        if nothing not in row and any('≠' in value for value in row):
            left, right = (value.replace('≠', '') for value in row)
            yield f'{left or nothing} / {right or nothing}'


def with_signs(rows):
    """The cells of values, with the word of each sign."""
    return [[value.replace('≠', sign()) for value in row] for row in rows]


def sign():
    """The sign of what differs, with its word for screen readers."""
    return '≠' + say('difference.sign')


def member_words(name):
    """A member in plain words, and as the standard names it."""
    known = f'member.{name}'
    return f'{say(known)} ({name})' if known in answers.TEXTS else name


def code_of(digits):
    """The code of a sum for the phone: its first 80 bits, five in each letter."""
    bits = int(digits[:20], 16)
    letters = ''.join(LETTERS[bits >> 75 - 5 * place & 31] for place in range(16))
    return ' '.join(letters[at:at + 4] for at in range(0, 16, 4))


def cells(texts):
    """The cells of two texts: those that differ have a sign, and one that is not there has words."""
    before = '' if texts[0] == texts[1] else sign()
    return [say('difference.notThere') if text is None else before + text for text in texts]


def size_text(size):
    return say('bytes', count=size) if size < 1_000_000 else say('megabytes', size=f'{round(size / 1e5) / 10:,}'.removesuffix('.0'))


def zone(session):
    """The time zone of the browser."""
    return zoneinfo.ZoneInfo(session.zone)


def date_text(moment):
    """A date and a time as the record has them."""
    offset = moment.utcoffset() // datetime.timedelta(minutes=1)
    sign = '−' if offset < 0 else '+'
    return f'{moment:%Y-%m-%d %H:%M} (UTC{sign}{abs(offset) // 60:02}:{abs(offset) % 60:02})'


def choose_type(session, kind):
    """Chooses a preferred type, and waits for the verdict under it."""
    session.browser.script("""
        document.getElementById('verdict')?.remove();
        const select = document.getElementById('prefer');
        select.value = arguments[0];
        select.dispatchEvent(new Event('change'));""", kind)
    session.verdict()


def preferences(session):
    """A preference is that of the files for which it was chosen: it goes as soon as another file is chosen."""
    case = SUITE / 'prefer-key-of-the-preferred-type'
    others = {
        'another file': lambda: session.choose(1, EXAMPLES / 'small-ballot.json'),
        'two other files': lambda: session.choose(0, EXAMPLES / 'small-ballot.json', EXAMPLES / 'one-unit.json'),
        'a file removed': lambda: remove(session),
        'an example': lambda: session.browser.script("""
            document.getElementById('verdict').remove();
            document.querySelector('#examples button').click();"""),
    }
    for name, act in others.items():
        session.judged(case / 'left.json', case / 'right.json')
        choose_type(session, 'local-level')
        found = session.browser.script(READ)
        session.equal(f'a preference before {name}', [found['prefer'][0], {line[0]: line[1] for line in found['record']['lines']}[say('record.prefer')]],
                      2 * ['local-level'])
        act()
        session.verdict()
        found = session.browser.script(READ)
        session.equal(f'no preference after {name}', [found['prefer'][0], {line[0]: line[1] for line in found['record']['lines']}[say('record.prefer')]],
                      2 * [say('prefer.none')])


def remove(session):
    session.browser.script("document.getElementById('verdict').remove();")
    session.click('#choose-others')
    session.click('#remove-1')
