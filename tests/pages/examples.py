"""Runs every session of README.md and the pages for users, and every example of docs/FIXES.md, docs/API.md, docs/PROFILE.md and
erd.h, and compares what they give with what the pages show. `ERD=..` names another program than ./erd, such as
`ERD='python3 reference/erd_reference.py'`. One line a case that fails, and at the end the counts.

An example is the words `**Example.** .. at `PLACE`..` with its blocks: two fragments of JSON and the lines that `erd` writes. A
fragment is the object at the place, or some of its members. A session is a block with the commands after `$ ` and their output. What
a command `erd prepare` writes has to mean the same where the export is rearranged.
"""

import copy
import itertools
import json
import os
import pathlib
import random
import re
import shlex
import shutil
import subprocess
import sys
import tempfile

from repository import ROOT
import texts_of_data
from listed import worded
from cases import tell_cases
from exports import rearranged

SESSIONS = ('README.md', 'docs/GUIDE.md', 'docs/FIXES.md')
BASE = 'examples/county.vendor-a.json'
DATA_PAGES = ('docs/API.md', 'bindings/c/erd.h')


def read(path):
    return (ROOT / path).read_text(encoding='utf-8')


def run(command, folder):
    """What a command of a shell writes, standard error after standard output."""
    done = subprocess.run(['bash', '-c', command], cwd=folder, capture_output=True, text=True, timeout=60, check=False)
    return done.stdout + done.stderr


def workshop(folder):
    """Makes a folder with the examples, and the program `erd` on the path."""
    for name in ('examples', 'contrib'):
        shutil.copytree(ROOT / name, folder / name)
    (folder / 'reference').mkdir()
    shutil.copy(ROOT / 'reference' / 'erd_reference.py', folder / 'reference')
    program = shlex.split(os.environ.get('ERD', str(ROOT / 'erd')))
    program = [str(ROOT / word) if (ROOT / word).exists() else word for word in program]
    (folder / 'bin').mkdir()
    (folder / 'bin' / 'erd').write_text(f'#!/bin/sh\nexec {shlex.join(program)} "$@"\n', encoding='utf-8')
    (folder / 'bin' / 'erd').chmod(0o755)
    os.environ['PATH'] = f'{folder / "bin"}:{os.environ["PATH"]}'


# ---- sessions


def commands_of(block):
    """Each command of a session with the output that the page shows. A command goes on to the end of its here-document."""
    lines = block.splitlines(keepends=True)
    while lines:
        command = lines.pop(0)
        if not command.startswith('$ '):
            raise ValueError(f'a session begins with {command!r}')
        end = re.search(r"<<'(\w+)'", command)
        while end and lines and command.splitlines()[-1] != end.group(1):
            command += lines.pop(0)
        output = ''
        while lines and not lines[0].startswith('$ '):
            output += lines.pop(0)
        yield command[2:], output


def sessions(folder):
    for page in SESSIONS:
        for block in re.findall(r'^```console\n(.*?)^```$', read(page), re.M | re.S):
            for command, output in commands_of(block):
                yield f'{page}: $ {command.splitlines()[0]}', output, run(command, folder)
                yield from rearranged_recipe(page, command, folder)


def rearranged_recipe(page, command, folder):
    """What a recipe prepares is the same if the export lists its objects in another order and has other system names. A recipe
    is a command that prepares a copy which is accepted."""
    recipe = re.fullmatch(r'(erd prepare (?:.* )?)(\S+\.json) > (\S+)(?: 2> \S+)?\n', command)
    if recipe is None or run(f'erd check {recipe[3]}', folder) != 'accepted\n':
        return
    report = json.loads((folder / recipe[2]).read_text(encoding='utf-8-sig'))
    for number in range(3):
        written(folder, 'other.json', rearranged(report, random.Random(number)))
        run(f'{recipe[1]} other.json > other-prepared.json', folder)
        said = run(f'erd compare {recipe[3]} other-prepared.json', folder)
        yield f'{page}: $ {command.strip()} after rearrangement {number + 1}', 'same\n', said


def demonstration(folder):
    """What `make demo` shows is the session of the README."""
    wanted = re.search(r'^## First run$.*?^```console\n(.*?)^```$', read('README.md'), re.M | re.S).group(1)
    yield 'examples/demo.sh', wanted, run(f'ERD={shlex.quote(str(folder / "bin" / "erd"))} {ROOT}/examples/demo.sh', folder)


# ---- answers as data


def damaged(report, faults):
    """The report with these faults, of the reasons that the pages show."""
    for fault in faults:
        *way, last = fault['place'] if fault['reason'] != texts_of_data.MISSING_MEMBER else [*fault['place'], fault['name']]
        holder = report
        for step in way:
            holder = holder[step]
        if fault['reason'] == texts_of_data.MISSING_MEMBER:
            del holder[last]
        else:
            holder[last] = {4: 1.5, 8: 'certified'}[fault['reason']]
    return report


def with_value(objects, value):
    """The object whose identifier has the value."""
    return next(one for one in objects if value in (name['Value'] for name in one['ExternalIdentifier']))


def differing(report, difference):
    """The report with another text or number in the member of the contest that has the key, or with the selections that only the
    right contest has."""
    election = report['Election'][0]
    changed = with_value(election['Contest'], difference['key'][2])
    if 'selections' not in difference:
        changed[difference['member']] += 1 if isinstance(changed[difference['member']], int) else ' (changed)'
    for number, inside in enumerate(difference.get('selections', ())):
        keys = inside['name'][1]
        assert inside == {'how': 'only right', 'name': ['ElectionResults.CandidateSelection', keys, False, None, None, None]}
        changed['ContestSelection'].append({
            '@id': f'added-{number}', '@type': 'ElectionResults.CandidateSelection',
            'CandidateIds': [with_value(election['Candidate'], key[2])['@id'] for key in keys]})
    return report


def lines_of_differences(folder, answer):
    """The text that the differences stand for, and what the reference program lists for two reports that are made for them."""
    base = json.loads(read('examples/small-ballot.json'))
    written(folder, 'whole.json', base)
    for difference in answer:
        base = differing(base, difference)
    written(folder, 'data.json', base)
    program = shlex.quote(str(ROOT / 'reference' / 'erd_reference.py'))
    return texts_of_data.differences_text(answer), run(f'python3 {program} differences whole.json data.json', folder)


def values_listed(folder, answer):
    """The entries with values for two reports in which the member has these values; or the records that the left of two reports alone
    has, where the right one has another identifier in place of that of the record."""
    left, right = (json.loads(read('examples/small-ballot.json')) for _ in range(2))
    if 'values' in answer:
        for report, value in zip((left, right), (answer['values']['left'], answer['values']['right'])):
            with_value(report['Election'][0]['Contest'], answer['key'][2])[answer['member']] = value
    else:
        name = answer['members']['ExternalIdentifier'][0]['Value']
        with_value(right['Election'][0]['Candidate'], name)['ExternalIdentifier'][0]['Value'] = 'another'
    written(folder, 'left.json', left)
    written(folder, 'right.json', right)
    listed = json.loads(run('erd differences --json left.json right.json', folder))
    return listed if 'values' in answer else [entry['values']['left'] for entry in listed if entry['how'] == 'only left']


def words_listed(answer):
    """The entries of the same objects that the reference program lists for the small ballot, of whose contest only the write-in is left."""
    report = json.loads(read('examples/small-ballot.json'))
    contest = report['Election'][0]['Contest'][0]
    contest['ContestSelection'] = [one for one in contest['ContestSelection'] if one.get('IsWriteIn')]
    left = {one['@id'] for one in contest['ContestSelection']}
    for ordered in contents_of(report['Election'][0]['BallotStyle']):
        if ordered.get('ContestId') == contest['@id'] and 'OrderedContestSelectionIds' in ordered:
            ordered['OrderedContestSelectionIds'] = [one for one in ordered['OrderedContestSelectionIds'] if one in left]
    keys = [(entry['part'], entry['key']) for entry in answer]
    return [entry for entry in worded(json.dumps(report).encode(), None) if (entry['part'], entry['key']) in keys]


def contents_of(holders):
    """What is below these styles and headers, each before what is below it."""
    for holder in holders:
        for ordered in holder.get('OrderedContent', []):
            yield ordered
            yield from contents_of([ordered])


def line_of_data(folder, answer):
    """What the program writes for reports that are made for the answer."""
    base = json.loads(read('examples/small-ballot.json' if 'key' in answer else BASE))
    written(folder, 'whole.json', base)
    if isinstance(answer, list):
        written(folder, 'data.json', damaged(base, answer))
        return run('erd check data.json', folder)
    written(folder, 'data.json', differing(base, answer) if 'key' in answer else damaged(base, answer['faults']))
    return run(f'erd compare {"whole.json data.json" if "key" in answer else "data.json whole.json"}', folder)


def lines_of_request(folder, answer):
    """What the program writes for the words that make the request, over files of these names that are accepted."""
    for name in answer['files']:
        shutil.copy(ROOT / BASE, folder / name)
    preferring = ['--prefer', answer['prefer']] if answer['prefer'] is not None else []
    said = run(shlex.join(['erd', answer['command'], *preferring, *answer['files']]), folder)
    return {'check': 'accepted\n', 'compare': 'same\n'}[answer['command']], said


def told_of_number(folder, answer):
    """What is told of a file that has the number at this place."""
    text = '[' + '\n' * (answer['line'] - 1) + ' ' * (answer['column'] - 1) + answer['before'] + ']'
    (folder / 'number.json').write_text(text, encoding='utf-8')
    told = json.loads(run('erd prepare --report --steps nulls number.json', folder))
    return [answer], [change for step in told if step['step'] == 'numbers' for change in step['changes']]


def members_of_ballots(folder, answer):
    """The members of what a page shows of ballots, and of what the program tells of a report, or of two. No command tells of one ballot,
    nor of rows of two."""
    files = 'examples/small-ballot.json' + ('' if 'at' in answer else ' examples/one-unit.json')
    return sorted(answer), sorted(answer if {'depth', 'how'} & set(answer) else json.loads(run(f'erd ballots --json {files}', folder))[0])


def examples_of_data(folder):
    """Each answer that a page shows is compact, and one that a report or a command line can have. `..` stands for what is left
    out."""
    for page in DATA_PAGES:
        for text in re.findall(r'^(?: \*     |(?=[\[{]))([\[{].*)$', read(page), re.M):
            if '..' in text:
                continue
            answer = json.loads(text)
            compact = json.dumps(answer, ensure_ascii=False, separators=(',', ':'), sort_keys=True)
            yield f'{page}: {text} is compact', compact, text
            if 'command' in answer:
                yield f'{page}: {text}', *lines_of_request(folder, answer)
                continue
            if 'column' in answer:
                yield f'{page}: {text}', *told_of_number(folder, answer)
                continue
            first = answer[0] if isinstance(answer, list) else answer
            if {'at', 'depth', 'left'} & set(first):
                yield f'{page}: {text}', *members_of_ballots(folder, first)
                continue
            if isinstance(answer, list) and 'how' in answer[0]:
                yield f'{page}: {text}', *lines_of_differences(folder, answer)
                continue
            if 'part' in first and 'words' in first:
                entries = answer if isinstance(answer, list) else [answer]
                yield f'{page}: {text}', entries, words_listed(entries)
                continue
            if {'class', 'values'} & set(first):
                yield f'{page}: {text}', [answer], values_listed(folder, answer)
                continue
            answer = [answer] if 'place' in answer else answer
            lines = texts_of_data.check_text(answer) if isinstance(answer, list) else texts_of_data.compare_text(answer)
            yield f'{page}: {text}', lines, line_of_data(folder, answer)


# ---- lines


def codes(value):
    return [{'@type': 'ElectionResults.ExternalIdentifier', 'Type': 'local-level', 'Value': value}]


def reports_of_lines():
    """The report or the two reports for each line that docs/PROFILE.md shows."""
    def small(change):
        report = json.loads(read('examples/small-ballot.json'))
        change(report, report['Election'][0], report['Election'][0]['Contest'][0], report['Party'][0])
        return report

    def moved(place):
        def change(report, election, _contest, _party):
            election['ExternalIdentifier'] = codes('first')
            other = {name: value for name, value in election.items() if name not in ('Candidate', 'Contest', 'BallotStyle')}
            report['Election'].append(other | {'ExternalIdentifier': codes('second'), 'Candidate': []})
            candidate = election['Candidate'][0] | {'@id': 'moved', 'ExternalIdentifier': codes('K-12')}
            report['Election'][place]['Candidate'].append(candidate)
        return small(change)

    def both(change, further):
        return small(lambda *parts: change(*parts)), small(lambda *parts: (change(*parts), further(*parts)))

    def nothing(*_parts):
        pass

    def governor(_report, _election, contest, _party):
        contest['ExternalIdentifier'] = codes('governor')

    def blue(_report, _election, _contest, party):
        party['ExternalIdentifier'] = codes('blue')

    return {
        ': missing member Election': (small(lambda report, *_: report.pop('Election')),),
        '/Election/0/Contest/0/VotesAllowed: wrong kind': (small(lambda _r, _e, contest, _p: contest.update(VotesAllowed='1')),),
        '/a~1b~0c: not a whole number': (small(lambda report, *_: report.update({'a/b~c': 1.5})),),
        'report: member "IsTest"': both(nothing, lambda report, *_: report.update(IsTest=True)),
        'contest ["local-level","","governor"]: member "ContestSelection"':
            both(governor, lambda _r, _e, contest, _p: contest['ContestSelection'][0].update(SequenceOrder=9)),
        'party ["local-level","","blue"]: other class': both(blue, lambda _r, _e, _c, party: party.update({'@type': 'ElectionResults.Coalition'})),
        'election: only right': (small(lambda _r, election, *_: election.update(ExternalIdentifier=codes('first'))), small(nothing)),
        'election ["local-level","","referendum"]: only left':
            tuple(small(lambda _r, election, *_, name=name: election.update(ExternalIdentifier=codes(name))) for name in ('referendum', 'second')),
        'candidate ["local-level","","K-12"]: member "ElectionId"': (moved(0), moved(1)),
    }


def lines_of_profile(folder):
    """Each line that docs/PROFILE.md shows is one that the program writes."""
    shown = [line for block in re.findall(r'^```\n(.*?)^```$', read('docs/PROFILE.md'), re.M | re.S) for line in block.splitlines()]
    made = reports_of_lines()
    yield 'the lines of docs/PROFILE.md', sorted(shown), sorted(made)
    for line, reports in made.items():
        for name, report in zip(('left.json', 'right.json'), reports):
            written(folder, name, report)
        said = run('erd check left.json' if len(reports) == 1 else 'erd compare left.json right.json', folder)
        yield f'docs/PROFILE.md: {line}', f'{line}\n', said


# ---- fragments


def steps_of(place):
    return [int(step) if step.isdigit() else step for step in re.findall(r'[A-Za-z]+|\d+', place)]


def with_fragment(report, place, fragment, taken_out=()):
    """A copy of the report with the fragment at the place: in place of the object there, or as some of its members."""
    report = copy.deepcopy(report)
    holder = {'report': report}
    *way, last = ['report', *steps_of(place)]
    for step in way:
        holder = holder[step]
    if fragment.lstrip().startswith('{'):
        holder[last] = json.loads(fragment)
        return report
    members = json.loads('{' + fragment + '}')
    for name in taken_out:
        holder[last].pop(name, None)
    holder[last].update(members)
    return report


def names_of(fragment):
    return set() if fragment.lstrip().startswith('{') else set(json.loads('{' + fragment + '}'))


def written(folder, name, report):
    (folder / name).write_text(json.dumps(report), encoding='utf-8')


def examples_of_reasons(folder):
    """For each heading with an example: the fault, and that its mending is accepted."""
    page = read('docs/FIXES.md')
    for heading, body in re.findall(r'^## (\d+\. [^\n]*)\n(.*?)(?=^## |\Z)', page, re.M | re.S):
        place = re.search(r'^\*\*Example\.\*\* .*?at `(\.[^`]*)`(?: of `([^`]*)`)?', body, re.M)
        before, lines, after = re.findall(r'^```(?:json)?\n(.*?)^```$', body.split('**Example.**')[1], re.M | re.S)
        base = json.loads(read(place.group(2) or BASE))
        taken_out = names_of(before) | names_of(after)
        written(folder, 'before.json', with_fragment(base, place.group(1), before, taken_out))
        written(folder, 'after.json', with_fragment(base, place.group(1), after, taken_out))
        yield f'{heading}, before', lines, run('erd check before.json', folder)
        yield f'{heading}, after', 'accepted\n', run('erd check after.json', folder)


def examples_of_differences(folder):
    page = read('docs/FIXES.md').split('\n## Differences that')[1]
    for heading, body in re.findall(r'^### ([^\n]*)\n(.*?)(?=^### |\Z)', page, re.M | re.S):
        place = re.search(r'^\*\*Example\.\*\* .*?at `(\.[^`]*)`', body, re.M).group(1)
        left, right, line = re.findall(r'^```(?:json)?\n(.*?)^```$', body, re.M | re.S)
        base = json.loads(read(BASE))
        taken_out = names_of(left) | names_of(right)
        written(folder, 'left.json', with_fragment(base, place, left, taken_out))
        written(folder, 'right.json', with_fragment(base, place, right, taken_out))
        yield heading, line, run('erd compare left.json right.json', folder)


def rows_of_letter(folder):
    """Each rule of docs/VENDORS.md: what stands behind `not` is refused at its place, and what stands behind `but` is accepted."""
    base = json.loads(read(BASE))
    page = read('docs/VENDORS.md')
    rules = re.findall(r'^- (.*?) At `(\.[^`]*)`: not `(.*)`, but `(.*)`\.$', page, re.M)
    yield 'docs/VENDORS.md: rules with an example', 11, len(rules)
    for rule, place, bad, good in rules:
        for name, fragment in (('before.json', bad), ('after.json', good)):
            written(folder, name, with_fragment(base, place, fragment, names_of(bad) if name == 'after.json' else ()))
        pointer = ''.join(f'/{step}' for step in steps_of(place))
        faults = run('erd check before.json', folder).splitlines()
        yield f'docs/VENDORS.md: {rule} Refused', True, bool(faults) and all(line.startswith(pointer) for line in faults)
        yield f'docs/VENDORS.md: {rule} Accepted', 'accepted\n', run('erd check after.json', folder)


def headings():
    """The reasons of docs/PROFILE.md are the headings of docs/FIXES.md, each with its paragraphs, and the rows of its table."""
    section = read('docs/PROFILE.md').split('### The reasons')[1].split('\n### ')[0]
    reasons = re.findall(r'^\| (\d+) \| .* \| `(.*?)(?: NAME)?` \|$', section, re.M)
    wanted = ['not JSON', *(f'{number}. {words}' for number, words in reasons)]
    page = read('docs/FIXES.md')
    found = re.findall(r'^## (not JSON|\d+\. .*)$', page, re.M)
    yield 'the headings of docs/FIXES.md', wanted, found
    rows = re.findall(r'^\| \[(?:(\d+\.) )?`(.*?)`\]', page, re.M)
    yield 'the table of docs/FIXES.md', wanted, [f'{number} {words}'.strip() for number, words in rows]
    labels = ['What it means', 'Where it comes from', 'How to fix it', 'Example']
    for heading in found:
        body = page.split(f'\n## {heading}\n')[1].split('\n## ')[0]
        yield f'the paragraphs of {heading}', labels, re.findall(r'^\*\*(.*?)\.\*\*', body, re.M)


def main():
    with tempfile.TemporaryDirectory() as name:
        folder = pathlib.Path(name)
        workshop(folder)
        cases = [headings(), rows_of_letter(folder), examples_of_differences(folder), examples_of_data(folder), demonstration(folder),
                 lines_of_profile(folder), examples_of_reasons(folder), sessions(folder)]
        return tell_cases(itertools.chain(*cases), lambda wanted, found: f'the page has\n{wanted}\nand not\n{found}')


if __name__ == '__main__':
    sys.exit(main())
