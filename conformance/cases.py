"""Reads the cases of the suite, which stand as short data in `cases/`, and makes their folders. README.md says how both are written."""

import copy
import json
import pathlib

HERE = pathlib.Path(__file__).resolve().parent
REPORTS = ('input', 'left', 'right')
LISTS = ('check', 'compare', 'differences')


class DataError(ValueError):
    """A line of a file of cases that cannot be read."""


def refuse(name):
    """NaN and Infinity are not JSON, though Python reads them."""
    raise DataError('not JSON: ' + name)


def value_of(text):
    """The value of a JSON text."""
    return json.loads(text, parse_constant=refuse)


def tokens_of(place):
    """The steps of a place, which is a JSON Pointer (RFC 6901)."""
    if place == '':
        return []
    if not place.startswith('/'):
        raise DataError('a place begins with a slash: %r' % place)
    return [step.replace('~1', '/').replace('~0', '~') for step in place[1:].split('/')]


def step_in(value, step):
    """The name of a member, or the position of an entry, that a step of a place names in the value."""
    if not isinstance(value, list):
        return step
    return len(value) if step == '-' else int(step)


def parent_of(report, place):
    """The object or array that has what stands at the place, and the name or position there."""
    *way, last = tokens_of(place)
    value = report
    for step in way:
        value = value[step_in(value, step)]
    return value, step_in(value, last)


def add(report, place, value):
    """A new member, or an entry before the one at this position; `-` is behind the last."""
    parent, step = parent_of(report, place)
    if isinstance(parent, list):
        parent.insert(step, value)
    elif step in parent:
        raise DataError('there is a member at %r' % place)
    else:
        parent[step] = value


def replace(report, place, value):
    """Another value in the place of the one that stands there."""
    parent, step = parent_of(report, place)
    parent[step]
    parent[step] = value


def remove(report, place):
    """Without the member or entry."""
    parent, step = parent_of(report, place)
    del parent[step]


def order(report, place, names):
    """The members of the object in this order; those that are not named follow."""
    value = report
    for step in tokens_of(place):
        value = value[step_in(value, step)]
    members = {name: value[name] for name in names}
    members.update((name, member) for name, member in list(value.items()) if name not in members)
    value.clear()
    value.update(members)


EDITS = {'add': add, 'replace': replace, 'remove': remove, 'order': order}


def place_and_value(words):
    """The place at the beginning of an edit, and the JSON text behind it, if there is one. A place with a blank stands in quotes."""
    if words.startswith('"'):
        place, end = json.JSONDecoder().raw_decode(words)
        return place, words[end:].strip()
    place, _, value = words.partition(' ')
    return place, value


def edited(report, lines):
    """A copy of the report with these edits."""
    made = copy.deepcopy(report)
    for line in lines:
        name, _, words = line.partition(' ')
        place, value = place_and_value(words)
        EDITS[name](made, place, *([value_of(value)] if value else []))
    return made


def pretty(value):
    """A report as it stands in `input.json`, `left.json` and `right.json`."""
    return (json.dumps(value, indent=2, ensure_ascii=False) + '\n').encode('utf-8', 'surrogatepass')


def canonical(value):
    """A value as it stands in `canonical.json` and in `entries.json`."""
    return json.dumps(value, separators=(',', ':'), sort_keys=True, ensure_ascii=False).encode('utf-8', 'surrogatepass')


class Case:
    """A case: its name, why it is there, and the bytes of each of its files."""

    def __init__(self, name):
        self.name = name
        self.files = {}
        self.values = {}

    def take(self, word, words, lines):
        """One part of the case: its word, what follows on the line, and the lines below it."""
        if word in ('why', 'prefer'):
            self.files[word] = (words + '\n').encode('utf-8')
        elif word == 'entries':
            self.files['entries.json'] = canonical(value_of(words or '\n'.join(lines)))
        elif word in LISTS:
            self.files[word + '.txt'] = ''.join(line + '\n' for line in ([words] if words else lines)).encode('utf-8')
        elif word in REPORTS or word == 'canonical':
            self.files[word + '.json'] = self.report(word, words, lines)
        else:
            raise DataError('%s: there is no part %r' % (self.name, word))

    def report(self, word, words, lines):
        """The bytes of a report: of a file, as they stand, as a JSON value, or a base with edits."""
        start, _, rest = words.partition(' ')
        if start == 'file':
            return (HERE / 'cases' / 'files' / rest).read_bytes()
        if start == 'verbatim':
            return '\n'.join(lines).encode('utf-8')
        if start == 'json':
            value = value_of(rest or '\n'.join(lines))
        else:
            value = edited(self.values[start] if start in self.values else base(start), lines)
        self.values[word] = value
        return canonical(value) if word == 'canonical' else pretty(value)


BASES = {}


def base(name):
    """The report that many cases begin with."""
    if name not in BASES:
        BASES[name] = value_of((HERE / 'cases' / 'bases' / (name + '.json')).read_text(encoding='utf-8'))
    return BASES[name]


def read(text):
    """The cases of a text."""
    parts = []
    for line in text.split('\n'):
        if line.startswith('  '):
            parts[-1][1].append(line[2:])
        elif line and not line.startswith('#'):
            parts.append((line, []))
    found = []
    for line, lines in parts:
        word, _, words = line.partition(' ')
        if word == 'case':
            found.append(Case(words))
        else:
            found[-1].take(word, words, lines)
    return found


def all_cases():
    """Every case, in the order of the names."""
    found = [case for path in sorted((HERE / 'cases').glob('*.txt')) for case in read(path.read_text(encoding='utf-8'))]
    names = [case.name for case in found]
    twice = {name for name in names if names.count(name) > 1}
    if twice:
        raise DataError('twice: %s' % ', '.join(sorted(twice)))
    return sorted(found, key=lambda case: case.name)
