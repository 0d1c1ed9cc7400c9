"""Writes the folder of a case as short data, for a file of `cases/`.

    python3 conformance/shorten.py FOLDER ..

Each report is written in the shortest of these ways: as one of `bases/` or as the other report of the case, with edits, or as a
JSON value. Where its spelling counts, it is written as it stands, and where a line of text can't show it, as a file of
`cases/files`. White space and the place of a new member in its object don't count. What is made of the lines is compared with
the folder.
"""

import difflib
import json
import pathlib
import re
import sys
import unicodedata

import cases

TOKEN = re.compile(rb'"(?:[^"\\]|\\.)*"|[^\s",:{}\[\]]+|[{}\[\],:]', re.DOTALL)
WIDTH = 130
# A report that is longer than this stands as a file of its own.
LARGE = 20000


def compact(value):
    return json.dumps(value, ensure_ascii=False)


def legible(value):
    """The compact text of a value, in which a character that can't be seen alone stands as an escape."""
    hidden = {character for character in compact(value) if not character.isprintable() or unicodedata.combining(character)}
    return compact(value).translate({ord(character): json.dumps(character)[1:-1] for character in hidden})


def plain(text):
    """The JSON value of these bytes, if nothing of their spelling is lost in it but white space; otherwise None."""
    try:
        value = json.loads(text.decode('utf-8'), parse_constant=cases.refuse)
    except ValueError:
        return None
    return value if TOKEN.findall(compact(value).encode('utf-8', 'surrogatepass')) == TOKEN.findall(text) else None


def step_text(step):
    return str(step).replace('~', '~0').replace('/', '~1')


def edit(name, place, *value):
    way = place if re.fullmatch("[!-~]+", place) and not place.startswith("\"") else legible(place)
    return " ".join([name, way, *map(legible, value)])


def is_equal(one, other):
    """Whether two values are equal, with the order of members, and with `true` apart from 1."""
    return compact(one) == compact(other)


def edits_of_objects(old, new, place):
    found = []
    for name in old:
        if name not in new:
            found.append(edit('remove', place + '/' + step_text(name)))
    for name in new:
        way = place + '/' + step_text(name)
        if name not in old:
            found.append(edit('add', way, new[name]))
        else:
            found += edits(old[name], new[name], way)
    kept = [name for name in old if name in new]
    if kept != [name for name in new if name in old]:
        found.append(edit('order', place, list(new)))
    return found


def edits_of_arrays(old, new, place):
    """Entries that are taken out stand before later ones, so positions behind them move."""
    found = []
    at = 0
    texts = [[compact(entry) for entry in entries] for entries in (old, new)]
    for what, start, end, first, last in difflib.SequenceMatcher(None, *texts, autojunk=False).get_opcodes():
        both = min(end - start, last - first)
        if what == 'equal':
            at += end - start
            continue
        for i in range(both):
            found += edits(old[start + i], new[first + i], '%s/%d' % (place, at))
            at += 1
        found += [edit('remove', '%s/%d' % (place, at))] * (end - start - both)
        for entry in new[first + both:last]:
            found.append(edit('add', '%s/%d' % (place, at), entry))
            at += 1
    return found


def edits(old, new, place=''):
    """Edits that make the second value of the first."""
    if is_equal(old, new):
        return []
    shorter = [edit('replace', place, new)] if place else None
    found = None
    if isinstance(old, dict) and isinstance(new, dict):
        found = edits_of_objects(old, new, place)
    elif isinstance(old, list) and isinstance(new, list):
        found = edits_of_arrays(old, new, place)
    if found is None or shorter and len('\n'.join(shorter)) <= len('\n'.join(found)):
        return shorter if shorter is not None else [None]
    return found


def normal(value):
    """The value with its members in the order of their names: where a new member stands in its object doesn't count."""
    return json.dumps(value, sort_keys=True, ensure_ascii=False)


def spread(value):
    """The lines of a JSON value: short where it fits, otherwise an entry or a member on a line."""
    def lines(value, depth, head, tail):
        one = '  ' * depth + head + legible(value) + tail
        if len(one) <= WIDTH or not isinstance(value, (dict, list)) or not value:
            return [one]
        if isinstance(value, dict):
            inner, ends = [(legible(name) + ': ', member) for name, member in value.items()], '{}'
        else:
            inner, ends = [('', entry) for entry in value], '[]'
        made = ['  ' * depth + head + ends[0]]
        for number, (name, part) in enumerate(inner):
            made += lines(part, depth + 1, name, ',' if number + 1 < len(inner) else '')
        return made + ['  ' * depth + ends[1] + tail]
    return lines(value, 0, '', '')


def described(word, text, name, known):
    """The lines of a report, and its value where it has one that later reports can begin with."""
    value = plain(text)
    if value is None or not isinstance(value, dict) or len(text) > LARGE:
        lines = shown(text) if len(text) <= LARGE else None
        if lines is not None:
            return [word + ' verbatim'] + ['  ' + line for line in lines], None
        path = '%s.%s.json' % (name, word)
        (cases.HERE / 'cases' / 'files').mkdir(exist_ok=True)
        (cases.HERE / 'cases' / 'files' / path).write_bytes(text)
        return ['%s file %s' % (word, path)], None
    one = legible(value)
    choices = [['%s json %s' % (word, one)] if len(one) <= WIDTH else [word + ' json'] + ['  ' + line for line in spread(value)]]
    for start, other in known.items():
        found = edits(other, value)
        if None not in found and normal(cases.edited(other, found)) == normal(value):
            choices.append(['%s %s' % (word, start)] + ['  ' + line for line in found])
    return min(choices, key=lambda lines: len('\n'.join(lines))), value


def shown(text):
    """The lines of a text that lines can show; otherwise None."""
    try:
        lines = text.decode('utf-8').split('\n')
    except UnicodeDecodeError:
        return None
    return lines if all(line.isprintable() and line == line.rstrip() for line in lines) and text else None


def bases():
    return {path.stem: cases.base(path.stem) for path in sorted((cases.HERE / 'cases' / 'bases').glob('*.json'))}


def short(folder):
    """The lines of the case in a folder."""
    def contents(name):
        path = folder / name
        return path.read_bytes() if path.exists() else None

    lines = ['case ' + folder.name, 'why ' + contents('why').decode('utf-8').rstrip('\n')]
    if contents('prefer') is not None:
        lines.append('prefer ' + contents('prefer').decode('utf-8').rstrip('\n'))
    known = bases()
    for word in (*cases.REPORTS, 'canonical'):
        text = contents(word + '.json')
        if text is not None:
            described_lines, value = described(word, text, folder.name, known)
            lines += described_lines
            if value is not None:
                known = {word: value, **known}
        if word == 'input' or word == 'right':
            for answers in cases.LISTS:
                found = contents(answers + '.txt')
                if found is not None and (answers == 'check') == (word == 'input'):
                    rows = found.decode('utf-8').rstrip('\n').split('\n')
                    lines += [answers + ' ' + rows[0]] if len(rows) == 1 else [answers] + ['  ' + row for row in rows]
    if contents('entries.json') is not None:
        lines += ['entries'] + ['  ' + line for line in spread(json.loads(contents('entries.json')))]
    return lines


def difference(folder, case):
    """What a case that was read from its lines has other than the folder."""
    for path in folder.iterdir():
        kept, made = path.read_bytes(), case.files.get(path.name)
        if made == kept:
            continue
        if made is None or plain(kept) is None or path.name in ('canonical.json', 'entries.json'):
            return path.name
        if normal(json.loads(kept)) != normal(json.loads(made)):
            return path.name
    return None


def main(words):
    for word in words:
        folder = pathlib.Path(word)
        lines = short(folder)
        wrong = difference(folder, cases.read('\n'.join(lines))[0])
        if wrong:
            print('shorten: %s: %s is another one' % (folder.name, wrong), file=sys.stderr)
            return 1
        print('\n'.join(lines) + '\n')
    return 0


if __name__ == '__main__':
    sys.exit(main(sys.argv[1:]))
