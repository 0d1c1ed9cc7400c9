"""The list of all differences of two reports as the calls of the C library have to answer with it, made by the reference program
(reference/erd_reference.py), and pieces of it by the rules of docs/API.md."""
import json
import pathlib
import sys

ROOT = pathlib.Path(__file__).resolve().parents[2]
sys.path.append(str(ROOT / 'reference'))
sys.dont_write_bytecode = True
import erd_reference  # noqa: E402

# More entries, and more bytes, than any list has.
ALL = 2 ** 64 - 1


def size_of(value):
    """How many bytes the text of a value has."""
    return len(erd_reference.compact_text(value).encode('utf-8'))


def bytes_in_selections(data):
    """How many bytes the text of the differences of selections has, without their values."""
    return size_of(bare(data)['selections'])


def bytes_in_values(data):
    """How many bytes the texts of the values of a difference have."""
    return sum(map(size_of, data.get('values', {}).values()))


def bare(data):
    """The object of a difference without what the reports have there, and so inside selections."""
    found = {name: value for name, value in data.items() if name != 'values'}
    return {**found, 'selections': list(map(bare, found['selections']))} if 'selections' in found else found


def values_within(entries, room):
    """The differences of selections, with null in place of the values from the first ones on that don't fit."""
    for entry in entries:
        room -= bytes_in_values(entry) if room >= 0 else 0
        yield entry if room >= 0 else {**entry, 'values': None}


class Listed:
    """All differences of two accepted reports."""

    def __init__(self, left, right):
        self.entries = list(erd_reference.entries(left, right))
        self.data = list(erd_reference.valued_entries(left, right))
        self.outcome = 1 if self.entries else 0

    def told(self, first, enough_bytes, has_values=False):
        """The objects of the entries from the first on. Those inside selections are told as long as their texts fit: behind the first
        entry whose text doesn't fit, none is. The values inside one entry are told as long as their texts fit."""
        room = enough_bytes
        for whole in self.data[first:]:
            data = dict(whole) if has_values else bare(whole)
            if 'selections' in data:
                room -= bytes_in_selections(data)
                inside = data.pop('selections')
                if room < 0:
                    room = -1
                else:
                    data['selections'] = list(values_within(inside, enough_bytes)) if has_values else inside
            yield data

    def piece(self, first, most, enough_bytes, has_values=False):
        """The answer with a piece of the list as data: the outcome, the text, and the two numbers that are told."""
        texts = (erd_reference.compact_text(data) for data in self.told(first, enough_bytes, has_values))
        shown = taken(texts, most, enough_bytes)
        return self.outcome, '[' + ','.join(shown) + ']', len(shown), len(self.entries)

    def valued_piece(self, first, most, enough_bytes):
        """The same with what each report has."""
        return self.piece(first, most, enough_bytes, has_values=True)

    def lines(self, first, most, enough_bytes):
        """The answer with the lines of a piece of the list."""
        if not self.entries:
            return 0, 'same\n', 0, 0
        lines = (erd_reference.difference_line(entry) + '\n' for entry in self.entries[first:])
        shown = taken(lines, most, enough_bytes)
        return 1, ''.join(shown), len(shown), len(self.entries)


def taken(texts, most, enough_bytes):
    """The first of these texts: at most so many, and none behind those that have enough bytes together."""
    shown, size = [], 0
    while len(shown) < most and size < enough_bytes:
        text = next(texts, None)
        if text is None:
            break
        shown.append(text)
        size += len(text.encode('utf-8'))
    return shown


def worded(report, prefer):
    """The list of what ballots print of a report, from its bytes; None if it is refused."""
    resolved = erd_reference.answer_of(report, prefer)[2]
    return None if resolved is None else [json.loads(erd_reference.compact_text(entry)) for entry in erd_reference.word_entries(resolved)]


def listed(left, right, prefer):
    """The list of two reports, from their bytes; None if one of them is refused."""
    resolved = [erd_reference.answer_of(data, prefer)[2] for data in (left, right)]
    return None if None in resolved else Listed(*resolved)
